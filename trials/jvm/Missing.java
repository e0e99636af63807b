/*
 * Runs the method `run` of each class and prints which classes the virtual machine misses:
 *
 *     CLASS: ran
 *     CLASS: misses NAME..          of each NoClassDefFoundError that it threw, or that caused what it threw; of an array
 *                                   the innermost class
 *     CLASS: threw ERROR MESSAGE    anything else
 *
 * Run by trials/jvm/unused.py: java OPTIONS Missing.java FOLDER CLASS.., the classes by the names of their files.
 * The method is looked up by its name and type alone, since reflection over all methods resolves their types.
 */
import java.lang.invoke.MethodHandles;
import java.lang.invoke.MethodType;
import java.net.URL;
import java.net.URLClassLoader;
import java.nio.file.Path;
import java.util.Set;
import java.util.TreeSet;

public final class Missing {
    private Missing() {}

    public static void main(String[] words) throws Exception {
        URL[] folder = {Path.of(words[0]).toUri().toURL()};
        try (URLClassLoader loader = new URLClassLoader(folder, ClassLoader.getPlatformClassLoader())) {
            for (int at = 1; at < words.length; at++) {
                System.out.println(words[at] + ": " + outcome(loader, words[at].replace('/', '.')));
            }
        }
    }

    private static String outcome(ClassLoader loader, String name) {
        try {
            Class<?> found = Class.forName(name, false, loader);
            MethodHandles.publicLookup().findStatic(found, "run", MethodType.methodType(void.class)).invokeExact();
            return "ran";
        } catch (Throwable thrown) {
            Set<String> missing = new TreeSet<>();
            for (Throwable cause = thrown; cause != null; cause = cause.getCause()) {
                if (cause instanceof NoClassDefFoundError) {
                    missing.add(cause.getMessage().replaceFirst("^\\[+L(.*);$", "$1"));
                }
            }
            return missing.isEmpty() ? "threw " + thrown : "misses " + String.join(" ", missing);
        }
    }
}
