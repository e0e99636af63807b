/*
 * Loads each class below some folders, and prints whether the virtual machine accepts it:
 *
 *     tree FOLDER
 *     CLASS: loaded                   or
 *     CLASS: ERROR MESSAGE            of loading it or one of its supertypes
 *
 * Run by trials/jvm/inheritance.py: java Inherit.java FOLDER.. Classes below java/ are those of the platform.
 */
import java.io.IOException;
import java.io.PrintStream;
import java.net.URL;
import java.net.URLClassLoader;
import java.nio.file.Files;
import java.nio.file.Path;
import java.util.List;
import java.util.stream.Collectors;
import java.util.stream.Stream;

public final class Inherit {
    private Inherit() {}

    public static void main(String[] words) throws Exception {
        PrintStream out = new PrintStream(System.out, false, "UTF-8");
        for (String word : words) {
            out.println("tree " + word);
            URL[] folder = {Path.of(word).toUri().toURL()};
            try (URLClassLoader loader = new URLClassLoader(folder, ClassLoader.getPlatformClassLoader())) {
                for (String name : namesBelow(Path.of(word))) {
                    out.println(name + ": " + outcome(loader, name.replace('/', '.')));
                }
            }
        }
        out.flush();
    }

    private static List<String> namesBelow(Path folder) throws IOException {
        try (Stream<Path> files = Files.walk(folder)) {
            return files.filter(path -> path.toString().endsWith(".class"))
                .map(path -> folder.relativize(path).toString().replaceFirst("\\.class$", ""))
                .sorted().collect(Collectors.toList());
        }
    }

    private static String outcome(ClassLoader loader, String name) {
        try {
            Class.forName(name, false, loader);
            return "loaded";
        } catch (Throwable thrown) {
            return thrown.getClass().getSimpleName() + " " + String.valueOf(thrown.getMessage()).replace('\n', ' ');
        }
    }
}
