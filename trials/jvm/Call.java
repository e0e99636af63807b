/*
 * Makes an object of each class of some worlds, without a constructor, and calls on it each abstract method of its supertypes:
 *
 *     world FOLDER
 *     CLASS: made                                or
 *     CLASS: abstract                            or
 *     CLASS: ERROR MESSAGE                       of loading or linking it, or the classes in descriptors
 *     CLASS OWNER.METHOD:DESCRIPTOR returned     or
 *     CLASS OWNER.METHOD:DESCRIPTOR ERROR MESSAGE
 *
 * The world's classes are in FOLDER/classes. FOLDER/callers has a class OWNERCaller for each of their owners, whose static
 * methods call the owner's methods on their first argument. Run by trials/jvm/bodies.py: java Call.java FOLDER..
 */
import java.io.IOException;
import java.io.PrintStream;
import java.lang.invoke.MethodHandle;
import java.lang.invoke.MethodHandles;
import java.lang.invoke.MethodType;
import java.lang.reflect.Array;
import java.lang.reflect.Field;
import java.lang.reflect.InvocationTargetException;
import java.lang.reflect.Method;
import java.lang.reflect.Modifier;
import java.net.URL;
import java.net.URLClassLoader;
import java.nio.file.Files;
import java.nio.file.Path;
import java.util.ArrayList;
import java.util.LinkedHashSet;
import java.util.List;
import java.util.Set;
import java.util.stream.Collectors;
import java.util.stream.Stream;

public final class Call {
    private static final PrintStream OUT = new PrintStream(System.out, true);

    private Call() {}

    public static void main(String[] words) throws Exception {
        for (String word : words) {
            OUT.println("world " + word);
            Path classes = Path.of(word, "classes");
            URL[] folders = {classes.toUri().toURL(), Path.of(word, "callers").toUri().toURL()};
            try (URLClassLoader loader = new URLClassLoader(folders, ClassLoader.getPlatformClassLoader())) {
                for (String name : namesBelow(classes)) {
                    call(loader, name);
                }
            }
        }
        OUT.flush();
    }

    private static List<String> namesBelow(Path folder) throws IOException {
        try (Stream<Path> files = Files.walk(folder)) {
            return files.filter(path -> path.toString().endsWith(".class"))
                .map(path -> folder.relativize(path).toString().replaceFirst("\\.class$", ""))
                .sorted().collect(Collectors.toList());
        }
    }

    private static void call(ClassLoader loader, String name) throws Exception {
        Object object;
        List<Method> methods;
        try {
            Class<?> type = Class.forName(name.replace('/', '.'), false, loader);
            if (Modifier.isAbstract(type.getModifiers())) {
                OUT.println(name + ": abstract");
                return;
            }
            object = made(type);
            methods = abstractMethods(loader, type);
        } catch (Throwable thrown) {
            OUT.println(name + ": " + text(thrown));
            return;
        }
        OUT.println(name + ": made");
        for (Method method : methods) {
            String member = method.getName() + ":" + typeOf(method).toMethodDescriptorString();
            String owner = method.getDeclaringClass().getName().replace('.', '/');
            OUT.println(name + " " + owner + "." + member + " " + outcome(loader, method, object));
        }
    }

    /** Returns the abstract methods of a class and its supertypes. Reflection also loads the classes in their descriptors. */
    private static List<Method> abstractMethods(ClassLoader loader, Class<?> type) {
        List<Method> found = new ArrayList<>();
        for (Class<?> owner : withSupertypes(type)) {
            for (Method method : owner.getDeclaredMethods()) {
                if (owner.getClassLoader() == loader && Modifier.isAbstract(method.getModifiers())) {
                    found.add(method);
                }
            }
        }
        return found;
    }

    /** Makes an object without a constructor. By reflection, since the compiler warns of sun.misc.Unsafe. */
    private static Object made(Class<?> type) throws Throwable {
        Class<?> unsafe = Class.forName("sun.misc.Unsafe");
        Field field = unsafe.getDeclaredField("theUnsafe");
        field.setAccessible(true);
        try {
            return unsafe.getMethod("allocateInstance", Class.class).invoke(field.get(null), type);
        } catch (InvocationTargetException thrown) {
            throw thrown.getCause();
        }
    }

    private static Set<Class<?>> withSupertypes(Class<?> type) {
        Set<Class<?>> found = new LinkedHashSet<>();
        List<Class<?>> waiting = new ArrayList<>(List.of(type));
        while (!waiting.isEmpty()) {
            Class<?> next = waiting.remove(0);
            if (found.add(next)) {
                waiting.addAll(List.of(next.getInterfaces()));
                if (next.getSuperclass() != null) {
                    waiting.add(next.getSuperclass());
                }
            }
        }
        return found;
    }

    private static String outcome(ClassLoader loader, Method method, Object object) throws Exception {
        MethodType type = typeOf(method).insertParameterTypes(0, Object.class);
        Class<?> caller = Class.forName(method.getDeclaringClass().getName() + "Caller", true, loader);
        MethodHandle call = MethodHandles.publicLookup().findStatic(caller, method.getName(), type);
        List<Object> arguments = new ArrayList<>(List.of(object));
        for (Class<?> parameter : method.getParameterTypes()) {
            arguments.add(Array.get(Array.newInstance(parameter, 1), 0));
        }
        try {
            call.invokeWithArguments(arguments);
            return "returned";
        } catch (Throwable thrown) {
            return text(thrown);
        }
    }

    private static MethodType typeOf(Method method) {
        return MethodType.methodType(method.getReturnType(), method.getParameterTypes());
    }

    private static String text(Throwable thrown) {
        return thrown.getClass().getSimpleName() + " " + String.valueOf(thrown.getMessage()).replace('\n', ' ');
    }
}
