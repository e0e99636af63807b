/*
 * Lets the virtual machine that runs it resolve each Class, Fieldref, Methodref and InterfaceMethodref of the
 * class files below a folder, and link each instruction of their code that gets or puts a field, invokes a method or
 * makes an object, in the classes that hold them, and prints what it finds:
 *
 *     tree FOLDER
 *     class NAME: loaded                           or
 *     class NAME: error ERROR MESSAGE              of loading it, or
 *     class NAME: loaded but error ERROR MESSAGE   of linking it or of initializing a class of the platform above it
 *       #INDEX To CLASS                            or
 *       #INDEX To CLASS.member:descriptor          with the class that declares it, or
 *       #INDEX error ERROR MESSAGE
 *       OPCODE #INDEX at PLACES: links                           or
 *       OPCODE #INDEX at PLACES: links but error ERROR MESSAGE   in the same class as of version 53, or
 *       OPCODE #INDEX at PLACES: error ERROR MESSAGE             or
 *       OPCODE #INDEX at PLACES: not asked                       as the constant finds nothing of the tree
 *
 * PLACES are pairs METHOD:OFFSET, joined by commas; left out are instructions that may not name their constant.
 *
 * Run by trials/jvm/run.py: java OPTIONS Resolve.java PREFIXES FOLDER.., the prefixes joined by commas.
 *
 * Each class gets a method (Probe) for each reference and for each different instruction: its one instruction with
 * an index is that one, of a reference an ldc, getfield, invokevirtual or invokeinterface, of that very constant,
 * and on null. So the machine resolves the constant and then ends by NullPointerException; of a static member it
 * says only after look-up and access that it expected another. A putstatic of <clinit> and a putfield of <init> are
 * asked in a method of this name, with another descriptor. Nothing of the tree runs: <clinit> loses its name, and
 * each method its code. That no method of the platform does, instructions are asked only where the reference finds
 * a class of the tree or java/lang/Object. Which class declares the member the machine's own look-up for method
 * handles tells, without access checks.
 */
import java.io.ByteArrayInputStream;
import java.io.ByteArrayOutputStream;
import java.io.DataInputStream;
import java.io.DataOutputStream;
import java.io.IOException;
import java.io.PrintStream;
import java.io.UncheckedIOException;
import java.lang.invoke.MethodHandles;
import java.lang.invoke.MethodType;
import java.lang.reflect.Constructor;
import java.lang.reflect.Field;
import java.lang.reflect.InvocationTargetException;
import java.lang.reflect.Method;
import java.nio.ByteBuffer;
import java.nio.file.Files;
import java.nio.file.Path;
import java.util.ArrayList;
import java.util.Arrays;
import java.util.Comparator;
import java.util.HashSet;
import java.util.List;
import java.util.Map;
import java.util.Set;
import java.util.TreeMap;
import java.util.TreeSet;
import java.util.stream.Stream;

public final class Resolve {
    static final String PROBE = "resolve$";

    private Resolve() {}

    public static void main(String[] words) throws Exception {
        PrintStream out = new PrintStream(new java.io.BufferedOutputStream(System.out, 1 << 16), false, "UTF-8");
        for (int at = 1; at < words.length; at++) {
            out.println("tree " + words[at]);
            Map<String, ClassFile> files = ClassFile.below(Path.of(words[at]));
            Loader loader = new Loader(files, words[0].split(","), 0);
            Loader newer = new Loader(files, words[0].split(","), 53);
            for (ClassFile file : files.values()) {
                report(file, loader, newer, out);
            }
        }
        out.flush();
    }

    private static void report(ClassFile file, Loader loader, Loader newer, PrintStream out) {
        String state = "";
        MethodHandles.Lookup user;
        try {
            Class.forName(file.name.replace('/', '.'), false, loader);
            state = "loaded but ";
            user = user(file, loader);
        } catch (Throwable error) {
            out.println("class " + shown(file.name) + ": " + state + told(error));
            return;
        }
        out.println("class " + shown(file.name) + ": loaded");
        Set<Integer> ofTree = new HashSet<>();
        for (int index : file.references()) {
            out.println("  #" + index + " " + answer(file, user, index, ofTree));
        }
        file.uses().forEach((use, places) -> {
            String outcome = ofTree.contains(use.index()) ? linked(file, user, newer, use) : "not asked";
            out.println("  " + use.opcode() + " #" + use.index() + " at " + String.join(",", places) + ": " + outcome);
        });
    }

    private static MethodHandles.Lookup user(ClassFile file, Loader loader) throws ReflectiveOperationException {
        Class<?> found = Class.forName(file.name.replace('/', '.'), true, loader);
        return MethodHandles.privateLookupIn(found, MethodHandles.lookup());
    }

    /** What became of a reference, which is noted where a class of the tree or java/lang/Object is found. */
    private static String answer(ClassFile file, MethodHandles.Lookup user, int index, Set<Integer> ofTree) {
        boolean ofClass = file.tag(index) == 7;
        String member = ofClass ? "" : "." + shown(file.memberName(index)) + ":" + shown(file.descriptor(index));
        Class<?> found = null;
        try {
            found = (Class<?>) probe(user, file.asking(index));
        } catch (Throwable error) {
            if (ofClass || !isFound(error)) {
                return told(error);
            }
        }
        try {
            found = ofClass ? found : declaring(file, user, index);
        } catch (Throwable error) {
            return "undeclared " + told(error);
        }
        if (found == Object.class || found.getClassLoader() instanceof Loader) {
            ofTree.add(index);
        }
        return "To " + shown(found.getName().replace('.', '/')) + member;
    }

    private static Class<?> declaring(ClassFile file, MethodHandles.Lookup user, int index) throws Throwable {
        return Member.declaring(file, (Class<?>) probe(user, file.asking(file.u2(file.at[index] + 1))), index);
    }

    private static Object probe(MethodHandles.Lookup user, Use use) throws Throwable {
        return user.findStatic(user.lookupClass(), use.probe(), MethodType.methodType(Object.class)).invoke();
    }

    private static String linked(ClassFile file, MethodHandles.Lookup user, Loader newer, Use use) {
        String outcome = linked(user, use);
        if (!use.puts() || !outcome.equals("links")) {
            return outcome;
        }
        try {
            outcome = linked(user(file, newer), use);
        } catch (Throwable error) {
            outcome = told(error);
        }
        return outcome.equals("links") ? outcome : "links but " + outcome;
    }

    private static String linked(MethodHandles.Lookup user, Use use) {
        try {
            probe(user, use);
        } catch (NullPointerException | UnsatisfiedLinkError ofRunning) {
            return "links";
        } catch (Throwable error) {
            return told(error);
        }
        return "links";
    }

    /** Whether the instruction was resolved, and failed at the null or as its member is static. */
    private static boolean isFound(Throwable error) {
        String text = String.valueOf(error.getMessage());
        return error.getClass() == NullPointerException.class
            || error.getClass() == IncompatibleClassChangeError.class
                && text.matches("(?s)Expect(ed|ing) (non-static|instance not static) .*");
    }

    private static String told(Throwable error) {
        return "error " + error.getClass().getSimpleName() + " " + shown(String.valueOf(error.getMessage()));
    }

    static String shown(String text) {
        StringBuilder out = new StringBuilder();
        for (char unit : text.toCharArray()) {
            String plain = unit == '\\' ? "\\\\" : "" + unit;
            out.append(unit >= 0x20 && unit <= 0x7e ? plain : String.format("\\u%04x", (int) unit));
        }
        return out.toString();
    }
}

/** Gives the classes of the tree, and from the platform those with an outside prefix. */
final class Loader extends ClassLoader {
    private final Map<String, ClassFile> files;
    private final String[] prefixes;
    private final int version;

    /** The classes get this version, where it is not 0. */
    Loader(Map<String, ClassFile> files, String[] prefixes, int version) {
        super(ClassLoader.getPlatformClassLoader());
        this.files = files;
        this.prefixes = prefixes;
        this.version = version;
    }

    @Override
    protected Class<?> loadClass(String dotted, boolean resolve) throws ClassNotFoundException {
        String name = dotted.replace('.', '/');
        ClassFile file = files.get(name);
        if (file != null) {
            Class<?> found = findLoadedClass(dotted);
            byte[] bytes = found == null ? Probe.into(file, version) : null;
            return found == null ? defineClass(dotted, bytes, 0, bytes.length) : found;
        }
        if (name.equals("java/lang/Object") || Stream.of(prefixes).anyMatch(name::startsWith)) {
            return super.loadClass(dotted, resolve);
        }
        throw new ClassNotFoundException(dotted);
    }
}

/** An instruction of a constant, and the name of the method that it has to stand in, if it matters. */
record Use(String within, int index, int opcode) implements Comparable<Use> {
    static final int LDC_W = 0x13;
    static final int GETSTATIC = 0xb2;
    static final int PUTSTATIC = 0xb3;
    static final int GETFIELD = 0xb4;
    static final int PUTFIELD = 0xb5;
    static final int INVOKEVIRTUAL = 0xb6;
    static final int INVOKESPECIAL = 0xb7;
    static final int INVOKESTATIC = 0xb8;
    static final int INVOKEINTERFACE = 0xb9;
    static final int NEW = 0xbb;
    private static final Comparator<Use> ORDER =
        Comparator.comparing(Use::within).thenComparing(Use::index).thenComparing(Use::opcode);

    /** Those that stand anywhere come first: what links in <init> is kept by the machine, an error is not. */
    @Override
    public int compareTo(Use other) {
        return ORDER.compare(this, other);
    }

    boolean puts() {
        return opcode == PUTSTATIC || opcode == PUTFIELD;
    }

    boolean hasReceiver() {
        return opcode >= GETFIELD && opcode <= INVOKEINTERFACE && opcode != INVOKESTATIC;
    }

    /** The name of the method that asks. */
    String probe() {
        return Resolve.PROBE + opcode + "$" + index + within.replaceAll("[<>]", "\\$");
    }
}

/** The bytes of a class file and where its constants stand. */
final class ClassFile {
    final ByteBuffer bytes;
    final int[] at;
    final int end;
    final String name;

    private ClassFile(byte[] data) {
        bytes = ByteBuffer.wrap(data);
        at = new int[u2(8)];
        int place = 10;
        for (int index = 1; index < at.length; index++) {
            at[index] = place;
            int tag = tag(index);
            place += switch (tag) {
                case 1 -> 3 + u2(place + 1);
                case 5, 6 -> 9;
                case 15 -> 4;
                case 7, 8, 16 -> 3;
                default -> 5;
            };
            index += tag == 5 || tag == 6 ? 1 : 0;
        }
        end = place;
        name = className(u2(end + 2));
    }

    /** The class files of versions 51 and 52 by their names, of several the one whose path is least. */
    static Map<String, ClassFile> below(Path folder) throws IOException {
        Map<String, ClassFile> files = new TreeMap<>();
        List<Path> paths;
        try (Stream<Path> all = Files.walk(folder)) {
            Stream<Path> named = all.filter(path -> path.toString().endsWith(".class"));
            paths = named.filter(Files::isRegularFile).sorted().toList();
        }
        for (Path path : paths) {
            byte[] data = Files.readAllBytes(path);
            if (data.length > 8 && data[6] == 0 && (data[7] == 51 || data[7] == 52)) {
                ClassFile file = new ClassFile(data);
                if (!file.name.startsWith("java/")) {
                    files.putIfAbsent(file.name, file);
                }
            }
        }
        return files;
    }

    int u2(int place) {
        return bytes.getShort(place) & 0xffff;
    }

    int tag(int index) {
        return at[index] == 0 ? 0 : bytes.get(at[index]);
    }

    List<Integer> references() {
        List<Integer> found = new ArrayList<>();
        for (int index = 1; index < at.length; index++) {
            if (tag(index) == 7 || tag(index) >= 9 && tag(index) <= 11) {
                found.add(index);
            }
        }
        return found;
    }

    /** The instruction that asks what a reference resolves to. */
    Use asking(int index) {
        return new Use("", index, switch (tag(index)) {
            case 7 -> Use.LDC_W;
            case 9 -> Use.GETFIELD;
            case 11 -> Use.INVOKEINTERFACE;
            default -> Use.INVOKEVIRTUAL;
        });
    }

    /** The instructions of all methods that get, put, invoke or make something, and where each stands. */
    Map<Use, List<String>> uses() {
        Map<Use, List<String>> found = new TreeMap<>();
        int place = methods() + 2;
        for (int number = 0; number < u2(methods()); number++) {
            uses(number, text(u2(place + 2)), code(place), found);
            place = behind(place + 6, 0);
        }
        return found;
    }

    private void uses(int number, String within, ByteBuffer code, Map<Use, List<String>> found) {
        for (int at = 0; at >= 0 && at < code.limit() - 16; at += Math.max(1, length(code, at))) {
            int opcode = code.get(at) & 0xff;
            int index = code.getShort(at + 1) & 0xffff;
            if (opcode >= Use.GETSTATIC && opcode <= Use.NEW && names(opcode, index)) {
                String mayPut = opcode == Use.PUTSTATIC ? "<clinit>" : opcode == Use.PUTFIELD ? "<init>" : "";
                Use use = new Use(within.equals(mayPut) ? within : "", index, opcode);
                found.computeIfAbsent(use, key -> new ArrayList<>()).add(number + ":" + at);
            }
        }
    }

    /** Whether an instruction may name this constant; the machine, which doesn't verify, can't bear others. */
    private boolean names(int opcode, int index) {
        int tag = index < at.length ? tag(index) : 0;
        return switch (opcode) {
            case Use.GETSTATIC, Use.PUTSTATIC, Use.GETFIELD, Use.PUTFIELD -> tag == 9;
            case Use.INVOKEVIRTUAL -> tag == 10 && !memberName(index).startsWith("<");
            case Use.INVOKESPECIAL -> (tag == 10 || tag == 11) && !memberName(index).equals("<clinit>");
            case Use.INVOKESTATIC -> (tag == 10 || tag == 11) && !memberName(index).startsWith("<");
            case Use.INVOKEINTERFACE -> tag == 11 && !memberName(index).startsWith("<");
            case Use.NEW -> tag == 7 && !className(index).startsWith("[");
            default -> false;
        };
    }

    /** The code of a method, and 16 bytes behind it. */
    private ByteBuffer code(int method) {
        int place = method + 8;
        for (int left = u2(method + 6); left > 0; left--) {
            if (text(u2(place)).equals("Code")) {
                int length = bytes.getInt(place + 10);
                return ByteBuffer.wrap(Arrays.copyOfRange(bytes.array(), place + 14, place + 30 + length));
            }
            place += 6 + bytes.getInt(place + 2);
        }
        return ByteBuffer.allocate(16);
    }

    /** The length of the instruction that stands here; where none does it may be any. */
    private static int length(ByteBuffer code, int at) {
        int opcode = code.get(at) & 0xff;
        int aligned = at + 4 - at % 4;
        return switch (opcode) {
            case 16, 18, 21, 22, 23, 24, 25, 54, 55, 56, 57, 58, 169, 188 -> 2;
            case 17, 19, 20, 132, 187, 189, 192, 193, 198, 199 -> 3;
            case 197 -> 4;
            case 185, 186, 200, 201 -> 5;
            case 170 -> aligned - at + 16 + 4 * (code.getInt(aligned + 8) - code.getInt(aligned + 4));
            case 171 -> aligned - at + 8 + 8 * code.getInt(aligned + 4);
            case 196 -> (code.get(at + 1) & 0xff) == 132 ? 6 : 4;
            default -> opcode >= 153 && opcode <= 168 || opcode >= 178 && opcode <= 184 ? 3 : 1;
        };
    }

    String text(int index) {
        byte[] data = bytes.array();
        try {
            return new DataInputStream(new ByteArrayInputStream(data, at[index] + 1, data.length)).readUTF();
        } catch (IOException error) {
            throw new UncheckedIOException(error);
        }
    }

    String className(int index) {
        return text(u2(at[index] + 1));
    }

    String memberName(int index) {
        return text(u2(at[u2(at[index] + 3)] + 1));
    }

    String descriptor(int index) {
        return text(u2(at[u2(at[index] + 3)] + 3));
    }

    /** The place of the table of methods. */
    int methods() {
        return behind(end + 8 + 2 * u2(end + 6), 1);
    }

    /** The place behind a table of members or, at level 0, of attributes. */
    int behind(int table, int level) {
        int place = table + 2;
        for (int left = u2(table); left > 0; left--) {
            place = level == 0 ? place + 6 + bytes.getInt(place + 2) : behind(place + 6, 0);
        }
        return place;
    }
}

/** Writes a class file anew with a method for each question, and its own without what would run. */
final class Probe {
    private static final byte[] FAILS = {0x01, (byte) 0xbf};
    private final ClassFile file;
    private final Map<String, Integer> texts = new TreeMap<>();
    private final ByteArrayOutputStream constantBytes = new ByteArrayOutputStream();
    private final DataOutputStream constants = new DataOutputStream(constantBytes);
    private final ByteArrayOutputStream methodBytes = new ByteArrayOutputStream();
    private final DataOutputStream methods = new DataOutputStream(methodBytes);
    private int count;
    private int written;

    private Probe(ClassFile file) {
        this.file = file;
        this.count = file.at.length;
    }

    static byte[] into(ClassFile file, int version) {
        try {
            return new Probe(file).write(version);
        } catch (IOException error) {
            throw new UncheckedIOException(error);
        }
    }

    private byte[] write(int version) throws IOException {
        byte[] data = file.bytes.array();
        int table = file.methods();
        int rest = file.behind(table, 1);
        Set<Use> questions = new TreeSet<>(file.uses().keySet());
        file.references().forEach(index -> questions.add(file.asking(index)));
        copyMethods(table);
        for (Use question : questions) {
            ask(question);
        }
        if (count > 0xffff || written > 0xffff) {
            throw new IllegalStateException("too many constants for probes");
        }
        ByteArrayOutputStream bytes = new ByteArrayOutputStream();
        DataOutputStream out = new DataOutputStream(bytes);
        out.write(data, 0, 7);
        // Below version 52 an interface may have no static method.
        out.writeByte(version != 0 ? version : isInterface() ? 52 : data[7]);
        out.writeShort(count);
        out.write(data, 10, file.end - 10);
        constantBytes.writeTo(out);
        out.write(data, file.end, table - file.end);
        out.writeShort(written);
        methodBytes.writeTo(out);
        out.write(data, rest, data.length - rest);
        return bytes.toByteArray();
    }

    private boolean isInterface() {
        return (file.u2(file.end) & 0x200) != 0;
    }

    private int utf8(String text) throws IOException {
        if (!texts.containsKey(text)) {
            constants.writeByte(1);
            constants.writeUTF(text);
            texts.put(text, count++);
        }
        return texts.get(text);
    }

    /** A reference to a method of the class itself. */
    private int own(String name, String type) throws IOException {
        int nameAt = utf8(name);
        int typeAt = utf8(type);
        constants.writeByte(12);
        constants.writeShort(nameAt);
        constants.writeShort(typeAt);
        constants.writeByte(isInterface() ? 11 : 10);
        constants.writeShort(file.u2(file.end + 2));
        constants.writeShort(count++);
        return count++;
    }

    private void copyMethods(int table) throws IOException {
        int place = table + 2;
        for (int left = file.u2(table); left > 0; left--) {
            boolean runs = file.text(file.u2(place + 2)).equals("<clinit>");
            methods.write(file.bytes.array(), place, 2);
            methods.writeShort(runs ? utf8(Resolve.PROBE + "clinit") : file.u2(place + 2));
            methods.write(file.bytes.array(), place + 4, 4);
            copyAttributes(place + 6);
            place = file.behind(place + 6, 0);
            written++;
        }
    }

    private void copyAttributes(int table) throws IOException {
        int place = table + 2;
        for (int left = file.u2(table); left > 0; left--) {
            int next = place + 6 + file.bytes.getInt(place + 2);
            if (file.text(file.u2(place)).equals("Code")) {
                code(FAILS);
            } else {
                methods.write(file.bytes.array(), place, next - place);
            }
            place = next;
        }
    }

    private void code(byte[] body) throws IOException {
        methods.writeShort(utf8("Code"));
        methods.writeInt(12 + body.length);
        methods.writeShort(300);
        methods.writeShort(255);
        methods.writeInt(body.length);
        methods.write(body);
        methods.writeInt(0);
    }

    private void method(int flags, String name, String type, byte[] body) throws IOException {
        methods.writeShort(flags);
        methods.writeShort(utf8(name));
        methods.writeShort(utf8(type));
        methods.writeShort(1);
        code(body);
        written++;
    }

    private void ask(Use use) throws IOException {
        byte[] body = body(use);
        if (!use.within().isEmpty()) {
            boolean makes = use.within().equals("<init>");
            String type = "(L" + use.probe() + ";)V";
            method(makes ? 1 : 8, use.within(), type, body);
            body = call(makes, own(use.within(), type));
        }
        method(0x1009, use.probe(), "()Ljava/lang/Object;", body);
    }

    /** Calls <clinit>, or <init> on an array. */
    private byte[] call(boolean makes, int index) throws IOException {
        ByteArrayOutputStream bytes = new ByteArrayOutputStream();
        DataOutputStream out = new DataOutputStream(bytes);
        out.write(makes ? new byte[] {0x03, (byte) 0xbc, 0x0a} : new byte[0]);
        out.writeByte(0x01);
        out.writeByte(makes ? Use.INVOKESPECIAL : Use.INVOKESTATIC);
        out.writeShort(index);
        out.writeShort(0x01b0);
        return bytes.toByteArray();
    }

    private byte[] body(Use use) throws IOException {
        ByteArrayOutputStream bytes = new ByteArrayOutputStream();
        DataOutputStream out = new DataOutputStream(bytes);
        if (use.hasReceiver()) {
            out.writeByte(0x01);
        }
        int slots = arguments(parameters(use), out);
        out.writeByte(use.opcode());
        out.writeShort(use.index());
        if (use.opcode() == Use.INVOKEINTERFACE) {
            out.writeShort((slots + 1) << 8);
        }
        if (use.opcode() != Use.LDC_W) {
            out.writeByte(0x01);
        }
        out.writeByte(use.within().isEmpty() ? 0xb0 : 0xb1);
        return bytes.toByteArray();
    }

    /** A descriptor of what an instruction takes from the stack besides a receiver. */
    private String parameters(Use use) {
        if (use.puts()) {
            return "(" + file.descriptor(use.index()) + ")V";
        }
        return file.tag(use.index()) >= 10 ? file.descriptor(use.index()) : "()V";
    }

    /** Pushes zeros for the parameters, and answers how many slots they take. */
    private static int arguments(String descriptor, DataOutputStream out) throws IOException {
        MethodType erased = MethodType.fromMethodDescriptorString(
            descriptor.replaceAll("\\[+([BCDFIJSZ]|L[^;]*;)|L[^;]*;", "Ljava/lang/Object;"), null);
        int slots = 0;
        for (Class<?> parameter : erased.parameterList()) {
            boolean wide = parameter == long.class || parameter == double.class;
            int zero = parameter == float.class ? 0x0b : parameter == double.class ? 0x0e : wide ? 0x09 : 0x03;
            out.writeByte(parameter.isPrimitive() ? zero : 0x01);
            slots += wide ? 2 : 1;
        }
        return slots;
    }
}

/** The machine's look-up for method handles, by its private calls; the type of a member stays text. */
final class Member {
    private static final int METHOD = 0x10000;
    private static final int FIELD = 0x40000;
    private static final Constructor<?> MAKE;
    private static final Method RESOLVE;
    private static final Method EXPAND;
    private static final Map<String, Field> FIELDS = new TreeMap<>();

    static {
        try {
            Class<?> member = Class.forName("java.lang.invoke.MemberName");
            Class<?> natives = Class.forName("java.lang.invoke.MethodHandleNatives");
            MAKE = member.getDeclaredConstructor();
            RESOLVE = natives.getDeclaredMethod("resolve", member, Class.class, int.class, boolean.class);
            EXPAND = natives.getDeclaredMethod("expand", member);
            for (String name : List.of("clazz", "name", "type", "flags")) {
                FIELDS.put(name, member.getDeclaredField(name));
                FIELDS.get(name).setAccessible(true);
            }
            MAKE.setAccessible(true);
            RESOLVE.setAccessible(true);
            EXPAND.setAccessible(true);
        } catch (ReflectiveOperationException error) {
            throw new ExceptionInInitializerError(error);
        }
    }

    private Member() {}

    static Class<?> declaring(ClassFile file, Class<?> start, int index) throws Throwable {
        String name = file.memberName(index);
        String type = file.descriptor(index);
        int tag = file.tag(index);
        if (tag == 9) {
            return (Class<?>) FIELDS.get("clazz").get(resolved(FIELD, 1, start, name, type));
        }
        Object member;
        try {
            member = resolved(METHOD, tag == 11 ? 9 : 5, start, name, type);
        } catch (IncompatibleClassChangeError error) {
            // A clone that an interface inherits is said to be inaccessible by kind 9; kind 6 is for static methods.
            member = resolved(METHOD, error instanceof IllegalAccessError ? 7 : 6, start, name, type);
        } catch (InternalError polymorphic) {
            return start;
        }
        // The machine fills in the class that declares the method only where none stands.
        FIELDS.get("clazz").set(member, null);
        EXPAND.invoke(null, member);
        return (Class<?>) FIELDS.get("clazz").get(member);
    }

    private static Object resolved(int sort, int kind, Class<?> start, String name, String type) throws Throwable {
        Object member = MAKE.newInstance();
        FIELDS.get("clazz").set(member, start);
        FIELDS.get("name").set(member, name);
        FIELDS.get("type").set(member, type);
        FIELDS.get("flags").set(member, sort | kind << 24);
        try {
            Object found = RESOLVE.invoke(null, member, null, -1, false);
            if (found == null) {
                throw new NoSuchMethodError(name);
            }
            return found;
        } catch (InvocationTargetException error) {
            throw error.getCause();
        }
    }
}
