"""Makes small programs for unused.py. In each of them a class O names a class X in one way.

A program lists the errors of O in a report after the file of X is deleted. It also says whether the virtual machine misses X
when the method `run` of O runs.

programs(version) returns the programs of a class file version, 51 or 52. Most of them are sources. javac writes no MethodType
and no MethodHandle that `ldc` names, and no constant that nothing names. So this module generates the class files of the
others.
"""
import pathlib
import sys
import typing

sys.dont_write_bytecode = True
sys.path.insert(0, str(pathlib.Path(__file__).resolve().parent.parent))
import common

links = common.load("link/worlds.py")

CLASS, FIELDREF, METHODREF, INTERFACE_METHODREF = links.CLASS, links.FIELDREF, links.METHODREF, links.INTERFACE_METHODREF
METHOD_HANDLE, METHOD_TYPE, INVOKE_DYNAMIC = links.METHOD_HANDLE, links.METHOD_TYPE, links.INVOKE_DYNAMIC
NULL, POP, INVOKESTATIC = (1,), (87,), 184
PUBLIC, STATIC, ABSTRACT = links.PUBLIC, links.STATIC, links.ABSTRACT
# The user of a reference: a method, by its name and descriptor; something else; nothing.
RUN, USED, UNUSED = "run:()V", "used", " (unused)"


class Program(typing.NamedTuple):
    """A program, with class names without packages.

    `lines` maps the reference in each line of `--errors` for the class that runs to the user of that reference. `missed` says
    whether the virtual machine misses the deleted class.
    """
    name: str
    source: str
    # For a generated class O: its fields, its methods, constants that code need not name, and the code of `run`.
    parts: tuple
    lines: dict
    missed: bool
    runs: str
    deleted: str

    def package(self, version):
        return f"v{version}/{self.name}"

    def class_files(self, version):
        """Returns the class files of O, X and an interface with a method that takes an X; none if O has a source."""
        if self.source:
            return {}
        fields, methods, references, code = in_package(self.parts, self.package(version))
        takes = in_package([(PUBLIC | ABSTRACT, b"m", TAKES_X)], self.package(version))
        own = lambda name, flags, *members, **more: links.class_file(
            f"{self.package(version)}/{name}".encode(), flags, OBJECT, [], *members, **more, major=version)
        return {"O": own("O", 0x21, fields, methods, references, codes={0: code}), "X": own("X", 0x21, [], [], []),
                "I": own("I", 0x601, [], takes, [])}


def java(name, members, lines, missed, beside="", runs="O", deleted="O$X", body=""):
    """Returns a program with a source: these members of O and this body of `run`."""
    run = f"public static void run() throws Throwable {{ {body} }}"
    return Program(name, f"public class O {{ {members} {run} }} {beside}", (), lines, missed, runs, deleted)


def of_x(mark, members=()):
    """Returns the lines for the class X and for members of it. All have the same user."""
    return {"class O$X": mark, **{f"method O$X.{member}": mark for member in members}}


X = "static class X {}"
# A call on a null method handle. Its descriptor is resolved first.
CALL = "try {{ java.lang.invoke.MethodHandle handle = null; {} }} catch (NullPointerException none) {{}}"

# Programs of both versions: instructions that name the class, a call of a method handle, and programs that name it only by
# attributes and other descriptors.
EITHER = [
    java("an_object", X, of_x(RUN, members=["<init>:()V"]), True, body="new X();"),
    java("a_static_call", "static class X { static void m() {} }", of_x(RUN, members=["m:()V"]), True, body="X.m();"),
    java("a_class_literal", X, of_x(RUN), True, body="Object it = X.class;"),
    java("an_instanceof", X, of_x(RUN), True, body='Object text = "s"; boolean is = text instanceof X;'),
    java("a_cast", X, of_x(RUN), True, body='try { Object text = "s"; X x = (X) text; } catch (ClassCastException none) {}'),
    java("a_handler", "static class X extends RuntimeException {}", of_x(RUN), True,
         body="try { throw new IllegalStateException(); } catch (X x) {} catch (IllegalStateException x) {}"),
    java("an_array", X, of_x(RUN), True, body="Object all = new X[1];"),
    java("an_array_of_arrays", X, {"class [[LO$X;": RUN, **of_x(UNUSED)}, True, body="Object all = new X[1][1];"),
    java("a_cast_to_an_array", X, {"class [LO$X;": RUN, **of_x(UNUSED)}, True,
         body='try { Object text = "s"; X[] all = (X[]) text; } catch (ClassCastException none) {}'),
    java("invoke_exact_of_a_parameter", X, of_x(USED), True, body=CALL.format("X x = null; handle.invokeExact(x);")),
    java("invoke_exact_of_a_result", X, of_x(USED), True, body=CALL.format("X x = (X) handle.invokeExact();")),
    java("invoke_exact_of_an_array", X, of_x(USED), True, body=CALL.format("X[][] x = null; handle.invokeExact(x);")),
    java("invoke", X, of_x(USED), True, body=CALL.format("X x = null; handle.invoke(1, x);")),
    java("code_that_does_not_run", X + "static void other(Object it) { Object x = (X) it; }", of_x("other:(Ljava/lang/Object;)V"), False),
    java("a_method_before", X + "static void other() { new X(); }", of_x("other:()V", members=["<init>:()V"]), True, body="new X();"),
    java("a_member_in_a_method_before", "static class X { static void m() {} } static void other() { X.m(); }",
         of_x("other:()V", members=["m:()V"]), True, body="Object it = X.class;"),
    java("a_handler_in_a_method_before", "static class X extends RuntimeException {} static void other() { try { other(); } catch (X x) {} }",
         of_x("other:()V"), True, body="Object it = X.class;"),
    java("a_member_class", X, of_x(UNUSED), False),
    java("a_class_around", "", {"class P": UNUSED}, False, runs="P$O", deleted="P",
         beside="class P { public static class O { public static void run() {} } }"),
    java("a_parameter", X + "static void take(X x) {}", of_x(UNUSED), False, body="take(null);"),
    java("a_result", X + "static X make() { return null; }", of_x(UNUSED), False, body="make();"),
    java("a_field", X + "static X x;", of_x(UNUSED), False, body="Object it = x;"),
    java("a_field_of_an_array", X + "static X[] x;", of_x(UNUSED), False, body="Object it = x;"),
    java("a_signature", X + "static java.util.List<X> all;", of_x(UNUSED), False, body="Object it = all;"),
    java("a_throws_clause", "static class X extends RuntimeException {} static void may() throws X {}", of_x(UNUSED), False, body="may();"),
    java("an_annotation", X + "@interface A { Class<?> value(); } @A(X.class) static void m() {}", of_x(UNUSED), False, body="m();"),
    java("a_stack_map", X + "static boolean is(Object it) { return it == null; }", of_x(UNUSED), False,
         body="X x = null; if (is(x)) { x = null; } is(x);"),
]

FUNCTION = "java.util.function.Function"
SUPPLIER = "java.util.function.Supplier"
TAKE = "static void take(Object it) {}"

# Lambdas and references to methods, which version 52 has.
EIGHT = [
    java("lambda_of_a_parameter", X, of_x(USED), True, body=f'{FUNCTION}<X, String> f = x -> "s";'),
    java("lambda_of_a_result", X, of_x(USED), True, body=f"{SUPPLIER}<X> f = () -> null;"),
    java("lambda_of_an_array", X, of_x(USED), True, body=f'{FUNCTION}<X[], String> f = x -> "s";'),
    java("lambda_of_a_variable", X + TAKE, of_x(USED), True, body="X x = null; Runnable f = () -> take(x);"),
    java("lambda_of_a_variable_of_arrays", X + TAKE, of_x(USED), True, body="X[][] x = null; Runnable f = () -> take(x);"),
    java("lambda_of_an_interface", "interface X { void m(); }", of_x(USED), True, body="X x = () -> {};"),
    java("lambda_with_a_marker", "interface X {}", of_x(RUN), True, body="Runnable f = (Runnable & X) () -> {};"),
    java("lambda_that_is_serializable", X, of_x(USED), True,
         body=f'Object f = ({FUNCTION}<X, String> & java.io.Serializable) x -> "s";'),
    java("lambda_of_another_member", "", {"class P$X": USED}, True, beside="class P { static class X {} }", deleted="P$X",
         body=f'{FUNCTION}<P.X, String> f = x -> "s";'),
    java("lambda_of_a_class_below", X + "static class Y extends X {}", {"class O$Y": USED, **of_x(UNUSED)}, True,
         body=f'{FUNCTION}<Y, String> f = y -> "s";'),
    java("lambda_without_a_class_constant", "", {}, True, beside="class T {}", deleted="T", body=f'{FUNCTION}<T, String> f = x -> "s";'),
    java("lambda_that_does_not_run", X + f'static void other() {{ {FUNCTION}<X, String> f = x -> "s"; }}', of_x(USED), False),
    java("reference_to_a_method", X + 'static String name(X x) { return "s"; }', of_x(USED), True, body=f"{FUNCTION}<X, String> f = O::name;"),
    java("reference_to_a_method_of_a_result", X + "static X make() { return null; }", of_x(USED), True, body=f"{SUPPLIER}<Object> f = O::make;"),
    java("reference_to_a_method_of_the_class", 'static class X { String name() { return "s"; } }', of_x(USED, members=["name:()Ljava/lang/String;"]), True,
         body=f"{FUNCTION}<X, String> f = X::name;"),
    java("reference_to_a_constructor", X, of_x(USED, members=["<init>:()V"]), True, body=f"{SUPPLIER}<Object> f = X::new;"),
]


# ---- generated class files. P/ means the package.

INIT, OBJECT = b"<init>", links.OBJECT
CONCAT_TYPE = b"(Ljava/lang/invoke/MethodHandles$Lookup;Ljava/lang/String;Ljava/lang/invoke/MethodType;"
CALL_SITE = b")Ljava/lang/invoke/CallSite;"
CONCAT = b"java/lang/invoke/StringConcatFactory"
MAKE_CONCAT = METHOD_HANDLE, 6, (METHODREF, CONCAT, b"makeConcat", CONCAT_TYPE + CALL_SITE)
WITH_CONSTANTS = METHOD_HANDLE, 6, (METHODREF, CONCAT, b"makeConcatWithConstants",
                                    CONCAT_TYPE + b"Ljava/lang/String;[Ljava/lang/Object;" + CALL_SITE)


def in_package(thing, package):
    """Replaces P/ by this package in bytes, and in tuples and lists of them."""
    if isinstance(thing, bytes):
        return thing.replace(b"P/", package.encode() + b"/")
    return type(thing)(in_package(one, package) for one in thing) if isinstance(thing, (tuple, list)) else thing


def made(name, code, references, mark, missed, fields=(), methods=(), named="class P/X"):
    """Returns a program whose class O has this code of `run` and these further constants."""
    parts = [*fields], [(PUBLIC | STATIC, b"run", b"()V"), *methods], [*references], [*code]
    return Program(name, "", parts, {named.replace("P/", ""): mark}, missed, "O", "X")


def constant(name, reference, references=((CLASS, b"P/X"),), fields=(), methods=(), named="class P/X"):
    """Returns a program whose `run` has an ldc of this constant."""
    return made(name, [(links.LDC, reference), POP], references, USED, True, fields, methods, named)


def handle(name, kind, reference, fields=(), methods=()):
    return constant(name, (METHOD_HANDLE, kind, reference), fields=fields, methods=methods)


def alone(name, reference, mark):
    """Returns a program with a constant that nothing names."""
    return made(name, [], [(CLASS, b"P/X"), reference], mark, False)


def site(descriptor, bootstrap=MAKE_CONCAT, arguments=()):
    return INVOKE_DYNAMIC, (bootstrap, arguments), b"makeConcat", descriptor


TAKES_X, GIVES_X, TEXT_OF_X = b"(LP/X;)V", b"()LP/X;", b"(LP/X;)Ljava/lang/String;"
ON_INVOKE = METHODREF, links.HANDLE, b"invokeExact", TAKES_X
PLAIN_METHOD, STATIC_METHOD = (PUBLIC, b"m", TAKES_X), (PUBLIC | STATIC, b"m", TAKES_X)
OF_X, OF_ARRAY = (FIELDREF, b"P/O", b"x", b"LP/X;"), (FIELDREF, b"P/O", b"x", b"[LP/X;")

MADE = [
    constant("method_type_of_a_parameter", (METHOD_TYPE, TAKES_X)),
    constant("method_type_of_a_result", (METHOD_TYPE, GIVES_X)),
    constant("method_type_of_arrays", (METHOD_TYPE, b"(I[[LP/X;J)V")),
    constant("method_type_beside_an_array", (METHOD_TYPE, TAKES_X), [(CLASS, b"[[LP/X;")], named="class [[LP/X;"),
    handle("handle_of_a_field_got", 1, OF_X, fields=[(PUBLIC, b"x", b"LP/X;")]),
    handle("handle_of_a_static_field_got", 2, OF_X, fields=[(PUBLIC | STATIC, b"x", b"LP/X;")]),
    handle("handle_of_a_field_put", 3, OF_X, fields=[(PUBLIC, b"x", b"LP/X;")]),
    handle("handle_of_a_static_field_put", 4, OF_X, fields=[(PUBLIC | STATIC, b"x", b"LP/X;")]),
    handle("handle_of_a_field_of_an_array", 1, OF_ARRAY, fields=[(PUBLIC, b"x", b"[LP/X;")]),
    handle("handle_of_a_virtual_method", 5, (METHODREF, b"P/O", b"m", TAKES_X), methods=[PLAIN_METHOD]),
    handle("handle_of_a_static_method", 6, (METHODREF, b"P/O", b"m", TAKES_X), methods=[STATIC_METHOD]),
    handle("handle_of_a_special_method", 7, (METHODREF, b"P/O", b"m", TAKES_X), methods=[PLAIN_METHOD]),
    handle("handle_of_a_constructor", 8, (METHODREF, b"P/O", INIT, TAKES_X), methods=[(PUBLIC, INIT, TAKES_X)]),
    handle("handle_of_an_interface_method", 9, (INTERFACE_METHODREF, b"P/I", b"m", TAKES_X)),
    handle("handle_of_invoke_exact", 5, ON_INVOKE),
    made("call_site", [NULL, (links.INVOKEDYNAMIC, site(TEXT_OF_X)), POP], [(CLASS, b"P/X")], USED, True),
    made("call_site_with_a_class", [(links.INVOKEDYNAMIC, site(b"()Ljava/lang/String;", WITH_CONSTANTS, ((8, b"\2"), (CLASS, b"P/X")))), POP],
         [], USED, True),
    made("call_site_with_a_method_type", [(links.INVOKEDYNAMIC, site(b"()Ljava/lang/String;", WITH_CONSTANTS, ((8, b"\2"), (METHOD_TYPE, TAKES_X)))), POP],
         [(CLASS, b"P/X")], USED, True),
    made("static_method_named_invoke_exact", [NULL, (INVOKESTATIC, (METHODREF, b"P/O", b"invokeExact", TAKES_X))], [(CLASS, b"P/X")], UNUSED, False,
         methods=[(PUBLIC | STATIC, b"invokeExact", TAKES_X)]),
    alone("class_that_nothing_names", (CLASS, OBJECT), UNUSED),
    alone("method_type_that_nothing_names", (METHOD_TYPE, TAKES_X), UNUSED),
    alone("call_site_that_nothing_names", site(TEXT_OF_X), UNUSED),
    alone("invoke_exact_that_nothing_names", ON_INVOKE, UNUSED),
    alone("method_that_nothing_names", (METHODREF, b"P/O", b"run", b"()V"), UNUSED),
    alone("handle_that_nothing_names", (METHOD_HANDLE, 5, ON_INVOKE), USED),
    alone("bootstrap_method_that_nothing_names", site(b"()Ljava/lang/String;", MAKE_CONCAT, ((METHOD_TYPE, TAKES_X),)), USED),
]


def programs(version):
    return [*EITHER, *(EIGHT if version == 52 else []), *MADE]
