"""Runs the scripts of examples that compare, and checks what they print."""
import os
import re
import shutil
import subprocess

import common

# Two versions of a library. Each line of the API follows directly from the source.
OLD = {
    "a/Base": "public class Base {}",
    "a/Face": "public interface Face { long LONG = 5; String TEXT = \"a b\"; void of(); default void more() {} }",
    "a/Shape": """public abstract class Shape extends Base implements Face, Runnable { public static final int SIDES = 3;
        protected transient volatile int side; int inner; private int own; public Shape(int side) {} void near() {}
        public synchronized native void area(); protected static class Part {} class Near { public void of() {} } }""",
}
NEW = {**OLD, "a/Shape": """public class Shape implements Face { public static final int SIDES = 4; protected int side; private long own;
        public Shape(int side) {} public final void area() {} public void of() {} private static class Part {} }"""}
API_DIFF = """\
 class a/Base: PUBLIC extends java/lang/Object
 class a/Face: PUBLIC INTERFACE ABSTRACT extends java/lang/Object
-class a/Shape$Part: PUBLIC extends a/Base implements none
-class a/Shape: PUBLIC ABSTRACT extends a/Base implements a/Face java/lang/Runnable
+class a/Shape: PUBLIC extends java/lang/Object implements a/Face
 field a/Face.LONG:J: PUBLIC STATIC FINAL = 5
 field a/Face.TEXT:Ljava/lang/String;: PUBLIC STATIC FINAL = "a b"
-field a/Shape.SIDES:I: PUBLIC STATIC FINAL = 3
+field a/Shape.SIDES:I: PUBLIC STATIC FINAL = 4
 field a/Shape.side:I: PROTECTED
 method a/Base.<init>:()V: PUBLIC
 method a/Face.more:()V: PUBLIC
 method a/Face.of:()V: PUBLIC ABSTRACT
-method a/Shape$Part.<init>:()V: PROTECTED
 method a/Shape.<init>:(I)V: PUBLIC
-method a/Shape.area:()V: PUBLIC
+method a/Shape.area:()V: PUBLIC FINAL
+method a/Shape.of:()V: PUBLIC
""".replace("a/Base implements none", "java/lang/Object")
# A client whose classes Main and Main$Mine need Part of the old version. Its class Other has an error with each version. The
# new version has a class with an error of its own.
CLIENT = {
    "Main": "abstract class Main extends a.Shape { Main() { super(SIDES); area(); new Mine(); new Other(); } static class Mine extends Part {} }",
    "Other": "class Other { Object of() { return new Lost(); } }",
    "Lost": "class Lost {}",
}
BROKEN = {"a/Broken": "class Broken { Object of() { return new Gone(); } }", "a/Gone": "class Gone {}"}


def run(script, *arguments, program=None):
    """Returns the status of a script of examples, and what it prints."""
    environment = {**os.environ, "JCLINK": str(program or common.JCLINK)}
    command = [common.TOP / "examples" / script, *arguments]
    done = subprocess.run(command, env=environment, stdout=subprocess.PIPE, stderr=subprocess.STDOUT, text=True, check=False)
    return done.returncode, done.stdout


def passes(name, right, found):
    """Returns whether a run is right; prints the run if it is not."""
    if not right:
        print(f"{name}: status {found[0]}", *found[1].splitlines()[:20], sep="\n  ")
    return right


def compile_to(folder, types, *options):
    """Compiles types, which are given by their names with packages."""
    sources = folder.with_name(folder.name + "-sources")
    shutil.rmtree(sources, ignore_errors=True)
    shutil.rmtree(folder, ignore_errors=True)
    for name, text in types.items():
        path = sources / f"{name}.java"
        path.parent.mkdir(parents=True, exist_ok=True)
        package = name.rpartition("/")[0]
        path.write_text(f"package {package};\n{text}\n" if package else text + "\n")
    release = [] if "--release" in options else ["--release", "8"]
    command = ["javac", *release, "-nowarn", "-Xlint:-options", *options, "-d", folder, *sources.rglob("*.java")]
    subprocess.run(command, check=True, stderr=subprocess.DEVNULL)
    return folder


def jar(folder):
    path = folder.with_name(f"{folder.name}.jar")
    subprocess.run(["zip", "-q", "-r", path, "."], cwd=folder, check=True)
    return path


def try_api_diff(work, old, new):
    """Yields whether api_diff.sh prints the difference of two versions, of folders and of jars, and its other statuses."""
    for versions in ((old, new), (jar(old), jar(new))):
        found = run("api_diff.sh", *versions)
        lines = found[1].splitlines(keepends=True)
        right = found[0] == 1 and lines[:2] == [f"--- {versions[0]}\n", f"+++ {versions[1]}\n"] and "".join(lines[3:]) == API_DIFF
        yield passes("api_diff.sh", right, found)
    for name, status, arguments in (
        ("the same version", 0, (old, old)),
        ("one argument", 2, (old,)),
        ("a missing version", 3, (old, work / "none")),
        ("no class file", 3, (work / "empty", old)),
        ("a corrupt jar", 3, (old, work / "corrupt.jar")),
    ):
        found = run("api_diff.sh", *arguments)
        yield passes(f"api_diff.sh, {name}", found[0] == status and bool(found[1]) == (status != 0), found)
    found = run("api_diff.sh", old, old, program="/none")
    yield passes("api_diff.sh without a program", found[0] > 3, found)
    letters = compile_to(work / "letters", {"Größe": "public class Größe { public static final String T = \"€\\n\"; public int größe; }"}, "-encoding", "UTF-8")
    found = run("api_diff.sh", old, letters)
    lines = ("+class Gr\\u00f6\\u00dfe: PUBLIC extends java/lang/Object", '+field Gr\\u00f6\\u00dfe.T:Ljava/lang/String;: PUBLIC STATIC FINAL = "\\u20ac\\u000a"')
    yield passes("api_diff.sh of other letters", found[0] == 1 and all(line in found[1].splitlines() for line in lines), found)


def try_clients(work, old, new):
    """Yields whether clients.sh prints the client's new errors and no others, and its other statuses."""
    client = compile_to(work / "client", CLIENT, "-cp", old)
    (client / "Lost.class").unlink()
    shutil.copytree(compile_to(work / "broken", BROKEN) / "a", new / "a", dirs_exist_ok=True)
    (new / "a" / "Gone.class").unlink()
    for arguments in ((old, new, client), (jar(old), jar(new), jar(client))):
        found = run("clients.sh", *arguments)
        classes = {re.match(r"[^.:]+", line)[0] for line in found[1].splitlines()}
        yield passes("clients.sh", found[0] == 1 and classes == {"Main", "Main$Mine"}, found)
    later = compile_to(work / "later", {"Later": "class Later {}"}, "--release", "11")
    for name, status, text, arguments in (
        ("the same version", 0, "", (old, old, client)),
        ("--only", 0, "", (old, new, client, "--only=Other")),
        ("a library's classes in the client", 0, "", (old, old, old)),
        ("two arguments", 2, "clients.sh", (old, new)),
        ("a wrong option", 2, "usage", (old, new, client, "--none")),
        ("a missing client", 3, "cannot read", (old, new, work / "none")),
        ("no class file", 3, "no class file", (old, work / "empty", client)),
        ("a client of Java 11", 3, "no class file", (old, new, later)),
    ):
        found = run("clients.sh", *arguments)
        yield passes(f"clients.sh, {name}", found[0] == status and text in found[1] and bool(found[1]) == bool(text), found)
    shutil.copy(later / "Later.class", client)
    found = run("clients.sh", old, old, client)
    yield passes("clients.sh, a file of Java 11", found == (0, f"clients.sh: 1 class files of {client} are not read\n"), found)
    lone = compile_to(work / "lone", {"Lone": "class Lone extends Missing {}", "Missing": "class Missing {}"})
    (lone / "Missing.class").unlink()
    found = run("clients.sh", old, old, lone)
    line = "and their references are not checked; the first is Lone: error 1 NoClass Missing\n"
    yield passes("clients.sh, a missing supertype", found[0] == 0 and found[1].endswith(line), found)


# The errors of a tree that `build` makes, without offsets and places.
ERRORS = """\
1 App.lost:()Ljava/lang/Object;: class Lost -> error 1 NoClass Lost
1 App.lost:()Ljava/lang/Object;: method Lost.<init>:()V -> error 1 NoClass Lost
1 App.read0:(LStore;)I: getfield field Store.size:I -> error 4 Incompatible Store
1 Format: error 2 Format Format
1 Format: format F28
1 Local.of:()V: code S22
1 Tag.class: unreadable 4 Tag
"""


def store(modifier, reads, more=""):
    """Returns a library's class whose field has a modifier, and a client that names Lost and reads the field.

    The client has a method that reads the field for each number in `reads`.
    """
    sums = [" + ".join(["store.size"] * count) for count in reads]
    methods = "".join(f" int read{number}(Store store) {{ return {text}; }}" for number, text in enumerate(sums))
    client = f"class App {{ {more}{methods} Object lost() {{ return new Lost(); }} }}"
    return {"Store": f"public class Store {{ public {modifier} int size; }}", "App": client, "Lost": "class Lost {}"}


def faulty(place):
    """Writes class files with a format fault and a code fault, at places that grow with a number.

    An attribute of the first has no name. The method of the second reads a local variable that it does not have.
    """
    code = bytes(place) + b"\x1a\xb1"
    attribute = common.number(2, 5) + common.number(4, 12 + len(code)) + bytes(4) + common.number(4, len(code)) + code + bytes(4)
    method = b"\0\x09\0\6\0\7\0\1" + attribute
    texts = [common.utf8(text) for text in (b"Code", b"of", b"()V")]
    yield "Format.class", common.class_file(b"Format", [common.utf8(b"a" * place)], attributes=[bytes(6)])
    yield "Local.class", common.class_file(b"Local", texts, methods=[method])


def build(work, reads, more="", place=1):
    """Makes a tree with errors of each kind. App is compiled while the field is not static, so each read is an error."""
    tree = compile_to(work / "tree", store("", reads, more))
    compiled = compile_to(work / "static", store("static", []))
    shutil.copy(compiled / "Store.class", tree)
    (tree / "Lost.class").unlink()
    for name, data in faulty(place):
        (tree / name).write_bytes(data)
    # A tag of a constant that no class file has.
    (tree / "Tag.class").write_bytes(b"\xca\xfe\xba\xbe\0\0\0\x34\0\x05" + b"\x03\0\0\0\0" * place + b"\x63\0")
    return tree


def changes(found):
    """Returns the lines that a comparison with a baseline adds or removes."""
    return [line for line in found[1].splitlines() if re.match(r"[-+](?![-+])", line)]


def try_baseline(work):
    """Yields whether baseline.sh writes, finds nothing new in another build, and finds new errors and a second equal one."""
    kept, tree = work / "kept", build(work, [1])
    found = run("baseline.sh", "--write", kept, tree)
    yield passes("baseline.sh --write", found == (0, "") and sorted(os.listdir(kept)) == ["errors.txt", "provided.txt", "required.txt"], found)
    text = (kept / "errors.txt").read_text()
    yield passes("baseline.sh, errors.txt", text == ERRORS, (0, text))
    found = run("baseline.sh", kept, tree)
    yield passes("baseline.sh, unchanged", found == (0, ""), found)
    build(work, [1], "static final float F = Float.parseFloat(\"1\"); static int more(int n) { return n + 70000; }", 2)
    found = run("baseline.sh", "--errors-only", kept, tree)
    yield passes("baseline.sh, another build", found == (0, ""), found)
    build(work, [2])
    found = run("baseline.sh", "--errors-only", kept, tree)
    equal = [line[1:] for line in text.splitlines() if "4 Incompatible" in line]
    yield passes("baseline.sh, a second equal error", found[0] == 1 and changes(found) == [f"-1{equal[0]}", f"+2{equal[0]}"], found)
    build(work, [1, 1])
    found = run("baseline.sh", "--errors-only", kept, tree)
    right = found[0] == 1 and changes(found) == ["+1" + equal[0].replace("read0", "read1")]
    yield passes("baseline.sh, an error in another method", right, found)
    build(work, [1], "Object gone() { return new Gone(); } static class Gone {}")
    (tree / "App$Gone.class").unlink()
    found = run("baseline.sh", "--errors-only", kept, tree)
    lines = changes(found)
    right = found[0] == 1 and bool(lines) and all(line.startswith("+1 App") and "1 NoClass App$Gone" in line for line in lines)
    yield passes("baseline.sh, a new error", right, found)
    found = run("baseline.sh", "--errors-only", kept, tree, "--only=Store")
    yield passes("baseline.sh --only", found[0] == 1 and changes(found) == [f"-{line}" for line in text.splitlines()], found)
    yield from try_used(work, kept)


def try_used(work, kept):
    """Yields whether baseline.sh with --used leaves out the error of a class that only an attribute names."""
    tree = build(work, [1], "static class Gone {}")
    (tree / "App$Gone.class").unlink()
    found = run("baseline.sh", "--errors-only", kept, tree)
    right = found[0] == 1 and changes(found) == ["+1 App: class App$Gone -> error 1 NoClass App$Gone (unused)"]
    yield passes("baseline.sh, an unused reference", right, found)
    found = run("baseline.sh", "--errors-only", kept, tree, "--used")
    yield passes("baseline.sh --used", found == (0, ""), found)
    found = run("baseline.sh", "--write", work / "used", tree, "--used")
    yield passes("baseline.sh --write --used", found == (0, "") and (work / "used" / "errors.txt").read_text() == ERRORS, found)


def try_errors_only(work):
    """Yields whether --errors-only reads and writes errors.txt only, and the other statuses of baseline.sh."""
    kept, tree = work / "errors", build(work, [1])
    found = run("baseline.sh", "--errors-only", "--write", kept, tree)
    yield passes("baseline.sh --errors-only --write", found == (0, "") and os.listdir(kept) == ["errors.txt"], found)
    compiled = compile_to(work / "more", {"More": "public class More {}"})
    shutil.copy(compiled / "More.class", tree)
    found = run("baseline.sh", "--errors-only", kept, tree)
    yield passes("baseline.sh --errors-only, another class", found == (0, ""), found)
    found = run("baseline.sh", kept, tree)
    yield passes("baseline.sh, missing files", found[0] == 1, found)
    run("baseline.sh", "--write", kept, tree)
    (tree / "More.class").unlink()
    found = run("baseline.sh", kept, tree)
    yield passes("baseline.sh, a class less", found[0] == 1 and "-class More" in changes(found), found)
    for status, arguments in ((2, (kept,)), (2, ("--none", kept, tree)), (2, (kept, tree, "--none")), (3, (kept, work / "none"))):
        found = run("baseline.sh", *arguments)
        yield passes(f"baseline.sh, status {status}", found[0] == status, found)
    files = {path: path.read_text() for path in kept.iterdir()}
    found = run("baseline.sh", "--write", kept, work / "none")
    yield passes("baseline.sh --write, status 3", found[0] == 3 and files == {path: path.read_text() for path in kept.iterdir()}, found)


def tries():
    """Yields for each run whether the script does what its head says."""
    with common.Workplace() as work:
        (work / "empty").mkdir()
        (work / "corrupt.jar").write_bytes(b"PK")
        old, new = compile_to(work / "old", OLD), compile_to(work / "new", NEW)
        yield from try_api_diff(work, old, new)
        yield from try_clients(work, old, new)
        yield from try_baseline(work)
        yield from try_errors_only(work)
