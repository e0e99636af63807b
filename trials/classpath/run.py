#!/usr/bin/env python3
"""Runs examples/classpath.sh over small class paths, and compares its output with the errors that a virtual machine throws.

Usage: run.py, once ./jclink is built. The environment's JCLINK may name another program. It needs a JDK of version 12 to 19.

app/Main calls a method of lib/Store. One build of lib/Store has the method, and another has not. So the order of the entries,
and which entries count, decide whether `java` runs app/Main or throws an error. Where a case asks `java`, the script prints
that error for that class or nothing. The other cases say what the head of the script says.
"""
import os
import pathlib
import re
import shutil
import subprocess
import sys
import warnings
import zipfile

sys.dont_write_bytecode = True
sys.path.insert(0, str(pathlib.Path(__file__).resolve().parent.parent))
import common

SCRIPT = common.TOP / "examples" / "classpath.sh"
CT_SYM = pathlib.Path(shutil.which("javac")).resolve().parent.parent / "lib" / "ct.sym"
SOURCES = {
    "app/Main": "package app; public class Main { public static void main(String[] words) { lib.Store.size(); } }",
    "old/lib/Store": "package lib; public class Store { public static int size() { return 1; } }",
    "new/lib/Store": "package lib; public class Store { public static long size() { return 1; } }",
    "other/lib/Other": "package lib; public class Other { }",
    "lost/lib/Lost": "package lib; public class Lost { }",
    "user/app/User": "package app; class User { Object of() { return new lib.Lost(); } }",
    "outer/app/Outer": "package app; class Outer { class Inner { } }",
    "flip/app/Flip": "package app; class Flip { void of(java.nio.ByteBuffer b) { b.flip(); } }",
    "unsafe/app/Unsafe": "package app; class Unsafe { Object of(sun.misc.Unsafe u) { return u.allocateMemory(1); } }",
}
# The errors of the cases: as jclink names them, by the virtual machine's names.
THROWN = {"NoClass": "java.lang.NoClassDefFoundError", "NoMethod": "java.lang.NoSuchMethodError"}
JAVA_11, JAVA_5 = 55, 49
# The methods of app/Main and app/Flip; the lines of their errors begin with these.
MAIN, FLIP = r"app/Main\.main:\(\[Ljava/lang/String;\)V: ", r"app/Flip\.of:\(Ljava/nio/ByteBuffer;\)V: "


class Place:
    """A folder with the class files of SOURCES, in which the script and `java` run."""

    def __init__(self, folder, made):
        self.folder = folder
        shutil.copytree(made, folder, dirs_exist_ok=True)

    def path(self, name):
        path = self.folder / name
        path.parent.mkdir(parents=True, exist_ok=True)
        return path

    def bytes(self, name, version=52):
        data = (self.folder / f"{name}.class").read_bytes()
        return data[:6] + version.to_bytes(2, "big") + data[8:]

    def jar(self, name, *entries, manifest=None):
        """Writes a jar of these names and bytes. A name may occur several times."""
        with warnings.catch_warnings(), zipfile.ZipFile(self.path(name), "w", zipfile.ZIP_DEFLATED) as archive:
            warnings.simplefilter("ignore")
            if manifest:
                archive.writestr("META-INF/MANIFEST.MF", f"Manifest-Version: 1.0\n{manifest}\n")
            for path, data in entries:
                archive.writestr(path, data)
        return name

    def store(self, name, build, version=52, **more):
        """Writes a jar with one build of lib/Store."""
        return self.jar(name, ("lib/Store.class", self.bytes(f"{build}/lib/Store", version)), **more)

    def write(self, name, data):
        self.path(name).write_bytes(data)
        return name

    def run(self, *words, place=".", **variables):
        """Returns the status, standard output and standard error of the script."""
        env = {**os.environ, "JCLINK": str(common.JCLINK), **variables}
        how = {"cwd": self.folder / place, "env": env, "capture_output": True, "text": True, "check": False}
        done = subprocess.run([SCRIPT, *words], **how)
        return done.returncode, done.stdout, done.stderr

    def thrown(self, class_path, place="."):
        """Returns jclink's name of the error that `java` throws when it runs app/Main, or None."""
        command = ["java", "-XX:TieredStopAtLevel=1", "-cp", class_path, "app.Main"]
        done = subprocess.run(command, cwd=self.folder / place, capture_output=True, text=True, check=False)
        found = [error for error, name in THROWN.items() if name in done.stderr]
        if bool(found) == (done.returncode == 0):
            sys.exit(f"java -cp {class_path}: {done.stderr}")
        return found[0] if found else None

    def agrees(self, class_path, *words, place="."):
        """Returns whether the script prints exactly one error, of lib/Store, if `java` throws it, and otherwise none."""
        error, found = self.thrown(class_path, place), self.run(*words, class_path, place=place)
        line = rf"{MAIN}method lib/Store\.size:\(\)I -> error \d {error} lib/Store\n"
        if error == "NoClass":
            line += rf"{MAIN}class lib/Store -> error \d NoClass lib/Store\n"
        return is_so(found, 1 if error else 0, line if error else "")


def is_so(found, status, out, *err):
    """Returns whether a run has this status, its output matches the pattern, and its standard error has these texts."""
    right = found[0] == status and re.fullmatch(out, found[1]) is not None and all(text in found[2] for text in err)
    if not right:
        print("wanted", (status, out, *err), "found", found, sep="\n  ")
    return right


def fails(found, *err):
    """Returns whether a run has status 3, names the problem on a line of its own, and has no standard output."""
    line = found[2].splitlines()[-1] if found[2] else ""
    return is_so(found, 3, "") and is_so((3, "", line), 3, "", "classpath.sh: ", *err)


def try_order(place):
    place.store("old.jar", "old")
    place.store("new.jar", "new")
    place.store("lib.zip", "old")
    for class_path in ("classes:old:new", "classes:new:old", "old.jar:new.jar:classes", "new.jar:old.jar:classes",
                       "classes:old.jar:new", "new:classes:old.jar", "classes", "classes:lib.zip", "classes/:old/",
                       "./classes:../" + place.folder.name + "/old.jar"):
        yield place.agrees(class_path)
    found = place.run(f"{place.folder}/classes:{place.folder}/old.jar")
    yield is_so(found, 0, "", "2 entries, 2 class files: 2 read, 0 shadowed, 0 skipped\n")


def try_duplicates(place):
    """Tries files of one name. A virtual machine reads the last one of a jar, and that of the first entry."""
    old, new = (place.bytes(f"{build}/lib/Store") for build in ("old", "new"))
    place.jar("last-old.jar", ("lib/Store.class", new), ("lib/Store.class", old))
    place.jar("last-new.jar", ("lib/Store.class", old), ("lib/Store.class", new))
    for name in ("last-old.jar", "last-new.jar"):
        yield place.agrees(f"classes:{name}")
    yield place.agrees("last-old.jar:last-new.jar:classes")
    found = place.run("classes:last-old.jar:new:old")
    yield is_so(found, 0, "", "4 entries, 5 class files: 2 read, 3 shadowed, 0 skipped\n")
    yield is_so(place.run("classes:old:classes:./old"), 0, "", "2 entries, 2 class files: 2 read, 0 shadowed, 0 skipped\n")


def try_wildcards(place):
    place.store("a/store.jar", "old")
    place.store("b/STORE.JAR", "old")
    place.store("c/store.zip", "old")
    place.store("d/inside/store.jar", "old")
    place.jar("d/none.jar")
    place.store("e/store.Jar", "old")
    place.jar("c/none.jar")
    place.jar("e/none.jar")
    for class_path in ("classes:a/*", "b/*:classes", "classes:c/*", "classes:d/*", "classes:e/*", "new:a/*:classes",
                       "a/*:new:classes"):
        yield place.agrees(class_path)
    place.store("f/1.jar", "new")
    place.store("f/2.jar", "old")
    yield is_so(place.run("classes:f/*"), 1, ".* NoMethod lib/Store\n", "3 entries")
    shutil.copytree(place.folder / "classes", place.folder / "a" / "classes")
    yield place.agrees("classes:*", place="a")
    place.path("none").mkdir()
    yield fails(place.run("classes:none/*"), "none/*")
    yield fails(place.run("classes:nowhere/*"), "nowhere/*: ")


def try_names(place):
    """Tries names with blanks or non-ASCII letters, empty elements, and links."""
    place.store("my lib/a store.jar", "old")
    shutil.copytree(place.folder / "classes", place.folder / "my app" / "classes")
    shutil.copytree(place.folder / "new", place.folder / "my app" / "new")
    yield place.agrees("my app/classes:my lib/*")
    yield place.agrees("my app/new:my app/classes:my lib/a store.jar")
    place.store("größe/größe.jar", "old")
    yield place.agrees("classes:größe/größe.jar")
    shutil.copytree(place.folder / "old", place.folder / "my app" / "classes", dirs_exist_ok=True)
    yield place.agrees(":../new", place="my app/classes")
    yield place.agrees("../../new:", place="my app/classes")
    place.write("my app/classes/app/Cut.class", b"\xca\xfe\xba\xbe\0\0\0\x34")
    yield is_so(place.run("", place="my app/classes"), 2, "", "[--java FILE]")
    yield is_so(place.run(":", place="my app/classes"), 1, r"\./app/Cut\.class: unreadable \d \w+\n")
    place.jar("my lib/cut.jar", ("app/Cut.class", b"no class file"))
    lines = r"my app/classes/app/Cut\.class: unreadable \d \w+\nmy lib/cut\.jar!app/Cut\.class: unreadable 1 Magic\n"
    yield is_so(place.run("my app/classes:my lib/cut.jar"), 1, lines, "1 shadowed")
    yield is_so(place.run("my lib/cut.jar:classes:old/"), 1, r"my lib/cut\.jar!app/Cut\.class: unreadable 1 Magic\n")
    place.path("links/app").mkdir(parents=True)
    place.path("links/app/Main.class").symlink_to(place.folder / "classes/app/Main.class")
    place.path("links/lib").symlink_to(place.folder / "old/lib")
    place.path("links/loop").symlink_to(place.folder / "links")
    yield place.agrees("links")
    place.path("link.jar").symlink_to("my lib/a store.jar")
    yield place.agrees("classes:link.jar")


def try_damaged(place):
    """Tries entries that are missing or damaged. The script names the entry and has status 3."""
    whole = (place.folder / place.store("whole.jar", "old")).read_bytes()
    place.path("link.jar").symlink_to("nowhere.jar")
    place.path("link").symlink_to("nowhere")
    shutil.copytree(place.folder / "old", place.folder / "dangling")
    place.path("dangling/lib/Gone.class").symlink_to("nowhere.class")
    place.write("empty.jar", b"")
    place.write("text.jar", b"no jar\n" * 100)
    place.write("cut.jar", whole[:-30])
    at = whole.index(b"Store.class") + 60
    place.write("changed.jar", whole[:at] + bytes([whole[at] ^ 0xff]) + whole[at + 1:])
    for name in ("missing.jar", "missing/classes", "link.jar", "link", "empty.jar", "text.jar", "cut.jar", "changed.jar"):
        yield fails(place.run(f"classes:{name}:old"), f"{name}: ")
    yield fails(place.run("classes:dangling"), "dangling/lib/Gone.class: a link that leads nowhere")
    place.jar("large.jar", ("a/Large.class", b"\xca\xfe\xba\xbe\0\0\0\x34" + bytes(1 << 24)))
    yield fails(place.run("large.jar"), "large.jar!a/Large.class", "16777216")


def try_escapes(place):
    """Tries jars whose entries would be written outside the folder. The script refuses them and writes nothing there."""
    data = place.bytes("classes/app/Main")
    outside = place.folder.parent / f"{place.folder.name}-outside"
    for path in ("../Out.class", "../" * 12 + f"{outside}/Out.class".lstrip("/"), f"{outside}/Out.class",
                 "a/../../Out.class", "a/../Out.class", "./Out.class", "a//Out.class"):
        place.jar("bad.jar", ("app/Main.class", data), (path, data))
        yield fails(place.run("--keep", "kept/tree", "old:bad.jar"), "bad.jar: ", path)
        yield not list(place.folder.rglob("Out.class")) and not outside.exists()
        yield not list((place.folder / "kept" / "tree").iterdir())
    place.jar("text.jar", ("../Out.txt", b""), ("lib/Store.class", place.bytes("old/lib/Store")))
    yield is_so(place.run("classes:text.jar"), 0, "")


def try_versions(place):
    """Tries class files of other versions. They are counted for each entry, and their packages are outside."""
    of_11, of_5 = (place.bytes("old/lib/Store", version) for version in (JAVA_11, JAVA_5))
    place.jar("11.jar", ("lib/Store.class", of_11))
    place.jar("5.jar", ("lib/Store.class", of_5))
    place.jar("many.jar", ("lib/Store.class", of_11), ("lib/A.class", of_11), ("lib/B.class", of_5))
    line = "{}.jar: 1 class file of version {} is not read\n2 entries, 2 class files: 1 read, 0 shadowed, 1 skipped\n"
    yield is_so(place.run("classes:11.jar"), 0, "", line.format("11", "55 (Java 11)"))
    yield is_so(place.run("classes:5.jar"), 0, "", line.format("5", "49 (Java 5)"))
    line = "many.jar: 1 class file of version 49 (Java 5), 2 of version 55 (Java 11) are not read\n"
    yield is_so(place.run("classes:many.jar"), 0, "", line)
    place.jar("two.jar", ("lib/Store.class", of_11), ("lib/A.class", of_11))
    yield is_so(place.run("classes:two.jar"), 0, "", "two.jar: 2 class files of version 55 (Java 11) are not read\n")
    # A virtual machine reads the first file of a name, whatever its version is.
    yield is_so(place.run("classes:11.jar:new"), 0, "", "3 class files: 1 read, 1 shadowed, 1 skipped")
    yield is_so(place.run("classes:new:11.jar"), 1, ".* NoMethod lib/Store\n", "3 class files: 2 read, 0 shadowed, 1 skipped")
    # A reference to a missing class is an error, even if its package has classes that are not read.
    yield is_so(place.run("classes:11.jar:user"), 0, "")
    yield is_so(place.run("classes:11.jar:other:user"), 1, "(app/User.* NoClass lib/Lost\n)+")
    yield fails(place.run("11.jar:5.jar"), "no class file is read")


def covered_by(place, entries, *words):
    """Returns the prefixes of a class path with these entries of Java 11 class files, and standard error."""
    data = place.bytes("old/lib/Store", JAVA_11)
    place.jar("unread.jar", *((f"{name}.class", data) for name in entries))
    shutil.rmtree(place.folder / "kept", ignore_errors=True)
    _, _, err = place.run("--keep", "kept", *words, "unread.jar:classes:other")
    return place.path("kept/outside").read_text().splitlines(), err


def try_prefixes(place):
    """Tries the prefixes: at most 64 cover the classes that are not read, and none covers a class that is read."""
    read, usual = ("app/Main", "lib/Other"), covered_by(place, [])[0]
    cases = [
        [f"p{at % 9}/q{at % 40}/C{at}" for at in range(400)],
        [f"lib/C{at}" for at in range(300)],
        ["app/a/X", "app/a/b/Y", "app/Mai", "lib/Othe", "lib/O/X"],
        ["NoPackage", "lib/Store", "lib/Store$Inner"],
        ["x" * 120 + "/" + "y" * 120 + "/" + "z" * 120],
    ]
    for names in cases:
        found, err = covered_by(place, names)
        left = {name for name in names if not name.startswith(tuple(found))}
        right = len(found) <= 64 and set(usual) <= set(found) and not any(name.startswith(tuple(found)) for name in read)
        right &= left <= {"app/Mai", "lib/Othe", names[0] if len(names[0]) > 256 else ""}
        right &= bool(left) == ("no prefix is left" in err) and all(name[:name.rfind("/") + 1] in err for name in left)
        if not right:
            print(names[:9], found, left, err)
        yield right
    # Few packages have a prefix each.
    found, _ = covered_by(place, ["com/a/X", "com/a/Y", "com/b/Z", "lib/Store", "lib/Store$Inner"])
    yield set(found) - set(usual) == {"com/a/", "com/b/", "lib/Store"}
    words = [f"--outside={chr(97 + at % 26)}{at}/" for at in range(64 - len(usual))]
    found, err = covered_by(place, ["com/a/X", "d/X"], *words)
    yield len(found) == 64 and "no prefix is left for 2 class files that are not read, of com/a/ d/: references" in err
    yield is_so(place.run(*words, "--outside", "z/z/", "classes:old"), 2, "", "64")
    yield is_so(place.run(*words, "--outside", words[0][10:] + "z/", "classes:old"), 0, "")


def try_empty(place):
    place.path("empty").mkdir()
    place.jar("none.jar", ("readme.txt", b""))
    of_9 = place.bytes("old/lib/Store", 53)
    multi = [("META-INF/versions/9/lib/Store.class", of_9), ("module-info.class", of_9)]
    place.jar("multi.jar", *multi)
    yield is_so(place.run("classes:old:empty:none.jar"), 0, "", "4 entries, 2 class files: 2 read")
    for class_path in ("empty", "none.jar", "empty:none.jar", "multi.jar"):
        yield fails(place.run(class_path), "no class file is read")
    yield fails(place.run("--java", CT_SYM, "none.jar"), "no class file is read")
    place.jar("multi.jar", *multi, ("lib/Store.class", place.bytes("new/lib/Store")))
    yield is_so(place.run("classes:multi.jar"), 1, ".* NoMethod lib/Store\n", "2 class files: 2 read, 0 shadowed, 0 skipped")
    yield "not read" not in place.run("classes:multi.jar")[2]
    place.jar("inside.jar", ("lib/store.jar", b""), ("store.JAR", b""), ("lib/Store.class", place.bytes("old/lib/Store")))
    yield is_so(place.run("classes:inside.jar"), 0, "", "inside.jar: 2 jars in it are not read\n")
    shutil.copytree(place.folder / "old", place.folder / "tree" / "META-INF" / "versions" / "9")
    shutil.copytree(place.folder / "classes", place.folder / "tree", dirs_exist_ok=True)
    yield place.agrees("tree")
    yield is_so(place.run("tree"), 1, "(.* NoClass lib/Store\n)+", "1 class file: 1 read")


def try_manifests(place):
    """Tries manifests. The entries that one names follow its jar, and are relative to the file that a link leads to."""
    place.store("dep/old.jar", "old")
    place.store("dep/a new.jar", "new")
    shutil.copytree(place.folder / "old", place.folder / "dep" / "tree")
    for at, urls in enumerate(["old.jar", "a%20new.jar old.jar", "old.jar a%20new.jar", "missing.jar tree/", "tree", "../old/",
                               "old.jar\r\n  a%20new.jar", "a%20new.j\n ar", f"{place.folder}/dep/old.jar"]):
        place.jar(f"dep/names{at}.jar", manifest=f"Class-Path: {urls}")
        yield place.agrees(f"classes:dep/names{at}.jar")
        yield place.agrees(f"dep/names{at}.jar:new:classes")
        place.path(f"link{at}.jar").symlink_to(f"dep/names{at}.jar")
        yield place.agrees(f"classes:link{at}.jar:dep/a new.jar")
    place.jar("dep/chain.jar", manifest="Class-Path: names0.jar chain.jar")
    yield place.agrees("classes:dep/chain.jar:new")
    yield is_so(place.run("classes:dep/chain.jar:dep/old.jar"), 0, "", "4 entries, 2 class files")
    found = place.run("classes:dep/names3.jar")
    yield is_so(found, 0, "", "dep/names3.jar: its manifest names missing.jar: not there\n")


def try_java(place):
    """Tries --java with each kind of file. The API of Java 8 is the first entry; its own errors are not printed."""
    line = FLIP + r"method java/nio/ByteBuffer\.flip:\(\)Ljava/nio/ByteBuffer; -> error 7 NoMethod java/nio/ByteBuffer\n"
    yield is_so(place.run("flip:unsafe"), 0, "")
    yield is_so(place.run("--java", CT_SYM, "flip:unsafe"), 1, line, "2 entries, 2 class files: 2 read")
    api = place.path("api")
    subprocess.run([sys.executable, common.TOP / "examples" / "api.py", "8", CT_SYM, api], check=True)
    yield is_so(place.run(f"--java={api}", "flip:unsafe"), 1, line)
    # An rt.jar has sun/misc/Unsafe, and there are other jars in its folder. Here it also has a class with an error.
    place.write("api/sun/misc/Unsafe.class", common.class_file(b"sun/misc/Unsafe"))
    broken = place.bytes("user/app/User").replace(b"\0\x08app/User", b"\0\x08sun/User")
    place.write("api/sun/User.class", broken)
    shutil.make_archive(place.folder / "rt", "zip", api)
    place.path("rt.zip").rename(place.path("jdk/rt.jar"))
    place.jar("jdk/jce.jar", ("lib/Lost.class", place.bytes("lost/lib/Lost")))
    no_method = r"app/Unsafe.* method sun/misc/Unsafe\.allocateMemory:\(J\)J -> error 7 NoMethod sun/misc/Unsafe\n"
    yield is_so(place.run("--java", api, "flip:unsafe"), 1, line + no_method)
    yield is_so(place.run("--java", "jdk/rt.jar", "flip:unsafe"), 1, line + no_method)
    yield is_so(place.run("--java", api, "user:other"), 1, "(app/User.* NoClass lib/Lost\n)+")
    yield is_so(place.run("--java", "jdk/rt.jar", "user:other"), 0, "")
    # A class nested in a class of Java is one of Java's own.
    nested = [(f"{name}.class", place.bytes("user/app/User").replace(b"\0\x08app/User", bytes([0, len(name)]) + name.encode()))
              for name in ("java/nio/file/Path$X", "java/nio/file/Road$X")]
    place.jar("nested.jar", *nested)
    yield is_so(place.run("--java", CT_SYM, "nested.jar:flip"), 1, line + r"(java/nio/file/Road\$X.* NoClass lib/Lost\n)+")
    # A class of the class path that Java also has is shadowed.
    place.jar("own.jar", ("java/nio/ByteBuffer.class", common.class_file(b"java/nio/ByteBuffer")))
    yield is_so(place.run("--java", CT_SYM, "own.jar:flip"), 1, line, "2 entries, 2 class files: 1 read, 1 shadowed, 0 skipped")
    for name in ("missing.sym", "missing.jar", "old", "own.jar"):
        yield fails(place.run("--java", name, "classes:old"), name)
    yield fails(place.run("--java", place.write("text.sym", b"text"), "classes:old"), "text.sym")


def try_outside(place):
    """Tries runs without --java. The packages of Java 8 that its ct.sym has are outside, and no others."""
    packages = set()
    for name in zipfile.ZipFile(CT_SYM).namelist():
        releases, *path = name.split("/")
        if "8" in releases and name.endswith(".sig"):
            packages.add("/".join(path[1 if "." in path[0] else 0:-1]) + "/")
    place.run("--keep", "kept", "classes:old")
    prefixes = place.path("kept/outside").read_text().splitlines()
    own = {"javax/smartcardio/", "sun/"}
    yield all(package.startswith(tuple(prefixes)) for package in packages - {"org/"})
    yield {prefix for prefix in prefixes if not any(package.startswith(prefix) for package in packages)} == own
    names = ["java/lang/X", "javax/swing/X", "javax/xml/parsers/X", "javax/crypto/X", "javax/security/auth/X", "org/w3c/dom/X",
             "org/xml/sax/X", "org/ietf/jgss/X", "org/omg/X", "sun/misc/X", "com/sun/X", "jdk/X"]
    others = ["javax/servlet/X", "javax/inject/X", "javax/ejb/X", "org/w3c/X", "com/X", "org/X", "javax/security/jacc/X"]
    place.path("many/app").mkdir(parents=True)
    for at, name in enumerate(names + others):
        data = place.bytes("user/app/User").replace(b"\0\x08lib/Lost", len(name).to_bytes(2, "big") + name.encode())
        text = f"app/U{at:03}".encode()
        place.write(f"many/{text.decode()}.class", data.replace(b"\0\x08app/User", b"\0\x08" + text))
    found = place.run("many")
    yield is_so(found, 1, "(app/U.* NoClass .*\n)+") and {line.split()[-1] for line in found[1].splitlines()} == set(others)
    found = place.run("--outside", "javax/", "--outside=com/", "many")
    kept = {"org/w3c/X", "org/X"}
    yield is_so(found, 1, "(app/U.* NoClass .*\n)+") and {line.split()[-1] for line in found[1].splitlines()} == kept


def try_only(place):
    place.write("bad/app/Cut.class", b"no class file")
    place.write("bad/lib/Cut.class", b"no class file")
    place.jar("cut.jar", ("app/Cut2.class", b"no class file"))
    both = "classes:user:other:bad:cut.jar"
    main, user = rf"({MAIN}.* NoClass lib/Store\n){{2}}", r"(app/User.* NoClass lib/Lost\n){2}"
    paths = (r"bad/app/Cut\.class", r"bad/lib/Cut\.class", r"cut\.jar!app/Cut2\.class")
    app, lib, jar = (rf"{path}: unreadable 1 Magic\n" for path in paths)
    for words, out in (("", app + lib + jar + main + user), ("--only app/", app + jar + main + user), ("--only=lib/", lib),
                       ("--only app/Main", main), ("--only lib/ --only app/U", lib + user), ("--only app/Cut.", app),
                       ("--only app/ --outside lib/", app + jar)):
        yield is_so(place.run(*words.split(), both), 1, out)
    for word in ("none/", "0", "app.lib"):
        yield fails(place.run("--only", word, both), "a prefix has slashes") and f"--only {word}: " in place.run("--only", word, both)[2]
    yield is_so(place.run("--only", "lib/", "old"), 0, "")
    # A prefix that is the prefix of no path is named.
    yield is_so(place.run("--only", "app.", "--only", "lib/", both), 1, lib, "--only app.: no class file")
    yield "--only" not in place.run("--only", "app/", both)[2]
    # A reference that no code uses is not printed.
    place.path("outer/app/Outer$Inner.class").unlink()
    command = [common.JCLINK, "check", "--errors", place.folder / "outer"]
    unused = subprocess.run(command, capture_output=True, text=True, check=False)
    yield is_so((unused.returncode, unused.stdout, ""), 1, r"app/Outer.* \(unused\)\n")
    yield is_so(place.run("outer"), 0, "")


def try_keep(place):
    place.store("lib/old.jar", "old")
    found = place.run("--keep", "kept/tree", "classes:lib/*:new")
    yield is_so(found, 0, "")
    yield place.path("kept/tree/entries").read_text() == "classes/\nlib/old.jar!\nnew/\n"
    report = subprocess.run([common.JCLINK, "check", "kept/tree"], cwd=place.folder, capture_output=True, text=True, check=False)
    files = "000/app/Main.class: class app/Main\n001/lib/Store.class: class lib/Store\n"
    shadowed = "002/lib/Store.class: shadowed lib/Store by 001/lib/Store.class\n"
    yield report.stdout.startswith("[files]\n" + files + shadowed + "[parts]\n")
    yield not place.path("kept/tree/000/app/Main.class").samefile(place.path("classes/app/Main.class"))
    yield fails(place.run("--keep", "kept/tree", "classes"), "kept/tree")
    place.path("empty").mkdir()
    yield is_so(place.run("--keep", "empty", "new:classes"), 1, ".* NoMethod .*\n")
    yield (place.folder / "empty/001/app/Main.class").is_file()
    temporary = place.path("temporary")
    temporary.mkdir()
    yield is_so(place.run("new:classes", TMPDIR=str(temporary)), 1, ".* NoMethod .*\n") and not list(temporary.iterdir())
    yield fails(place.run("missing", TMPDIR=str(temporary)), "missing") and not list(temporary.iterdir())
    yield place.path("classes/app/Main.class").stat().st_nlink == 1


def try_arguments(place):
    usage = "classpath.sh [--java FILE] [--only PREFIX]... [--outside PREFIX]... [--keep DIR] CLASSPATH\n"
    for words in ((), ("--java",), ("--only", "a/"), ("--unknown", "classes"), ("classes", "old"), ("--only=", "classes"),
                  ("--outside", "", "classes"), ("--keep=", "classes"), ("-x", "classes"), ("--",), ("",)):
        yield is_so(place.run(*words), 2, "", usage)
    yield is_so(place.run("--", "classes:old"), 0, "")
    yield is_so(place.run("--outside", "x" * 257, "classes:old"), 2, "", "jclink: usage")
    for status in (2, 3, 4, 70):
        program = place.path("program")
        program.write_text(f"#!/bin/sh\necho 'a line'\necho 'a reason' >&2\nexit {status}\n")
        program.chmod(0o755)
        yield is_so(place.run("classes:old", JCLINK=str(program)), status, "", "a reason\n")


def compile_sources(folder):
    """Compiles SOURCES: each into the folder that its name begins with, and app/Main into `classes`."""
    for name, text in SOURCES.items():
        source = folder / "sources" / f"{name}.java"
        source.parent.mkdir(parents=True)
        source.write_text(text)
    for name in SOURCES:
        source = folder / "sources" / f"{name}.java"
        out = folder / "made" / ("classes" if name == "app/Main" else name.split("/")[0])
        more = [folder / "sources" / "old", folder / "sources" / "lost"]
        path = ":".join(map(str, more))
        # (flip and unsafe name members that a JDK has and the API of Java 8 lacks)
        release = ["-source", "8", "-target", "8"] if name[:4] in ("flip", "unsa") else ["--release", "8"]
        command = ["javac", "-nowarn", "-Xlint:-options", "-implicit:none", *release, "-sourcepath", path, "-d", out, source]
        subprocess.run(command, check=True, stderr=subprocess.DEVNULL)
    return folder / "made"


def main():
    trials = (try_order, try_duplicates, try_wildcards, try_names, try_damaged, try_escapes, try_versions, try_prefixes, try_empty,
              try_manifests, try_java, try_outside, try_only, try_keep, try_arguments)
    right = []
    with common.Workplace() as sources:
        made = compile_sources(sources)
        for trial in trials:
            with common.Workplace() as folder:
                found = list(trial(Place(folder, made)))
            print(f"{trial.__name__}: {len(found)}, {found.count(False)} differ", flush=True)
            right += found
    print(f"{len(right)} cases, {right.count(False)} differ")
    sys.exit(0 if right and all(right) else 1)


if __name__ == "__main__":
    main()
