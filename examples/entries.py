#!/usr/bin/env python3
"""Copies the entries of a class path into numbered folders of one tree, for classpath.sh.

Usage: entries.py [--java FILE] [--outside PREFIX]... [--copy] TREE CLASSPATH

TREE is an empty folder. Each entry gets a folder with its class files: 000, 001, .., so that the order of paths is the
order of the class path. With --java the first folder has the API of Java 8. Class files of a folder are hard links if
possible; with --copy they are copies. The file TREE/entries has a line for each folder: the text that replaces its number
when a path is shown. TREE/outside has the outside prefixes, one on each line. classpath.sh describes the rules.

Status 2: too many prefixes. 3: an entry cannot be read, or the tree cannot be written.
"""
import argparse
import bisect
import os
import pathlib
import re
import resource
import shutil
import subprocess
import sys
import urllib.parse
import zipfile

READ = {51, 52}
MAX_PREFIXES, MAX_PREFIX, MAX_FILES, MAX_FILE = 64, 256, 65535, 16777216
JAR = (".jar", ".JAR")
# The packages of Java 8. Those of java/, javax/ and org/ are in the API specification of Java SE 8, and in lib/ct.sym for
# --release 8. javax/smartcardio/, sun/, com/sun/ and jdk/ are the JDK's own.
JAVA = """java/ javax/accessibility/ javax/activation/ javax/activity/ javax/annotation/ javax/crypto/ javax/imageio/ javax/jws/
    javax/lang/model/ javax/management/ javax/naming/ javax/net/ javax/print/ javax/rmi/ javax/script/ javax/security/auth/
    javax/security/cert/ javax/security/sasl/ javax/smartcardio/ javax/sound/ javax/sql/ javax/swing/ javax/tools/
    javax/transaction/ javax/xml/ org/ietf/jgss/ org/omg/ org/w3c/dom/ org/xml/sax/ sun/ com/sun/ jdk/""".split()
# The packages of Java 8 that its ct.sym lacks.
NOT_IN_CT_SYM = ["sun/", "com/sun/", "jdk/net/", "javax/smartcardio/"]
# The jars beside rt.jar in which a JDK 8 has other classes of its own.
BESIDE_RT = ["jsse.jar", "jce.jar", "charsets.jar", "jfr.jar"]


class Failure(Exception):
    """An entry that cannot be read."""


class Folder:
    """A folder of class files."""

    def __init__(self, shown):
        self.path, self.shown, self.name = shown, shown.rstrip("/") + "/", shown
        self.hidden = self.jars = 0
        self.advice = f"; to read them, write {self.shown}*"

    def class_files(self):
        return self.below("", ())

    def below(self, prefix, above):
        """Yields the path of each class file, and the file. Follows links, except a link to a folder that contains it."""
        folder = os.path.join(self.path, prefix)
        seen = os.stat(folder)
        if (seen.st_dev, seen.st_ino) in above:
            return
        for found in sorted(os.scandir(folder), key=lambda found: found.name):
            if found.is_dir():
                yield from self.below(prefix + found.name + "/", (*above, (seen.st_dev, seen.st_ino)))
            elif is_class_file(prefix + found.name):
                if found.is_file():
                    yield prefix + found.name, found.path
                elif not os.path.exists(found.path):
                    raise Failure(f"{self.shown}{prefix}{found.name}: a link that leads nowhere")
            elif not prefix and found.name.endswith(JAR):
                self.jars += 1

    def version(self, file):
        with open(file, "rb") as opened:
            return version_of(opened.read(8))

    def size(self, file):
        return os.stat(file).st_size

    def put(self, file, to, copy):
        if not copy:
            try:
                os.link(os.path.realpath(file), to)
                return
            except OSError:
                pass
        shutil.copyfile(file, to)


class Jar:
    """A jar. If several entries have one name, the last one counts, as in a virtual machine."""

    def __init__(self, shown):
        self.path, self.shown, self.name = shown, shown + "!", shown
        self.archive = zipfile.ZipFile(shown)
        infos = [info for info in self.archive.infolist() if is_class_file(info.filename)]
        self.files = {utf8_name(info): info for info in infos}
        self.hidden = len(infos) - len(self.files)
        self.jars = sum(name.endswith(JAR) for name in self.archive.namelist())
        self.advice = ""

    def class_path(self):
        """Returns the URLs in the manifest's Class-Path."""
        try:
            manifest = self.archive.read("META-INF/MANIFEST.MF").decode("utf-8", "replace")
        except KeyError:
            return []
        main = re.sub(r"\r\n?", "\n", manifest).replace("\n ", "").split("\n\n")[0]
        found = re.search(r"^Class-Path: *(.*)", main, re.M | re.I)
        return found[1].split() if found else []

    def class_files(self):
        for path, info in self.files.items():
            if {"", ".", ".."} & set(path.split("/")):
                raise Failure(f"{self.name}: the entry {path} is refused: it is no plain relative path")
            yield path, [info, None]

    def version(self, file):
        file[1] = self.archive.read(file[0]) if file[0].file_size <= MAX_FILE else b""
        return version_of(file[1])

    def size(self, file):
        return file[0].file_size

    def put(self, file, to, _):
        with open(to, "xb") as opened:
            opened.write(file[1])


def utf8_name(info):
    """Returns the name of an entry. Java also reads names without the UTF-8 flag as UTF-8."""
    if info.filename.isascii() or info.flag_bits & 0x800:
        return info.filename
    return info.filename.encode("cp437").decode("utf-8", "surrogateescape")


def is_class_file(path):
    return path.endswith(".class") and not path.startswith("META-INF/versions/") and path != "module-info.class"


def version_of(head):
    """Returns the major version, or None if a class file does not begin with these bytes."""
    return int.from_bytes(head[6:8], "big") if head[:4] == b"\xca\xfe\xba\xbe" and len(head) >= 8 else None


def elements_of(class_path):
    """Yields the elements. Replaces a wildcard by the jars of its folder."""
    for element in class_path.split(":"):
        if element != "*" and not element.endswith("/*") or os.path.exists(element):
            yield element or "."
            continue
        names = guarded(element, lambda folder=element[:-1] or ".": os.listdir(folder))
        jars = [name for name in names if name.endswith(JAR) and ":" not in name]
        if not jars:
            raise Failure(f"{element}: there is no jar")
        yield from (element[:-1] + name for name in sorted(jars))


def open_entry(shown):
    if os.path.isdir(shown):
        return Folder(shown)
    if os.path.isfile(shown):
        return Jar(shown)
    if os.path.islink(shown):
        raise Failure(f"{shown}: a link that leads nowhere")
    wildcard = os.path.join(os.path.dirname(shown), "*")
    advice = f"; for all jars of a folder, write {wildcard}" if shown.endswith(("*.jar", "*.JAR")) else ""
    raise Failure(f"{shown}: there is no such file or folder{advice}")


def named_by(jar):
    """Returns the files and folders that a jar's manifest names and that exist. Prints the other names.

    As in a virtual machine, the names are relative to the file that a link leads to.
    """
    place, shown, found, missing = os.path.dirname(os.path.realpath(jar.path)), os.path.dirname(jar.path), [], []
    if os.path.realpath(shown or ".") != place:
        shown = place
    for url in jar.class_path():
        path = urllib.parse.unquote(url)
        is_there = os.path.isdir if path.endswith("/") else os.path.isfile
        if ":" not in url and is_there(os.path.join(place, path)):
            found.append(os.path.join(shown, path))
        else:
            missing.append(url)
    if missing:
        print(f"{jar.name}: its manifest names {' '.join(missing)}: not there", file=sys.stderr)
    return found


def entries_of(class_path):
    """Yields each entry once, in the order in which a virtual machine searches them: the entries that the manifest of a jar
    names follow the jar."""
    seen, left = set(), list(elements_of(class_path))[::-1]
    given = {os.path.realpath(element): element for element in left}
    while left:
        shown = left.pop()
        real = os.path.realpath(shown)
        if real in seen:
            continue
        seen.add(real)
        shown = given.get(real, shown)
        entry = guarded(shown, lambda: open_entry(shown))
        yield entry
        if isinstance(entry, Jar):
            left += guarded(shown, lambda: named_by(entry))[::-1]


def guarded(shown, call):
    """Returns the value of the call. For a damaged jar zipfile raises many kinds of errors."""
    try:
        return call()
    except Failure:
        raise
    except Exception as error:
        raise Failure(f"{shown}: {getattr(error, 'strerror', None) or error or type(error).__name__}") from error


class Tree:
    """The tree: which classes are read from its files, and which are not read."""

    def __init__(self, top, copy):
        self.top, self.copy = top, copy
        self.read, self.unread, self.folders = set(), set(), set()
        self.files = self.shadowed = self.skipped = self.laid_out = 0

    def put(self, entry, folder):
        """Copies an entry. A shadowed file is in the tree too, unless the file that shadows it is not read."""
        versions = {}
        self.files += entry.hidden
        self.shadowed += entry.hidden
        for path, file in entry.class_files():
            self.files += 1
            name, version = path.removesuffix(".class"), entry.version(file)
            if version is not None and version not in READ:
                versions[version] = versions.get(version, 0) + 1
                if name not in self.read:
                    self.unread.add(name)
            elif name in self.unread or name in self.read:
                self.shadowed += 1
                if name in self.read:
                    self.write(entry, file, folder, path)
            else:
                self.read.add(name)
                self.write(entry, file, folder, path)
        self.skipped += sum(versions.values())
        if versions:
            print(f"{entry.name}: {skipped_text(versions)} not read", file=sys.stderr)
        if entry.jars:
            print(f"{entry.name}: {counted(entry.jars, 'jar in it is', 'jars in it are')} not read{entry.advice}", file=sys.stderr)

    def write(self, entry, file, folder, path):
        if entry.size(file) > MAX_FILE:
            raise Failure(f"{entry.shown}{path}: it has more than {MAX_FILE} bytes")
        if "\n" in path:
            raise Failure(f"{entry.shown}{path!r}: its name has a line end")
        to = f"{self.top}/{folder}/{path}"
        above = os.path.dirname(to)
        if above not in self.folders:
            os.makedirs(above, exist_ok=True)
            self.folders.add(above)
        if not os.path.lexists(to):
            self.laid_out += 1
            if self.laid_out > MAX_FILES:
                raise Failure(f"there are more than {MAX_FILES} class files")
            entry.put(file, to, self.copy)


def skipped_text(versions):
    """Returns, for example, `3 class files of version 50 (Java 6), 212 of version 55 (Java 11) are`."""
    texts = []
    for version, count in sorted(versions.items()):
        java = f"{version - 44}" if version > 48 else f"1.{version - 44}"
        noun = "" if texts else " class file" if count == 1 else " class files"
        texts.append(f"{count}{noun} of version {version}" + (f" (Java {java})" if version >= 45 else ""))
    return ", ".join(texts) + (" is" if sum(versions.values()) == 1 else " are")


def covers_any(prefix, names):
    """Returns whether one of the sorted names begins with the prefix."""
    at = bisect.bisect_left(names, prefix)
    return at < len(names) and names[at].startswith(prefix)


def without_covered(prefixes):
    """Returns the prefixes, sorted, that do not begin with another one."""
    kept = []
    for prefix in sorted(set(prefixes)):
        if not kept or not prefix.startswith(kept[-1]):
            kept.append(prefix)
    return kept


def prefixes_of(unread, read, room):
    """Returns at most `room` prefixes that cover unread classes and no class that is read, and the unread classes that are left.

    The prefix of a package covers its classes if no class below it is read. Otherwise each class has its own prefix. If there are
    too many prefixes, the longest common prefixes replace those that begin with them.
    """
    read, found = sorted(read), []
    for name in unread:
        package = name[:name.rfind("/") + 1]
        prefix = name if not package or covers_any(package, read) else package
        if not covers_any(prefix, read) and len(os.fsencode(prefix)) <= MAX_PREFIX:
            found.append(prefix)
    found = without_covered(found)
    if len(found) > room:
        common = [os.path.commonprefix(pair) for pair in zip(found, found[1:])]
        common = [prefix for prefix in common if "/" in prefix and not covers_any(prefix, read)]
        common.sort(key=len, reverse=True)
        found = without_covered(found + common[:len(found) - room])
    if len(found) > room:
        names = sorted(unread)
        count = {prefix: sum(1 for name in names if name.startswith(prefix)) for prefix in found}
        found = sorted(found, key=count.get, reverse=True)[:max(room, 0)]
    return sorted(found), [name for name in unread if not name.startswith(tuple(found))]


def put_java(tree, file, folder):
    """Copies the API of Java 8, and returns the prefixes of its packages that the file lacks."""
    if file.endswith(".sym"):
        program = pathlib.Path(__file__).resolve().with_name("api.py")
        done = subprocess.run([sys.executable, program, "8", file, f"{tree.top}/{folder}"], check=False)
        if done.returncode == 0:
            tree.read = {path.removesuffix(".class") for path, _ in Folder(f"{tree.top}/{folder}").class_files()}
            tree.laid_out = len(tree.read)
    else:
        beside = [os.path.join(os.path.dirname(file), name) for name in BESIDE_RT] if os.path.basename(file) == "rt.jar" else []
        for path in [file, *filter(os.path.isfile, beside)]:
            entry = guarded(path, lambda path=path: open_entry(path))
            guarded(path, lambda entry=entry: tree.put(entry, folder))
    if "java/lang/Object" not in tree.read:
        raise Failure(f"{file}: it has no API of Java 8")
    tree.files = tree.shadowed = tree.skipped = 0
    return [] if "sun/misc/Unsafe" in tree.read else NOT_IN_CT_SYM


def counted(count, one, several):
    """Returns, for example, `1 entry` or `2 entries`."""
    return f"{count} {one if count == 1 else several}"


def lay_out(options):
    """Copies all entries, prints the totals, and writes TREE/entries and TREE/outside."""
    tree, outside, shown = Tree(options.tree, options.copy), JAVA, []
    entries = list(entries_of(options.class_path))
    width = max(3, len(str(len(entries))))
    if options.java is not None:
        outside = put_java(tree, options.java, "0" * width)
        shown.append(options.java)
    java = len(tree.read)
    for entry in entries:
        guarded(entry.name, lambda entry=entry: tree.put(entry, f"{len(shown):0{width}}"))
        shown.append(entry.shown)
    read = len(tree.read) - java
    totals = f"{counted(len(entries), 'entry', 'entries')}, {counted(tree.files, 'class file', 'class files')}"
    print(f"{totals}: {read} read, {tree.shadowed} shadowed, {tree.skipped} skipped", file=sys.stderr)
    if not read:
        raise Failure("no class file is read")
    write_lines(f"{options.tree}/entries", map(escaped, shown))
    write_lines(f"{options.tree}/outside", outside_of(tree, [*outside, *options.outside]))


def escaped(path):
    """Returns a path in the form in which jclink prints it."""
    plain = re.sub(rb"[^\x20-\x7e]", lambda found: b"\\x%02x" % found[0][0], os.fsencode(path).replace(b"\\", b"\\\\"))
    return plain.decode()


def outside_of(tree, given):
    """Returns the outside prefixes: those given, and those of the classes that are not read; or one that covers nothing."""
    given = without_covered(given)
    if len(given) > MAX_PREFIXES:
        sys.exit(print(f"classpath.sh: more than {MAX_PREFIXES} outside prefixes", file=sys.stderr) or 2)
    unread = [name for name in tree.unread if not name.startswith(tuple(given))]
    added, left = prefixes_of(unread, tree.read, MAX_PREFIXES - len(given))
    if left:
        packages = sorted({name[:name.rfind("/") + 1] or "(no package)" for name in left})
        which = f"{len(left)} class files that are not read, of {' '.join(packages)}"
        print(f"no prefix is left for {which}: references to them are errors, unless --outside covers them", file=sys.stderr)
    return given + added or ["/"]


def write_lines(path, lines):
    with open(path, "w", encoding="utf-8", errors="surrogateescape") as file:
        file.writelines(line + "\n" for line in lines)


def main():
    parser = argparse.ArgumentParser()
    parser.add_argument("--java")
    parser.add_argument("--outside", action="append", default=[])
    parser.add_argument("--copy", action="store_true")
    parser.add_argument("tree")
    parser.add_argument("class_path")
    options = parser.parse_args()
    # All jars are open at the same time.
    _, most = resource.getrlimit(resource.RLIMIT_NOFILE)
    resource.setrlimit(resource.RLIMIT_NOFILE, (most, most))
    try:
        lay_out(options)
    except (Failure, OSError) as error:
        sys.exit(print(f"classpath.sh: {error}", file=sys.stderr) or 3)


if __name__ == "__main__":
    main()
