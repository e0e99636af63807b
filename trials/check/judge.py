#!/usr/bin/env python3
"""A plain judge of whole reports, written from `docs/RULES.md` and `docs/REPORT.md`.

report(files, prefixes) takes bytes by path, and returns the text of the report and whether it is wrong.
owed(files, prefixes, folder) returns what `jclink check` must print for them, also with --errors. The module uses the judges
of parsing (trials/parse), of faults (trials/views, trials/code) and of linking (trials/link). None of them shares code with
the library.

Usage: judge.py [--outside PREFIX]... DIR. It prints what `jclink check` must print, and has the status that it must have.
"""
import argparse
import os
import pathlib
import sys

sys.dont_write_bytecode = True
sys.path.insert(0, str(pathlib.Path(__file__).resolve().parent.parent))
import common

bodies, links, reader = common.load("check/bodies.py"), common.load("link/judge.py"), common.load("parse/reader.py")

STANDARD = (b"java/", b"javax/")
CLASS, FIELD, METHOD = 7, 9, 10
MISSING = ("NoClass", "NoField", "NoMethod")
MNEMONICS = {178: "getstatic", 179: "putstatic", 180: "getfield", 181: "putfield", 182: "invokevirtual", 183: "invokespecial",
             184: "invokestatic", 185: "invokeinterface", 187: "new"}


def path_text(path):
    return "".join("\\\\" if byte == 0x5c else chr(byte) if 0x20 <= byte <= 0x7e else f"\\x{byte:02x}" for byte in path)


def row(name, tag, key):
    return f"{links.KINDS[tag]} {links.shown(name)}{links.member(key or None)}"


def rows(found):
    """Returns the rows of pairs of class name, kind and member, each once. The numbers of kinds have the order of the kinds."""
    return [row(*one) for one in sorted(set(found))]


class Report:
    def __init__(self, files, prefixes):
        self.answers = {path: reader.answer(files[path]) for path in sorted(files)}
        self.names = {path: bytes.fromhex(answer[3:]) for path, answer in self.answers.items() if answer.startswith("ok ")}
        self.world = links.World([(path, files[path]) for path in self.names], tuple(prefixes))
        self.loaded = {name: record for name, record in self.world.given.items() if self.world.load(name) == links.OK}

    def file_rows(self):
        winners = {}
        for path, answer in self.answers.items():
            if path not in self.names:
                yield f"{path_text(path)}: unreadable {answer}"
                continue
            name = self.names[path]
            winner = winners.setdefault(name, path)
            what = f"class {links.shown(name)}" if winner == path else f"shadowed {links.shown(name)} by {path_text(winner)}"
            yield f"{path_text(path)}: {what}"

    def provided(self):
        for name, record in self.loaded.items():
            if not record.flags & links.PUBLIC:
                continue
            yield name, CLASS, ()
            for tag, members in ((FIELD, record.fields), (METHOD, record.methods)):
                for *key, flags in members:
                    if flags & (links.PUBLIC | links.PROTECTED) and (tag == FIELD or key[0] != b"<clinit>"):
                        yield name, tag, tuple(key)

    def resolved(self, name):
        """Yields the references of a class, each with its answer; none if the class does not load."""
        for _, tag, text, key in self.loaded[name].references if name in self.loaded else ():
            yield (text, tag, key or ()), self.world.resolve(name, tag, text, key)

    def method(self, name, number):
        """Returns the text for a method: its class, its name and its descriptor."""
        return f"{links.shown(name)}{links.member(self.world.given[name].methods[number][:2])}"

    def instruction(self, name, number, offset):
        """Returns the mnemonic and the reference of the instruction at an offset of a method."""
        record = self.world.given[name]
        opcode, index = next(use[2:] for use in record.uses if use[:2] == (number, offset))
        reference = next(one[1:] for one in record.references if one[0] == index)
        return f"{MNEMONICS[opcode]} {row(reference[1], reference[0], reference[2])}"

    def errors_of(self, name, line):
        """Returns the line of `--errors` for a line of the class's part, and whether it is marked as unused."""
        kind, *words = line.removeprefix("  ").split(" ")
        if kind == "code":
            return f"{self.method(name, int(words[1]))}: code {words[0]} {words[2]}", False
        if kind == "link":
            number, offset = int(words[0]), int(words[1])
            return f"{self.method(name, number)}: {offset}: {self.instruction(name, number, offset)} -> {' '.join(words[2:])}", False
        if not kind.startswith("#"):
            return f"{links.shown(name)}: {line.removeprefix('  ')}", False
        record, index = self.loaded[name], int(kind[1:])
        first = record.first.get(index)
        is_marked = first is None and index not in record.used
        where = links.shown(name) if first is None else self.method(name, first)
        return f"{where}: {' '.join(words)}{' (unused)' if is_marked else ''}", is_marked

    def described(self):
        """Returns how many lines of `--errors` lack the mark only because a descriptor names their class."""
        return sum(index in record.described and self.world.resolve(name, *reference)[0] == "error"
                   for name, record in self.loaded.items() for index, *reference in record.references)

    def required(self):
        for name in self.loaded:
            for reference, answer in self.resolved(name):
                if answer[0] == "Outside" or answer[0] == "error" and answer[1] in MISSING:
                    yield reference

    def text(self):
        lines = ["[files]", *self.file_rows(), "[parts]", *self.world.parts(),
                 "[provided]", *rows(self.provided()), "[required]", *rows(self.required())]
        return "".join(line + "\n" for line in lines)

    def errors(self, only, used_only=False):
        """Yields the lines of `--errors`, or only those of paths and names that begin with a prefix of `only`. With `used_only`
        it omits the marked lines."""
        is_asked = lambda text: only is None or text.startswith(tuple(only))
        for path, answer in self.answers.items():
            if path not in self.names and is_asked(path):
                yield f"{path_text(path)}: unreadable {answer}"
        for name in sorted(self.world.given):
            first, *lines = self.world.part(name)
            answers = iter(self.resolved(name))
            if name not in self.loaded:
                lines = [first.removeprefix(f"part {links.shown(name)}: "), *lines]
            if not is_asked(name):
                continue
            is_answer = lambda line: line.startswith("  #")
            yield from (self.errors_of(name, line)[0] for line in lines if not is_answer(line))
            yield from self.inheritance(name)
            yield from (bodies.line(name, *method) for method in bodies.without_body(self.world, name))
            for line in filter(is_answer, lines):
                if name in self.loaded and next(answers)[1][0] == "error":
                    text, is_marked = self.errors_of(name, line)
                    if not (used_only and is_marked):
                        yield text

    def inheritance(self, name):
        """Yields the lines of the errors of inheritance of a class; none if it does not load."""
        if name not in self.loaded:
            return
        parent = self.world.final_superclass(name)
        if parent is not None:
            yield f"{links.shown(name)}: extends FINAL {links.shown(parent)}"
        for key, other in self.world.overridden(name):
            yield f"{links.shown(name)}{links.member(key)}: overrides FINAL {links.shown(other)}{links.member(key)}"

    def is_wrong(self, name):
        record = self.world.given[name]
        return bool(name not in self.loaded or record.faults or record.code_faults or any(self.world.unlinked(name))
                    or any(answer[0] == "error" for _, answer in self.resolved(name)))

    def wrong(self):
        return len(self.names) < len(self.answers) or any(map(self.is_wrong, self.world.given))


def report(files, prefixes=STANDARD):
    """Returns the text of a report, and whether it is wrong."""
    made = Report(files, prefixes)
    return made.text(), made.wrong()


def is_word(name):
    try:
        name.decode()
    except UnicodeDecodeError:
        return False
    return True


def unread_folder(files):
    """Returns the path of the folder at which the walk ends because the name of an entry is not UTF-8, or None.

    The walk visits the entries of a folder in the order of their names, and all of a folder before the next entry.
    """
    for parts in sorted(path.split(b"/") for path in files):
        for depth, name in enumerate(parts):
            if not is_word(name):
                return b"/".join(parts[:depth])
    return None


def class_files(files):
    return {path: data for path, data in files.items() if data is not None and path.endswith(b".class")}


def owed(files, prefixes, folder, only=False, used_only=False):
    """Returns the output, status and standard error that `jclink check` must have for the files of a folder.

    With `only` (prefixes, or None for all lines) they are those of `--errors`, and with `used_only` also of `--used`.
    """
    unread = unread_folder(files)
    if unread is not None:
        return "", 3, f"jclink: cannot read {path_text(unread) or folder}\n"
    made = Report(class_files(files), prefixes or STANDARD)
    if only is False:
        return made.text(), int(made.wrong()), ""
    lines = list(made.errors(only, used_only))
    return "".join(line + "\n" for line in lines), int(bool(lines)), ""


def files_below(folder):
    """Returns the bytes of the class files below a folder by their paths. A folder, or a name that is not UTF-8, has None."""
    top, found = os.fsencode(folder), {}
    for place, folders, names in os.walk(top):
        for name in folders + names:
            path = os.path.join(place, name)
            key = os.path.relpath(path, top)
            if not is_word(name):
                found[key] = None
            elif os.path.islink(path):
                continue
            elif os.path.isdir(path):
                found[key + b"/"] = None
            elif name.endswith(b".class") and os.path.isfile(path):
                with open(path, "rb") as file:
                    found[key] = file.read()
    return found


def main():
    parser = argparse.ArgumentParser()
    parser.add_argument("--outside", action="append", metavar="PREFIX", default=[])
    parser.add_argument("folder", metavar="DIR")
    options = parser.parse_args()
    text, status, errors = owed(files_below(options.folder), list(map(os.fsencode, options.outside)), options.folder)
    print(text, end="")
    print(errors, end="", file=sys.stderr)
    sys.exit(status)


if __name__ == "__main__":
    main()
