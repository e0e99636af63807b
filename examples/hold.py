#!/usr/bin/env python3
"""Keeps a report of a folder of class files while a build changes them, and prints how the report changes.

Usage: hold.py JCLINK FOLDER [PREFIX]...

One `jclink session` runs as a coprocess in the parent of FOLDER, so that FOLDER may be removed and created again. Every
second the script compares the regular files with those of the second before, by size and time. For each added, changed or
removed file it sends a line to the session. Then it prints the lines that the report gained or lost. It ignores a file
whose path has a line end, since no line can name it.

Names that begin with a PREFIX and that no file gives are outside. Without a PREFIX these are java/ and javax/. The lines
`outside add PREFIX` and `outside drop PREFIX` of standard input change the prefixes.

It runs until it is interrupted, also after the end of its standard input. If the session ends, for example because a PREFIX
is empty, the script ends with its status. Without JCLINK or FOLDER the status is 2.
"""
import os
import pathlib
import select
import stat
import subprocess
import sys


class Session:
    def __init__(self, program, folder, prefixes):
        words = [f"--outside={prefix}" for prefix in prefixes]
        program = pathlib.Path(program).resolve()
        self.process = subprocess.Popen([program, "session", *words], cwd=folder, stdin=subprocess.PIPE, stdout=subprocess.PIPE)

    def end(self):
        """Ends with the status of the session, which has printed the reason on standard error."""
        sys.exit(self.process.wait())

    def send(self, line):
        try:
            self.process.stdin.write(line + b"\n")
            self.process.stdin.flush()
        except BrokenPipeError:
            self.end()

    def answer(self):
        line = self.process.stdout.readline()
        return line.rstrip(b"\n") if line else self.end()

    def edit(self, word, path):
        """Sends an edit, and returns its answer of one line: ok, refused or unread."""
        self.send(word + b" " + path)
        return self.answer()

    def report(self):
        """Returns the lines of the report, each after its section and, in a part, its class.

        An empty line follows the request. Its answer, `bad line`, marks the end of the report.
        """
        self.send(b"report")
        self.send(b"")
        section, part, lines = b"", b"", set()
        for line in iter(self.answer, b"bad line"):
            if line.startswith(b"["):
                section = line
            elif line.startswith(b"  "):
                lines.add(section + part + line)
            else:
                part = b" " + line.partition(b": ")[0]
                lines.add(section + b" " + line)
        return lines


def files_of(folder):
    """Returns the size and time of each regular class file, by its path from the parent folder.

    Ignores files that are removed meanwhile.
    """
    found, above = {}, bytes(folder.parent)
    for place, _, names in os.walk(bytes(folder)):
        for path in (os.path.join(place, name) for name in names if name.endswith(b".class")):
            try:
                seen = os.lstat(path)
            except OSError:
                continue
            name = os.path.relpath(path, above)
            if stat.S_ISREG(seen.st_mode) and not {b"\n"[0], b"\r"[0]} & set(name):
                found[name] = seen.st_size, seen.st_mtime_ns
    return found


def edits(old, new):
    """Yields the edits. Removed files are first, so that two files never give a class that moves."""
    for path in sorted(old.keys() - new.keys()):
        yield b"remove", path
    for path in sorted(new.keys() - old.keys()):
        yield b"add", path
    for path in sorted(new.keys() & old.keys()):
        if new[path] != old[path]:
            yield b"replace", path


class Lines:
    """Reads whole lines of standard input."""

    def __init__(self):
        self.rest, self.waits_on = b"", [sys.stdin.fileno()]

    def within_a_second(self):
        if not select.select(self.waits_on, [], [], 1)[0]:
            return []
        given = os.read(sys.stdin.fileno(), 65536)
        if not given:
            self.waits_on = []
        *lines, self.rest = (self.rest + given).split(b"\n")
        return lines


def make(session, changes, files):
    """Makes the edits. Keeps the old state of a file whose edit fails, so that the edit is tried again."""
    for word, path in changes:
        answer = session.edit(word, path)
        if answer != b"ok":
            print(answer.decode(), flush=True)
            files.pop(path, None)
            if word == b"replace":
                files[path] = None


def turn(session, lines):
    """Sends edits of prefixes to the session."""
    for line in lines:
        if not line.startswith((b"outside add ", b"outside drop ")):
            print("no edit of a prefix:", line.decode(errors="replace"), flush=True)
            continue
        session.send(line)
        answer = session.answer()
        if answer != b"ok":
            print(answer.decode(), flush=True)


def main():
    if len(sys.argv) < 3:
        print("usage: hold.py JCLINK FOLDER [PREFIX]...", file=sys.stderr)
        sys.exit(2)
    program, folder, *prefixes = sys.argv[1:]
    folder = pathlib.Path(folder).resolve()
    session = Session(program, folder.parent, prefixes)
    files, report, given, lines = {}, session.report(), Lines(), []
    while True:
        now = files_of(folder)
        changes = list(edits(files, now))
        make(session, changes, now)
        turn(session, lines)
        if changes or lines:
            files, old, report = now, report, session.report()
            for line in sorted(old - report):
                print("-", line.decode())
            for line in sorted(report - old):
                print("+", line.decode(), flush=True)
        lines = given.within_a_second()


if __name__ == "__main__":
    main()
