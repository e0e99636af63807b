#!/usr/bin/env python3
"""Tries sessions of the built program: one with as many files as possible, and one as a coprocess over pipes.

Usage: run.py, once ./jclink is built.
"""
import pathlib
import subprocess
import sys
import time

sys.dont_write_bytecode = True
HERE = pathlib.Path(__file__).resolve().parent
sys.path[:0] = [str(HERE.parent), str(HERE.parent / "check")]
import common
import judge

MOST = 65_535


def need(holds, what):
    if not holds:
        sys.exit(what)


def name_of(number, same_class):
    return b"A" if same_class else b"p%d/C%d" % (number % 97, number)


def many_files(folder, same_class):
    """Adds as many files as a session can have, and one more."""
    for number in range(MOST + 1):
        (folder / f"{number}").write_bytes(common.class_file(name_of(number, same_class)))
    lines = "".join(f"add {number}\n" for number in range(MOST + 1)) + "report\nend\n"
    began = time.monotonic()
    done = subprocess.run([common.JCLINK, "session"], input=lines.encode(), cwd=folder, capture_output=True)
    took = time.monotonic() - began
    answers = done.stdout.decode().split("\n")
    need(done.returncode == 0 and not done.stderr, f"status {done.returncode}, {done.stderr!r}")
    need(answers[:MOST] == ["ok"] * MOST, "an add is not answered ok")
    need(answers[MOST] == "refused 4 TooMany", f"one file too many: {answers[MOST]!r}")
    files = {str(number).encode(): common.class_file(name_of(number, same_class)) for number in range(MOST)}
    need("\n".join(answers[MOST + 1 :]) == judge.report(files)[0], "the report is another one")
    return took


def prefix_talk(given, lines_of):
    """Tries a class that refers to another one, which is missing, then outside, then missing again."""
    files = {b"c": given}
    return [
        ("remove a", ["ok"]),
        ("add c", ["ok"]),
        ("report", lines_of(files)),
        ("dependants org/Base", ["C"]),
        ("outside add org/", ["ok"]),
        ("outside add org/", ["refused 8 PrefixThere"]),
        ("report", lines_of(files, (*judge.STANDARD, b"org/"))),
        ("outside add org/x/", ["ok"]),
        ("outside drop org/", ["ok"]),
        ("outside drop org/", ["refused 9 NoSuchPrefix"]),
        ("outside add ", ["refused 7 BadPrefix"]),
        ("outside add", ["bad line"]),
        ("outside drop java/", ["ok"]),
        ("report", lines_of(files, (b"javax/", b"org/x/"))),
        *((f"outside add p{number}", ["ok"]) for number in range(62)),
        ("outside add one more", ["refused 10 TooManyPrefixes"]),
        ("remove c", ["ok"]),
    ]


def coprocess(folder):
    """Tries a session that gets each line only after the answer to the line before."""
    a, b = common.class_file(b"A"), common.class_file(b"A")[:-1]
    (folder / "a").write_bytes(a)
    (folder / "b").write_bytes(b)
    (folder / "c").write_bytes(common.class_file(b"C", (b"\x07\0\x06", common.utf8(b"org/Base"))))
    lines_of = lambda files, prefixes=judge.STANDARD: judge.report(files, prefixes)[0].splitlines()
    talk = [
        ("add a", ["ok"]),
        ("add a", ["refused 1 AlreadyThere"]),
        ("dependants A", ["A"]),
        ("dependants org/Base", ["none"]),
        ("report", lines_of({b"a": a})),
        ("replace a", ["ok"]),
        ("add b", ["ok"]),
        ("report", lines_of({b"a": a, b"b": b})),
        ("what", ["bad line"]),
        ("remove b", ["ok"]),
        ("remove b", ["refused 2 NoSuchFile"]),
        ("add gone", ["unread gone"]),
        *prefix_talk((folder / "c").read_bytes(), lines_of),
    ]
    pipe = subprocess.PIPE
    with subprocess.Popen([common.JCLINK, "session"], cwd=folder, stdin=pipe, stdout=pipe, text=True, bufsize=1) as program:
        for line, answer in talk:
            program.stdin.write(line + "\n")
            program.stdin.flush()
            need([program.stdout.readline().rstrip("\n") for _ in answer] == answer, f"{line}: another answer")
        program.stdin.write("end\n")
        program.stdin.flush()
        need(program.wait(10) == 0, "another status")
    return len(talk)


def main():
    with common.Workplace() as folder:
        print(f"coprocess: {coprocess(folder)} lines, each answered before the next was given")
    for same_class, what in [(False, "of a class each"), (True, "all of one class")]:
        with common.Workplace() as folder:
            print(f"{MOST:,} files {what}, the next refused, and the report: {many_files(folder, same_class):.1f} s")


if __name__ == "__main__":
    main()
