#!/usr/bin/env python3
"""Measures `Insns` and `faults_in` beside `parse`, over a tree of class files and over code of doubled size.

The program jc_asked reads the files once, makes N passes over them in memory, and prints a sum. The time of the passes is the
processor time of a run with N passes less that of a run with none. Each figure is the least of several runs.

Usage: code.py [--tree FOLDER] [--reference PROGRAM]. Without --tree it compiles the sources of trials/sources. PROGRAM
parses and decodes the class files below a folder. Called with `-r FOLDER` it must print `in-memory SECONDS s`. The trial
builds jc_asked by `rt run`, and needs javac.
"""
import argparse
import pathlib
import random
import re
import subprocess
import sys

sys.dont_write_bytecode = True
sys.path.insert(0, str(pathlib.Path(__file__).resolve().parent.parent))
import common
from common import class_file, number, utf8
from measure import doubled_rows, round_seconds, write_frames

ROUNDS = 6
TREE_BYTES = 16_000_000
WORDS = (("`parse`", "count-parse"), ("`parse` and `Insns`", "count-insns"), ("`parse` and `faults_in`", "count-code-faults"))


def with_code(code, handlers=()):
    """Returns a class with one method of this code."""
    body = bytes([0, 2, 0, 2]) + number(4, len(code)) + code + number(2, len(handlers)) + b"".join(handlers) + b"\0\0"
    method = b"\0\x09\0\x06\0\x07\0\x01\0\x05" + number(4, len(body)) + body
    return class_file(constants=[utf8(b"Code"), utf8(b"m"), utf8(b"()V")], methods=[method])


def plain(size):
    return with_code(b"\x04\x57" * (size // 2))


def branches(size):
    """Branches, each to the next one."""
    return with_code(b"\xa7\0\x03" * (size // 3 - 1) + b"\0\0\xb1")


def switches(size):
    """Switches of three targets."""
    one = b"\xaa\0\0\0" + number(4, 28) + number(4, 1) + number(4, 3) + 3 * number(4, 28)
    return with_code(one * (size // 28 - 1) + b"\0" * 28)


def one_switch(size):
    """One tableswitch as long as the code."""
    count = (size - 20) // 4
    return with_code(b"\xaa\0\0\0" + number(4, 16 + 4 * count) + number(4, 1) + number(4, count) + count * number(4, 16 + 4 * count) + b"\xb1")


def lookups(size):
    """One lookupswitch as long as the code."""
    count = (size - 20) // 8
    end = 12 + 8 * count
    return with_code(b"\xab\0\0\0" + number(4, end) + number(4, count) + b"".join(number(4, at) + number(4, end) for at in range(count)) + b"\xb1")


def handlers(count):
    return with_code(b"\0\0\xb1", [b"\0\0\0\x01\0\x02\0\0"] * count)


def broken(size):
    """Branches, the last of which has no target, so that all rules are tried."""
    return with_code(b"\xa7\0\x03" * (size // 3))


SIZES = (8_190, 16_380, 32_760, 65_520)


def measure_tree(work, options):
    if options.tree:
        folder = pathlib.Path(options.tree)
        files = [path.read_bytes() for path in sorted(folder.rglob("*.class"))]
        times = 1
    else:
        files = [file.read_bytes() for file in common.compile_all(work, common.FOR_VIEWS, random.Random(1))]
        folder, times = work, max(1, TREE_BYTES // sum(map(len, files)))
    size = sum(map(len, files))
    frames = write_frames(work, "tree", files * times)
    seconds = {word: round_seconds([frames], word, [ROUNDS])[0] / times for _, word in WORDS}
    print(f"\n{len(files)} class files of {size:,} bytes\n")
    reference = None
    if options.reference:
        told = subprocess.run([options.reference, "-r", folder], capture_output=True, check=True)
        reference = float(re.search(r"in-memory ([\d.]+) s", (told.stdout + told.stderr).decode())[1])
        print(f"the reference: {reference * 1e3:.1f} ms\n")
    print("| | milliseconds | megabytes a second | times the reference |")
    print("|---|---|---|---|")
    for what, word in WORDS:
        ratio = f"{seconds[word] / reference:.2f}" if reference else ""
        print(f"| {what} | {seconds[word] * 1e3:.1f} | {size / seconds[word] / 1e6:.0f} | {ratio} |")


def measure_doubled(work):
    print("\n| | bytes of code, or handlers | faults | microseconds | nanoseconds each | times the row above |")
    print("|---|---|---|---|---|---|")
    makes = (plain, branches, switches, one_switch, lookups, handlers, broken)
    rounds = [max(20, 4_000_000 // size) for size in SIZES]
    for name, count, _, faults, seconds, ratio in doubled_rows(work, makes, SIZES, "count-code-faults", rounds):
        print(f"| {name} | {count} | {faults} | {seconds * 1e6:.0f} | {seconds / count * 1e9:.1f} | {ratio} |")


def main():
    parser = argparse.ArgumentParser()
    parser.add_argument("--tree")
    parser.add_argument("--reference")
    options = parser.parse_args()
    common.build()
    with common.Workplace() as work:
        measure_tree(work, options)
        measure_doubled(work)


if __name__ == "__main__":
    main()
