#!/usr/bin/env python3
"""Measures `format_faults` beside `parse`, over a real tree and over files of doubled counts.

The program jc_asked reads the files once, makes N passes over them in memory, and prints a sum. The time of the passes is the
processor time of a run with N passes less that of a run with none. Each figure is the least of several runs.

Usage: faults.py. It builds the program by `rt run`, and needs javac 9 to 19.
"""
import pathlib
import random
import sys

sys.dont_write_bytecode = True
sys.path.insert(0, str(pathlib.Path(__file__).resolve().parent.parent))
import common
from common import class_file, number, utf8
from measure import doubled_rows, round_seconds, write_frames

ROUNDS = 6
DOUBLED = (4_000, 8_000, 16_000, 32_000)
TREE_BYTES = 16_000_000


def texts(count):
    return class_file(constants=[utf8(b"%08x" % at) for at in range(count)])


def classes(count):
    """Class constants, each with its own name."""
    constants = [part for at in range(count) for part in (utf8(b"a/b/C%08x" % at), b"\x07" + number(2, 5 + 2 * at))]
    return class_file(constants=constants)


def references(count):
    """Methodref constants of one method."""
    shared = [utf8(b"run"), utf8(b"(IJLjava/lang/String;)V"), b"\x0c\0\x05\0\x06"]
    return class_file(constants=shared + [b"\x0a\0\x01\0\x07" for _ in range(count)])


def call_sites(count):
    """InvokeDynamic constants beside one bootstrap method."""
    shared = [utf8(b"run"), utf8(b"()V"), b"\x0c\0\x05\0\x06", b"\x0a\0\x01\0\x07", b"\x0f\x06\0\x08", utf8(b"BootstrapMethods")]
    return class_file(constants=shared + [b"\x12\0\0\0\x07" for _ in range(count)],
                      attributes=[b"\0\x0a" + number(4, 6) + b"\0\x01\0\x09\0\0"])


def fields(count):
    """Fields, each with its own name."""
    constants = [utf8(b"I")] + [utf8(b"field%08x" % at) for at in range(count)]
    return class_file(constants=constants, fields=[b"\0\x01" + number(2, 6 + at) + b"\0\x05\0\0" for at in range(count)])


def fields_of_one_name(count):
    """Fields of one name. All except the first one are repeated."""
    return class_file(constants=[utf8(b"I"), utf8(b"name")], fields=[b"\0\x01\0\x06\0\x05\0\0" for _ in range(count)])


def methods(count):
    """Methods, each with its own name and a Code."""
    constants = [utf8(b"()V"), utf8(b"Code")] + [utf8(b"run%08x" % at) for at in range(count)]
    code = b"\0\x06" + number(4, 13) + bytes([0, 2, 0, 2, 0, 0, 0, 1, 0xb1, 0, 0, 0, 0])
    return class_file(constants=constants, methods=[b"\0\x01" + number(2, 7 + at) + b"\0\x05\0\x01" + code for at in range(count)])


def attributes(count):
    return class_file(attributes=[b"\0\x02\0\0\0\x08" + b"eight by" for _ in range(count)])


def measure_tree(work):
    files = [file.read_bytes() for file in common.compile_all(work, common.FOR_VIEWS, random.Random(1))]
    size = sum(map(len, files))
    times = max(1, TREE_BYTES // size)
    frames = write_frames(work, "tree", files * times)
    print(f"\n{len(files)} class files of {size:,} bytes, {times} times over\n")
    print("| | megabytes a second | microseconds a file |")
    print("|---|---|---|")
    for what, word in (("`parse`", "count-parse"), ("`parse` and `format_faults`", "count-faults")):
        seconds = round_seconds([frames], word, [ROUNDS])[0]
        print(f"| {what} | {size * times / seconds / 1e6:.0f} | {seconds / (len(files) * times) * 1e6:.2f} |")


def measure_doubled(work):
    print("\n| | count | bytes | faults | microseconds | nanoseconds each | times the row above |")
    print("|---|---|---|---|---|---|---|")
    makes = (texts, classes, references, call_sites, fields, fields_of_one_name, methods, attributes)
    rounds = [max(3, 100_000 // count) for count in DOUBLED]
    for name, count, size, faults, seconds, ratio in doubled_rows(work, makes, DOUBLED, "count-faults", rounds):
        print(f"| {name} | {count} | {size} | {faults} | {seconds * 1e6:.0f} | {seconds / count * 1e9:.1f} | {ratio} |")


def main():
    common.build()
    with common.Workplace() as work:
        measure_tree(work)
        measure_doubled(work)


if __name__ == "__main__":
    main()
