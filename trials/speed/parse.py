#!/usr/bin/env python3
"""Measures `parse`: megabytes a second over a real tree, and its time over files of doubled counts.

The program jc_asked reads the files once, makes N passes over them in memory, and prints a sum. The time of the passes is the
processor time of a run with N passes less that of a run with none. So neither the start of the program nor its input counts.
Each figure is the least of several runs.

Usage: parse.py [--jars FOLDER]. With a folder of jars it also measures their readable class files. It builds the program by
`rt run`, and needs javac 9 to 19.
"""
import argparse
import pathlib
import random
import sys

sys.dont_write_bytecode = True
TRIALS = pathlib.Path(__file__).resolve().parent.parent
sys.path[:0] = [str(TRIALS), str(TRIALS / "parse")]
import common
import reader
import run as trial
from common import class_file, number, utf8
from measure import RUNS, processor_seconds, round_seconds, write_frames

ROUNDS = 6
DOUBLED = (8_000, 16_000, 32_000, 64_000)
TREE_BYTES = 64_000_000
# The bytes of all passes over one file, so that their time is well above the resolution of the clock.
FILE_BYTES = 200_000_000


def texts(count):
    return class_file(constants=[utf8(b"%08x" % at) for at in range(count)])


def references(count):
    return class_file(constants=[b"\x0a\0\x01" + number(2, at % 65535) for at in range(count)])


def fields(count):
    attribute = b"\0\x02\0\0\0\x04" + b"four"
    return class_file(fields=[b"\0\x01\0\x02\0\x02" + b"\0\x01" + attribute for _ in range(count)])


def attributes(count):
    return class_file(attributes=[b"\0\x02\0\0\0\x08" + b"eight by" for _ in range(count)])


def measure_tree(work, files):
    size = sum(map(len, files))
    times = max(1, TREE_BYTES // size)
    random.Random(1).shuffle(files)
    frames = write_frames(work, "tree", files * times)
    print(f"\n{len(files)} class files of {size:,} bytes, {times} times over\n")
    print("| | megabytes a second | microseconds a file |")
    print("|---|---|---|")
    read_in = min(processor_seconds(frames, "count-parse", 0)[0] for _ in range(RUNS))
    for what, seconds in (("only reading the input", read_in),
                          ("only summing the bytes", round_seconds([frames], "count-bytes", [ROUNDS])[0]),
                          ("`parse`", round_seconds([frames], "count-parse", [ROUNDS])[0])):
        each = seconds / (len(files) * times)
        print(f"| {what} | {size * times / seconds / 1e6:.0f} | {each * 1e6:.2f} |")


def measure_doubled(work):
    print("\n| | count | bytes | microseconds | nanoseconds each | times the row above |")
    print("|---|---|---|---|---|---|")
    for make in (texts, references, fields, attributes):
        sizes = [len(make(count)) for count in DOUBLED]
        frames = [write_frames(work, f"{make.__name__}{count}", [make(count)]) for count in DOUBLED]
        if any(processor_seconds(path, "count-parse", 1)[1] != 1 for path in frames):
            sys.exit(f"one of the {make.__name__} is refused")
        all_seconds = round_seconds(frames, "count-parse", [FILE_BYTES // size for size in sizes])
        before = None
        for count, size, seconds in zip(DOUBLED, sizes, all_seconds):
            ratio = f"{seconds / before:.2f}" if before else ""
            print(f"| {make.__name__} | {count} | {size} | {seconds * 1e6:.0f} | {seconds / count * 1e9:.2f} | {ratio} |")
            before = seconds


def main():
    arguments = argparse.ArgumentParser()
    arguments.add_argument("--jars", metavar="FOLDER")
    options = arguments.parse_args()
    common.build()
    with common.Workplace() as work:
        files = common.compile_all(work, common.FOR_PARSE, random.Random(1))
        measure_tree(work, [file.read_bytes() for file in files])
        if options.jars:
            files = trial.files_of_jars(options.jars)
            measure_tree(work, [file for file in files if reader.answer(file).startswith("ok ")])
        measure_doubled(work)


if __name__ == "__main__":
    main()
