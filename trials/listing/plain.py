#!/usr/bin/env python3
"""Compares listings, byte for byte, with those of a plain program (plain.rs), and measures the time of both.

Both read the same class files from a file and write their text to a file. jc_asked also judges each class file; the plain
program does not. The times are seconds of a processor, the least of several runs.

Usage: plain.py [--jars FOLDER] [--seed N]. Without --jars it lists the class files that it compiles from trials/sources. It
builds jc_asked by `rt run`, and needs javac and rustc.
"""
import pathlib
import resource
import subprocess
import sys

sys.dont_write_bytecode = True
sys.path.insert(0, str(pathlib.Path(__file__).resolve().parent.parent))
import common

RUNS = 5


def build_plain(work):
    program = work / "plain"
    source = common.TRIALS / "listing" / "plain.rs"
    subprocess.run(["rustc", "--edition", "2021", "-O", "-C", "target-cpu=native", "-o", program, source], check=True)
    return program


def processor_seconds():
    used = resource.getrusage(resource.RUSAGE_CHILDREN)
    return used.ru_utime + used.ru_stime


def list_all(command, frames, text):
    """Writes the listings of a file of frames to a file, and returns the least time of several runs."""
    least = float("inf")
    for _ in range(RUNS):
        with open(frames, "rb") as taken, open(text, "wb") as given:
            before = processor_seconds()
            subprocess.run(command, stdin=taken, stdout=given, check=True)
            least = min(least, processor_seconds() - before)
    return least


def main():
    options = common.trees_parser().parse_args()
    common.build()
    with common.Workplace() as work:
        files, _ = common.files_of_trees(work, options)
        frames, ours, theirs = work / "frames", work / "ours", work / "theirs"
        frames.write_bytes(common.framed([path.read_bytes() for path in files]))
        mine = list_all([*common.ANSWERS, "listings"], frames, ours)
        plain = list_all([build_plain(work)], frames, theirs)
        listed, expected = (text.read_bytes().split(b"\nend\n")[:-1] for text in (ours, theirs))
        unlike = [path for path, one, other in zip(files, listed, expected) if one != other]
        print(f"{len(files)} class files, {frames.stat().st_size} bytes, listings of {ours.stat().st_size}; {len(unlike)} differ")
        print(f"{mine:.2f} seconds of a processor, the plain program {plain:.2f}: {mine / plain:.2f} times")
        for path in unlike[:8]:
            print(path)
        sys.exit(1 if unlike or len(listed) != len(files) or len(expected) != len(files) else 0)


if __name__ == "__main__":
    main()
