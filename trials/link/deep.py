#!/usr/bin/env python3
"""Measures the part of the last of many classes that reach one another: in a chain, in a ring, and in other shapes.

Usage: deep.py [COUNT]. COUNT is the greatest number of classes, 65,535 by default. Each shape is made with COUNT classes, and
with a half, a quarter and an eighth of them. The trial builds the program jc_asked by `rt run`. It prints the look-ups, and
the seconds of a processor less those for the same number of classes that reach only themselves.
"""
import pathlib
import resource
import subprocess
import sys

sys.dont_write_bytecode = True
sys.path.insert(0, str(pathlib.Path(__file__).resolve().parent.parent))
import common
import worlds


def name(number):
    return b"N%d" % number


# Functions that return the superclass and the interfaces of class K of N.
SHAPES = {
    "alone": lambda k, n: (0, []),
    "chain": lambda k, n: (k - 1, []),
    "ring": lambda k, n: (k - 1 or n, []),
    "rings of two": lambda k, n: (k + 1 if k % 2 and k < n else k - 1, [k - 2] if k % 2 and k > 2 else []),
    "chain, each also back by one": lambda k, n: (k - 1, [k + 1] if k < n else []),
    "chain, each also to the first": lambda k, n: (k - 1, [1]),
    "each to the 16 before it": lambda k, n: (k - 1, list(range(max(1, k - 16), k - 1))),
}


def world(shape, count):
    pieces = []
    for number in range(1, count + 1):
        parent, interfaces = SHAPES[shape](number, count)
        file = worlds.class_file(name(number), 0x21, name(parent) if parent else worlds.OBJECT, list(map(name, interfaces)), [], [], [])
        pieces += [b"%05d" % number, file]
    return common.framed(pieces)


def told(last, frames):
    """Returns the lines of the answer, and the least seconds of a processor of three runs."""
    least = None
    for _ in range(3):
        before = resource.getrusage(resource.RUSAGE_CHILDREN)
        done = subprocess.run([*common.ANSWERS, "link", last], input=frames, stdout=subprocess.PIPE, check=True)
        after = resource.getrusage(resource.RUSAGE_CHILDREN)
        took = after.ru_utime + after.ru_stime - before.ru_utime - before.ru_stime
        least = took if least is None else min(least, took)
    return done.stdout.decode().splitlines(), least


def main():
    count = int(sys.argv[1]) if len(sys.argv) > 1 else 65535
    common.build()
    wrong, alone = 0, {}
    for shape in SHAPES:
        for number in [count // 8, count // 4, count // 2, count]:
            lines, seconds = told(f"N{number}", world(shape, number))
            asks = 2 if shape == "alone" else number + 1
            load = lines[0].split(": ")[1]
            right = lines[-1] == f"{asks} asks" and (shape not in ("chain", "alone") or load == "loaded") and (shape != "ring" or load == f"error 3 Circular N{number}")
            wrong += not right
            if shape == "alone":
                alone[number] = seconds
            print(f"{shape}, {number}: {load}, {lines[-1]}, {seconds - (alone[number] if shape != 'alone' else 0):.3f} s" + ("" if right else ", which is wrong"))
    sys.exit(1 if wrong else 0)


if __name__ == "__main__":
    main()
