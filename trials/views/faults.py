#!/usr/bin/env python3
"""Compares the format faults that the library finds with those of a plain judge, over changed class files.

The trial compiles the sources of trials/sources for Java 7 and 8. It changes each class file in one or several places:
indexes, tags of the same size, flags, bytes of texts and of attributes. If the changed file is readable, it compares the
faults that the program jc_asked and judge.py find.

Usage: faults.py [--seed N] [--changes N]. It builds jc_asked by `rt run`, and needs javac.
"""
import argparse
import collections
import pathlib
import random
import sys

sys.dont_write_bytecode = True
sys.path.insert(0, str(pathlib.Path(__file__).resolve().parent.parent))
import common
import judge

SAME_SIZE = [(3, 4, 9, 10, 11, 12, 18), (5, 6), (7, 8, 16)]
TEXTS = [b"<", b">", b"/", b"[", b";", b".", b"(", b")", b"L", b"V", b"I", b"J", b"\x80", b"\0", b"\xc0", b"x"]
NAMES = [b"Code", b"ConstantValue", b"Exceptions", b"BootstrapMethods", b"SourceFile", b"EnclosingMethod",
         b"Signature", b"Synthetic", b"Deprecated", b"<init>", b"<clinit>", b"java/lang/Object"]


class Places:
    """The offsets of the parts of a class file."""

    def __init__(self, data):
        self.data, self.indexes, self.flags, self.tags, self.texts, self.bodies = data, [], [], [], [], []
        self.handles, self.references, self.named = [], [], []
        self.count, at, index = int.from_bytes(data[8:10], "big"), 10, 1
        while index < self.count:
            tag = data[at]
            self.tags.append(at)
            if tag == 1:
                size = 2 + int.from_bytes(data[at + 1:at + 3], "big")
                self.texts.append((at + 3, size - 2))
            else:
                size = judge.SIZES[tag]
                self.indexes += [at + 1 + size % 2 + 2 * k for k in range(size // 2)] if tag > 6 else []
                self.flags += [at + 1] if tag == 15 else []
                self.handles += [at + 1] if tag == 15 else []
                self.references += [index] if tag in (9, 10, 11) else []
            at, index = at + 1 + size, index + (2 if tag in (5, 6) else 1)
        self.flags += [at, at + 1]
        self.indexes += [at + 2, at + 4]
        interfaces = int.from_bytes(data[at + 6:at + 8], "big")
        self.indexes += [at + 8 + 2 * k for k in range(interfaces)]
        at += 8 + 2 * interfaces
        for _ in range(2):
            at = self.members(at)
        self.attributes(at)

    def number(self, at, size):
        return int.from_bytes(self.data[at:at + size], "big")

    def members(self, at):
        count, at = self.number(at, 2), at + 2
        for _ in range(count):
            self.flags += [at, at + 1]
            self.indexes += [at + 2, at + 4]
            self.named.append(at + 2)
            at = self.attributes(at + 6)
        return at

    def attributes(self, at):
        count, at = self.number(at, 2), at + 2
        for _ in range(count):
            self.indexes.append(at)
            length = self.number(at + 2, 4)
            self.bodies.append((at + 6, length))
            at += 6 + length
        return at


def put(data, at, new):
    return data[:at] + new + data[at + len(new):]


def change(data, places, rng):
    sort = rng.randrange(10)
    if sort <= 1 and places.indexes:
        index = rng.choice([0, places.count, rng.randrange(places.count), rng.randrange(places.count)])
        return put(data, rng.choice(places.indexes), index.to_bytes(2, "big"))
    if sort == 2:
        at = rng.choice(places.flags)
        return put(data, at, bytes([data[at] ^ 1 << rng.randrange(8)]))
    if sort == 3:
        at = rng.choice(places.tags)
        same = next((group for group in SAME_SIZE if data[at] in group), (data[at],))
        return put(data, at, bytes([rng.choice(same)]))
    if sort <= 5:
        at, length = rng.choice(places.texts)
        if length and rng.random() < 0.7:
            return put(data, at + rng.randrange(length), rng.choice(TEXTS))
        fitting = [name for name in NAMES if len(name) == length]
        return put(data, at, rng.choice(fitting)) if fitting else data
    if sort == 6 and len(places.named) > 1:
        at, other = rng.sample(places.named, 2)
        return put(data, at, data[other:other + 4])
    if sort == 7 and places.handles:
        return put(data, rng.choice(places.handles), bytes([rng.randrange(11), *rng.choice(places.references).to_bytes(2, "big")]))
    if places.bodies:
        at, length = rng.choice(places.bodies)
        if length:
            at += min(rng.randrange(length), rng.randrange(length))
            return put(data, at, bytes([rng.choice([0, 1, 2, 255, data[at] ^ 1, rng.randrange(256)])]))
    return data


def changed(data, rng, count):
    places = Places(data)
    yield data
    for _ in range(count):
        frame = data
        for _ in range(rng.choice([1, 1, 1, 2, 5])):
            frame = change(frame, places, rng)
        yield frame


def main():
    arguments = argparse.ArgumentParser()
    arguments.add_argument("--seed", type=int, default=1)
    arguments.add_argument("--changes", type=int, default=60)
    options = arguments.parse_args()
    rng = random.Random(options.seed)
    common.build()
    readable, refused, wrong, rules = 0, 0, 0, collections.Counter()
    with common.Workplace() as work:
        for file in common.compile_all(work, common.FOR_VIEWS, rng):
            frames = list(changed(file.read_bytes(), rng, options.changes))
            for frame, line in zip(frames, common.ask("faults", frames)):
                if line.startswith("refused"):
                    refused += 1
                    continue
                readable += 1
                found = judge.faults(frame)
                rules.update({rule for rule, _ in found})
                wanted = " ".join(["faults", *(f"F{rule} {place}" for rule, place in found)])
                if line != wanted:
                    wrong += 1
                    print(f"difference: the library {line!r}, the judge {wanted!r}: {frame.hex()}")
    print(f"readable {readable}, refused {refused}, differences {wrong}")
    print("files with a fault, by rule: " + ", ".join(f"F{rule} {count}" for rule, count in sorted(rules.items())))
    sys.exit(1 if wrong else 0)


if __name__ == "__main__":
    main()
