#!/usr/bin/env python3
"""Compares the answers of `parse` with those of a plain reader (reader.py), over a real tree of class files.

The trial compiles the sources of trials/sources for Java 7 and 8. It tries each class file, truncations of it and changes of
it. It compares the answers of the program jc_asked and of the reader, with their places.

Usage: run.py [--seed N] [--jars FOLDER]. With a folder of jars it also tries 300 of their readable class files in this way.
It compares the other class files of the jars without changes. It builds the program by `rt run`, and needs javac 9 to 19.
"""
import argparse
import collections
import itertools
import pathlib
import random
import sys
import zipfile

sys.dont_write_bytecode = True
sys.path.insert(0, str(pathlib.Path(__file__).resolve().parent.parent))
import common
import reader

# Parts of names, in valid and invalid spellings.
SPELLINGS = [bytes.fromhex(text) for text in (
    "41 6162 2f 2f2f 2e 3b 5b 3c 5d 01 7f c080 c281 dfbf e0a080 eda080 edbfbf efbfbf "
    "00 80 bf c081 c1bf c2 c241 e08080 e09fbf e28241 e282 ef f0908080 f8 ff").split()]


def files_of_jars(folder):
    """Returns the different class files in the jars of a folder."""
    files = {}
    for path in sorted(pathlib.Path(folder).rglob("*.jar")):
        with zipfile.ZipFile(path) as jar:
            for name in jar.namelist():
                if name.endswith(".class"):
                    files[jar.read(name)] = None
    return list(files)


def replaced(file, place, count, put):
    return file[:place] + put + file[place + count:]


def cuts(file, rng):
    for length in range(min(401, len(file))):
        yield file[:length]
    for _ in range(50):
        if len(file) > 401:
            yield file[:rng.randrange(401, len(file))]


def byte_changes(file, rng):
    for number in range(60):
        place = rng.randrange(len(file) if number % 2 else min(400, len(file)))
        value = rng.choice([0, 1, 5, 6, 255, file[place] ^ 1, (file[place] + 1) % 256, rng.randrange(256)])
        yield replaced(file, place, 1, bytes([value]))


def aimed_changes(file, rng):
    """Yields changes that refusals depend on: of the count, the last constant, this_class, the name, and the end."""
    _, (places, name, tail) = reader.read(file)
    count = int.from_bytes(file[8:10], "big")
    for difference in (-3, -2, -1, 1, 2, 3):
        yield replaced(file, 8, 2, max(0, count + difference).to_bytes(2, "big"))
    last = places[max(places)]
    for tag in (5, 6):
        changed = replaced(file, last, 1, bytes([tag]))
        yield from (changed, changed[:last + 1], changed[:last])
    for index in (0, 1, count - 1, count, *(rng.randrange(65536 if far else count) for far in (0, 0, 0, 0, 1))):
        yield replaced(file, tail + 2, 2, index.to_bytes(2, "big"))
    length = int.from_bytes(file[name + 1:name + 3], "big")
    for _ in range(10):
        put = b"".join(rng.choices(SPELLINGS[:18] if rng.random() < 0.6 else SPELLINGS, k=rng.randrange(6)))
        yield replaced(file, name + 1, 2 + length, len(put).to_bytes(2, "big") + put)
        at = name + 3 + rng.randrange(length)
        yield replaced(file, at, 1, bytes([rng.randrange(256)]))
    for more in (b"\0", b"\xca\xfe", file):
        yield file + more


def cases(file, rng):
    yield "the file itself", file
    for kind, made in (("a cut", cuts), ("a changed byte", byte_changes), ("an aimed change", aimed_changes)):
        for changed in made(file, rng):
            yield kind, changed


def compare(groups):
    kinds, answers, differences = collections.Counter(), collections.Counter(), 0
    for named in groups:
        for (kind, frame), found in zip(named, common.ask("parse", [frame for _, frame in named])):
            wanted = reader.answer(frame)
            kinds[kind] += 1
            answers[wanted.split("(")[0] if wanted[0].isdigit() else "ok"] += 1
            if found != wanted:
                differences += 1
                print(f"difference, {kind}: parse answers {found}, the reader {wanted}: {frame.hex()}")
    return kinds, answers, differences


def main():
    arguments = argparse.ArgumentParser()
    arguments.add_argument("--seed", type=int, default=1)
    arguments.add_argument("--jars", metavar="FOLDER")
    options = arguments.parse_args()
    rng = random.Random(options.seed)
    common.build()
    with common.Workplace() as work:
        files = [file.read_bytes() for file in common.compile_all(work, common.FOR_PARSE, rng)]
    unread = sum(not reader.answer(file).startswith("ok ") for file in files)
    print(f"class files {len(files)}, bytes {sum(map(len, files))}, not readable {unread}")
    others = files_of_jars(options.jars) if options.jars else []
    if options.jars:
        if not others:
            sys.exit("no class files in the jars")
        print(f"class files in jars {len(others)}, bytes {sum(map(len, others))}")
        files += rng.sample([file for file in others if reader.answer(file).startswith("ok ")], 300)
    groups = itertools.chain((list(cases(file, rng)) for file in files),
                             ([("a file in a jar", file)] for file in others))
    kinds, answers, differences = compare(groups)
    for title, counts in (("cases", kinds), ("answers", answers)):
        print(title, sum(counts.values()))
        for name, count in sorted(counts.items()):
            print(f"  {name}: {count}")
    print(f"differences {differences}")
    sys.exit(1 if differences else 0)


if __name__ == "__main__":
    main()
