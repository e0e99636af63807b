#!/usr/bin/env python3
"""Compares the parts of classes with those of a plain judge (judge.py), over random small worlds.

With --jars it also compares trees: the class files of versions 51 and 52 in the jars of a folder, a world for each jar. It
prints how often each kind of line is expected, and how often each line of the table of instructions decides.

Usage: run.py [--worlds N] [--seed N] [--jars FOLDER], once ./jclink is built.
"""
import argparse
import pathlib
import random
import subprocess
import sys
import zipfile
from collections import Counter

sys.dont_write_bytecode = True
sys.path.insert(0, str(pathlib.Path(__file__).resolve().parent.parent))
import common
import judge
import worlds

STANDARD = (b"java/", b"javax/")


def answer(files):
    """Returns the sections of the files' report with the parts and the circular classes."""
    with common.Workplace() as folder:
        for at, (_, data) in enumerate(files):
            (folder / f"{at:06}.class").write_bytes(data)
        report = subprocess.run([common.JCLINK, "check", folder], stdout=subprocess.PIPE, check=False).stdout
    lines = report.decode().splitlines()
    return lines[lines.index("[parts]") + 1 : lines.index("[provided]")]


def sort_of(line):
    """Returns the kind of a line: what it says without its names."""
    words = line.split(" ")
    if line.startswith("part "):
        return "part " + (words[4] if words[2] == "error" else words[2])
    if line.startswith("  link "):
        return "link " + words[7]
    if " -> " in line:
        answer = line.split(" -> ")[1].split(" ")
        return f"{words[3]} {answer[2] if answer[0] == 'error' else answer[0]}"
    return words[2] if line.startswith("  ") else "other"


def flags_of(use, names):
    return " ".join(name for name in names if use.has(getattr(judge, name)))


def kind_of(use):
    """Returns a text that distinguishes uses of one opcode."""
    if use.instruction == "new":
        return flags_of(use, ["INTERFACE"]) or flags_of(use, ["ABSTRACT"])
    if use.instruction == "invokeinterface":
        return flags_of(use, ["STATIC", "PRIVATE"])
    if use.instruction in ("putstatic", "putfield") and use.has(judge.FINAL):
        place = use.method_name.decode() if use.method_name.startswith(b"<") else "a method"
        return f"{'own' if use.home == use.user else 'other'} FINAL in {place}"
    if use.instruction in ("invokespecial", "invokestatic"):
        kind = "<init>" if use.member[0] == b"<init>" else judge.KINDS[use.tag]
        return kind + " of array" * use.named.startswith(b"[")
    return ""


def sorts_of_uses(world):
    """Yields for each instruction with an answer To its name, the condition by which it does not link, and its kind."""
    for name in world.given:
        for use in world.uses(name):
            line = judge.deciding(use)
            yield use.instruction, line[1] if line else "", kind_of(use)


def tell_uses(uses):
    """Prints how often each line of the table decides, by instruction and kind, and how often none does."""
    rows, others = [], []
    for (name, where, kind), number in sorted(uses.items()):
        told = " ".join(filter(None, [name, where, kind and f"({kind})", str(number)]))
        (rows if where else others).append(told)
    print("link rows:", ", ".join(rows))
    print("instructions that link:", ", ".join(others))
    decided = {sort[:2] for sort in uses}
    never = [f"{name} {where}" for names, where, *_ in judge.LINES for name in names if (name, where) not in decided]
    print("lines of the table that never decide:", ", ".join(never) or "none")


def worlds_of(folder):
    for jar in sorted(pathlib.Path(folder).rglob("*.jar")):
        try:
            with zipfile.ZipFile(jar) as archive:
                names = sorted(name for name in archive.namelist() if name.endswith(".class"))
                files = [(name.encode(), archive.read(name)) for name in names]
        except (zipfile.BadZipFile, OSError):
            continue
        files = [(path, data) for path, data in files if data[:4] == b"\xca\xfe\xba\xbe" and data[6:8] in (b"\0\x33", b"\0\x34")]
        if files:
            yield files


def differs(files, told, uses):
    world = judge.World(files, STANDARD)
    ours, wanted = answer(files), world.parts()
    told.update(sort_of(line) for line in wanted)
    uses.update(sorts_of_uses(world))
    if ours != wanted:
        pairs = [pair for pair in zip(ours, wanted) if pair[0] != pair[1]]
        print(f"{len(ours)} lines and {len(wanted)}: {pairs[:2]}")
    return ours != wanted


def main():
    parser = argparse.ArgumentParser()
    parser.add_argument("--worlds", type=int, default=2000)
    parser.add_argument("--seed", type=int, default=1)
    parser.add_argument("--jars")
    options = parser.parse_args()
    rng, told, uses, different, count = random.Random(options.seed), Counter(), Counter(), 0, options.worlds
    for _ in range(options.worlds):
        different += differs(worlds.make_world(rng), told, uses)
    for files in worlds_of(options.jars) if options.jars else ():
        different += differs(files, told, uses)
        count += 1
    print(f"{count} worlds: " + ", ".join(f"{number} {what}" for what, number in sorted(told.items())))
    tell_uses(uses)
    print(f"{different} worlds differ")
    sys.exit(1 if different else 0)


if __name__ == "__main__":
    main()
