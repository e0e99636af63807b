#!/usr/bin/env python3
"""Prints the seconds of a crate's proof by kind, and the most expensive functions.

The trial checks the crate from nothing, with one job. The check writes files into a folder, one after another. The cost of
each file is the time since the one before. `Lts` is the steps of a function's code. `Proof` and `Answers` are the search for
its goals and the written answers. The libraries of the crate are built first if necessary. Other work on the machine
increases all figures.

    trials/speed/proofs.py CRATE [COUNT]
"""
import argparse
import collections
import shutil
import subprocess
import sys
from pathlib import Path

CRATES = Path(__file__).resolve().parents[2] / "crates"
# The parts that are written for a function. In the name of a file they follow the function.
PARTS = "Lts Proof Answers Invariants Goals Given Tie Code Statement Met Kinds Key Reads View".split()


def checked(crate):
    """Checks the crate from nothing, and returns the written files, sorted by time."""
    kept = CRATES / crate / "out" / "incremental"
    shutil.rmtree(kept, ignore_errors=True)
    done = subprocess.run(["rt", "check", "--jobs", "1"], cwd=CRATES / crate, capture_output=True, text=True)
    if done.returncode:
        sys.exit(f"{crate} was not proved:\n{done.stdout}{done.stderr}")
    return sorted((file.stat().st_mtime_ns, file.name) for file in kept.rglob("*.oantt"))


def split(name):
    """Returns the function and the part that a file belongs to; the part is `other` if it belongs to no function."""
    words = name.removesuffix(".oantt").removesuffix(".decls").split(".")
    at = next((place for place, word in enumerate(words) if word in PARTS), len(words))
    return ".".join(words[1:at]), words[at] if at < len(words) else "other"


def main():
    words = argparse.ArgumentParser(description=__doc__.split("\n")[0])
    words.add_argument("crate")
    words.add_argument("count", type=int, nargs="?", default=20)
    words = words.parse_args()
    files = checked(words.crate)
    kinds, functions = collections.Counter(), collections.defaultdict(collections.Counter)
    for (before, _), (after, name) in zip(files, files[1:]):
        function, kind = split(name)
        kinds[kind] += (after - before) / 1e9
        functions[function][kind] += (after - before) / 1e9
    print(f"{sum(kinds.values()):.0f} seconds:", ", ".join(f"{kind} {took:.1f}" for kind, took in kinds.most_common()))
    for function, parts in sorted(functions.items(), key=lambda it: -it[1].total())[: words.count]:
        told = ", ".join(f"{kind} {took:.1f}" for kind, took in parts.most_common(3))
        print(f"{parts.total():6.1f} {function} ({told})")


if __name__ == "__main__":
    main()
