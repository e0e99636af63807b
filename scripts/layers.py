#!/usr/bin/env python3
"""Draws the layers of crates.txt, with the program at the top.

Usage: scripts/layers.py [--check]

A box is a layer. A crate uses only crates in rows below its own, and the highest of these that are in its layer are in the
next row. With --check it prints nothing if docs/ARCHITECTURE.md has this picture, and else ends with status 1.
"""
import pathlib
import sys

TOP = pathlib.Path(__file__).resolve().parent.parent


def layers():
    """Returns the name of each layer of crates.txt with the libraries that each of its crates uses."""
    found = []
    for line in (TOP / "crates.txt").read_text().splitlines()[1:]:
        if line.startswith("#"):
            found.append((line[1:].partition(":")[0].strip(), {}))
        elif line:
            name, _, libraries = line.partition(":")
            found[-1][1][name] = libraries.split()
    return found


def rows(crates):
    """Returns the crates of a layer in rows, the lowest first."""
    row_of = {}
    for name, libraries in crates.items():
        row_of[name] = 1 + max((row_of[library] for library in libraries if library in row_of), default=-1)
    return [[name for name in crates if row_of[name] == row] for row in range(1 + max(row_of.values()))]


def picture():
    """Returns the lines of the picture."""
    drawn = [(name, ["  ".join(row) for row in reversed(rows(crates))]) for name, crates in reversed(layers())]
    width = max(len(row) for _, lines in drawn for row in lines)
    lines = []
    for name, texts in drawn:
        lines.append(f"+- {name} ".ljust(width + 3, "-") + "+")
        lines += [f"| {text.ljust(width)} |" for text in texts]
    return [*lines, "+".ljust(width + 3, "-") + "+"]


def main():
    if sys.argv[1:] != ["--check"]:
        print("\n".join(picture()))
    elif "\n".join("    " + line for line in picture()) not in (TOP / "docs/ARCHITECTURE.md").read_text():
        sys.exit("docs/ARCHITECTURE.md: the picture is not the one of crates.txt")


if __name__ == "__main__":
    main()
