#!/usr/bin/env python3
"""Counts the instructions of `jclink check`, of edits of a session, and of passes of jc_asked, over the class files below a
folder.

Usage: instructions.py [--beside PROGRAM] TREE, once ./jclink is built. The environment's JCLINK may name another program.
PROGRAM, for example an older build, is counted beside it. The trial builds jc_asked by `rt run`, and needs valgrind.

valgrind's callgrind counts the same number each time, whatever else runs on the machine. The instructions of a pass are those
of a run with one pass less those of a run with none. A session adds each file, in the order of the paths.
Another then replaces each by the same bytes. Its instructions count less those of the first.
"""
import argparse
import pathlib
import re
import subprocess
import sys

sys.dont_write_bytecode = True
sys.path.insert(0, str(pathlib.Path(__file__).resolve().parent.parent))
import common

CALLGRIND = ["valgrind", "--tool=callgrind", "--callgrind-out-file=/dev/null"]
PASSES = (("`parse`", "count-parse"), ("`parse` and `format_faults`", "count-faults"), ("`parse` and `faults_in`", "count-code-faults"))


def instructions(command, statuses=(0,), frames=None, folder=None):
    """Returns the number of instructions that a command executes."""
    with open(frames or "/dev/null", "rb") as text:
        done = subprocess.run([*CALLGRIND, *command], stdin=text, stdout=subprocess.DEVNULL, stderr=subprocess.PIPE, text=True,
                              cwd=folder)
    found = re.search(r"Collected : (\d+)", done.stderr)
    if done.returncode not in statuses or not found:
        sys.exit(f"{command}: status {done.returncode}\n{done.stderr}")
    return int(found[1])


def session(program, tree, words):
    """Returns the instructions of a session that makes edits with these words of each file in turn."""
    with common.Workplace() as work:
        paths = sorted(path.relative_to(tree) for path in tree.rglob("*.class"))
        lines = work / "lines"
        lines.write_text("".join(f"{word} {path}\n" for word in words for path in paths))
        return instructions([pathlib.Path(program).resolve(), "session"], (0, 1), frames=lines, folder=tree)


def counts(tree, beside):
    """Yields what is counted, and its instructions."""
    for program in [common.JCLINK, *beside]:
        yield f"{program} check", instructions([program, "check", tree], (0, 1))
        added = session(program, tree, ["add"])
        yield f"{program} session, each file added", added
        yield f"{program} session, each file replaced by the same bytes", session(program, tree, ["add", "replace"]) - added
    with common.Workplace() as work:
        frames = work / "frames"
        frames.write_bytes(common.framed([path.read_bytes() for path in sorted(tree.rglob("*.class"))]))
        for what, word in PASSES:
            none, one = (instructions([*common.ANSWERS, word, rounds], frames=frames) for rounds in "01")
            yield what, one - none


def main():
    parser = argparse.ArgumentParser()
    parser.add_argument("--beside", action="append", default=[], metavar="PROGRAM", type=pathlib.Path)
    parser.add_argument("tree", type=pathlib.Path, metavar="TREE")
    options = parser.parse_args()
    common.build()
    files = sum(1 for _ in options.tree.rglob("*.class"))
    print(f"{files:,} class files")
    for what, number in counts(options.tree, options.beside):
        print(f"{what}: {number:,} instructions")


if __name__ == "__main__":
    main()
