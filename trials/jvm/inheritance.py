#!/usr/bin/env python3
"""Compares the errors of inheritance that jclink finds with those of a virtual machine.

Usage: inheritance.py [TREE..] [--worlds N] [--seed N] [--judge] [--show N] [--java PATH]

A TREE is a folder of class files, each at the path of its name. --worlds adds random worlds: a few classes in three packages,
with methods of few names and random flags. The errors are those of `jclink check --errors`, once ./jclink is built; with
--judge those of the plain judge of trials/check. The trial needs a java of version 17 or later (Inherit.java).

The machine checks both rules when it loads a class: it names the class with a FINAL superclass, or one method that overrides
a FINAL one. jclink must have a line exactly for the classes that the machine names, and one for the method that it names.
Of a class below a rejected one, the machine says only that this one is rejected, so jclink's lines for it are only counted.
A class that jclink does not load, or below one, is not compared. Status 1: something differs.
"""
import argparse
import collections
import pathlib
import random
import re
import subprocess
import sys

sys.dont_write_bytecode = True
sys.path.insert(0, str(pathlib.Path(__file__).resolve().parent.parent))
import common

judge, makes = common.load("check/judge.py"), common.load("hostile/classes.py")

SOURCE = pathlib.Path(__file__).resolve().parent / "Inherit.java"
NAMES = [b"A", b"B", b"C", b"p/A", b"p/B", b"p/C", b"q/A", b"q/B"]
KEYS = [(b"m", b"()V"), (b"n", b"()V"), (b"m", b"(I)V")]
# PUBLIC, PROTECTED and none three times each, PRIVATE once; a third of them FINAL, some STATIC.
FLAGS = [0x01, 0x01, 0x11, 0x04, 0x04, 0x14, 0x00, 0x00, 0x10, 0x02, 0x12, 0x09, 0x19]
# Of the machine's messages. The name of a method ends at its descriptor.
EXTENDS = re.compile(r"class (\S+) cannot inherit from final class (\S+)")
OVERRIDES = re.compile(r"class (\S+) overrides final method (\S+)\.([^.(]+)(\(\S+)")
LINE = re.compile(r"(?P<class>[^.:]+)(?:\.(?P<method>[^:]+:\S+))?: (?:extends FINAL (?P<super>\S+)|overrides FINAL (?P<home>[^.]+)\..*)")


def class_of(rng, name, parent):
    pool = makes.Pool()
    methods = [(rng.choice(FLAGS) | makes.NATIVE, pool.text(key[0]), pool.text(key[1]), [])
               for key in KEYS if rng.random() < 0.6]
    flags = makes.PUBLIC | makes.SUPER | (0x10 if rng.random() < 0.1 else 0)
    return makes.class_file(pool, name, flags=flags, parent=parent, methods=methods)


def make_world(rng):
    """Returns the classes of a random world by their names, each below one before it, or outside."""
    names = rng.sample(NAMES, rng.randint(3, len(NAMES)))
    parents = [rng.choice(names[max(0, at - 2):at] * 4 + [makes.OBJECT, b"java/lang/Thread"]) for at in range(len(names))]
    return {name: class_of(rng, name, parent) for name, parent in zip(names, parents)}


def write(folder, classes):
    for name, data in classes.items():
        path = folder / (name.decode() + ".class")
        path.parent.mkdir(parents=True, exist_ok=True)
        path.write_bytes(data)
    return folder


def lines_of(options, folder):
    """Returns the lines of `--errors` for a folder."""
    if options.judge:
        return judge.owed(judge.files_below(folder), [], str(folder), only=None)[0].splitlines()
    done = subprocess.run([common.JCLINK, "check", "--errors", folder], capture_output=True, text=True, check=False)
    if done.returncode > 1:
        sys.exit(f"jclink check: status {done.returncode}, {done.stderr}")
    return done.stdout.splitlines()


def outcomes(options, folders):
    """Returns what the machine says of each class, by folder and class."""
    found = collections.defaultdict(dict)
    for at in range(0, len(folders), 500):
        command = [options.java, "-XX:TieredStopAtLevel=1", "-XX:+UseSerialGC", SOURCE, *folders[at:at + 500]]
        for line in subprocess.run(command, stdout=subprocess.PIPE, text=True, check=True).stdout.splitlines():
            if line.startswith("tree "):
                tree = line.removeprefix("tree ")
            else:
                name, _, outcome = line.partition(": ")
                found[tree][name] = outcome
    return found


def named_by(outcome):
    """Returns the class that the machine rejects because of FINAL, and what its line must say; or None."""
    if match := EXTENDS.search(outcome):
        return match[1].replace(".", "/"), ("super", match[2].replace(".", "/"))
    if match := OVERRIDES.search(outcome):
        return match[1].replace(".", "/"), (f"{match[3]}:{match[4]}", match[2].replace(".", "/"))
    return None


def compare(lines, machine):
    """Yields for each class how both sides agree or differ."""
    ours, not_loaded = collections.defaultdict(set), set()
    for line in lines:
        if match := LINE.fullmatch(line):
            ours[match["class"]].add(("super", match["super"]) if match["super"] else (match["method"], match["home"]))
        elif match := re.fullmatch(r"([^.:]+): error .*", line):
            not_loaded.add(match[1])
    for name, outcome in sorted(machine.items()):
        named = named_by(outcome)
        if name in not_loaded:
            yield "not compared: jclink does not load it", name
        elif named and named[0] != name:
            yield "below a rejected class" + (", with lines of its own" if ours[name] else ""), name
        elif named:
            yield ("rejected, agrees" if named[1] in ours[name] else "rejected, differs"), f"{name}: {outcome} | {sorted(ours[name])}"
        elif outcome == "loaded":
            yield ("accepted, differs" if ours[name] else "accepted, agrees"), f"{name}: {sorted(ours[name])}"
        else:
            yield "not compared: the machine does not load it", f"{name}: {outcome}"


def main():
    parser = argparse.ArgumentParser()
    parser.add_argument("trees", nargs="*", type=pathlib.Path)
    parser.add_argument("--worlds", type=int, default=0)
    parser.add_argument("--seed", type=int, default=1)
    parser.add_argument("--judge", action="store_true")
    parser.add_argument("--show", type=int, default=3)
    parser.add_argument("--java", default="java")
    options = parser.parse_args()
    rng = random.Random(options.seed)
    with common.Workplace() as work:
        folders = [(tree.name, tree) for tree in options.trees]
        folders += [("random worlds", write(work / f"world{at}", make_world(rng))) for at in range(options.worlds)]
        machine, counts, examples = outcomes(options, [str(folder) for _, folder in folders]), {}, {}
        for name, folder in folders:
            for sort, line in compare(lines_of(options, folder), machine[str(folder)]):
                counts.setdefault(name, collections.Counter())[sort] += 1
                shown = examples.setdefault((name, sort), [])
                shown += [line] if len(shown) < options.show and "agrees" not in sort else []
    for name, sorts in counts.items():
        print(f"{name}: {sum(sorts.values())} classes")
        for sort, number in sorted(sorts.items()):
            print(f"  {number} {sort}")
            for line in examples[name, sort] if "differs" in sort else ():
                print(f"      {line}")
    different = sum(number for sorts in counts.values() for sort, number in sorts.items() if "differs" in sort)
    print(f"{different} differ")
    sys.exit(1 if different else 0)


if __name__ == "__main__":
    main()
