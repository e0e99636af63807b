#!/usr/bin/env python3
"""Compares the output of `jclink check` with that of a plain judge (judge.py), over random small worlds.

The trial writes each world as a folder and runs `jclink check` on it. It compares standard output, standard error and the
status. Some folders have no report, because a name is not UTF-8 or because a file or a folder cannot be read. Then it
compares the same with --errors, with and without --used, and with --only and some prefixes. The last lines say how often
each kind of row was expected, and which kinds never were.

Usage: run.py [--tree DIR]... [--keep FOLDER] [SEED [COUNT]], once ./jclink is built. The environment's JCLINK may name
another program. Without SEED the seed is 1, and without COUNT there are 2,000 worlds. --tree also compares a folder of class
files. --keep copies the worlds that differ into a folder, by their numbers.
"""
import argparse
import collections
import os
import pathlib
import random
import re
import shlex
import shutil
import subprocess
import sys

sys.dont_write_bytecode = True
sys.path.insert(0, str(pathlib.Path(__file__).resolve().parent.parent))
import common
import judge
import worlds

# The forms of lines, by section. The groups are what a line says without its names.
SORTS = {
    "files": re.compile(r".*?: (class|shadowed|unreadable \d \w+)"),
    "parts": re.compile(r"(?:part .*?: (loaded|error \d \w+)|  (format F\d+|code S\d+)|  (link) \d+ \d+ (error \d \w+)"
                        r"|  #\d+ (\w+) .* -> (To|Outside|NotLoaded|error \d \w+))"),
    "circular": re.compile(r"()"),
    "provided": re.compile(r"(\w+) "),
    "required": re.compile(r"(\w+) "),
}
ERRORS = [f"error {code} {name}" for name, code in judge.links.ERRORS.items()]
REFUSALS = ["1 Magic", "2 Version", "3 Count", "4 Tag", "5 Wide", "6 Trailing", "7 Short", "8 NoName"]
OF_CLASSES = ["To", "Outside", "NotLoaded", *ERRORS[:5]]
ANSWERS = {"class": OF_CLASSES, "field": [*OF_CLASSES, ERRORS[5]], "method": [*OF_CLASSES, ERRORS[6]], "imethod": [*OF_CLASSES, ERRORS[6]]}
ENDS = {0: "not wrong", 1: "wrong", 3: "not read"}
EXPECTED = [
    *(f"files {what}" for what in ["class", "shadowed", *(f"unreadable {refusal}" for refusal in REFUSALS)]),
    *(f"parts {what}" for what in ["loaded", *ERRORS[:5]]),
    *(f"parts {kind} {answer}" for kind, answers in ANSWERS.items() for answer in answers),
    *(f"parts format F{rule}" for rule in range(1, 31)), *(f"parts code S{rule}" for rule in range(1, 25)),
    *(f"parts link {ERRORS[at]}" for at in (3, 4, 6, 7)),
    "circular", *(f"provided {kind}" for kind in ("class", "field", "method")),
    *(f"required {kind}" for kind in ("class", "field", "method", "imethod")), *ENDS.values(),
    *(f"errors of {what}{used} {end}" for what in ("all", "some") for used in ("", " used") for end in ENDS.values()),
    "errors used by a method", "errors used", "errors unused", "errors of instructions", "errors used by a descriptor alone",
]


def sorts_of(text):
    section = None
    for line in text.splitlines():
        if line.startswith("["):
            section = line.strip("[]")
        else:
            yield " ".join([section, *filter(None, SORTS[section].match(line).groups())])


def write(folder, files):
    """Writes the files of a world. Links lead out of it, to a class or to a folder with a class."""
    outside = folder.with_name("outside")
    outside.mkdir(exist_ok=True)
    (outside / "Far.class").write_bytes(common.class_file(b"Far"))
    folder.mkdir()
    for path, data in files.items():
        place = os.path.join(os.fsencode(folder), path)
        os.makedirs(os.path.dirname(place), exist_ok=True)
        if data is None:
            os.symlink(outside / "Far.class" if b"link" in path else outside, place)
        else:
            with open(place, "wb") as file:
                file.write(data)


def words_of(rng, option, prefixes):
    words = []
    for prefix in prefixes or ():
        words += [option + b"=" + prefix] if prefix.startswith(b"-") or rng.random() < 0.5 else [option, prefix]
    return words


def some_prefixes(rng, files):
    """Returns prefixes of paths, which may also be prefixes of class names, and of a few other texts."""
    found = [path.removesuffix(b".class").decode() for path in sorted(files) if judge.is_word(path)] + ["p/", "java/", "\u00e4"]
    return [(rng.choice(found)[: rng.randint(1, 4)] or "p").encode() for _ in range(rng.randint(1, 3))]


def printed(words, folder):
    done = subprocess.run([common.JCLINK, "check", *words, folder], capture_output=True, timeout=60)
    output, errors = (text.decode("ascii", "backslashreplace") for text in (done.stdout, done.stderr))
    return output, done.returncode, errors


def tell(what, ours, wanted):
    lines, others = ours[0].splitlines(), wanted[0].splitlines()
    at = next((at for at, pair in enumerate(zip(lines, others)) if pair[0] != pair[1]), min(len(lines), len(others)))
    print(f"{what}: status {ours[1]} for {wanted[1]}, standard error {ours[2]!r} for {wanted[2]!r}, {len(lines)} lines for {len(others)}, of which line {at + 1}:")
    print(f"  jclink: {''.join(lines[at:at + 1])}\n  judge:  {''.join(others[at:at + 1])}")


def compare(what, words, folder, wanted, told):
    """Returns whether the program prints what the judge says, with the same status."""
    told.update([*sorts_of(wanted[0]), ENDS[wanted[1]]])
    ours = printed(words, folder)
    if ours != wanted:
        tell(what, ours, wanted)
    return ours == wanted


def compare_errors(what, words, folder, only, used_only, files, prefixes, told):
    """Returns whether the program prints the errors that the judge finds, with the same status."""
    flags = [b"--errors", b"--used"] if used_only else [b"--errors"]
    ours, wanted = printed([*flags, *words], folder), judge.owed(files, prefixes, folder, only, used_only)
    told[f"errors {'of all' if only is None else 'of some'}{' used' if used_only else ''} {ENDS[wanted[1]]}"] += 1
    if only is None and not used_only and wanted[1] == 1:
        told["errors used by a descriptor alone"] += judge.Report(judge.class_files(files), prefixes or judge.STANDARD).described()
    for line in wanted[0].splitlines():
        if found := re.match(r"\S+: (\d+: \w+ )?\w+ \S+ -> error", line):
            told["errors of instructions" if found[1] else "errors unused" if line.endswith(" (unused)")
                 else "errors used by a method" if ":" in line.split(": ")[0] else "errors used"] += 1
    if ours != wanted:
        tell(f"{what} with {b' '.join(flags).decode()}", ours, wanted)
    return ours == wanted


def try_tree(tree, told):
    files = judge.files_below(tree)
    right = compare(tree, [], tree, judge.owed(files, None, tree), told)
    return all([compare_errors(tree, [], tree, None, used_only, files, None, told) for used_only in (False, True)]) and right


def try_world(seed, number, work, keep, told):
    rng, folder = random.Random(f"{seed}.{number}"), work / "world"
    files, prefixes = worlds.make_world(rng)
    write(folder, files)
    words = words_of(rng, b"--outside", prefixes)
    right = compare(f"world {number}", words, folder, judge.owed(files, prefixes, folder), told)
    for only in (None, some_prefixes(rng, files)):
        asked = [*words, *words_of(rng, b"--only", only)]
        for used_only in (False, True):
            right &= compare_errors(f"world {number}", asked, folder, only, used_only, files, prefixes, told)
    if keep and not right:
        shutil.copytree(folder, pathlib.Path(keep) / str(number), symlinks=True)
        print("  kept; its words:", " ".join(map(shlex.quote, map(os.fsdecode, words))))
    shutil.rmtree(folder)
    return right


def try_shut(work):
    """Returns whether runs over an unreadable folder, subfolder and file are right. As root it runs jclink as nobody."""
    tree, program = work / "shut", shutil.copy(common.JCLINK, work / "jclink")
    write(tree, {b"A.class": common.class_file(b"A"), b"b/B.class": common.class_file(b"B")})
    right = []
    for path, told in {".": tree, "b": "b", "b/B.class": "b/B.class"}.items():
        (tree / path).chmod(0)
        done = subprocess.run([program, "check", tree], capture_output=True, user="nobody" if os.geteuid() == 0 else None)
        (tree / path).chmod(0o755)
        ours, wanted = (done.stdout.decode(), done.returncode, done.stderr.decode()), ("", 3, f"jclink: cannot read {told}\n")
        if ours != wanted:
            tell(f"{path} shut", ours, wanted)
        right.append(ours == wanted)
    return right


def main():
    parser = argparse.ArgumentParser()
    parser.add_argument("--keep", metavar="FOLDER")
    parser.add_argument("--tree", metavar="DIR", action="append", default=[])
    parser.add_argument("seed", type=int, nargs="?", default=1)
    parser.add_argument("count", type=int, nargs="?", default=2000)
    options = parser.parse_args()
    if not common.JCLINK.exists():
        sys.exit(f"no program at {common.JCLINK}")
    told = collections.Counter()
    right = [try_tree(tree, told) for tree in options.tree]
    with common.Workplace() as work:
        work.chmod(0o755)
        right += try_shut(work)
        right += [try_world(options.seed, number, work, options.keep, told) for number in range(options.count)]
    missed = [sort for sort in EXPECTED if not told[sort]]
    print(f"{options.count} worlds, {len(options.tree)} trees and three that may not be read, {right.count(False)} differ; never owed: {', '.join(missed) or 'nothing'}")
    print(", ".join(f"{told[sort]} {sort}" for sort in [*EXPECTED, *sorted(set(told) - set(EXPECTED))]))
    sys.exit(0 if all(right) else 1)


if __name__ == "__main__":
    main()
