#!/usr/bin/env python3
"""Tries mutants, which are functions with a wrong body. The prover must reject each of them.

    python3 trials/mutants/run.py              the mutants of every crate
    python3 trials/mutants/run.py jc_base      those of the named crates
        --only PATTERN    those whose names match a regular expression
        --gate            the mutants of the gate, crates/CRATE/must-fail
        --said FOLDER     writes the output of each check into files of a folder
        --jobs N          the number of jobs of a check, 1 by default

A file CRATE/MODULE-FUNCTION-WHAT.edit has the form of a must-fail edit: a line `file: src/x.rt`, then pairs of lines
`old: TEXT` and `new: TEXT`. Each old text must occur exactly once in that file. docs/MUTANTS.md says which mutants the gate
tries.

A check of a crate costs far more than the proof of one function. So one check, on a copy of the crate and of the libraries
that it uses, tries a mutant of each function. It says nothing about a function that calls an unproved one. Such a mutant is
tried again in the next round.

A mutant is rejected if the check says that the changed function itself is not proved. If the check says only that the proof
names something that the mutant removed, the mutant shows nothing and must be rewritten.

After each crate the trial prints a row: crate, mutants, rejected, rejected only by a name, seconds. The last line is
`N mutants, each refused`, or says how many were not rejected. Then the status is 1.
"""
import argparse
import re
import shutil
import subprocess
import sys
import tempfile
import time
from pathlib import Path

HERE = Path(__file__).resolve().parent
ROOT = HERE.parent.parent
FUNCTION = re.compile(r"( *)(?:pub(?:\(crate\))? )?fn (\w+)")
ERROR = re.compile(r"^\./proofs/(\S+)/\w+\.antt:\d+:\d+: error: (.*(?:\n  .*)*)", re.M)
OPEN = re.compile(r"^note: (src/\S+\.rt):(\d+):\d+: (.*)$", re.M)
# The texts of errors of a proof that names a missing step or branch, or that depends on such a proof.
NAMES = re.compile(r"that can be named|has no field|no name that rattle asks for|which was rejected, w(?:as|ere) not checked")
REFUSED, NAMED, THROUGH = "refused", "REFUSED ONLY BY A NAME", "NOT REFUSED"


def owner_of(line):
    """Returns the type of a line `impl .. {`."""
    type_text = line.split(" for ")[1] if " for " in line else re.sub(r"^impl(<.*?>)? ", "", line)
    return re.match(r"&?(?:'\w+ )?(?:mut )?(\w+)", type_text)[1]


def functions_of(text):
    """Returns the functions of a file in the format of `rt fmt`, each with the type of its `impl` and its lines."""
    found, owner, lines = {}, "", text.split("\n")
    for at, line in enumerate(lines):
        start = FUNCTION.match(line)
        if line.startswith("impl"):
            owner = owner_of(line)
        elif line == "}":
            owner = ""
        elif start:
            ends = (n for n in range(at, len(lines)) if lines[n] in (start[1] + "}", start[1] + "{}"))
            # (several impls of one trait, for example From, have one name)
            found.setdefault((owner, start[2]), {}).update((n, lines[n]) for n in range(at, next(ends, at) + 1))
    return found


class Mutant:
    def __init__(self, path, crate):
        self.path, self.pairs = path, []
        for line in path.read_text(encoding="utf-8").splitlines():
            word, _, text = line.partition(": ")
            if word == "file":
                self.file = text
            elif word == "old":
                old = text
            elif word == "new":
                self.pairs.append((old, text))
        functions = functions_of((crate / self.file).read_text(encoding="utf-8"))
        self.functions = {it for it, lines in functions.items() if any(old in "\n".join(lines.values()) for old, _ in self.pairs)}
        self.lines = {n + 1 for it in self.functions for n in functions[it]}

    def applied(self, text):
        for old, new in self.pairs:
            if text.count(old) != 1:
                sys.exit(f"{self.path.name}: this stands in {self.file} {text.count(old)} times: {old}")
            text = text.replace(old, new)
        return text

    def meets(self, other):
        """Returns whether one of the two writes a text that the other one replaces."""
        pairs = [(a, b) for a in self.pairs for b in other.pairs]
        return self.file == other.file and any(a[0] in b[1] or b[0] in a[1] for a, b in pairs)

    def is_about(self, path):
        """Returns whether the check of the function with this name may reject the mutant."""
        module = [] if self.file == "src/lib.rt" else list(Path(self.file).with_suffix("").parts[1:])
        return not self.functions or any(is_named(it, module, path) for it in self.functions)

    def verdict(self, said):
        """Returns the verdict of the check on the changed function, or None if a function that it calls is not proved."""
        fns = re.findall(r"^fn \w+::(\S+): (.*)$", said, re.M)
        reasons = [reason for name, reason in fns if self.is_about(name.split("::"))]
        if any(it != "proved" and "it calls `" not in it for it in reasons):
            return NAMED if self.lost_names_alone(said) else REFUSED
        return None if any("it calls `" in it for it in reasons) else THROUGH

    def lost_names_alone(self, said):
        """Returns whether the only errors in the function's proof are about names, and no goal is found to be false."""
        errors = [what for path, what in ERROR.findall(said) if self.is_about(path.split("/"))]
        false = any(
            "at which this goal is false" in what and (not self.functions or file == self.file and int(line) in self.lines)
            for file, line, what in OPEN.findall(said)
        )
        return bool(errors) and not false and all(NAMES.search(it) for it in errors)


def is_named(function, module, path):
    """Returns whether a name in the check is this function's. A method of another module's type is named by that module."""
    if path[: len(module)] == module:
        return stands_in(function, path[len(module) :])
    return function[0] in path and stands_in(function, path)


def stands_in(function, path):
    """Returns whether a name in the check, without its module, is this function's or that of a closure in it."""
    owner, name = function
    return name in path and (not owner or any(it.startswith((owner, "Ref" + owner)) for it in path))


def below(name):
    """Returns the crate and all crates of the repository that it depends on, each with the libraries that it uses."""
    rows = (it.split("#")[0].partition(":") for it in (ROOT / "crates.txt").read_text().splitlines())
    uses = {head.split()[0]: rest.split() for head, _, rest in rows if head.strip()}
    found, left = {}, [name]
    while left:
        crate = left.pop()
        if crate in uses and crate not in found:
            found[crate] = uses[crate]
            left += uses[crate]
    return found


def copied(name, room):
    """Copies the crate and the crates that it depends on, with the results of earlier checks."""
    subprocess.run(["git", "init", "-q"], cwd=room, check=True)
    needs = below(name)
    for crate in needs:
        skipped = shutil.ignore_patterns("must-fail")
        shutil.copytree(ROOT / "crates" / crate, room / "crates" / crate, symlinks=True, ignore=skipped)
    (room / "crates.txt").write_text("".join(f"{it}: {' '.join(needs[it])}\n" for it in needs))
    return room / "crates" / name


def checked(mutants, crate, copy, options):
    """Applies the mutants to the copy, returns the output of the check, and restores the copy."""
    for mutant in mutants:
        text = mutant.applied((copy / mutant.file).read_text(encoding="utf-8"))
        (copy / mutant.file).write_text(text, encoding="utf-8")
    how = {"stdout": subprocess.PIPE, "stderr": subprocess.STDOUT, "text": True}
    said = subprocess.run(["rt", "check", "--jobs", str(options.jobs)], cwd=copy, **how).stdout
    if options.said:
        kept = options.said / f"{crate.name}-{sum(1 for _ in options.said.glob(crate.name + '-*')) + 1}"
        kept.write_text("".join(f"{it.path.name}\n" for it in mutants) + "\n" + said, encoding="utf-8")
    for mutant in mutants:
        shutil.copyfile(crate / mutant.file, copy / mutant.file)
    if "\nlogic=" not in said:
        sys.exit(f"{crate.name}: the check did not reach the prover:\n{said[-3000:]}")
    return said


def one_of_each(mutants):
    """Chooses mutants for one check. No two are in one function, and none writes a text that another one replaces.

    A mutant outside functions, for example of a constant, is checked separately, because any function may reject it.
    """
    alone = [mutant for mutant in mutants if not mutant.functions]
    if alone:
        return alone[:1]
    taken, chosen = set(), []
    for mutant in mutants:
        here = {(mutant.file, it) for it in mutant.functions}
        if not here & taken and not any(mutant.meets(it) for it in chosen):
            taken |= here
            chosen.append(mutant)
    return chosen


def tried(crate, options):
    """Tries the crate's mutants, and returns the verdict on each."""
    left, verdicts, start = [Mutant(it, crate) for it in mutants_of(crate, options)], [], time.time()
    with tempfile.TemporaryDirectory(prefix="mutants-") as room:
        copy = copied(crate.name, Path(room))
        while left:
            at_once = one_of_each(left)
            said = checked(at_once, crate, copy, options)
            judged = {it: it.verdict(said) for it in at_once}
            for mutant in [it for it in at_once if judged[it] is not None]:
                left = [it for it in left if it is not mutant]
                verdicts.append(judged[mutant])
                print(f"{crate.name}/{mutant.path.name}: {judged[mutant]}", flush=True)
            if all(it is None for it in judged.values()):
                sys.exit(f"{crate.name}: what these mutants call is not proved without them")
    counts = " | ".join(str(it) for it in (len(verdicts), verdicts.count(REFUSED), verdicts.count(NAMED)))
    print(f"| `{crate.name}` | {counts} | {time.time() - start:.0f} |", flush=True)
    return verdicts


def mutants_of(crate, options):
    folder = crate / "must-fail" if options.gate else HERE / crate.name
    return sorted(it for it in folder.glob("*.edit") if re.search(options.only, it.name))


def main():
    parser = argparse.ArgumentParser()
    parser.add_argument("crates", nargs="*")
    parser.add_argument("--only", default="")
    parser.add_argument("--gate", action="store_true")
    parser.add_argument("--said", type=Path)
    parser.add_argument("--jobs", type=int, default=1)
    options = parser.parse_args()
    if options.said:
        options.said.mkdir(parents=True, exist_ok=True)
    crates = [ROOT / "crates" / name for name in options.crates] or sorted((ROOT / "crates").iterdir())
    verdicts = [it for crate in crates if mutants_of(crate, options) for it in tried(crate, options)]
    if not verdicts:
        sys.exit("no mutant is of these crates and names")
    wrong = len(verdicts) - verdicts.count(REFUSED)
    print(f"{len(verdicts)} mutants, {wrong} of them not refused" if wrong else f"{len(verdicts)} mutants, each refused")
    sys.exit(wrong > 0)


if __name__ == "__main__":
    main()
