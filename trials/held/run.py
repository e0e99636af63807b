#!/usr/bin/env python3
"""Compares sessions with a plain judge over random lists of edits, of files and of outside prefixes.

After each edit the trial compares the report, the number of parts and of look-ups, the dependants of every name, and the
prefixes that the session has.

The judge (trials/check, trials/link) shares no code with the library. It computes the whole report from the files and
prefixes that remain. An edit must make the parts of exactly the affected classes: those after the edit whose reach contains
a name that it touches. It must look up each name in their reaches exactly once. An edit of files touches the names whose
winner, or what linking keeps of it, differs before and after the edit. An edit of prefixes touches the names without a class
that become outside or stop being outside.

Usage: run.py [SEED [COUNT]]. Without SEED the seed is 1, and without COUNT there are 2,000 lists. It builds jc_asked.
"""
import argparse
import collections
import pathlib
import random
import struct
import subprocess
import sys

sys.dont_write_bytecode = True
HERE = pathlib.Path(__file__).resolve().parent
sys.path[:0] = [str(HERE.parent), str(HERE.parent / "check")]
import common
import judge
import worlds

links = judge.links
BATCH = 50
# The commands that add and drop a prefix.
PREFIX_WORDS = (b"p", b"x")


def framed(piece):
    return struct.pack(">I", len(piece)) + piece


def facts(record):
    """Returns what linking keeps of a class file."""
    users = [(record.first.get(index), index in record.used) for index, *_ in record.references]
    return (record.flags, record.faults, record.parent, list(dict.fromkeys(record.interfaces)), record.fields, record.methods,
            record.references, record.uses, users, record.code_faults)


def with_attribute(data):
    """Returns a class file with an attribute that linking does not read, if the class has none, or else the same bytes."""
    if not data.endswith(b"\0\0"):
        return data
    file = links.rules.ClassFile(data)
    return data[:-2] + struct.pack(">HHI", 1, file.pair(file.this)[0], 3) + b"abc"


class Held:
    """The expected answers for the files that remain, recomputed at each edit."""

    def __init__(self, prefixes):
        self.files, self.prefixes = {}, tuple(dict.fromkeys(prefixes))
        self.made()

    def made(self):
        self.report = judge.Report(self.files, self.prefixes)
        self.winners = {}
        for path, name in self.report.names.items():
            self.winners.setdefault(name, path)
        self.given = {name: (self.winners[name], facts(record)) for name, record in self.report.world.given.items()}
        self.reaches = {name: self.reach(name) for name in self.report.world.given}

    def reach(self, name):
        world, found = self.report.world, {name, links.OBJECT}
        record = world.records[name]
        waiting = [links.innermost(text) for _, tag, text, _ in record.references]
        found.update(text for text in waiting if text is not None)
        waiting = sorted(found)
        while waiting:
            here = world.records.get(waiting.pop())
            for parent in here.supers() if here else []:
                if parent not in found:
                    found.add(parent)
                    waiting.append(parent)
        return found

    def cost(self, affected):
        """Returns the number of parts to make for these classes, and the number of names to look up."""
        return len(affected), len(set().union(*(self.reaches[name] for name in affected)))

    def prefix_refusal(self, word, prefix):
        if not 0 < len(prefix) <= 256:
            return "BadPrefix"
        if word == b"x":
            return None if prefix in self.prefixes else "NoSuchPrefix"
        if prefix in self.prefixes:
            return "PrefixThere"
        return "TooManyPrefixes" if len(self.prefixes) >= 64 else None

    def edit_prefixes(self, word, prefix):
        refusal = self.prefix_refusal(word, prefix)
        if refusal:
            return f"refused {refusal}"
        old = self.prefixes
        self.prefixes = (*(one for one in old if one != prefix), *([prefix] if word == b"p" else []))
        self.made()
        turned = lambda name: name not in self.report.world.records and name.startswith(old) != name.startswith(self.prefixes)
        return self.cost([name for name, reach in self.reaches.items() if any(map(turned, reach))])

    def refusal(self, word, path, data):
        if not 0 < len(path) <= 4096:
            return "BadPath"
        if word == b"a" and path in self.files:
            return "AlreadyThere"
        if word != b"a" and path not in self.files:
            return "NoSuchFile"
        return None

    def edit(self, word, path, data):
        """Returns the line of the answer to an edit, or for an accepted edit its cost."""
        if word in PREFIX_WORDS:
            return self.edit_prefixes(word, path)
        refusal = self.refusal(word, path, data)
        if refusal:
            return f"refused {refusal}"
        old_given, old_reaches = self.given, self.reaches
        self.files = {other: bytes for other, bytes in self.files.items() if other != path}
        if word != b"d":
            self.files[path] = data
        self.made()
        touched = {name for name in old_given.keys() | self.given.keys() if old_given.get(name) != self.given.get(name)}
        assert all(path in (old_given.get(name, [None])[0], self.winners.get(name)) for name in touched), touched
        affected = [name for name in self.reaches if self.reaches[name] & touched]
        again = [name for name in self.reaches if old_reaches.get(name, {name} & touched) & touched]
        assert sorted(affected) == sorted(again), (affected, again)
        return self.cost(affected)

    def dependants(self, name):
        return "".join(f" {links.shown(user)}" for user in sorted(self.reaches) if name in self.reaches[user])


def random_steps(rng):
    """Returns edits over the paths and files of a small world. Some of them are refused."""
    files, prefixes = worlds.make_world(rng)
    files = {path: data for path, data in files.items() if data is not None and path.endswith(b".class")}
    paths, datas = sorted(files) or [b"A.class"], [*files.values(), worlds.PLAIN]
    steps = [(b"a", path, files[path]) for path in rng.sample(sorted(files), len(files))]
    datas += [with_attribute(data) for data in datas if judge.reader.answer(data).startswith("ok ")]
    for _ in range(rng.randrange(4, 12)):
        path = rng.choice(paths) if rng.random() < 0.9 else rng.choice([b"", b"x" * 4097, b"new.class", b"0"])
        word = rng.choice([b"a", b"r", b"r", b"d", b"d"])
        steps.append((word, path, b"" if word == b"d" else rng.choice(datas)))
        if word == b"d" and rng.random() < 0.5:
            steps.append((b"a", path, rng.choice(datas)))
    steps = mixed(rng, steps, prefix_steps(rng, files, prefixes or judge.STANDARD))
    return steps, [prefix for prefix in prefixes or []]


def prefix_steps(rng, files, prefixes):
    """Returns edits of prefixes that cover nothing, all names, each other, names that files give, and the first prefixes."""
    held = Held(tuple(prefixes))
    held.files = files
    held.made()
    names = sorted(set().union(*held.reaches.values(), held.report.world.given)) or [b"A"]
    fronts = [name[:rng.randrange(1, len(name) + 1)] for name in rng.choices(names, k=4)] + [name + b"/" for name in names[:1]]
    pool = [*prefixes, *judge.STANDARD, b"java/lang/Object", b"j", b"org/", b"org/x/", b"nothing/", *fronts]
    steps = []
    for _ in range(rng.randrange(0, 10)):
        prefix = rng.choice(pool) if rng.random() < 0.9 else rng.choice([b"", b"p" * 256, b"p" * 257])
        steps.append((rng.choice(PREFIX_WORDS), prefix, b""))
    if rng.random() < 0.2:
        steps += [(word, prefix, b"") for word in (b"x", b"p") for prefix in prefixes]
    if rng.random() < 0.02:
        steps += [(b"p", b"full%d" % number, b"") for number in range(64)]
    return steps


def mixed(rng, first, second):
    """Merges two lists at random. Each keeps its order."""
    whole = []
    while first or second:
        taken = first if rng.random() * (len(first) + len(second)) < len(first) else second
        whole.append(taken[0])
        del taken[0]
    return whole


def names_of(held, steps):
    names = set().union(*held.reaches.values()) if held.reaches else set()
    return sorted(names)[:40] + [b"nothing", links.OBJECT]


def prefixes_of(steps, prefixes):
    return sorted({*(prefix for word, prefix, _ in steps if word in PREFIX_WORDS), *prefixes, *judge.STANDARD})[:12]


def script_of(steps, prefixes):
    """Returns the frames of a list, and the expected answers: lines, or for an edit a pair of numbers."""
    held, frames, owed = Held(tuple(prefixes) or judge.STANDARD), [framed(b"".join(map(framed, prefixes)))], []
    for word, path, data in steps:
        frames += [framed(word + path), framed(data)]
        owed.append(held.edit(word, path, data))
        frames += [framed(b"t"), framed(b"")]
        owed += [*held.report.text().splitlines(), "end"]
        for prefix in prefixes_of(steps, prefixes):
            frames += [framed(b"h" + prefix), framed(b"")]
            owed.append("held" if prefix in held.prefixes else "not held")
        for name in names_of(held, steps):
            frames += [framed(b"q" + name), framed(b"")]
            owed.append(held.dependants(name))
    return framed(b"".join(frames)), owed + ["end"]


def is_owed(line, owed):
    if isinstance(owed, str):
        return line == owed
    words = line.split()
    return len(words) == 3 and words[0] == "ok" and int(words[1]) == owed[0] and int(words[2]) == owed[1]


def compare(number, lines, owed, told):
    for at, want in enumerate(owed):
        if at >= len(lines) or not is_owed(lines[at], want):
            print(f"list {number}, line {at + 1}: {lines[at:at + 1]} for {want!r}")
            return False
        if not isinstance(want, str):
            told["edits"] += 1
            told["parts"] += want[0]
            told["asks"] += want[1]
        elif want.startswith("refused"):
            told[want] += 1
    return len(lines) == len(owed)


def main():
    parser = argparse.ArgumentParser()
    parser.add_argument("seed", type=int, nargs="?", default=1)
    parser.add_argument("count", type=int, nargs="?", default=2000)
    options = parser.parse_args()
    common.build()
    told, differ = collections.Counter(), 0
    for start in range(0, options.count, BATCH):
        numbers = range(start, min(start + BATCH, options.count))
        scripts = [script_of(*random_steps(random.Random(f"{options.seed}.{number}"))) for number in numbers]
        done = subprocess.run([*common.ANSWERS, "edits"], input=b"".join(frames for frames, _ in scripts), capture_output=True)
        lines = done.stdout.decode("ascii").split("\n")[:-1]
        for number, (_, owed) in zip(numbers, scripts):
            differ += not compare(number, lines[:len(owed)], owed, told)
            lines = lines[len(owed):]
    print(f"{options.count} lists, {differ} differ; " + ", ".join(f"{count} {what}" for what, count in sorted(told.items())))
    sys.exit(1 if differ else 0)


if __name__ == "__main__":
    main()
