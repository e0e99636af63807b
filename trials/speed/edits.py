#!/usr/bin/env python3
"""Measures edits of a tree: its files added one by one, then edits of classes with few and with many dependants.

It prints the milliseconds from a line of `jclink session` to its answer, which include reading the file. The numbers of parts
and of look-ups are those of jc_asked for the same edits.

Usage: edits.py [--rounds N] [--beside PROGRAM] TREE, once jclink is built. It builds jc_asked. The environment's JCLINK may
name another program. PROGRAM, for example an older build, is measured in turn with it. The script itself reads the class
files to find dependants. It makes each edit of the second table three times a round, and prints the least time.
"""
import argparse
import collections
import os
import pathlib
import struct
import subprocess
import sys
import threading
import time

sys.dont_write_bytecode = True
sys.path.insert(0, str(pathlib.Path(__file__).resolve().parent.parent))
import common

OBJECT, STANDARD = b"java/lang/Object", (b"java/", b"javax/")
SIZES = {7: 2, 8: 2, 16: 2, 15: 3, 3: 4, 4: 4, 9: 4, 10: 4, 11: 4, 12: 4, 18: 4, 5: 8, 6: 8}
TIMES = 3


class ClassNames:
    """The names in a class file's constants, and its superclass and interfaces."""

    def __init__(self, data):
        texts, classes, at, index = {}, {}, 10, 1
        while index < struct.unpack_from(">H", data, 8)[0]:
            tag = data[at]
            if tag == 1:
                size = struct.unpack_from(">H", data, at + 1)[0]
                texts[index] = data[at + 3:at + 3 + size]
                at += 3 + size
            else:
                if tag == 7:
                    classes[index] = struct.unpack_from(">H", data, at + 1)[0]
                at += 1 + SIZES[tag]
            index += 2 if tag in (5, 6) else 1
        name = {index: texts[of] for index, of in classes.items()}
        this, parent, count = struct.unpack_from(">HHH", data, at + 2)
        above = [parent] * (parent != 0) + list(struct.unpack_from(f">{count}H", data, at + 8))
        self.name, self.above = name[this], [name[index] for index in above]
        self.named = {self.element(text) for text in name.values()} - {None}

    @staticmethod
    def element(text):
        if not text.startswith(b"["):
            return text
        inner = text.lstrip(b"[")
        return inner[1:-1] if inner.startswith(b"L") else None


def all_above(given, name, known):
    if name not in known:
        found, waiting = set(), [name]
        while waiting:
            here = given.get(waiting.pop())
            for parent in here.above if here else []:
                if parent not in found:
                    found.add(parent)
                    waiting.append(parent)
        known[name] = found
    return known[name]


def count_dependants(given):
    """Returns for each name the number of classes whose reach contains it."""
    counts, known = collections.Counter(), {}
    for name, here in given.items():
        reach = {name, OBJECT} | here.named
        counts.update(reach.union(*(all_above(given, one, known) for one in reach)))
    return counts


def choose(given, counts):
    """Returns names of classes to edit, each with a description."""
    used = sorted(given, key=lambda name: (-counts[name], name))
    near = min(used, key=lambda name: abs(counts[name] - 1000))
    leaf = min((name for name in used if counts[name] == 1), key=lambda name: (abs(len(given[name].named) - 10), name))
    absent = sorted((name for name in counts if name not in given), key=lambda name: (-counts[name], name))
    missed = next(name for name in absent if not name.startswith(STANDARD))
    return [("a class that no other depends on", leaf), (f"a class with {counts[near]:,} dependants", near),
            ("the class with most", used[0])], [("the class that most miss", missed), ("java/lang/String", b"java/lang/String")]


class Session:
    def __init__(self, program, folder):
        self.process = subprocess.Popen([program, "session"], cwd=folder, stdin=subprocess.PIPE, stdout=subprocess.PIPE)

    def send(self, lines):
        self.process.stdin.write(b"".join(line + b"\n" for line in lines))
        self.process.stdin.flush()

    def answer(self, line):
        """Sends a line that has an answer, and returns the answer and the seconds until it arrives."""
        start = time.perf_counter()
        self.send([line])
        return self.process.stdout.readline(), time.perf_counter() - start

    def answers(self, lines):
        """Sends lines, and returns their answers."""
        writer = threading.Thread(target=self.send, args=(lines,))
        writer.start()
        told = [self.process.stdout.readline() for _ in lines]
        writer.join()
        return told

    def memory(self):
        text = pathlib.Path(f"/proc/{self.process.pid}/status").read_text()
        return int(text.split("VmHWM:")[1].split()[0]) / 1000

    def processor(self):
        """Returns the seconds of a processor until now."""
        text = pathlib.Path(f"/proc/{self.process.pid}/stat").read_text()
        words = text[text.rindex(")") + 2:].split()
        return (int(words[11]) + int(words[12])) / os.sysconf("SC_CLK_TCK")

    def close(self):
        self.send([b"end"])
        self.process.wait()


def edits_of(kept, fresh, paths, beside):
    """Yields each edit: its description, and its lines in order."""
    for what, name in kept:
        yield f"remove {what}, and add it", [b"remove " + paths[name], b"add " + paths[name]]
    what, name = kept[-1]
    yield f"replace {what} by the same bytes", [b"replace " + paths[name]]
    for what, name in fresh:
        path = bytes(beside / os.fsdecode(name + b".class"))
        yield f"add {what}, and remove it", [b"add " + path, b"remove " + path]


def counts_told(folder, lines):
    """Returns the numbers of parts and of look-ups for each of these lines."""
    letters = {b"add": b"a", b"replace": b"r", b"remove": b"d"}
    frames = [b""]
    for line in lines:
        word, path = line.split(b" ", 1)
        data = b"" if word == b"remove" else (folder / os.fsdecode(path)).read_bytes()
        frames += [letters[word] + path, data]
    done = subprocess.run([*common.ANSWERS, "edits"], input=common.framed([common.framed(frames)]), capture_output=True, check=True)
    return [tuple(map(int, line.split()[1:])) for line in done.stdout.splitlines() if line.startswith(b"ok ")]


def write_fresh(beside, fresh):
    for _, name in fresh:
        path = beside / os.fsdecode(name + b".class")
        path.parent.mkdir(parents=True, exist_ok=True)
        path.write_bytes(common.class_file(name=name))


def prepare(folder, beside):
    """Returns the lines that add all files, and the edits after them."""
    paths, given = {}, {}
    for path in sorted(folder.rglob("*.class")):
        names = ClassNames(path.read_bytes())
        paths.setdefault(names.name, bytes(path.relative_to(folder)))
        given.setdefault(names.name, names)
    kept, fresh = choose(given, count_dependants(given))
    write_fresh(beside, fresh)
    return [b"add " + path for path in sorted(paths.values())], list(edits_of(kept, fresh, paths, beside))


def measure(program, folder, adds, edits):
    """Returns the costs of a round.

    These are the seconds of a processor for adding the files, the memory in MB, and the milliseconds of an empty line and of
    each line of the edits.
    """
    session = Session(program, folder)
    told = session.answers(adds)
    assert set(told) == {b"ok\n"}, collections.Counter(told)
    costs = [session.processor(), session.memory(), min(session.answer(b"")[1] for _ in range(10 * TIMES)) * 1000]
    for _, lines in edits:
        rounds = [[session.answer(line) for line in lines] for _ in range(TIMES)]
        assert all(answer == b"ok\n" for one in rounds for answer, _ in one), rounds
        costs += [min(one[at][1] for one in rounds) * 1000 for at in range(len(lines))]
    session.close()
    return costs


def shown(milliseconds):
    return f"{milliseconds:.3f}" if milliseconds < 10 else f"{milliseconds:.0f}"


def tell(programs, least, adds, edits, done):
    """Prints the least costs of each program, and the counts of each edit."""
    first, rest = done[:len(adds)], iter(done[len(adds):])
    print(f"{len(adds):,} files added: {sum(made for made, _ in first):,} parts, {sum(asks for _, asks in first):,} asks\n")
    for program in programs:
        seconds, memory, idle = least[program][:3]
        print(f"{program}: {seconds:.1f} seconds of a processor, {memory:.0f} MB; {idle:.3f} milliseconds for a line that asks for nothing")
    times = [iter(least[program][3:]) for program in programs]
    print("\n| edit | parts | asks |" + " milliseconds |" * len(programs) + "\n|---|---|---|" + "---|" * len(programs))
    for what, lines in edits:
        counts = [next(rest) for _ in lines]
        cells = [f"{made:,}" for made, _ in counts], [f"{asks:,}" for _, asks in counts], *([shown(next(one)) for _ in lines] for one in times)
        print(f"| {what} | " + " | ".join(", ".join(texts) for texts in cells) + " |")


def main():
    words = argparse.ArgumentParser(description=__doc__.split("\n")[0])
    words.add_argument("tree", type=pathlib.Path)
    words.add_argument("--rounds", type=int, default=1)
    words.add_argument("--beside", type=pathlib.Path, help="a program that is measured in turn")
    words = words.parse_args()
    common.build()
    programs = [common.JCLINK] + ([words.beside.absolute()] if words.beside else [])
    with common.Workplace() as beside:
        adds, edits = prepare(words.tree, beside)
        rounds = [[measure(program, words.tree, adds, edits) for program in programs] for _ in range(words.rounds)]
        least = {program: [min(costs) for costs in zip(*(one[at] for one in rounds))] for at, program in enumerate(programs)}
        tell(programs, least, adds, edits, counts_told(words.tree, adds + [line for _, lines in edits for line in lines]))


if __name__ == "__main__":
    main()
