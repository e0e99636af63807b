#!/usr/bin/env python3
"""Compares the code faults that the library finds with those of a plain judge, over changed methods.

The trial compiles the sources of trials/sources for Java 7 and 8. It changes the code of methods in one or several places
that the rules check. Then it compares the faults that jc_asked and judge.py find.

Usage: faults.py [--seed N] [--changes N]. --changes is the number of changed methods in each class file. It builds jc_asked
by `rt run`, and needs javac.
"""
import argparse
import collections
import pathlib
import random
import subprocess
import sys

sys.dont_write_bytecode = True
sys.path.insert(0, str(pathlib.Path(__file__).resolve().parent.parent))
import common
import judge

unsigned = judge.unsigned

# Rare opcodes: switches, invokeinterface, invokedynamic, and those that name a class.
RARE = (170, 171, 185, 186, 187, 188, 189, 192, 193, 197)


class Method:
    """The offsets of the parts of a method's Code in the file."""

    def __init__(self, data, place):
        self.locals, self.code = place + 8, place + 14
        self.length = unsigned(data, place + 10, 4)
        self.handlers = self.code + self.length + 2
        self.count = unsigned(data, self.handlers - 2, 2)
        code, at, self.starts = data[self.code:self.code + self.length], 0, []
        while at < len(code):
            length = judge.length_at(code, at)
            if length is None:
                break
            self.starts.append(at)
            at += length


def methods_of(data):
    view = judge.format_judge.ClassFile(data)
    found = []
    for method in view.methods:
        for attribute in view.of(method.attributes, b"Code"):
            found.append(Method(data, attribute.place))
    return view, found


def put(data, at, new):
    return data[:at] + new + data[at + len(new):]


def changed(rng, data, view, method):
    """Returns the file with one change in a method, in a place that the rules check."""
    code, at = method.code, rng.choice(method.starts)
    opcode = data[code + at]
    index = rng.randrange(view.count + 2).to_bytes(2, "big")
    sort = rng.randrange(14)
    if sort == 0:
        return put(data, code + rng.randrange(method.length), bytes([rng.randrange(256)]))
    if sort == 1:
        return put(data, method.locals, rng.choice([0, 1, 2, 3, max(unsigned(data, method.locals, 2), 1) - 1]).to_bytes(2, "big"))
    if sort == 2 and method.count:
        handler = method.handlers + 8 * rng.randrange(method.count) + 2 * rng.randrange(4)
        return put(data, handler, rng.choice([rng.randrange(method.length + 2), method.length, rng.choice(method.starts)]).to_bytes(2, "big"))
    if sort == 3 and method.count:
        return put(data, method.handlers + 8 * rng.randrange(method.count) + 6, index)
    if sort in (4, 5):
        # another opcode with operands of the same length
        length = judge.LENGTH.get(opcode)
        others = [other for other, size in judge.LENGTH.items() if size == length and other not in (170, 171, 196)]
        return put(data, code + at, bytes([rng.choice(others)])) if others and opcode not in (170, 171, 196) else data
    if sort == 6 and (opcode in range(153, 169) or opcode in (198, 199)):
        target = rng.choice([rng.choice(method.starts), rng.randrange(-3, method.length + 3)])
        return put(data, code + at + 1, (target - at).to_bytes(2, "big", signed=True))
    if sort == 7:
        switches = [start for start in method.starts if data[code + start] in (170, 171)]
        if switches:
            start = rng.choice(switches)
            place = start + 4 - start % 4 + 4 * rng.randrange(8)
            number = rng.choice([0, 1, -1, rng.randrange(-5, method.length), 2 ** 31 - 1, -2 ** 31])
            if place + 4 <= method.length:
                return put(data, code + place, number.to_bytes(4, "big", signed=True))
    if sort in (8, 9):
        with_index = [start for start in method.starts if data[code + start] in (19, 20, *range(178, 188), 189, 192, 193, 197)]
        if with_index:
            return put(data, code + rng.choice(with_index) + 1, index)
    if sort == 10:
        short = [start for start in method.starts if data[code + start] in (18, 188)]
        if short:
            return put(data, code + rng.choice(short) + 1, bytes([rng.randrange(256)]))
    if sort == 11:
        calls = [start for start in method.starts if data[code + start] in (185, 186, 197)]
        if calls:
            start = rng.choice(calls)
            return put(data, code + start + 3 + rng.randrange(2 if data[code + start] != 197 else 1), bytes([rng.randrange(4)]))
    if sort == 12:
        # an instruction with an index becomes one that names another kind of constant
        with_index = [start for start in method.starts if data[code + start] in (19, 20, *range(178, 185), 187, 189, 192, 193)]
        if with_index:
            start = rng.choice(with_index)
            of_class = data[code + start] in (187, 189, 192, 193) and rng.random() < 0.7
            other = rng.choice([187, 189, 192, 193] if of_class else [19, 20, *range(178, 185)])
            return put(data, code + start, bytes([other]))
    if sort == 13:
        wide = rng.choice([b"\xc4\x15\0", b"\xc4\x84\0", b"\xc4\x57\0", b"\xc4\x16\0", b"\xc4\xa9\0", b"\xc8\0\0\0", b"\xc9\0\0\0"])
        if at + len(wide) + 3 <= method.length:
            return put(data, code + at, wide + bytes([rng.randrange(6)]))
    return data


def cases_of(rng, data, number):
    view, methods = methods_of(data)
    found = []
    methods = [method for method in methods if method.starts]
    rare = [method for method in methods if any(data[method.code + start] in RARE for start in method.starts)]
    for _ in range(number if methods else 0):
        method, case = rng.choice(rare if rare and rng.random() < 0.6 else methods), data
        for _ in range(rng.choice([1, 1, 1, 2, 3])):
            case = changed(rng, case, view, method)
        if case != data:
            found.append(case)
    return found


def deep_arrays(work):
    """Compiles a class that names arrays of 254 and of 255 dimensions."""
    types = ["int" + "[]" * count for count in (254, 255)]
    casts = "".join(f"        {kind} x{at} = ({kind}) o;\n" for at, kind in enumerate(types))
    source = work / "Deep.java"
    source.write_text("class Deep {\n    Object cast(Object o) {\n" + casts + "        return new Object[3];\n    }\n}\n")
    subprocess.run(["javac", "--release", "8", "-d", work, source], check=True, stderr=subprocess.DEVNULL)
    return work / "Deep.class"


def answer_of(case):
    return "".join(f"S{rule} {number} {place} " for number, rule, place in judge.faults(case))


def main():
    parser = argparse.ArgumentParser()
    parser.add_argument("--seed", type=int, default=1)
    parser.add_argument("--changes", type=int, default=110)
    options = parser.parse_args()
    rng = random.Random(options.seed)
    common.build()
    with common.Workplace() as work:
        files = common.compile_all(work, common.FOR_VIEWS, rng) + 8 * [deep_arrays(work)]
        cases = [case for path in files for case in cases_of(rng, path.read_bytes(), options.changes)]
    rules, differences, faulty = collections.Counter(), 0, 0
    for at in range(0, len(cases), 20_000):
        part = cases[at:at + 20_000]
        for number, (case, answer) in enumerate(zip(part, common.ask("code-faults", part))):
            wanted = answer_of(case)
            faulty += wanted != ""
            rules.update({word for word in wanted.split() if word.startswith("S")})
            if answer != wanted:
                differences += 1
                if differences < 6:
                    print(f"case {at + number}: {answer!r} in place of {wanted!r}")
    print(f"{len(cases)} changed methods, {faulty} with faults, {differences} differences")
    print("files that break each rule: " + ", ".join(f"S{rule} {rules[f'S{rule}']}" for rule in range(1, 25)))
    sys.exit(1 if differences or any(not rules[f"S{rule}"] for rule in range(1, 25)) else 0)


if __name__ == "__main__":
    main()
