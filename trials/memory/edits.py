#!/usr/bin/env python3
"""Makes each allocation of edits fail in turn, and compares the answers of the session before and after.

Usage: edits.py. It builds jc_asked, and needs a C compiler.

Each edit of a few lists is made twice. Before the first edit and after each edit, the trial asks for the report, dependants,
prefixes, and the bytes of each file. An edit that runs out of memory must not change these answers. The second edit must then
have the result that the first one would have had.

At the end the trial counts the allocations of an edit that adds one more class to 200 and to 400 classes without references.
Beside 400 classes it may make at most 60 more allocations. Status 1: something differs.
"""
import itertools
import pathlib
import sys

sys.dont_write_bytecode = True
sys.path.insert(0, str(pathlib.Path(__file__).resolve().parent.parent))
import common

worlds = common.load("link/worlds.py")
OBJECT, CLASS = worlds.OBJECT, 7
NO_MEMORY = "refused NoMemory"
# How many more allocations an edit may make beside twice as many classes.
MOST_MORE = 60


def named(name, parent=OBJECT, *references):
    return worlds.class_file(name, 0x21, parent, [], [], [], [(CLASS, one) for one in references])


A, B, C, X = (named(name) for name in (b"A", b"B", b"C", b"X"))
D_OF_ORG, D_OF_LIST = named(b"D", OBJECT, b"org/Y"), named(b"D", b"java/util/ArrayList")
D_OF_X, E_OF_X, X_OF_Y, Y = named(b"D", OBJECT, b"X"), named(b"E", OBJECT, b"X"), named(b"X", b"Y"), named(b"Y")
LISTS = {
    "a missing class is added, and its superclass": [(b"a", b"D", D_OF_X), (b"a", b"X", X_OF_Y), (b"a", b"Y", Y), (b"d", b"D", b"")],
    "a ring of classes is broken": [(b"a", b"A", named(b"A", b"B")), (b"a", b"B", named(b"B", b"A")), (b"a", b"C", named(b"C", b"A")), (b"r", b"B", B)],
    "bytes name another class": [(b"a", b"R", named(b"R", OBJECT, b"A", b"B")), (b"a", b"p", A), (b"r", b"p", B)],
    "a file is added and removed": [(b"a", b"A", A), (b"d", b"A", b"")],
    "a file loses, and wins": [(b"a", b"b", A), (b"a", b"c", A), (b"d", b"b", b""), (b"r", b"c", b"")],
    "two classes miss another": [(b"a", b"D", D_OF_X), (b"a", b"E", E_OF_X), (b"d", b"D", b""), (b"d", b"E", b"")],
    "the built-in class is replaced": [(b"a", b"A", A), (b"a", b"B", B), (b"a", b"C", C), (b"a", b"O", named(OBJECT, None)), (b"d", b"O", b"")],
    "a superclass is removed and added": [(b"a", b"A", A), (b"a", b"B", named(b"B", b"A")), (b"d", b"A", b""), (b"a", b"A", A)],
    "a missing class is outside": [(b"a", b"D", D_OF_ORG), (b"p", b"org/", b""), (b"p", b"org/x/", b""), (b"x", b"org/", b"")],
    "a superclass is outside": [(b"a", b"D", D_OF_LIST), (b"x", b"java/", b""), (b"p", b"java/", b"")],
}
NAMES = (b"A", b"B", b"X", b"Y", b"org/Y", b"java/util/ArrayList", OBJECT)
PREFIXES = (b"java/", b"javax/", b"org/", b"org/x/")
# The commands that add and drop a prefix.
PREFIX_WORDS = (b"p", b"x")


def frames_of(steps):
    looks = [b"t", *(b"q" + name for name in NAMES), *(b"h" + prefix for prefix in PREFIXES), *(b"f" + path for path in paths_of(steps))]
    said = [frame for look in looks for frame in (look, b"")]
    frames = [b"", *said]
    for word, path, data in steps:
        frames += 2 * [word + path, data, *said]
    return common.framed([common.framed(frames)])


def paths_of(steps):
    return sorted({path for word, path, _ in steps if word not in PREFIX_WORDS})


def told_of(text, steps):
    """Returns pairs of an edit's answer and the answers after the edit. The first pair has no edit."""
    lines, pairs = iter(text.decode("ascii").splitlines()), []
    for answer in itertools.chain([""], lines):
        if answer == "end":
            break
        said = []
        for line in lines:
            said.append(line)
            if line == "end":
                break
        pairs.append((answer, said + [next(lines) for _ in (*NAMES, *PREFIXES, *paths_of(steps))]))
    return pairs


def files_of(steps):
    """Returns the bytes of the files before the list and after each edit, in the form of the answers."""
    files = dict.fromkeys(paths_of(steps), "none")
    found = [list(files.values())]
    for word, path, data in steps:
        if word not in PREFIX_WORDS and (files[path] == "none") == (word == b"a"):
            files[path] = "none" if word == b"d" else data.hex()
        found += 2 * [list(files.values())]
    return found


def is_owed(pairs, owed):
    """Returns whether at most one edit ran out of memory, that edit changed nothing, and all others have the right answers."""
    if pairs[0] != owed[0]:
        return False
    before, wanted = owed[0][1], 0
    for at in range(1, len(owed), 2):
        (first, said), (again, said_again) = pairs[at:at + 2]
        if first == NO_MEMORY:
            wanted += 1
            if said != before or (again, said_again) != owed[at]:
                return False
        elif again == NO_MEMORY:
            wanted += 1
            if (first, said) != owed[at] or said_again != said:
                return False
        elif [(first, said), (again, said_again)] != owed[at:at + 2]:
            return False
        before = owed[at + 1][1]
    return wanted == 1 or pairs == owed


def refuse_each(what, steps, folder, shim):
    """Makes each allocation fail in turn, and counts the failures that an edit reports."""
    def run(number):
        return common.run_refused([*common.ANSWERS, "edits"], frames_of(steps), folder, shim, number)

    status, text, _, count = run(0)
    owed, felt, beside = told_of(text, steps), 0, 0
    assert status == 0 and len(owed) == 1 + 2 * len(steps), (what, status)
    assert [said[-len(paths_of(steps)):] for _, said in owed] == files_of(steps), what
    for number in range(1, count + 1):
        status, text, _, _ = run(number)
        if status != 0:
            beside += 1
            continue
        pairs = told_of(text, steps)
        if not is_owed(pairs, owed):
            sys.exit(f"{what}, request {number}: {text.decode()}")
        felt += pairs != owed
    print(f"| {what} | {len(steps)} | {count} | {felt} | {beside} | {count - felt - beside} |")


def requests_of_the_last(classes, folder, shim):
    """Returns the number of allocations of an edit that adds one more class to `classes` classes."""
    names = [b"C%d" % number for number in range(classes + 1)]
    frames = common.framed([common.framed([b""] + [frame for name in names for frame in (b"a" + name, named(name))])])
    _, _, _, number = common.run_refused([*common.ANSWERS, "edits"], frames, folder, shim, 0)
    refused = otherwise = 0
    while otherwise < 40:
        _, text, _, _ = common.run_refused([*common.ANSWERS, "edits"], frames, folder, shim, number)
        is_last = text.decode().splitlines()[-2:-1] == [NO_MEMORY]
        refused, otherwise = refused + is_last, 0 if is_last else otherwise + 1
        number -= 1
    return refused


def main():
    common.build()
    with common.Workplace() as folder:
        shim = common.make_shim(folder)
        print("| list | edits | requests | refused the edit | outside of edits | could be done without |\n|---|---|---|---|---|---|")
        for what, steps in LISTS.items():
            refuse_each(what, steps, folder, shim)
        few, many = (requests_of_the_last(classes, folder, shim) for classes in (200, 400))
        print(f"\none more class beside 200: {few} requests for memory; beside 400: {many}")
        if few == 0 or abs(many - few) > MOST_MORE:
            sys.exit(f"they differ by more than {MOST_MORE}" if few else "no request of the edit was refused")


if __name__ == "__main__":
    main()
