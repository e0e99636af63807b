#!/usr/bin/env python3
"""Compares the methods without a body that jclink and the plain judge of trials/check find with what a virtual machine calls.

Usage: bodies.py [TREE..] [--worlds N] [--seed N] [--judge] [--show N] [--java PATH]

The worlds are those of trials/check/bodies_rows.py and N random ones: a few classes and interfaces in three packages, with
methods of few names and random flags. A TREE is a folder of class files, each at the path of its name. Its world has classes
with the same supertypes and methods, which return at once. The trial needs a java of version 17 or later (Call.java).

The lines of `jclink check --errors` for the world, or for the tree itself, must be those of the judge. With --judge jclink is not
run.

The machine makes an object of each class that is neither ABSTRACT nor an interface. It calls on it each ABSTRACT method of the
class and its supertypes, by invokeinterface or invokevirtual, in a class of the package of the method's class. A call that
throws AbstractMethodError or IncompatibleClassChangeError has no body, and one that returns has a body. The judge must agree
on each call, and on which of the errors is thrown. The trial explains other outcomes only if it finds the reason in the world:

- `several bodies`: several default methods are left. By SE 8, 6.5, and in HotSpot 25 this is an IncompatibleClassChangeError, in
  HotSpot 17 an AbstractMethodError;
- `not PUBLIC`: invokeinterface selects a method of a class that is not PUBLIC, and throws IllegalAccessError (SE 8, 6.5);
- `PRIVATE, since SE 11`: by SE 8 invokeinterface selects a PRIVATE method of a class. Later machines pass over it (SE 11,
  5.4.6), and do what the judge says for a selection that passes over it;
- `a missed default`: a default method is selected, by SE 11 at least, past a STATIC or PRIVATE method of a class. A superclass has
  an interface with such a method. In some of these worlds HotSpot 17 and 25 miss the default method: AbstractMethodError.

A class with an outside supertype, or that only one side loads, is not compared. Some worlds crash HotSpot; none of their classes
is compared. Status 1: something differs, or the lines of a class are not those of its calls without a body.
"""
import argparse
import collections
import pathlib
import random
import re
import struct
import subprocess
import sys

sys.dont_write_bytecode = True
sys.path.insert(0, str(pathlib.Path(__file__).resolve().parent.parent))
import common

bodies, rows, makes = common.load("check/bodies.py"), common.load("check/bodies_rows.py"), common.load("hostile/classes.py")
links = bodies.links

FLAGS = ["-Xverify:all", "-XX:TieredStopAtLevel=1", "-XX:+UseSerialGC", "-XX:+SuppressFatalErrorMessage"]
SOURCE = pathlib.Path(__file__).resolve().parent / "Call.java"
PUBLIC, PRIVATE, PROTECTED, STATIC, SYNCHRONIZED, NATIVE, INTERFACE, ABSTRACT = 1, 2, 4, 8, 0x20, 0x100, 0x200, 0x400
NAMES = [folder + letter for folder in (b"", b"p/", b"q/") for letter in (b"A", b"B", b"C", b"D")]
KEYS = [(b"m", b"()V"), (b"n", b"()V"), (b"m", b"(I)V")]
# Methods of java/lang/Object, one of them PROTECTED.
OF_OBJECT = [(b"hashCode", b"()I"), (b"finalize", b"()V")]
# Flags of methods, the frequent ones several times.
OF_CLASS = [PUBLIC] * 4 + [PROTECTED, 0, 0, 0, PUBLIC | ABSTRACT, PROTECTED | ABSTRACT, ABSTRACT, ABSTRACT, PRIVATE, PUBLIC | STATIC]
OF_INTERFACE = [PUBLIC | ABSTRACT] * 4 + [PUBLIC] * 4 + [PUBLIC | STATIC, PRIVATE, PRIVATE | STATIC]
# The code that returns zero or null, by the first character of a result's type.
CODES = {b"V": b"\xb1", b"J": b"\x09\xad", b"F": b"\x0b\xae", b"D": b"\x0e\xaf", b"L": b"\x01\xb0", b"[": b"\x01\xb0"}
# The opcodes that load a parameter from a local variable, each with the slots of the parameter, and those that return a result.
LOADS = {b"J": (22, 2), b"F": (23, 1), b"D": (24, 2), b"L": (25, 1), b"[": (25, 1)}
RETURNS = {b"J": 173, b"F": 174, b"D": 175, b"L": 176, b"[": 176, b"V": 177}
BODY, ABSTRACT_ERROR, SEVERAL_ERROR, ACCESS_ERROR = "returns", "AbstractMethodError", "IncompatibleClassChangeError", "IllegalAccessError"
# What HotSpot 17 throws where several default methods are left, and what it must throw.
OF_HOTSPOT_17 = ABSTRACT_ERROR, SEVERAL_ERROR


# ---- random worlds

def code_of(pool, code, max_stack, max_locals):
    return makes.attribute(pool, b"Code", struct.pack(">HHI", max_stack, max_locals, len(code)) + code + bytes(4))


def method_of(pool, key, flags):
    """Returns a method that returns at once, or an ABSTRACT one."""
    code = CODES.get(key[1].rpartition(b")")[2][:1], b"\x03\xac")
    return flags, *map(pool.text, key), [] if flags & ABSTRACT else [code_of(pool, code, 2, 255)]


def class_of(rng, name, is_interface, parent, interfaces):
    pool = makes.Pool()
    keys = [key for key in KEYS if rng.random() < (0.6 if is_interface else 0.35)] + [key for key in OF_OBJECT if rng.random() < 0.05]
    methods = [method_of(pool, key, rng.choice(OF_INTERFACE if is_interface else OF_CLASS)) for key in keys]
    flags = INTERFACE | ABSTRACT if is_interface else makes.SUPER | (ABSTRACT if rng.random() < 0.15 else 0)
    flags |= PUBLIC if rng.random() < 0.97 else 0
    return makes.class_file(pool, name, flags, parent, [pool.of_class(one) for one in interfaces], methods=methods)


def make_world(rng):
    """Returns the classes of a random world by their names. Supertypes are mostly recent ones, so that chains are long."""
    above, found = {True: [], False: []}, {}
    for name in rng.sample(NAMES, rng.randint(4, len(NAMES))):
        is_interface = rng.random() < 0.4
        interfaces = rng.sample(above[True], min(len(above[True]), rng.choice([0, 1, 1, 2, 2, 3])))
        parents = above[False][-2:] * 5 + [makes.OBJECT]
        parent = makes.OBJECT if is_interface else b"java/lang/Thread" if rng.random() < 0.02 else rng.choice(parents)
        found[name] = class_of(rng, name, is_interface, parent, interfaces)
        above[is_interface].append(name)
    return found


# ---- trees

def without_code(data):
    """Returns a class with the supertypes and methods of a class file. The methods return at once. It has no initializers."""
    file, pool = links.rules.ClassFile(data), makes.Pool()
    methods = [(file.text(one.name), file.text(one.descriptor), one.flags & ~(SYNCHRONIZED | NATIVE)) for one in file.methods]
    return makes.class_file(pool, file.class_text(file.this), file.flags, file.class_text(file.parent),
                            [pool.of_class(file.class_text(index)) for index in file.interfaces],
                            methods=[method_of(pool, method[:2], method[2]) for method in methods if not method[0].startswith(b"<")])


def read(tree):
    """Returns the classes of the world of a tree by the paths of their files."""
    return {str(path.relative_to(tree)).encode(): without_code(path.read_bytes()) for path in sorted(tree.rglob("*.class"))
            if path.name not in ("module-info.class", "package-info.class")}


# ---- the program's side

def lines_of(folder):
    """Returns the lines of `jclink check --errors` for methods without a body."""
    done = subprocess.run([common.JCLINK, "check", "--errors", folder], capture_output=True, text=True, check=False)
    if done.returncode > 1:
        sys.exit(f"jclink check: status {done.returncode}, {done.stderr}")
    return [line for line in done.stdout.splitlines() if ": no body for " in line]


def compare_lines(options, world, folder):
    """Returns whether jclink has the lines of the judge, and the lines that only one side has."""
    ours = [] if options.judge else lines_of(folder)
    owed = [bodies.line(name, *method) for name in sorted(world.given) for method in bodies.without_body(world, name)]
    if options.judge or ours == owed:
        return f"lines, {'not compared' if options.judge else 'agree'}", ""
    return "lines, differ", f"only jclink: {sorted(set(ours) - set(owed))[:3]}, only the judge: {sorted(set(owed) - set(ours))[:3]}"


# ---- the machine's side

def caller_of(world, owner):
    """Returns a class whose methods call the ABSTRACT methods of an owner. Each takes the object and then the method's parameters."""
    pool, methods, is_interface = makes.Pool(), [], world.records[owner].interface()
    for name, descriptor in bodies.abstract_keys(world, owner):
        parameters, _, result = descriptor[1:].partition(b")")
        code, slots = b"\x2a\xc0" + makes.u2(pool.of_class(owner)), 1
        for parameter in re.findall(rb"\[*(?:L[^;]*;|.)", parameters):
            opcode, size = LOADS.get(parameter[:1], (21, 1))
            code, slots = code + bytes([opcode, slots]), slots + size
        reference = pool.reference(11 if is_interface else 10, owner, name, descriptor)
        code += b"\xb9" + makes.u2(reference) + bytes([slots, 0]) if is_interface else b"\xb6" + makes.u2(reference)
        code += bytes([RETURNS.get(result[:1], 172)])
        text = pool.text(b"(Ljava/lang/Object;" + parameters + b")" + result)
        methods.append((PUBLIC | STATIC, pool.text(name), text, [code_of(pool, code, slots + 1, slots)]))
    return makes.class_file(pool, owner + b"Caller", methods=methods)


def named_in_descriptors(record):
    """Yields the names of classes in the descriptors of a class's methods."""
    for _, descriptor, _ in record.methods:
        yield from re.findall(rb"L([^;]*);", descriptor)


def write(folder, files, world):
    """Writes the classes of a world at the paths of their names, of several files that of the least path, and their callers.

    Beside the callers are empty classes for names that only descriptors need: reflection loads them.
    """
    classes = {links.Record(data).name: data for _, data in sorted(files.items(), reverse=True)}
    needed = {name for record in world.given.values() for name in named_in_descriptors(record)} - set(classes)
    callers = {name: makes.plain(name) for name in needed if not name.startswith(b"java/")}
    callers |= {owner + b"Caller": caller_of(world, owner) for owner in classes}
    for kind, those in (("classes", classes), ("callers", callers)):
        for name, data in those.items():
            path = folder / kind / (name.decode() + ".class")
            path.parent.mkdir(parents=True, exist_ok=True)
            path.write_bytes(data)


def is_writable(world):
    """Returns whether the machine can load the classes of a world from files: names are ASCII, and none is the platform's."""
    return all(name.isascii() and not name.startswith(b"java/") for name in world.given)


def outcomes(options, folders):
    """Returns by folder and class what the machine says of the class, and of each call on an object of it.

    A folder at which the machine crashes has no classes. The machine starts again after it.
    """
    found = {}
    while len(found) < len(folders):
        command = [options.java, *FLAGS, SOURCE, *folders[len(found):len(found) + 500]]
        done = subprocess.run(command, stdout=subprocess.PIPE, text=True, check=False)
        for text in done.stdout.splitlines():
            if text.startswith("world "):
                classes = found[text.removeprefix("world ")] = {}
            elif match := re.fullmatch(r"(\S+): (.*)", text):
                classes[match[1]] = match[2], {}
            else:
                name, method, outcome = text.split(" ", 2)
                classes[name][1][method] = outcome
        if done.returncode < 0:
            classes.clear()
        elif done.returncode:
            sys.exit(f"{options.java}: status {done.returncode}")
    return found


# ---- comparison

def owed(world, name, owner, key, passed_over=STATIC):
    """Returns what a call of an owner's method must do by the standard; `passed_over` as for bodies.selected."""
    home = bodies.selected(world, name, owner, key, passed_over)
    if home is None:
        return SEVERAL_ERROR if bodies.bodies_in(world, bodies.interfaces_of(world, name), key) else ABSTRACT_ERROR
    flags = next(method[2] for method in world.records[home].methods if method[:2] == key)
    if world.records[owner].interface() and not flags & PUBLIC:
        return ACCESS_ERROR
    return ABSTRACT_ERROR if flags & ABSTRACT else BODY


def compare_call(world, name, owner, key, outcome):
    """Returns how both sides agree on a call, or that they differ."""
    machine = BODY if outcome == "returned" else outcome.partition(" ")[0]
    by_8, by_11 = owed(world, name, owner, key), owed(world, name, owner, key, STATIC | PRIVATE)
    has_body = bodies.has_body(world, name, owner, key)
    if machine == by_8 == ACCESS_ERROR:
        sort = "explained by not PUBLIC"
    elif machine == by_8 and has_body == (machine == BODY):
        sort = "agree"
    elif (machine, by_8) == OF_HOTSPOT_17:
        sort = "explained by several bodies"
    elif by_11 != by_8 and (machine == by_11 or (machine, by_11) == OF_HOTSPOT_17):
        sort = "explained by PRIVATE, since SE 11"
    elif (machine, by_11) == (ABSTRACT_ERROR, BODY) and may_miss(world, name, owner, key):
        sort = "explained by a missed default"
    else:
        sort = "differ"
    return f"{sort}: {'a body' if has_body else 'no body'}, {machine}"


def may_miss(world, name, owner, key):
    """Returns whether a default method is selected past a method of a class, and a superclass has an interface with such a method."""
    home, classes = bodies.selected(world, name, owner, key, STATIC | PRIVATE), bodies.classes_of(world, name)
    return (world.records[home].interface() and any(bodies.is_declared(world, one, key, 0) for one in classes)
            and any(world.overridable(one, key) is not None for one in bodies.interfaces_of(world, classes[1])))


def compare_class(world, name, outcome, calls):
    """Returns whether the calls on an object of a class can be compared, or why not."""
    is_ours, is_theirs = world.load(name) == links.OK, outcome in ("made", "abstract")
    if not bodies.lines_match(world, name):
        return "differ: the lines are not those of the calls"
    if not is_ours or not is_theirs:
        return f"not compared: loaded only by the {'judge' if is_ours else 'machine'}" if is_ours or is_theirs else "not compared: not loaded"
    if any(map(world.outside, world.above(name))):
        return "not compared: outside supertypes"
    if bodies.is_judged(world, name) != (outcome == "made"):
        return f"differ: {outcome}"
    if outcome == "abstract":
        return "agree: ABSTRACT, or an interface"
    if set(calls) != {called(*method) for method in bodies.abstract_methods(world, name)}:
        return "differ: the machine calls other methods"
    return "compared: with lines" if any(bodies.without_body(world, name)) else "compared: without lines"


def called(owner, key):
    return links.shown(owner) + links.member(key)


def compare(world, machine):
    """Yields how both sides agree or differ on each class and each call, with the class or the call."""
    if not machine:
        yield "worlds, not compared: the machine crashes", ""
        return
    for name in sorted(world.given):
        text = links.shown(name)
        outcome, calls = machine[text]
        sort = compare_class(world, name, outcome, calls)
        yield f"classes, {sort}", f"{text}: {outcome}"
        for method in bodies.abstract_methods(world, name) if sort.startswith("compared") else ():
            said = calls[called(*method)]
            yield f"calls, {compare_call(world, name, *method, said)}", f"{text} {called(*method)}: {said}"


def main():
    parser = argparse.ArgumentParser()
    parser.add_argument("trees", nargs="*", type=pathlib.Path)
    parser.add_argument("--worlds", type=int, default=0)
    parser.add_argument("--seed", type=int, default=1)
    parser.add_argument("--judge", action="store_true")
    parser.add_argument("--show", type=int, default=3)
    parser.add_argument("--java", default="java")
    options = parser.parse_args()
    rng, counts, examples = random.Random(options.seed), {}, {}
    trees = [("worlds of bodies_rows.py", files, None) for _, files, _ in rows.ROWS]
    trees += [("random worlds", make_world(rng), None) for _ in range(options.worlds)]
    trees += [(tree.name, read(tree), tree) for tree in options.trees]
    worlds = [(name, files, links.World(list(files.items()), rows.STANDARD), tree) for name, files, tree in trees]
    worlds = [one for one in worlds if is_writable(one[2])]
    with common.Workplace() as work:
        for at, (_, files, world, _) in enumerate(worlds):
            write(work / str(at), files, world)
        machine = outcomes(options, [str(work / str(at)) for at in range(len(worlds))])
        for at, (name, _, world, tree) in enumerate(worlds):
            lines = compare_lines(options, world, tree or work / str(at) / "classes")
            for sort, text in [lines, *compare(world, machine[str(work / str(at))])]:
                counts.setdefault(name, collections.Counter())[sort] += 1
                shown = examples.setdefault((name, sort), [])
                shown += [f"world {at}: {text}"] if len(shown) < options.show else []
    for name, sorts in counts.items():
        print(f"{name}: {sum(one[0] == name for one in worlds)} worlds")
        for sort, number in sorted(sorts.items()):
            print(f"  {number} {sort}")
            for text in examples[name, sort] if "differ" in sort or "only" in sort else ():
                print(f"      {text}")
    different = sum(number for sorts in counts.values() for sort, number in sorts.items() if "differ" in sort)
    print(f"{different} differ")
    sys.exit(1 if different else 0)


if __name__ == "__main__":
    main()
