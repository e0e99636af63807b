#!/usr/bin/env python3
"""Compares jclink's results for references and instructions with those of a virtual machine.

Usage: run.py [TREE..] [--worlds N] [--seed N] [--judge | --report FILE] [--program PATH] [--outside PREFIX]..
[--show N] [--java PATH]

A TREE is a folder of class files, or a jar; class files of other versions than 51 and 52 in a jar are ignored. --worlds adds
random small worlds (trials/link/worlds.py). The results are those of `jclink check`, once ./jclink is built. With --report
they are the text of a report of the only TREE, from a file. With --judge they are those of the plain judge of trials/link.
The trial needs a java of version 17 or later, and uses its private calls (Resolve.java). Status 1: something differs without
an explanation.

The trial compares for each class whether it loads, or the error. For each Class, Fieldref, Methodref and InterfaceMethodref
of a class that loads, it compares the class that is found, the class that declares a member, or the error. It compares the
class at fault if the machine's message names it. The messages for NoField and NoMethod name only the reference. For an answer
Outside it checks only that the machine finds nothing of the tree, and counts the machine's errors by kind.

The instructions are getstatic, putstatic, getfield, putfield, invokevirtual, invokespecial, invokestatic, invokeinterface
and new, in methods without a code fault. If the answer to an instruction's reference is To, the trial compares that it links,
or the error and the class at fault. For a field the message names the class of the reference. Then the class at fault must
be that of the answer. The machine links each different instruction once in each class.

These differences are explained or not compared:

- Format faults. The machine runs without its verifier, and then checks less of the format.
- Checks that jclink omits: final superclasses, loader constraints, classes that the machine loads but cannot link.
- Choices of jclink: which of several faults of loading it reports, which of several superinterface methods it finds, and
  that look-up ignores outside supertypes.
- Methods that the machine adds to a class whose superinterfaces have a default method. Its look-up ends at them, so the
  method that it would find otherwise is unknown.
- The protected methods of java/lang/Object in an interface. For the machine an interface is no subclass of Object.
- The interface that declares an abstract clone which another one inherits. The machine does not name it.
- Classes that the machine cannot load because of an outside class, and their subtypes.
- Classes named java/... Only the platform may have these, so they are left out of jars, and a folder has none.
- Whether a found member is static. The machine checks it after look-up and access, and jclink checks it with instructions.
- The method that stores into a final field. The machine checks it only in class files of version 53 or later. So such a
  store is linked again in the same class with version 53, where it must have the error.
- invokeinterface of a private method. The machine links it, as newer editions of the standard do.
- invokespecial of an interface that is neither the class's own nor a direct superinterface. The machine reports it while
  linking; in the standard it is an error of verification.
- invokespecial of an abstract method. The AbstractMethodError is one of execution, but the machine throws it while linking.
- Instructions with a receiver other than null, and the code that they would run. The tree's methods have lost their code.
- Instructions whose reference leads the machine outside the tree, or to a class that it cannot link.

In all these cases the report must still agree with the plain judge.
"""
import argparse
import pathlib
import random
import subprocess
import sys
import zipfile
from collections import Counter

sys.dont_write_bytecode = True
HERE = pathlib.Path(__file__).resolve().parent
sys.path.insert(0, str(HERE.parent))
sys.path.insert(0, str(HERE.parent / "link"))
import common
import compare
import worlds

MACHINE = ["-XX:+UnlockDiagnosticVMOptions", "-XX:-BytecodeVerificationRemote", "-XX:TieredStopAtLevel=1",
           "-XX:+UseSerialGC", "--add-opens", "java.base/java.lang.invoke=ALL-UNNAMED", str(HERE / "Resolve.java")]


def read_options():
    parser = argparse.ArgumentParser()
    parser.add_argument("trees", nargs="*", type=pathlib.Path)
    parser.add_argument("--worlds", type=int, default=0)
    parser.add_argument("--seed", type=int, default=1)
    parser.add_argument("--judge", action="store_true")
    parser.add_argument("--report", type=pathlib.Path)
    parser.add_argument("--program", type=pathlib.Path, default=common.JCLINK)
    parser.add_argument("--outside", action="append")
    parser.add_argument("--show", type=int, default=3)
    parser.add_argument("--java", default="java")
    options = parser.parse_args()
    options.outside = options.outside or ["java/", "javax/"]
    if options.report and (len(options.trees) != 1 or options.worlds):
        sys.exit("a report is over one tree")
    return options


def readable(data):
    return data[:4] == b"\xca\xfe\xba\xbe" and data[6:8] in (b"\0\x33", b"\0\x34")


def unpack(jar, folder):
    """Copies the class files of a jar that jclink reads, each once."""
    folder.mkdir()
    with zipfile.ZipFile(jar) as archive:
        for name in archive.namelist():
            if name.endswith(".class") and not name.startswith(("META-INF/", "java/")) and ".." not in name:
                data = archive.read(name)
                if readable(data):
                    (folder / name).parent.mkdir(parents=True, exist_ok=True)
                    (folder / name).write_bytes(data)
    return folder


def write_worlds(options, work):
    """Writes folders of random worlds without classes named java/.."""
    rng, folders = random.Random(options.seed), []
    while len(folders) < options.worlds:
        files = worlds.make_world(rng)
        if not any(compare.judge.Record(data).name.startswith(b"java/") for _, data in files):
            folder = work / f"world{len(folders)}"
            folder.mkdir()
            for path, data in files:
                (folder / path.decode()).write_bytes(data)
            folders.append(folder)
    return folders


def files_of(folder):
    """Returns the paths and bytes of a tree's class files."""
    paths = sorted(path for path in folder.rglob("*.class") if path.is_file())
    files = [(str(path.relative_to(folder)).encode(), path.read_bytes()) for path in paths]
    return [(path, data) for path, data in files if readable(data)]


def report_lines(options, folder, comparison):
    if options.report:
        return options.report.read_text().splitlines()
    if options.judge:
        return comparison.world().parts()
    words = [f"--outside={prefix}" for prefix in options.outside]
    done = subprocess.run([options.program, "check", *words, folder], capture_output=True, text=True, check=False)
    if done.returncode > 1:
        sys.exit(f"jclink check: status {done.returncode}, {done.stderr}")
    return done.stdout.splitlines()


def resolve(options, folders):
    """Returns what the machine finds in each folder."""
    trees = {}
    for at in range(0, len(folders), 500):
        command = [options.java, *MACHINE, ",".join(options.outside), *folders[at:at + 500]]
        done = subprocess.run(command, stdout=subprocess.PIPE, text=True, check=True)
        trees.update(compare.read_resolved(done.stdout.splitlines()))
    return trees


def show(name, told, examples):
    print(f"{name}: {sum(number for sort, number in told.items() if sort.startswith('class '))} classes, "
          f"{sum(number for sort, number in told.items() if sort.startswith('reference '))} references, "
          f"{sum(number for sort, number in told.items() if sort.startswith('instruction '))} instructions")
    for sort, number in sorted(told.items()):
        print(f"  {number} {sort}")
        for line in examples.get(sort, ()):
            print(f"      {line}")


def main():
    options, different = read_options(), 0
    with common.Workplace() as work:
        folders = [(tree.name, tree if tree.is_dir() else unpack(tree, work / str(at)))
                   for at, tree in enumerate(options.trees)]
        folders += [("random worlds", folder) for folder in write_worlds(options, work)]
        found, told, examples = resolve(options, [str(folder) for _, folder in folders]), {}, {}
        for name, folder in folders:
            comparison = compare.Comparison(files_of(folder), options.outside)
            ours = compare.read_report(list(report_lines(options, folder, comparison)))
            for sort, line in comparison.tell(ours, found[str(folder)]):
                told.setdefault(name, Counter())[sort] += 1
                if "agrees" not in sort and "outside: found" not in sort:
                    lines = examples.setdefault(name, {}).setdefault(sort, [])
                    lines += [line] if len(lines) < options.show else []
    for name, counts in told.items():
        show(name, counts, examples.get(name, {}))
        different += sum(number for sort, number in counts.items() if "differs" in sort)
    print(f"{different} differ without an explanation")
    sys.exit(1 if different else 0)


if __name__ == "__main__":
    main()
