#!/usr/bin/env python3
"""Compares the marks and methods in lines of `jclink check --errors` with the classes that a virtual machine misses.

Usage: unused.py [--judge] [--program PATH] [--java PATH]

Each program of programs.py names a class in one way, in class files of versions 51 and 52. It runs with all classes, and then
without the class that it names. The lines are those of `jclink check --errors`, once ./jclink is built. The environment's
JCLINK or --program may name another program. With --judge they are those of the plain judge of trials/check. The trial needs
a java and a javac of version 17 to 19.

Each program must satisfy four conditions:

- With all classes it runs to its end.
- Without the class, the machine misses that class if the program says so, and no other class.
- The lines for the class that runs, and the user of the reference in each, are those that the program lists.
- If the machine misses a class that has lines, at least one of them lacks ` (unused)`.

Status 1: something differs.

The machine runs without its verifier, which may load classes that no code resolves.
"""
import argparse
import collections
import pathlib
import re
import shutil
import subprocess
import sys

sys.dont_write_bytecode = True
HERE = pathlib.Path(__file__).resolve().parent
sys.path.insert(0, str(HERE.parent))
import common
import programs

judge = common.load("check/judge.py")

MACHINE = ["-XX:+UnlockDiagnosticVMOptions", "-XX:-BytecodeVerificationRemote", "-XX:TieredStopAtLevel=1", "-XX:+UseSerialGC", str(HERE / "Missing.java")]
# Its groups: the class, the method that uses the reference or none, the reference, the missing class, and the mark.
LINE = re.compile(r"([^.:]+)(?:\.(\S+))?: (\w+ \S+) -> error 1 NoClass (\S+)( \(unused\))?")


def read_options():
    parser = argparse.ArgumentParser()
    parser.add_argument("--judge", action="store_true")
    parser.add_argument("--program", type=pathlib.Path, default=common.JCLINK)
    parser.add_argument("--java", default="java")
    options = parser.parse_args()
    if not options.judge and not options.program.exists():
        sys.exit(f"no program at {options.program}")
    return options


def write_sources(version, folder, sources):
    """Compiles the programs that have a source."""
    paths = []
    for program in sources:
        path = sources_of(folder, program.package(version)) / "O.java"
        path.parent.mkdir(parents=True)
        path.write_text(f"package {program.package(version).replace('/', '.')};\n{program.source}\n")
        paths.append(path)
    release = ["--release", str(version - 44), "-g", "-nowarn", "-Xlint:-options"]
    subprocess.run(["javac", *release, "-d", folder, *paths], check=True, stderr=subprocess.DEVNULL)


def sources_of(folder, package):
    return folder.with_name("sources") / package


def write_tree(folder, tried):
    """Writes the class files of all programs, each in its own package."""
    folder.mkdir()
    for version in (51, 52):
        write_sources(version, folder, [program for at, program in tried if at == version and program.source])
    for version, program in tried:
        for name, data in program.class_files(version).items():
            path = folder / program.package(version) / f"{name}.class"
            path.parent.mkdir(parents=True, exist_ok=True)
            path.write_bytes(data)


def without_deleted(folder, tried):
    """Copies the tree without the classes that the programs name."""
    less = folder.with_name("less")
    shutil.copytree(folder, less)
    for version, program in tried:
        (less / program.package(version) / f"{program.deleted}.class").unlink()
    return less


def run(options, folder, tried):
    """Runs the programs, and returns the result of each class that runs."""
    names = [f"{program.package(version)}/{program.runs}" for version, program in tried]
    done = subprocess.run([options.java, *MACHINE, folder, *names], stdout=subprocess.PIPE, text=True, check=True)
    return dict(line.split(": ", 1) for line in done.stdout.splitlines() if line.startswith("v"))


def errors_of(options, folder):
    """Returns the lines of --errors, by the class that they begin with."""
    if options.judge:
        lines = judge.Report(judge.class_files(judge.files_below(folder)), judge.STANDARD).errors(None)
    else:
        done = subprocess.run([options.program, "check", "--errors", folder], capture_output=True, text=True, check=False)
        if done.returncode > 1:
            sys.exit(f"jclink check: status {done.returncode}, {done.stderr}")
        lines = done.stdout.splitlines()
    found = collections.defaultdict(list)
    for line in lines:
        found[re.match(r"[^.:]+", line)[0]].append(line)
    return found


def marks(lines, package):
    """Returns a map from the reference in each line to its user. A line of another form is its own key."""
    found = {}
    for line in lines:
        match = LINE.fullmatch(line)
        _, method, reference, _, mark = match.groups() if match else ("", "", line, "", "")
        found[reference.replace(package + "/", "")] = (method or "") + (mark or "") or programs.USED
    return found


def differences(program, package, ran, missed, lines):
    """Yields each difference from what the program says."""
    found, deleted = marks(lines, package), f"{package}/{program.deleted}"
    if ran != "ran":
        yield f"with all classes: {ran}"
    wanted = f"misses {deleted}" if program.missed else "ran"
    if missed != wanted:
        yield f"without its class: {missed}, for {wanted}"
    if found != program.lines:
        yield f"lines: {found}, for {program.lines}"
    of_deleted = [match for match in map(LINE.fullmatch, lines) if match and match[4] == deleted]
    if missed == f"misses {deleted}" and of_deleted and all(match[5] for match in of_deleted):
        yield "the machine misses a class that is (unused)"


def sort_of(program):
    used = "without a line" if not program.lines else "not used" if {*program.lines.values()} == {programs.UNUSED} else "used"
    return f"{used} and {'missed' if program.missed else 'not missed'}"


def main():
    options, different = read_options(), 0
    tried = [(version, program) for version in (51, 52) for program in programs.programs(version)]
    with common.Workplace() as work:
        write_tree(work / "whole", tried)
        less = without_deleted(work / "whole", tried)
        ran, missed, errors = run(options, work / "whole", tried), run(options, less, tried), errors_of(options, less)
    for version, program in tried:
        package = program.package(version)
        name = f"{package}/{program.runs}"
        found = list(differences(program, package, ran[name], missed[name], errors[name]))
        different += bool(found)
        for line in found:
            print(f"{name}: {line}")
    told = collections.Counter(sort_of(program) for _, program in tried)
    print(f"{len(tried)} programs: {', '.join(f'{number} {sort}' for sort, number in sorted(told.items()))}")
    print(f"{different} differ")
    sys.exit(1 if different else 0)


if __name__ == "__main__":
    main()
