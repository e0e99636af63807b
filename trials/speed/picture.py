#!/usr/bin/env python3
"""Measures `jclink check`, `jdeps --missing-deps` and `javap -c -p` over one tree, and draws docs/speed.svg.

Usage: picture.py [--rounds N] [--to FILE] [--beside COMMAND].. TREE.., once ./jclink is built. The environment's JCLINK may
name another program. A TREE is a folder of class files, a jar, or a folder of jars. The trial copies the class files of
versions 51 and 52 into one folder; if a path occurs several times, the first file counts. The output of the programs goes to
/dev/null.

A bar shows the least processor seconds of N rounds, 5 by default. The programs run in turn. The text of a bar has the
greatest memory of a process. The trial ends if a program has a wrong status. It also measures `check --errors` and each
COMMAND, which it calls with the folder as last argument. They have no bars.
"""
import argparse
import itertools
import os
import pathlib
import shlex
import subprocess
import sys
import zipfile

sys.dont_write_bytecode = True
sys.path.insert(0, str(pathlib.Path(__file__).resolve().parent.parent))
import common

# The greatest number of files in one call of javap, because the length of the arguments is limited.
FILES_OF_A_CALL = 8000
LEFT, WIDTH, BAR, STEP, TOP = 190, 400, 26, 44, 78
COLOURS = ("#2b6cb0", "#a0aec0", "#a0aec0")


def is_readable(data):
    return data[:4] == b"\xca\xfe\xba\xbe" and data[6:8] in (b"\0\x33", b"\0\x34")


def files_of(tree):
    """Yields the paths and bytes of a tree's class files."""
    if tree.is_dir():
        for path in sorted(tree.rglob("*.class")):
            yield str(path.relative_to(tree)), path.read_bytes()
        jars = sorted(path for path in tree.rglob("*.jar") if not path.is_symlink())
    else:
        jars = [tree]
    for jar in jars:
        with zipfile.ZipFile(jar) as archive:
            for name in archive.namelist():
                if name.endswith(".class") and not name.startswith("META-INF/"):
                    yield name, archive.read(name)


def gather(trees, folder):
    """Copies the class files that all three programs read, and returns their number and their bytes."""
    count = size = 0
    for tree in trees:
        for name, data in files_of(tree):
            path = folder / name
            if is_readable(data) and ".." not in path.parts and not path.exists():
                path.parent.mkdir(parents=True, exist_ok=True)
                path.write_bytes(data)
                count, size = count + 1, size + len(data)
    return count, size


def measured(command, folder, statuses):
    """Returns the processor seconds and the greatest memory in megabytes of a call."""
    process = subprocess.Popen(command, cwd=folder, stdout=subprocess.DEVNULL, stderr=subprocess.DEVNULL)
    _, status, usage = os.wait4(process.pid, 0)
    process.returncode = os.waitstatus_to_exitcode(status)
    if process.returncode not in statuses:
        sys.exit(f"{command[:3]}: status {process.returncode}")
    return usage.ru_utime + usage.ru_stime, usage.ru_maxrss / 1024


def calls(folder, beside):
    """Returns for each program its calls over the folder, and the right statuses of a call."""
    paths = [str(path.relative_to(folder)) for path in sorted(folder.rglob("*.class"))]
    parts = [paths[at:at + FILES_OF_A_CALL] for at in range(0, len(paths), FILES_OF_A_CALL)]
    return {
        "jclink check": ([[common.JCLINK, "check", "."]], (0, 1)),
        "jdeps --missing-deps": ([["jdeps", "--missing-deps", "."]], (0,)),
        "javap -c -p": ([["javap", "-c", "-p", *part] for part in parts], (0,)),
        "jclink check --errors": ([[common.JCLINK, "check", "--errors", "."]], (0, 1)),
        **{command: ([[*shlex.split(command), "."]], (0,)) for command in beside},
    }


def measure(folder, rounds, beside):
    """Returns for each program the seconds and megabytes of its fastest round."""
    spent = {}
    for _ in range(rounds):
        for name, (commands, statuses) in calls(folder, beside).items():
            told = [measured(command, folder, statuses) for command in commands]
            spent.setdefault(name, []).append((sum(seconds for seconds, _ in told), max(size for _, size in told)))
    return {name: min(told) for name, told in spent.items()}


def text(x, y, words, size=14, anchor="start", weight="normal"):
    return (f'  <text x="{x}" y="{y}" font-size="{size}" text-anchor="{anchor}" font-weight="{weight}" '
            f'fill="#1a202c">{words}</text>')


def picture(found, title, below):
    """Returns a picture of the first figures as bars."""
    found = dict(itertools.islice(found.items(), len(COLOURS)))
    most, height = max(seconds for seconds, _ in found.values()), TOP + STEP * len(found) + 34
    lines = [f'<svg xmlns="http://www.w3.org/2000/svg" width="{LEFT + WIDTH + 160}" height="{height}" '
             f'viewBox="0 0 {LEFT + WIDTH + 160} {height}" font-family="sans-serif" role="img">',
             f"  <title>{title}</title>",
             '  <rect width="100%" height="100%" fill="#ffffff"/>',
             text(16, 28, title, 17, weight="bold"),
             text(16, 50, "seconds of a processor, less is better; and the most memory of a process", 13)]
    for at, (name, (seconds, size)) in enumerate(found.items()):
        y, long = TOP + STEP * at, max(1, round(WIDTH * seconds / most))
        lines += [text(LEFT - 12, y + 18, name, anchor="end"),
                  f'  <rect x="{LEFT}" y="{y}" width="{long}" height="{BAR}" fill="{COLOURS[at]}"/>',
                  text(LEFT + long + 8, y + 18, f"{seconds:.3g} s, {size:,.0f} MB")]
    lines += [text(16, height - 16, below, 12), "</svg>"]
    return "\n".join(lines) + "\n"


def main():
    parser = argparse.ArgumentParser()
    parser.add_argument("trees", nargs="+", type=pathlib.Path, metavar="TREE")
    parser.add_argument("--rounds", type=int, default=5)
    parser.add_argument("--beside", action="append", default=[], metavar="COMMAND")
    parser.add_argument("--to", type=pathlib.Path, default=common.TOP / "docs" / "speed.svg")
    options = parser.parse_args()
    version = subprocess.run(["javac", "-version"], capture_output=True, text=True, check=True).stdout.split()[-1]
    with common.Workplace() as work:
        count, size = gather(options.trees, work)
        if not count:
            sys.exit("no class files of versions 51 and 52")
        found = measure(work, options.rounds, options.beside)
    title = f"One tree of {count:,} class files, {size / 1e6:.0f} MB"
    below = f"jdeps and javap of version {version}; the least of {options.rounds} in turn (trials/speed/picture.py)"
    options.to.write_text(picture(found, title, below))
    print(title)
    for name, (seconds, most) in found.items():
        print(f"{name}: {seconds:.2f} seconds, {most:,.0f} MB")


if __name__ == "__main__":
    main()
