#!/usr/bin/env python3
"""Runs examples/classpath.sh over applications of Debian, and prints its counts and times.

Usage: figures.py PACKAGE.., once ./jclink is built, after `apt-get update`. The environment's JCLINK may name another program.

A class path is the jars of a package and of the libraries that it depends on, directly or not, sorted by path. A library is a
package whose name ends in -java. apt-get downloads the packages; they are not installed. The numbers are those of a run without
--java. A further column has the lines with --java and the JDK's ct.sym. Left are the skipped class files that no prefix covers.
The times are seconds of a processor: of the script without --java, and of `unzip` and `check` for the same jars.
"""
import os
import pathlib
import re
import resource
import shutil
import subprocess
import sys

sys.dont_write_bytecode = True
sys.path.insert(0, str(pathlib.Path(__file__).resolve().parent.parent))
import common

SCRIPT = common.TOP / "examples" / "classpath.sh"
CT_SYM = pathlib.Path(shutil.which("javac")).resolve().parent.parent / "lib" / "ct.sym"
NOT_NEEDED = [f"--no-{kind}" for kind in ("recommends", "suggests", "conflicts", "breaks", "replaces", "enhances")]
COUNTS = re.compile(r"^(\d+) entr(?:y|ies), (\d+) class files?: (\d+) read, (\d+) shadowed, (\d+) skipped$", re.M)
LEFT = re.compile(r"^no prefix is left for (\d+) class files", re.M)
HEAD = ("application", "entries", "class files", "read", "shadowed", "skipped", "left", "lines", "lines, --java", "s", "s, unzip and check")


def packages_of(package):
    """Returns a package and the libraries that it depends on."""
    told = subprocess.run(["apt-cache", "depends", "--recurse", *NOT_NEEDED, package], capture_output=True, text=True, check=True)
    return sorted({package, *(name for name in re.findall(r"^(\S+)$", told.stdout, re.M) if name.endswith("-java"))})


def unpack(package, folder):
    """Unpacks the package and its libraries into a folder, and returns their jars."""
    (folder / "root").mkdir(parents=True)
    subprocess.run(["apt-get", "download", *packages_of(package)], cwd=folder, stdout=subprocess.DEVNULL, check=True)
    for file in folder.glob("*.deb"):
        subprocess.run(["dpkg-deb", "-x", file, folder / "root"], check=True)
        file.unlink()
    return [path for path in sorted((folder / "root").rglob("*.jar")) if not path.is_symlink()]


def timed(*commands):
    """Runs commands, and returns the seconds of a processor, and what the last one printed."""
    before = resource.getrusage(resource.RUSAGE_CHILDREN)
    for command in commands:
        done = subprocess.run(command, capture_output=True, text=True, env={**os.environ, "JCLINK": str(common.JCLINK)})
    after = resource.getrusage(resource.RUSAGE_CHILDREN)
    return after.ru_utime + after.ru_stime - before.ru_utime - before.ru_stime, done


def row_of(package, folder):
    """Returns the name, the numbers and the times of an application."""
    jars = unpack(package, folder)
    classpath = ":".join(map(str, jars))
    seconds, plain = timed([SCRIPT, classpath])
    _, with_java = timed([SCRIPT, "--java", CT_SYM, classpath])
    one_by_one, _ = timed(*(["unzip", "-qqo", jar, "-d", folder / "all"] for jar in jars), [common.JCLINK, "check", folder / "all"])
    found = COUNTS.search(plain.stderr)
    if plain.returncode > 1 or with_java.returncode > 1 or not found:
        sys.exit(f"{package}: status {plain.returncode} and {with_java.returncode}\n{plain.stderr}")
    left = LEFT.search(plain.stderr)
    lines = (len(done.stdout.splitlines()) for done in (plain, with_java))
    return package, *map(int, found.groups()), int(left[1]) if left else 0, *lines, f"{seconds:.1f}", f"{one_by_one:.1f}"


def shown(row):
    return "| " + " | ".join(f"{cell:,}" if isinstance(cell, int) else cell for cell in row) + " |"


def main():
    if len(sys.argv) == 1 or sys.argv[1].startswith("-"):
        sys.exit("usage: figures.py PACKAGE..")
    print(shown(HEAD) + "\n" + "|---" * len(HEAD) + "|")
    rows = []
    with common.Workplace() as work:
        for package in sys.argv[1:]:
            rows.append(row_of(package, work / package))
            print(shown(rows[-1]), flush=True)
            shutil.rmtree(work / package)
    files, skipped = (sum(row[HEAD.index(column)] for row in rows) for column in ("class files", "skipped"))
    print(f"{files:,} class files of {len(rows)} applications, {skipped:,} skipped")


if __name__ == "__main__":
    main()
