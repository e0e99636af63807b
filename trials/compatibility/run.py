#!/usr/bin/env python3
"""Compares docs/COMPATIBILITY.md with what java and jclink do after changes of a library.

It also tries the scripts of examples that compare: api_diff.sh, clients.sh and baseline.sh.

Usage: run.py [--seen], once ./jclink is built. The environment's JCLINK may name another program. It needs a JDK of
version 17, and zip and unzip.

Each pair of pairs.txt is a library in two versions and a client. javac compiles both versions, and the client with the
old one. The class files of the client stay as they are. For each pair the trial sees

- what java prints or throws when the client runs with each version;
- whether the [provided] sections of both versions differ;
- which errors `jclink check --errors` prints of the client beside each version, also with the API of Java 8 in the tree;
- whether api_diff.sh finds a difference.

With the old version the client must run to its end and have no errors. The results with the new version decide which table
of the document has a row for the pair, and each cell of that row. Each pair has exactly one row. With --seen the trial prints
the rows that it finds and compares nothing.

Status 1: a row differs, or a script does not do what its head says.
"""
import argparse
import collections
import concurrent.futures
import os
import pathlib
import re
import shutil
import subprocess
import sys

sys.dont_write_bytecode = True
HERE = pathlib.Path(__file__).resolve().parent
sys.path.insert(0, str(HERE.parent))
import common
import recipes

DOCUMENT = common.TOP / "docs" / "COMPATIBILITY.md"
PARTS = ("both", "old", "new", "client", "beside", "main")
MACHINE = ["java", "-XX:TieredStopAtLevel=1", "-XX:+UseSerialGC"]
THROWN = re.compile(r'^(?:Exception in thread "main"|Caused by:) ([\w.$]+)', re.M)
ERROR = re.compile(r"error (\d [A-Z]\w+) .*?( \(unused\))?$|(?:extends|overrides) FINAL(?= )|no body(?= for )")
MAIN = "package {0};\nimport {0}.lib.*;\npublic class Main {{\n    public static void main(String[] arguments) throws Exception {{\n{1}\n    }}\n}}\n"
# The headings of the document's tables, each with its columns.
TABLES = {
    "Seen in `[provided]`": ("JLS", "Change", "`java`", "`[provided]`", "`check` of the client"),
    "Seen by `check` of clients only": ("JLS", "Change", "`java`", "`check` of the client", "`api_diff.sh`"),
    "Not seen": ("JLS", "Change", "`java`", "`api_diff.sh`"),
}

Pair = collections.namedtuple("Pair", "package section change parts")


def read_pairs():
    """Returns the pairs in the order of the file, each with the lines of its parts."""
    pairs = []
    for number, text in enumerate((HERE / "pairs.txt").read_text().split("\n== ")[1:], 1):
        head, *sections = re.split(r"^-- ", text, flags=re.M)
        parts = dict.fromkeys(PARTS, "")
        for section in sections:
            name, _, lines = section.partition("\n")
            if name not in parts:
                sys.exit(f"pairs.txt has no part {name}")
            parts[name] = lines.strip("\n")
        pairs.append(Pair(f"pair{number:02}", *head.strip().split(" ", 1), parts))
    return pairs


def types_of(source):
    """Returns the top-level types of a source by their names. Each begins at a line that is not indented."""
    for text in filter(None, re.split(r"^(?=[^\s}])", source, flags=re.M)):
        yield re.search(r"\b(?:class|interface|enum) (\w+)", text)[1], text


def write_library(folder, pair, *parts):
    package = folder / pair.package / "lib"
    package.mkdir(parents=True)
    for part in parts:
        for name, text in types_of(pair.parts[part]):
            (package / f"{name}.java").write_text(f"package {pair.package}.lib;\n{text}\n")


def write_client(folder, pair):
    write_library(folder, pair, "beside")
    package = folder / pair.package
    for name, text in types_of(pair.parts["client"]):
        (package / f"{name}.java").write_text(f"package {pair.package};\nimport {pair.package}.lib.*;\n{text}\n")
    (package / "Main.java").write_text(MAIN.format(pair.package, pair.parts["main"]))


def compile_all(work, pairs):
    """Compiles all pairs into the folders old, new and client."""
    sources = work / "sources"
    for pair in pairs:
        write_library(sources / "old", pair, "both", "old")
        write_library(sources / "new", pair, "both", "new")
        write_client(sources / "client", pair)
    for name in ("old", "new", "client"):
        files = sorted((sources / name).rglob("*.java"))
        options = ["--release", "8", "-g", "-nowarn", "-Xlint:-options", "-cp", work / "old", "-d", work / name]
        done = subprocess.run(["javac", *options, *files], capture_output=True, text=True, check=False)
        if done.returncode:
            sys.exit(done.stderr)


def jclink(*arguments):
    done = subprocess.run([common.JCLINK, *arguments], capture_output=True, text=True, check=False)
    if done.returncode > 1:
        sys.exit(f"jclink {arguments[0]}: status {done.returncode}, {done.stderr}")
    return done.stdout


def run_client(work, pair, version):
    """Returns what the client prints, and the error that ends it or nothing."""
    place = work / "run" / pair.package
    place.mkdir(parents=True, exist_ok=True)
    path = os.pathsep.join(str(work / name) for name in ("client", version))
    done = subprocess.run([*MACHINE, "-cp", path, f"{pair.package}.Main"], cwd=place, capture_output=True, text=True, check=False)
    thrown = THROWN.search(done.stderr)
    if bool(done.returncode) != bool(thrown):
        sys.exit(f"{pair.package}: status {done.returncode} of java, {done.stderr}")
    return done.stdout.strip(), thrown and thrown[1].rpartition(".")[2]


def class_files(folder):
    """Returns the names of the classes below a folder, from their paths."""
    return {str(path.relative_to(folder).with_suffix("")) for path in folder.rglob("*.class")}


def errors_of(tree, clients):
    """Returns the errors of the clients' classes by pair: each kind, and whether all its lines are unused.

    Other classes of the pairs must have no errors.
    """
    found = collections.defaultdict(dict)
    for line in jclink("check", "--errors", "--only", "pair", tree).splitlines():
        name = re.match(r"[^.:]+", line)[0]
        if name not in clients:
            sys.exit(f"an error of a library: {line}")
        found_error = ERROR.search(line)
        error, unused = found_error[1] or found_error[0], found_error[2]
        kinds = found[name.partition("/")[0]]
        kinds[error] = kinds.get(error, True) and bool(unused)
    return found


def provided_of(folder):
    """Returns the rows of [provided] by pair."""
    rows = collections.defaultdict(set)
    for row in jclink("check", folder).partition("[provided]\n")[2].partition("[required]\n")[0].splitlines():
        rows[row.split(" ")[1].partition("/")[0]].add(row)
    return rows


def check(work):
    """Returns what jclink finds in all pairs.

    That is the errors of the clients beside the old version, the new one, and the new one with the API of Java 8. Then what
    each version provides.
    """
    errors, clients = {}, class_files(work / "client")
    ct_sym = pathlib.Path(shutil.which("javac")).resolve().parent.parent / "lib" / "ct.sym"
    for name, parts in (("old", ("old",)), ("new", ("new",)), ("with java", ("new", "java"))):
        tree = work / "trees" / name
        for part in ("client", *parts):
            shutil.copytree(work / part, tree / part)
        errors[name] = errors_of(tree, clients)
        if name == "new":
            subprocess.run([sys.executable, common.TOP / "examples" / "api.py", "8", ct_sym, work / "java"], check=True)
    return errors, {name: provided_of(work / name) for name in ("old", "new")}


def java_cell(old, new):
    text, thrown = new
    if thrown:
        return f"`{thrown}`"
    return f"prints `{text}`, as before" if text == old[0] else f"prints `{text}`, before `{old[0]}`"


def kinds_cell(kinds):
    return ", ".join(f"{error} (unused)" if unused else error for error, unused in sorted(kinds.items())) or "no line"


def check_cell(kinds, with_java):
    """Returns the cell for errors, which also has those with the API of Java 8 in the tree if they differ."""
    cell, other = kinds_cell(kinds), kinds_cell(with_java)
    return cell if other == cell else f"{cell}; with Java's API {other}"


def provided_cell(old, new):
    return " and ".join(word for word, rows in (("loses", old - new), ("gains", new - old)) if rows) or "same"


def api_cell(work, pair):
    status, text = recipes.run("api_diff.sh", work / "old" / pair.package, work / "new" / pair.package)
    if status > 1:
        sys.exit(f"{pair.package}: status {status} of api_diff.sh: {text}")
    return "differs" if status else "same"


def see(work, pair, errors, provided):
    """Returns the table that the pair belongs to, and its row there."""
    old, new = run_client(work, pair, "old"), run_client(work, pair, "new")
    if old[1] or errors["old"][pair.package]:
        sys.exit(f"{pair.package}: the client has errors with the old library: {old}")
    cells = {
        "JLS": pair.section,
        "Change": pair.change,
        "`java`": java_cell(old, new),
        "`[provided]`": provided_cell(provided["old"][pair.package], provided["new"][pair.package]),
        "`check` of the client": check_cell(errors["new"][pair.package], errors["with java"][pair.package]),
        "`api_diff.sh`": api_cell(work, pair),
    }
    table = 0 if cells["`[provided]`"] != "same" else 1 if cells["`check` of the client"] != "no line" else 2
    if table == 0 and cells["`api_diff.sh`"] == "same":
        sys.exit(f"{pair.package}: [provided] differs, and api_diff.sh finds nothing")
    heading, columns = list(TABLES.items())[table]
    return heading, " | ".join(cells[column] for column in columns)


def rows_of(text):
    """Returns the rows of the document's tables, each with its heading. The columns are those of TABLES."""
    for heading, columns in TABLES.items():
        section = re.search(rf"^## {re.escape(heading)}\n(.*?)(?=^## |\Z)", text, re.M | re.S)
        lines = [line.strip("| ") for line in (section[1] if section else "").splitlines() if line.startswith("|")]
        if lines[:1] != [" | ".join(columns)]:
            sys.exit(f"{DOCUMENT.name}: no table of {heading}")
        yield from ((heading, line) for line in lines[2:])


def differences(seen):
    """Prints the rows that only the document or only the trial has, and returns their number."""
    written = collections.Counter(rows_of(DOCUMENT.read_text()))
    seen = collections.Counter(seen)
    for name, rows in (("only in the document", written - seen), ("only seen", seen - written)):
        for heading, line in rows.elements():
            print(f"{name}: {heading}: {line}")
    return max((written - seen).total(), (seen - written).total())


def main():
    parser = argparse.ArgumentParser()
    parser.add_argument("--seen", action="store_true")
    options, pairs = parser.parse_args(), read_pairs()
    with common.Workplace() as work:
        compile_all(work, pairs)
        errors, provided = check(work)
        with concurrent.futures.ThreadPoolExecutor(os.cpu_count()) as pool:
            seen = list(pool.map(lambda pair: see(work, pair, errors, provided), pairs))
    if options.seen:
        sys.exit(print("\n".join(f"{heading}: {line}" for heading, line in seen)))
    different = differences(seen)
    print(f"{len(pairs)} rows, {different} differ")
    tried = list(recipes.tries())
    print(f"{len(tried)} runs of scripts, {tried.count(False)} differ")
    sys.exit(1 if different or not all(tried) else 0)


if __name__ == "__main__":
    main()
