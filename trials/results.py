#!/usr/bin/env python3
"""Compares the counts in documents with the repository, or writes them.

Usage: results.py [--write] [--run COMMAND | --output COMMAND]

The repository itself determines these counts. COUNTS has those in sentences. The table in docs/MUTANTS.md has the numbers of
mutants. The tables in docs/ARCHITECTURE.md have a row for each crate without tests, and its libraries if they have such a
column. FIGURES has those that a run of a trial determined. They are compared with trials/outputs.txt.

Without --write the script prints each difference. With --write it corrects the counts and prints each change. With --run it
runs a trial, for example "held/run.py 1 2000", and writes the trial's row in trials/RESULTS.md. The row has the command, the
commit of the checkout, and the lines of the output that say what differs. An absolute path is written as FOLDER.
--output runs a trial that prints figures, and writes its whole output into trials/outputs.txt.

Status 0: the documents are correct. 1: something differs, or no document has one of the counts or tables.
"""
import argparse
import pathlib
import random
import re
import shlex
import subprocess
import sys

sys.dont_write_bytecode = True
sys.path.insert(0, str(pathlib.Path(__file__).resolve().parent))
import common
from figures import FIGURES, Count, outputs_in, source

DOCUMENTS = ("README.md", "CONTRIBUTING.md", "docs/*.md", "trials/RESULTS.md")
NUMERALS = """no one two three four five six seven eight nine ten eleven twelve thirteen fourteen fifteen sixteen seventeen
    eighteen nineteen twenty""".split()
NUMBER = rf"(\d[\d,]*|{'|'.join(NUMERALS)})"
MUTANTS_HEAD = "| Crate | In the gate | Outside it |"
CRATES_HEAD = "| Crate | Contents |"
USES_HEAD = "| Crate | Contents | Depends on |"


ROW_HEAD = "    trial "
ROW = "    {:<59}{:<9}{}"
VERDICT = re.compile(r"\b\d+(?: \w+)? differ\b|\b\d+ differences\b|\bdifferences \d+\b|\bnames, \d+ wrong\b|\bof them not refused$|, each refused$")


def last_rule(path, letter):
    """Returns the number of the last rule in an order of faults."""
    return max(map(int, re.findall(rf"^rule_number rules\.{letter}\d+ = (\d+)$", source(path), re.M)))


def tests():
    return sum(len(re.findall(r"^#\[test\]$", path.read_text(), re.M)) for path in common.TOP.glob("crates/jc_tests/src/**/*.rt"))


def rows():
    return sum(map(int, re.findall(r": (\d+) rows$", source("crates/jc_rows/stdout"), re.M)))


def java_sources(folder):
    return len(list((common.TRIALS / "sources" / folder).glob("*.java")))


def made_sources():
    with common.Workplace() as work:
        common.make_sources(work, random.Random(1))
        return len(list(work.iterdir()))


def crates(text=None):
    """Returns the crates in the order of crates.txt, each with the libraries that it uses."""
    lines = re.findall(r"^([a-z]\w*):(.*)$", text or source("crates.txt"), re.M)
    return {name: uses.split() for name, uses in lines}


def mutants(crate):
    """Returns the numbers of a crate's mutants in the gate and outside it."""
    folders = common.TOP / "crates" / crate / "must-fail", common.TRIALS / "mutants" / crate
    return [len(list(folder.glob("*.edit"))) for folder in folders]


def all_mutants(place):
    return sum(mutants(crate)[place] for crate in crates())


def limit_of_words(name):
    return int(re.search(r"^SENTENCE, PARAGRAPH = (\d+), (\d+)$", source("trials/words/run.py"), re.M)[name])


COUNTS = (
    Count("test rows", rf"{NUMBER} rows(?:,| and) (?:`jc_tests` has )?[\d,]+ tests", rows),
    Count("tests", rf"[\d,]+ rows(?:,| and) (?:`jc_tests` has )?{NUMBER} tests", tests),
    Count("layers of crates", rf"small crates in {NUMBER} layers", lambda: len(re.findall(r"\n\n# ", source("crates.txt")))),
    Count("crates outside the chain", rf"All but {NUMBER} crates depend on one another in a chain",
          lambda: len(re.search(r"^ASIDE='([^']*)'", source("scripts/build"), re.M)[1].split())),
    Count("rules of the format", rf"(?:rules? of the format|its format),? \(?F1 to F{NUMBER}",
          lambda: last_rule("crates/jc_file/specs/FaultOrder.antt", "F")),
    Count("rules of code", rf"\bS1 to S{NUMBER}", lambda: last_rule("crates/jc_code/specs/CodeFaultOrder.antt", "S")),
    Count("opcodes", rf"{NUMBER} opcodes", lambda: int(re.search(r"length opcodes ≡ (\d+)", source("crates/jc_code/src/laws.rt"))[1])),
    Count("sources for Java 7 and 8", rf"{NUMBER} sources for Java 7 and 8", lambda: java_sources("seven")),
    Count("sources for Java 8", rf"sources for Java 7 and 8, {NUMBER} for Java 8", lambda: java_sources("eight")),
    Count("generated sources", rf"{NUMBER} generated ones", made_sources),
    Count("words of a sentence", rf"(?:no sentence over|one idea and at most) {NUMBER} words", lambda: limit_of_words(1)),
    Count("words of a paragraph", rf"(?:no paragraph over|A paragraph has at most) {NUMBER}", lambda: limit_of_words(2)),
    Count("kinds of hostile class files", rf"{NUMBER} kinds of hostile class files", lambda: len(common.load("hostile/classes.py").KINDS)),
    Count("mutants in the gate", rf"The gate tries {NUMBER} mutants", lambda: all_mutants(0)),
    Count("mutants outside the gate", rf"`trials/mutants` has {NUMBER} others", lambda: all_mutants(1)),
)


def in_form(text, value):
    """Returns a number in the form of a text: as a word or in digits."""
    if isinstance(value, str):
        return value
    return NUMERALS[value] if text.isalpha() and value < len(NUMERALS) else f"{value:,}"


def with_table(text, head, row_of):
    """Returns a text and the crates of its tables with this head. A function returns the rows of these tables."""
    lines, is_table, found = text.split("\n"), False, []
    for at, line in enumerate(lines):
        is_table = line.startswith(head) or is_table and line.startswith("|")
        if is_table and (row := re.match(r"\| `(\w+)` \|", line)):
            found.append(row[1])
            lines[at] = row_of(row[1], line)
    return "\n".join(lines), found


def same_row(_, line):
    return line


def mutants_row(crate, _):
    return f"| `{crate}` | " + " | ".join(str(number or "") for number in mutants(crate)) + " |"


def uses_row(crate, line):
    return line.rsplit("|", 2)[0] + "| " + ", ".join(f"`{library}`" for library in crates().get(crate, [])) + " |"


def with_counts(text, found):
    """Returns a text with the right counts, and adds each count that it has to `found`."""
    for count in (*COUNTS, *FIGURES):
        matches = list(re.finditer(count.pattern, text))
        found.update([count.what] if matches else [])
        for match in reversed(matches if count.value() is not None else []):
            text = text[:match.start(1)] + in_form(match[1], count.value()) + text[match.end(1):]
    return text


def wrong_rows(name, head, wanted):
    """Yields the crates that the tables with a head lack, and the wrong ones that they have."""
    _, found = with_table(source(name), head, same_row)
    yield from (f"{name}: no table has a row for {crate}" for crate in wanted if crate not in found)
    yield from (f"{name}: a table has a row for {crate}, which is no crate" for crate in found if crate not in crates())


def differences(write):
    """Yields each difference between the documents and the repository. With `write` it corrects the documents."""
    found = set()
    for path in (path for pattern in DOCUMENTS for path in sorted(common.TOP.glob(pattern))):
        before = path.read_text()
        after = with_counts(before, found)
        for head, row_of in ((MUTANTS_HEAD, mutants_row), (USES_HEAD, uses_row)):
            after, _ = with_table(after, head, row_of)
        for number, (old, new) in enumerate(zip(before.split("\n"), after.split("\n")), 1):
            if old != new:
                yield f"{path.relative_to(common.TOP)}:{number}: {old}\n  {'is now' if write else 'should be'}: {new}"
        if write and before != after:
            path.write_text(after)
    for count in (*COUNTS, *FIGURES):
        if count.what not in found:
            yield f"no document has the number of {count.what}: {count.value()}"
        elif count.value() is None:
            yield f"trials/outputs.txt does not have the number of {count.what}"
    with_mutants = [crate for crate in crates() if any(mutants(crate))]
    yield from wrong_rows("docs/MUTANTS.md", MUTANTS_HEAD, with_mutants)
    yield from wrong_rows("docs/ARCHITECTURE.md", CRATES_HEAD, crates(source("crates.txt").split("\n# Tests")[0]))


def output_of(command):
    """Runs a trial, prints its output, and returns the lines and the status."""
    script, *arguments = shlex.split(command)
    lines = []
    with subprocess.Popen([sys.executable, common.TRIALS / script, *arguments], stdout=subprocess.PIPE, text=True) as trial:
        for line in trial.stdout:
            print(line, end="", flush=True)
            lines.append(line.rstrip("\n"))
    return lines, trial.returncode


def commit_of():
    """Returns the commit of the checkout in short."""
    command = ["git", "rev-parse", "--short", "HEAD"]
    return subprocess.run(command, cwd=common.TOP, capture_output=True, text=True, check=True).stdout.strip()


def with_row(text, command, verdict):
    """Returns the text of trials/RESULTS.md with the row of a trial. A new row follows those of its script."""
    lines = text.split("\n")
    first = next(at for at, line in enumerate(lines) if line.startswith(ROW_HEAD)) + 1
    last = next(at for at in range(first, len(lines)) if not lines[at].strip())
    same = [at for at in range(first, last) if lines[at][4:63].strip() == command]
    near = [at + 1 for at in range(first, last) if lines[at].split()[0].rstrip(",") == command.split()[0]]
    at = same[0] if same else near[-1] if near else last
    lines[at:at + len(same)] = [ROW.format(command, commit_of(), verdict)]
    return "\n".join(lines)


def verdict_of(lines):
    """Returns the lines of an output that say what differs, without those of parts (`try_`).

    A line that says only that has the last line in front that is not indented.
    """
    found, before = [], ""
    for line in lines:
        if (verdict := VERDICT.search(line)) and not line.startswith("try_"):
            found.append(f"{before}, {line}" if verdict[0] == line else line[:verdict.end()])
        before = before if line.startswith(" ") else line
    return "; ".join(found)


def with_output(text, command, lines):
    """Returns the text of trials/outputs.txt with the output of a trial. The outputs are in the order of the commands."""
    outputs = outputs_in(text)
    shown = "\n".join(lines).strip("\n")
    outputs[command] = f"{commit_of()}\n\n{shown}\n\n"
    return "".join(f"== {name}, {outputs[name]}" for name in sorted(outputs)).rstrip("\n") + "\n"


def without_paths(text, command):
    """Returns a text in which each absolute path of a command is FOLDER, and a path in the checkout begins there."""
    for word in sorted(filter(lambda word: word.startswith("/"), command.split()), key=len, reverse=True):
        text = text.replace(word, "FOLDER")
    return text.replace(f"{common.TOP}/", "")


def record(command, is_output):
    """Runs a trial and writes its row or its output. A trial without a line on what differs must have status 0."""
    lines, status = output_of(command)
    verdict = verdict_of(lines) or status == 0 and "; ".join(lines)
    if not verdict:
        sys.exit("no line of the output says what differs")
    path, change = ("outputs.txt", lambda text: with_output(text, shown, lines)) if is_output else (
        "RESULTS.md", lambda text: with_row(text, shown, verdict))
    shown = without_paths(command, command)
    lines = [without_paths(line, command) for line in lines]
    (common.TRIALS / path).write_text(change((common.TRIALS / path).read_text()))


def main():
    parser = argparse.ArgumentParser(description=__doc__.split("\n")[0])
    parser.add_argument("--write", action="store_true", help="corrects the documents")
    parser.add_argument("--run", metavar="COMMAND", help="runs a trial and writes its row in trials/RESULTS.md")
    parser.add_argument("--output", metavar="COMMAND", help="runs a trial and writes its output in trials/outputs.txt")
    options = parser.parse_args()
    if options.run or options.output:
        record(options.run or options.output, options.output is not None)
    found = list(differences(options.write))
    print(*found, f"{len(COUNTS)} counts, {len(FIGURES)} figures and two kinds of tables, {len(found)} differences", sep="\n")
    sys.exit(1 if found else 0)


if __name__ == "__main__":
    main()
