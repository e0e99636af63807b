"""The figures in documents that a run of a trial determined, each with its place in trials/outputs.txt."""
import re
import typing

import common


class Count(typing.NamedTuple):
    """A count: what it counts, the pattern of its sentence, whose group is the number, and a function that counts."""
    what: str
    pattern: str
    value: typing.Callable


def source(path):
    return (common.TOP / path).read_text()


def outputs_in(text):
    """Returns each command in trials/outputs.txt, with its commit and output."""
    return dict(re.findall(r"^== ([^\n]*), (\w+\n\n.*?)(?=^== |\Z)", text, re.M | re.S))


def figure(script, pattern):
    """Returns a function that finds a figure in the last output of a trial, or None."""
    def value():
        outputs = outputs_in(source("trials/outputs.txt"))
        matches = (re.search(pattern, output, re.M) for command, output in outputs.items() if command.split()[0] == script)
        return next((match[1] for match in matches if match), None)
    return value


def hostile_figures(kind, command, has_memory):
    """Yields the figures of a command for a kind of hostile class files, in a row of a table that names the kind."""
    row = rf"\| {kind} \| `{command}` \| [\d,]+ \| [\d,]+ \| "
    end = rf"[^|\n]*\|[^|\n]*`{kind}`"
    yield Count(f"seconds, {kind}, {command}", rf"`?{command}`? ([\d.]+) s{end}", figure("hostile/run.py", row + r"([\d.]+)"))
    if has_memory:
        memory = figure("hostile/run.py", row + r"[\d.]+ \| (\d+)")
        yield Count(f"megabytes, {kind}, {command}", rf"`?{command}`? [\d.]+ s, (\d+) MB{end}", memory)


PICTURE, EDITS, CLASSPATH, DEEP = "speed/picture.py", "speed/edits.py", "classpath/figures.py", "link/deep.py"
FIGURES = (
    Count("classes of a tree", r"`check`, ([\d,]+) classes, \d+ MB", figure(PICTURE, r"^One tree of ([\d,]+) class files")),
    Count("megabytes of a tree", r"`check`, [\d,]+ classes, (\d+) MB", figure(PICTURE, r"class files, (\d+) MB$")),
    Count("seconds of check", r"(?:MB|that resolves) \| ([\d.]+) s(?:,| and) [\d,]+ MB;", figure(PICTURE, r"^jclink check: ([\d.]+) s")),
    Count("memory of check", r"(?:MB|that resolves) \| [\d.]+ s(?:,| and) ([\d,]+) MB;", figure(PICTURE, r"^jclink check: .*, ([\d,]+) MB$")),
    Count("seconds of check --errors", r"`--errors` ([\d.]+) s", figure(PICTURE, r"^jclink check --errors: ([\d.]+) s")),
    Count("memory of check --errors", r"`--errors` [\d.]+ s, ([\d,]+) MB", figure(PICTURE, r"^jclink check --errors: .*, ([\d,]+) MB$")),
    Count("seconds of the program that resolves", r"the program takes ([\d.]+) s", figure(PICTURE, r"^FOLDER: ([\d.]+) s")),
    Count("memory of the program that resolves", r"the program takes [\d.]+ s and ([\d,]+) MB", figure(PICTURE, r"^FOLDER: .*, ([\d,]+) MB$")),
    Count("listings", r"beside a plain program \| ([\d.]+) times", figure("listing/plain.py", r": ([\d.]+) times$")),
    Count("files added", r"ession: ([\d,]+) files added one by one", figure(EDITS, r"^([\d,]+) files added")),
    Count("seconds of adds", r"added one by one \| ([\d.]+) s", figure(EDITS, r"^\S*jclink: ([\d.]+) s")),
    Count("memory of adds", r"added one by one \| [\d.]+ s, ([\d,]+) MB", figure(EDITS, r"^\S*jclink: .* processor, ([\d,]+) MB;")),
    Count("dependants", r"an edit with (\d+)", figure(EDITS, r"^\| replace a class with (\d+) dependants")),
    Count("most dependants", r"an edit with \d+ (?:dependants, with|or) ([\d,]+)", figure(EDITS, r"^\| add java/lang/String, and remove it \| ([\d,]+),")),
    Count("an edit", r"an edit with [^|]*\| ([\d.]+) ms", figure(EDITS, r"^\| replace a class with \d+ dependants \| .* \| ([\d.]+) \|$")),
    Count("the longest edit", r"an edit with [^|]*\| [\d.]+ ms, ([\d.]+) ms", figure(EDITS, r"^\| add java/lang/String, .* \| ([\d.]+), [\d.]+ \|$")),
    Count("jars", r"(?:`, | For )(\d+) jars", figure(CLASSPATH, r"^\| gradle \| (\d+)")),
    Count("class files of jars", r"\d+ jars, ([\d,]+) class files", figure(CLASSPATH, r"^\| gradle \| \d+ \| ([\d,]+)")),
    Count("seconds of a class path", r"\d+ jars(?:, [\d,]+ class files \|| it takes) ([\d.]+) s", figure(CLASSPATH, r"^\| gradle \| .* \| ([\d.]+) \| [\d.]+ \|$")),
    Count("seconds of unzip and check", r"`check` (?:of the same|take) ([\d.]+) s", figure(CLASSPATH, r"^\| gradle \| .* \| ([\d.]+) \|$")),
    Count("class files of applications", r"Of ([\d,]+) class files of ten applications", figure(CLASSPATH, r"^([\d,]+) class files of 10")),
    Count("class files that are not read", r"ten applications, ([\d,]+) have a version", figure(CLASSPATH, r"applications, ([\d,]+) skipped")),
    Count("a class below others", r"in a chain \| ([\d.]+) s by the clock", figure(DEEP, r"^chain, 65535: .*, ([\d.]+) s$")),
    Count("a class below others, each with 16", r"by the clock; ([\d.]+) s if each", figure(DEEP, r"^each to the 16 before it, 65535: .*, ([\d.]+) s$")),
    *hostile_figures("references_to_the_first_of_a_chain", "check", True),
    *hostile_figures("members_below_a_chain", "check", False),
    *hostile_figures("few_references_each_below_a_chain", "check", True),
    *hostile_figures("few_references_each_below_a_chain", "session", True),
    *hostile_figures("methods_of_a_chain", "check --errors", True),
    *hostile_figures("code_faults", "check", True),
    *hostile_figures("members_of_a_long_missing_name", "check", False),
    *hostile_figures("members_of_a_long_missing_name", "session", False),
)
