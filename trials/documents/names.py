"""Checks what documents name: links, headings, files, options and statuses. run.py uses this module.

checks(path) yields for each name in a document its line and what is wrong, or None if nothing is.

- A relative link leads to a file of the repository, and its `#anchor` to a heading of that file.
- A file name in a code span exists. It begins with a folder of the repository and a slash, or it has a suffix of the
  repository's files. It may be the end of a longer path. A word in capitals, for example NAME, means any text, except in the
  name of a document. A file that a script names, or that a code block of the document shows, need not exist.
- An option of jclink is in `./jclink --help`, and an option of a script is in the script. If a code span begins with an
  option, some script or the help text has it.
- A status in a table with the first heading Status is one that `./jclink --help` lists. README lists exactly these statuses.
- The picture of the crates in docs/ARCHITECTURE.md is the one that scripts/layers.py draws.
"""
import functools
import pathlib
import re
import subprocess

import common

PATTERNS = ("README.md", "CONTRIBUTING.md", "docs/*.md", "trials/RESULTS.md")
# Files and folders that a build makes.
MADE = ("crates/jclink/out/", "crates/jclink/out/jclink", "crates/jclink/out/MANIFEST")
SCRIPTS = ("jclink", ".ci/run", "dist/update", "scripts/*", "examples/*", "trials/*.py", "trials/*/*.py")
SPAN = re.compile(r"(`+)(?!`)(.*?)(?<!`)\1(?!`)")
LINK = re.compile(r"\[[^\]]*\]\(([^)\s]+)\)")
OPTION = re.compile(r"(?<![\w-])--[a-z][\w-]*")
# A program of this repository with its arguments, up to the end of the command.
COMMAND = re.compile(r"(?<![\w/.-])((?:\./)?jclink|(?:[\w.]+/)*[\w.]+\.(?:sh|py))((?: +[^|;&#]*)?)")


def documents():
    """Returns the paths of the documents whose names are checked."""
    return [path for pattern in PATTERNS for path in sorted(common.TOP.glob(pattern))]


@functools.cache
def tracked():
    """Returns the paths of the repository's files and folders, each as its parts."""
    listed = subprocess.run(["git", "ls-files", "-co", "--exclude-standard"], cwd=common.TOP, capture_output=True, text=True, check=True)
    files = [tuple(path.split("/")) for path in listed.stdout.splitlines()]
    return {parts[:count] for parts in files for count in range(1, len(parts) + 1)}


@functools.cache
def suffixes():
    """Returns the suffixes of the repository's files. In documents, a name in .class is mostly an example of a user's file."""
    files = [common.TOP.joinpath(*parts) for parts in tracked()]
    return {path.suffix for path in files if path.is_file()} - {"", ".class"}


@functools.cache
def script_texts():
    """Returns the texts of the repository's scripts by their paths."""
    paths = [path for pattern in SCRIPTS for path in common.TOP.glob(pattern) if path.is_file()]
    return {str(path.relative_to(common.TOP)): path.read_text() for path in paths}


@functools.cache
def help_text():
    """Returns the output of `./jclink --help`."""
    return subprocess.run([common.TOP / "jclink", "--help"], capture_output=True, text=True, check=True).stdout


def statuses():
    """Returns the statuses that the help text lists."""
    return set(re.findall(r"^Status (\d+)", help_text(), re.M))


def split(text):
    """Returns the numbered lines of a document's prose, and those of its code blocks."""
    prose, code, is_code, was_blank, is_fenced = [], [], False, True, False
    for number, line in enumerate(text.splitlines(), 1):
        is_fence = line.strip().startswith("```")
        is_fenced ^= is_fence
        is_code = is_fenced or is_fence or line.startswith("    ") and (was_blank or is_code)
        was_blank = not line.strip()
        (code if is_code else prose).append((number, line))
    return prose, code


@functools.cache
def anchors(path):
    """Returns the anchors of a document's headings, as GitHub makes them."""
    found = []
    for _, line in split(path.read_text())[0]:
        if heading := re.match(r"#+ +(.*)", line):
            text = re.sub(r"\[([^\]]*)\]\([^)]*\)", r"\1", heading[1])
            anchor = re.sub(r"[^\w\- ]", "", text.strip().lower()).replace(" ", "-")
            count = sum(re.fullmatch(re.escape(anchor) + r"(-\d+)?", other) is not None for other in found)
            found.append(f"{anchor}-{count}" if count else anchor)
    return set(found)


def link_checks(path, prose):
    """Yields a check for each relative link."""
    for number, line in prose:
        for target in LINK.findall(SPAN.sub("CODE", line)):
            if re.match(r"\w+:", target):
                continue
            name, _, anchor = target.partition("#")
            file = (path.parent / name).resolve() if name else path
            if not file.is_relative_to(common.TOP) or tuple(file.relative_to(common.TOP).parts) not in tracked():
                yield number, f"the link {target} leads to no file"
            elif anchor and anchor not in anchors(file):
                yield number, f"the link {target} leads to no heading"
            else:
                yield number, None


def form_of(part):
    """Returns a part of a file name as a regular expression. A word in capitals means any text, except in a document's name."""
    if part.endswith(".md") or any(part in parts for parts in tracked()):
        return re.escape(part)
    return "".join("[^/]*" if piece == "*" or piece.isupper() else re.escape(piece) for piece in re.split(r"([A-Z]{2,}|\*)", part))


def is_there(name, path):
    """Returns whether a file name leads to a file from the document, or is the end of the path of a file."""
    if name.startswith("../"):
        return (path.parent / name).exists()
    wanted = re.compile(r"(?:.*/)?" + "/".join(map(form_of, name.strip("/").split("/"))))
    return name in MADE or any(wanted.fullmatch("/".join(parts)) for parts in tracked())


def file_names(text):
    """Yields the file names in a code span."""
    for word in text.split():
        word = word.removeprefix("./").rstrip(",.:;")
        if re.fullmatch(r"[\w.*-]+(/[\w.*-]+)*/?", word) and word != "..":
            begins = "/" in word and (word.split("/")[0],) in tracked()
            if begins or pathlib.PurePath(word).suffix in suffixes() and not word.startswith("."):
                yield word


def file_checks(path, prose, code):
    """Yields a check for each file name in a code span."""
    shown = "\n".join(line for _, line in code)
    for number, line in prose:
        for _, text in SPAN.findall(line):
            for name in file_names(text):
                is_made = any(name in text for text in (shown, *script_texts().values()))
                begins = "/" in name and (name.split("/")[0],) in tracked()
                right = is_there(name, path) or is_made and not begins
                yield number, None if right else f"the file {name} does not exist"


def text_of(program):
    """Returns the text that has a program's options, or None if the program is not of this repository."""
    if program in ("jclink", "./jclink"):
        return help_text()
    names = [name for name in script_texts() if f"/{name}".endswith(f"/{program}") and not name.startswith("trials/")]
    names += [name for name in script_texts() if name == program or name == f"trials/{program}"]
    common_text = script_texts()["trials/common.py"] if any(name.startswith("trials/") for name in names) else ""
    return script_texts()[names[0]] + common_text if names else None


def has_option(text, option):
    """Returns whether a text has an option, and not only the beginning of a longer one."""
    return re.search(re.escape(option) + r"(?![\w-])", text) is not None


def option_checks(prose, code):
    """Yields a check for each option in code spans and code blocks."""
    everywhere = "\n".join([help_text(), *script_texts().values()])
    spans = [(number, text) for number, line in prose for _, text in SPAN.findall(line)]
    for number, text in [*spans, *code]:
        if (number, text) in spans and text.startswith("--"):
            for option in OPTION.findall(text):
                yield number, None if has_option(everywhere, option) else f"{option} is no option"
            continue
        for program, arguments in COMMAND.findall(text):
            options = text_of(program)
            for option in OPTION.findall(arguments) if options is not None else ():
                yield number, None if has_option(options, option) else f"{program} has no option {option}"


def status_checks(prose):
    """Yields a check for each row of a table of statuses."""
    is_table = False
    for number, line in prose:
        cells = [cell.strip() for cell in line.strip().strip("|").split("|")] if line.startswith("|") else []
        is_table = bool(cells) and (is_table or cells[0].strip("*") == "Status")
        if is_table and cells[0] != "Status" and not cells[0].startswith("-"):
            wrong = set(re.findall(r"\d+", cells[0])) - statuses()
            yield number, f"{', '.join(sorted(wrong))} is no status of jclink" if wrong else None


def readme_check(prose):
    """Returns the check of README's list of statuses, which begins with `Status` and ends in the same line."""
    for number, line in prose:
        if found := re.search(r"\bStatus:? 0\b.*", line):
            listed = set(re.findall(r"(?<![\w,])\d+(?=:? [a-z])", found[0]))
            return number, None if listed == statuses() else f"the statuses are {', '.join(sorted(statuses(), key=int))}"
    return 1, "there is no list of statuses"


def picture_check():
    """Returns the check of the picture of the crates."""
    drawn = subprocess.run([common.TOP / "scripts/layers.py", "--check"], capture_output=True, text=True)
    return 1, None if drawn.returncode == 0 else "the picture of the crates is not that of scripts/layers.py"


def checks(path):
    """Yields for each name in a document its line, and what is wrong or None."""
    prose, code = split(path.read_text())
    yield from link_checks(path, prose)
    yield from file_checks(path, prose, code)
    yield from option_checks(prose, code)
    yield from status_checks(prose)
    if path.name == "README.md":
        yield readme_check(prose)
    if path.name == "ARCHITECTURE.md":
        yield picture_check()
