#!/usr/bin/env python3
"""Finds prose that is hard to read: phrases of this project's own, long sentences and long paragraphs.

Usage: run.py [FILE..]. Without a FILE it reads:

- the documents, and the output of `jclink --help`;
- the comments of the sources and of their definitions;
- the comments and help texts of the scripts, and the comments and doc strings of the trials.

It prints a line for each finding, then totals. The status is 1 if there is a finding or if an entry of ALLOWED matches
nothing. A code span counts as one word, and code blocks are skipped. A table cell and a list item are paragraphs.
"""
import argparse
import ast
import collections
import io
import pathlib
import re
import subprocess
import sys
import tokenize

sys.dont_write_bytecode = True
sys.path.insert(0, str(pathlib.Path(__file__).resolve().parent.parent))
import common

SENTENCE, PARAGRAPH = 30, 110
HELP = "jclink --help"
MARKDOWN = ("README.md", "CONTRIBUTING.md", "docs/*.md", "trials/RESULTS.md")
SOURCES = ("crates/*/src/**/*.rt", "crates/*/specs/**/*.antt")
SCRIPTS = ("jclink", ".ci/run", "dist/update", "examples/*.sh", "examples/*.py", "scripts/*", "trials/**/*.py")
# What begins a comment, by the ending of a file's name; `#` in scripts.
BEGINNINGS = {".rt": r"//[/!]?", ".antt": r"--(?: ----)?"}
# A placeholder for a code span.
SPAN = "CODE"
# Each phrase, as a regular expression, and what to write in its place.
PHRASES = {
    r"want of memory|memory (?:is|was)(?: not)? refused": "out of memory, when an allocation fails",
    r"the words|(?<!in )other words": "the arguments, a usage error",
    r"behind": "after, appended",
    r"anew|remade|remak(?:e|es|ing)": "again, recomputed, rebuilt",
    r"ris(?:e|es|ing)": "sorted, in ascending order of",
    r"(?:what|that|which|all) (?:is|are|stands?) (?:all )?above": "its supertypes, its transitive supertypes",
    r"above (?:itself|themselves|one|some|(?:a|each|every|its|this) (?:name|class|node))": "its transitive supertypes",
    rf"(?:{SPAN}|it|they|that|which|calls?|functions?|program) answers?|(?:{SPAN}|calls?|functions?) gives?": "returns",
    r"tells?|telling": "returns, says, shows",
    r"(?:un)?told": "listed, has an entry, has no entry",
    r"stand(?:s|ing)?(?!-)|stood": "is, exists, depends on",
    r"storeys?": "layer",
    r"strangers?|who picks names": "untrusted input, an attacker",
    r"amiss": "invalid",
    r"alike": "equal, identical",
    r"so many": "the number of .., n",
    r"(?:takes?|needs?|wants?|asks? for) no memory": "does not allocate",
    r"what makes? (?:it|them|(?:a|the) report) wrong": "the errors",
    r"dear(?:er|est)?": "expensive",
    r"(?:class(?:es)?|files?|prefix(?:es)?|names?) (?:that )?(?:comes?|goes?)": "is added, is removed",
    r"comes? (?:and|or) go(?:es)?": "is added or removed",
    r"hand(?:s|ed|ing)|hand (?:over|in|on|out)": "passes, receives",
    r"(?:a|one|the|each|that) look": "a pass, one pass",
    r"turn(?:s|ed)": "becomes outside, becomes inside",
    r"alone(?= ?(?:[.,;:)]|$))": "only",
    r"the same of|as of (?:a|an|the|each)|so of": "the noun itself",
}
# (document, phrase, reason)
ALLOWED = ()


class Text:
    """A paragraph: its single words, each with its line."""

    def __init__(self):
        self.words = []

    def add(self, line, text):
        self.words += [(line, word) for word in text.split()]

    def joined(self):
        return " ".join(word for _, word in self.words)

    def line_at(self, offset):
        """Returns the line of the word at an offset of the joined text."""
        return self.words[self.joined()[:offset].count(" ")][0]


def without_spans(lines):
    """Returns numbered lines without emphasis and link targets, and with a placeholder for each code span."""
    blocks = re.split(r"(\n\s*\n)", "\n".join(line for _, line in lines))
    spans = re.compile(r"(`+)(?!`).*?(?<!`)\1(?!`)", re.S)
    kept = [block if block.startswith("    ") else
            spans.sub(lambda span: SPAN + "\n" * span[0].count("\n"), block) for block in blocks]
    text = re.sub(r"!?\[([^\]]*)\]\([^)\n]*\)", r"\1", "".join(kept)).replace("*", "")
    return list(zip((number for number, _ in lines), text.split("\n")))


def paragraphs(lines):
    """Yields the paragraphs, list items and table cells of numbered lines of Markdown; code blocks are skipped."""
    text, is_code, was_blank, is_fenced = Text(), False, True, False
    for number, line in lines:
        body = line.strip()
        is_fenced ^= body.startswith("```")
        is_code = is_fenced or line.startswith("    ") and (was_blank or is_code) or body.startswith("```")
        was_blank = not body
        starts = re.match(r"(?:[-*+]|\d+\.|#+) ", body)
        if was_blank or is_code or starts or body.startswith("|"):
            yield text
            text = Text()
        if body.startswith("|"):
            for cell in re.split(r"(?<!\\)\|", body.strip("|")):
                text.add(number, cell)
                yield text
                text = Text()
        elif not is_code:
            text.add(number, body[starts.end():] if starts else line)
    yield text


def comments(source, begin=r"#(?!!)"):
    """Yields the comments on lines of their own, each block as numbered lines."""
    block = []
    for number, line in enumerate(source.splitlines(), 1):
        if re.match(rf"\s*{begin}", line):
            block.append((number, re.sub(rf"^\s*{begin} ?", "", line)))
        elif block:
            yield block
            block = []
    yield block


def doc_strings(source):
    """Yields the doc strings of a Python program and the help texts of its options, as numbered lines."""
    for node in ast.walk(ast.parse(source)):
        if isinstance(node, (ast.Module, ast.ClassDef, ast.FunctionDef)) and ast.get_docstring(node):
            text = node.body[0].value
            lines = ast.get_docstring(node).splitlines()
            yield list(enumerate(lines, text.lineno))
        elif isinstance(node, ast.keyword) and node.arg in ("help", "description", "epilog"):
            if isinstance(node.value, ast.Constant):
                yield list(enumerate(str(node.value.value).splitlines(), node.value.lineno))


def python_comments(source):
    """Yields the comments of a Python program, those of adjacent lines as one block of numbered lines."""
    block = []
    for token in tokenize.generate_tokens(io.StringIO(source).readline):
        if token.type == tokenize.COMMENT and not token.string.startswith("#!"):
            if block and block[-1][0] != token.start[0] - 1:
                yield block
                block = []
            block.append((token.start[0], token.string.removeprefix("#").removeprefix(" ")))
    yield block


def help_lines():
    """Returns the lines of `jclink --help`, each description as a paragraph of its own."""
    done = subprocess.run([common.TOP / "jclink", "--help"], capture_output=True, text=True, check=True)
    lines = []
    for number, line in enumerate(done.stdout.splitlines(), 1):
        if not line.startswith(" "):
            lines.append((number, ""))
        lines.append((number, re.split(r"\S {2,}(?=\S)", line)[-1].strip()))
    return lines


def blocks_of(name):
    """Returns the prose of a document, script or help text as blocks of numbered lines."""
    if name == HELP:
        return [help_lines()]
    source = (common.TOP / name).read_text()
    if name.endswith(".md"):
        return [list(enumerate(source.splitlines(), 1))]
    if name.endswith(".py"):
        return [*doc_strings(source), *python_comments(source)]
    return list(comments(source, BEGINNINGS.get(pathlib.PurePath(name).suffix, r"#(?!!)")))


def phrases_in(text):
    """Yields the offset of each phrase in a paragraph, the phrase, and what is wrong."""
    for phrase, instead in PHRASES.items():
        for found in re.finditer(rf"(?<![\w-])(?:{phrase})(?![\w-])", text, re.I):
            yield found.start(), found[0], f'"{found[0]}": {instead}'


def long_in(text):
    """Yields the long sentences of a paragraph, and the paragraph if it is long, each with its offset."""
    start, total = 0, 0
    for sentence in re.split(r"(?<=[.!?]) |(?<=[.!?][)\"']) ", text):
        count = len(re.findall(r"\S*\w\S*", sentence))
        if count > SENTENCE:
            yield start, None, f"a sentence of {count} words"
        start, total = start + len(sentence) + 1, total + count
    if total > PARAGRAPH:
        yield 0, None, f"a paragraph of {total} words"


def findings(name):
    """Yields the line of each finding in a document, the phrase that was found, if one was, and what is wrong."""
    for block in blocks_of(name):
        for text in paragraphs(without_spans(block)):
            joined = text.joined()
            for offset, phrase, what in [*phrases_in(joined), *long_in(joined)]:
                yield text.line_at(offset), phrase, what


def default_names():
    paths = [path for pattern in MARKDOWN + SOURCES + SCRIPTS for path in sorted(common.TOP.glob(pattern)) if path.is_file()]
    return [*(str(path.relative_to(common.TOP)) for path in paths), HELP]


def main():
    parser = argparse.ArgumentParser()
    parser.add_argument("files", nargs="*")
    names = parser.parse_args().files or default_names()
    totals, used = collections.Counter(), set()
    for name in names:
        for line, phrase, what in sorted(findings(name), key=lambda finding: finding[0]):
            allowed = {entry for entry in ALLOWED if entry[0] == name and phrase and entry[1] == phrase.lower()}
            used |= allowed
            if not allowed:
                print(f"{name}:{line}: {what}")
                totals["phrases" if phrase else what.split()[1] + "s"] += 1
    unused = [entry for entry in ALLOWED if entry[0] in names and entry not in used]
    for name, phrase, _ in unused:
        print(f'{name}: "{phrase}" is allowed and not found')
    counts = (f"{totals[kind]} {kind}" for kind in ("phrases", "sentences", "paragraphs"))
    print(f"{len(names)} documents: {', '.join(counts)}")
    sys.exit(1 if totals or unused else 0)


if __name__ == "__main__":
    main()
