#!/usr/bin/env python3
"""Runs the commands that documents show, and compares their output with what the documents show.

Usage: run.py [--names] [--netty FOLDER] [--maven FOLDER], once ./jclink is built. The environment's JCLINK may name another
program. It needs a JDK. With --names it only checks names and counts, and needs neither a JDK nor the program.

A command is a line of an indented block that begins with `$`. The lines below it, up to the next command, are its output; `..`
means any lines. The lines of `cat FILE..` are the files, one line for each if there are several. The trial writes these files.
The blocks of a document run in one folder, one after another. Each begins in the folder in which the one before ended.

A block whose commands name netty or maven runs only if its FOLDER is given; then a link of this name leads there. For netty it
is the Debian package libnetty-java as `dpkg -x` unpacks it. For maven it has the jars of the Debian package maven in boot/ and
lib/, for example /usr/share/maven. Nothing is downloaded: commands that begin with `apt-get` do not run.

The trial also checks four things:

- The lines of a block that begins with `use` are lines of a crate's source, in the same order. The lines of an example in a
  comment of a crate's source are lines of the file that the comment names.
- The links, files, options and statuses that documents name exist (names.py).
- The counts in documents are those of the repository (trials/results.py).
- examples/hold.py prints the changes of a folder.
"""
import argparse
import os
import pathlib
import re
import shutil
import subprocess
import sys
import tempfile
import time

sys.dont_write_bytecode = True
sys.path.insert(0, str(pathlib.Path(__file__).resolve().parent.parent))
import common
import names

# The applications whose folders may be given.
APPLICATIONS = ("netty", "maven")
DOWNLOAD = "apt-get "
HOLD = [sys.executable, common.TOP / "examples" / "hold.py", common.JCLINK]


def blocks(text):
    """Yields the indented blocks with commands, each as pairs of a command and its output."""
    for block in re.findall(r"(?:^    .*\n|^\n(?=    ))+", text, re.M):
        commands = []
        for line in block.splitlines():
            line = line[4:]
            if line.startswith("$ "):
                commands.append((re.sub(r"  +# .*", "", line[2:]), []))
            elif commands:
                commands[-1][1].append(line)
        if commands:
            yield commands


def matches(wanted, found):
    """Returns whether the lines are those that are wanted, where `..` means any lines."""
    if not wanted:
        return not found
    if wanted[0].strip() == "..":
        return any(matches(wanted[1:], found[at:]) for at in range(len(found) + 1))
    return bool(found) and wanted[0] == found[0] and matches(wanted[1:], found[1:])


def quotes(text):
    """Yields the blocks of a library's code, each as its lines."""
    for block in re.findall(r"(?:^    .*\n|^\n(?=    ))+", text, re.M):
        lines = [line[4:] for line in block.strip("\n").splitlines()]
        if lines[0].startswith("use "):
            yield lines


def is_in_a_crate(lines):
    wanted = ["..", *lines, ".."]
    return any(matches(wanted, path.read_text().splitlines()) for path in common.TOP.glob("crates/*/src/**/*.rt"))


def try_quotes(path):
    """Yields for each block of code whether a crate has it."""
    for lines in quotes(path.read_text()):
        right = is_in_a_crate(lines)
        if not right:
            print(f"{path.relative_to(common.TOP)}: no crate has `{lines[0]}`, ..")
        yield right


def examples(text):
    """Yields the examples in comments of a source, each as the path of the file that has its lines, and these lines."""
    for path, block in re.findall(r"/// For example \(`([^`]+)`\):\n *///\n */// ```\n(.*?)\n */// ```\n", text, re.S):
        yield path, [re.sub(r"^ */// ?", "", line).strip() for line in block.splitlines()]


def try_examples(path):
    """Yields for each example in the comments of a source whether the file that it names has its lines."""
    for source, lines in examples(path.read_text()):
        found = [line.strip() for line in (common.TOP / source).read_text().splitlines()]
        right = matches(["..", *lines, ".."], found)
        if not right:
            print(f"{path.relative_to(common.TOP)}: {source} does not have the lines of the example")
        yield right


def try_names(path):
    """Yields for each name in a document whether it is right."""
    for line, wrong in names.checks(path):
        if wrong:
            print(f"{path.relative_to(common.TOP)}:{line}: {wrong}")
        yield not wrong


def write_shown(folder, files, lines):
    """Writes the files that a document shows: one of several lines, or several of one line each."""
    for name, text in zip(files, [["\n".join(lines)], lines][len(files) > 1]):
        path = folder / name
        path.parent.mkdir(parents=True, exist_ok=True)
        path.write_text(text + "\n")


def environment():
    java = pathlib.Path(shutil.which("javac")).resolve().parent.parent
    return {"JAVA_HOME": str(java), **os.environ, "JCLINK": str(common.JCLINK)}


def run(command, folder):
    how = {"cwd": folder, "env": environment(), "stdout": subprocess.PIPE, "stderr": subprocess.STDOUT, "text": True}
    return subprocess.run(["bash", "-c", command], **how, check=False).stdout.splitlines()


def try_block(commands, folder):
    """Yields for each command whether it prints the output that the document shows."""
    status, place = "0", folder
    shown = [(command.split()[1:], lines) for command, lines in commands if command.startswith("cat ")]
    for files, lines in shown:
        write_shown(folder, files, lines)
    for command, wanted in commands:
        # (`echo $?` prints the status of the command before it)
        found = run(f"(exit {status}); {command}\necho \"status $?\"; pwd -P", place)
        place = found.pop()
        status = found.pop().removeprefix("status ")
        if command.startswith(("javac", "cd")):
            # (javac may warn of an old release)
            right = status == "0"
        else:
            right = matches(wanted, found)
        if not right:
            print(f"$ {command}", *found[:12], f"status {status}", sep="\n  ")
        yield right


def try_document(commands_of, folder, applications):
    """Yields for each command of a document's blocks whether it prints the output that the document shows."""
    for link, to in (("jclink", common.JCLINK), ("trials", common.TRIALS), ("examples", common.TOP / "examples")):
        (folder / link).symlink_to(to)
    for application, given in applications.items():
        (folder / application).symlink_to(given.resolve())
    for commands in commands_of:
        named = {name for name in APPLICATIONS if any(name in command for command, _ in commands)}
        if named <= applications.keys():
            yield from try_block([command for command in commands if not command[0].startswith(DOWNLOAD)], folder)


class Held:
    """A run of examples/hold.py over a folder, with its output that no call has read yet."""

    def __init__(self, folder):
        self.text = b""
        self.process = subprocess.Popen([*HOLD, folder], stdin=subprocess.PIPE, stdout=subprocess.PIPE)
        os.set_blocking(self.process.stdout.fileno(), False)

    def prints(self, *wanted):
        """Returns whether it prints a line of each of these forms within some seconds, and only lines of a report."""
        until = time.monotonic() + 20
        while time.monotonic() < until:
            self.text += self.process.stdout.read() or b""
            lines = self.text[: self.text.rfind(b"\n") + 1].decode().splitlines()
            if not all(line.startswith(("+ [", "- [")) for line in lines):
                break
            if all(any(re.fullmatch(form, line) for line in lines) for form in wanted):
                self.text = b""
                return True
            time.sleep(0.1)
        print("hold.py should print", *wanted, "and prints", *lines, sep="\n  ")
        return False


def try_hold(folder):
    """Yields whether hold.py prints each change of a folder.

    A class that two others name is added and removed. A FIFO and a name with a line end are added. The folder is removed and
    created again. Last, an empty prefix must end hold.py with status 2.
    """
    for name in ("One", "Two"):
        (folder / f"{name}.java").write_text(f"class {name} {{ Object of() {{ return new Lost(); }} }}")
    (folder / "Lost.java").write_text("class Lost {}")
    tree, missing = folder / "tree", r"\+ \[parts\] part {}  #\d+ class Lost -> error 1 NoClass Lost"
    run("javac --release 8 -d tree *.java", folder)
    held = Held(tree)
    yield held.prints(*(rf"\+ \[files\] tree/{name}\.class: class {name}" for name in ("Lost", "One", "Two")))
    os.mkfifo(tree / "pipe.class")
    (tree / "line\nend.class").write_bytes(b"")
    (tree / "Lost.class").rename(folder / "Lost.class")
    yield held.prints(r"- \[files\] tree/Lost\.class: class Lost", missing.format("One"), missing.format("Two"))
    shutil.rmtree(tree)
    yield held.prints(*(rf"- \[files\] tree/{name}\.class: class {name}" for name in ("One", "Two")))
    tree.mkdir()
    (folder / "Lost.class").rename(tree / "Lost.class")
    yield held.prints(r"\+ \[files\] tree/Lost\.class: class Lost")
    held.process.kill()
    yield subprocess.run([*HOLD, tree, ""], stderr=subprocess.DEVNULL, check=False).returncode == 2


def try_counts():
    """Returns whether the counts in documents are right. The other script prints what differs."""
    return subprocess.run([sys.executable, common.TOP / "trials/results.py"], check=False).returncode == 0


def try_commands(applications):
    """Yields whether the commands of all documents, and hold.py, print what they should."""
    for path in names.documents():
        commands_of = list(blocks(path.read_text()))
        if commands_of:
            with tempfile.TemporaryDirectory() as folder:
                yield from try_document(commands_of, pathlib.Path(folder).resolve(), applications)
    with tempfile.TemporaryDirectory() as folder:
        yield from try_hold(pathlib.Path(folder).resolve())


def main():
    parser = argparse.ArgumentParser()
    parser.add_argument("--names", action="store_true")
    for name in APPLICATIONS:
        parser.add_argument(f"--{name}", type=pathlib.Path, metavar="FOLDER")
    options = vars(parser.parse_args())
    only_names = options.pop("names")
    named = [right for path in names.documents() for right in try_names(path)]
    print(f"{len(named)} names, {named.count(False)} wrong", flush=True)
    named.append(try_counts())
    right = [right for path in names.documents() for right in try_quotes(path)]
    right += [right for path in sorted(common.TOP.glob("crates/*/src/**/*.rt")) for right in try_examples(path)]
    if not only_names:
        right += try_commands({name: folder for name, folder in options.items() if folder})
    print(f"{len(right)} commands, quotes, examples and changes, {right.count(False)} differ")
    sys.exit(0 if named and all(named + right) else 1)


if __name__ == "__main__":
    main()
