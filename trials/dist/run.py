#!/usr/bin/env python3
"""Runs the scripts around the released program: ./jclink, ./jclink --build, dist/update and .ci/run.

Usage: run.py. It needs a git working tree, and neither `rt` nor a build.

The scripts run in copies of the checkout, whose path has a blank. The programs there are stand-ins: shell scripts that print
their names and arguments, so that a test sees which one ran. `rt` is a stand-in that "builds" a given stand-in. `uname` is
one if a test needs another machine. The last test runs the real program of dist/ without `rt` over a tree of one class.
"""
import os
import pathlib
import shutil
import subprocess
import sys
import time

sys.dont_write_bytecode = True
sys.path.insert(0, str(pathlib.Path(__file__).resolve().parent.parent))
import common

PATH = "/usr/bin:/bin"
RELEASED, BUILT = "dist/x86_64-linux/jclink", "crates/jclink/out/jclink"
KIT = "kit-1 logic 0"
HINT = "jclink: ./jclink --help prints the arguments\n"
STALE = "jclink: dist/ was built from other sources than this checkout has; ./jclink --build builds from these\n"
CHANGED = "crates/jc_view/src/view.rt"

PROGRAM = """#!/bin/sh
# A stand-in for the program.
case "${{1-}}" in
  session) [ $# -eq 1 ] && {{ echo {name} session; cat; exit 0; }} ;;
  check | list) [ $# -gt 1 ] && {{ echo {name} "$@"; exit 1; }} ;;
esac
echo 'jclink: usage' >&2
exit 2
"""
RT = """#!/bin/sh
# A stand-in for rt: builds $BUILD, proves nothing.
build() {{ mkdir -p "$1/out" && cp "$BUILD" "$1/out/jclink"; }}
case "$1" in
  version) echo "{kit}" ;;
  lib) ;;
  run) build . && out/jclink ;;
  ci) build crates/jclink; echo proved; [ -z "${{FAILS-}}" ] || {{ echo '1 passed, 1 failed'; exit 3; }}; echo '2 passed, 0 failed' ;;
esac
"""


def write(path, text):
    path.parent.mkdir(parents=True, exist_ok=True)
    path.write_text(text)
    path.chmod(0o755)
    return path


class Checkout:
    """A copy of the checkout's files, with a stand-in released from these sources."""

    def __init__(self, folder):
        self.folder, self.top, self.bin = folder, folder / "check out", folder / "bin"
        skipped = shutil.ignore_patterns("out", ".copy", ".git", "dist", "trials", "docs")
        shutil.copytree(common.TOP, self.top, ignore=skipped)
        (self.top / "dist").mkdir()
        shutil.copy(common.TOP / "dist" / "update", self.top / "dist")
        self.use_rt()
        self.build("first")
        self.run("dist/update")
        shutil.rmtree(self.top / "crates/jclink/out")

    def use_rt(self, kit=KIT):
        write(self.bin / "rt", RT.format(kit=kit))

    def run(self, *words, path=PATH, nobody=False, place=None, **variables):
        """Returns the status, standard output and standard error of a script of the checkout."""
        how = {"user": "nobody", "group": "nogroup", "extra_groups": []} if nobody and os.geteuid() == 0 else {}
        command = [self.top / words[0], *words[1:]]
        env = {"PATH": path, "HOME": str(self.folder), **variables}
        done = subprocess.run(command, cwd=place or self.folder, env=env, input="a line\n", capture_output=True, text=True, check=False, **how)
        return done.returncode, done.stdout, done.stderr

    def with_rt(self, *words, builds="first", **variables):
        program = write(self.folder / builds, PROGRAM.format(name=builds))
        return self.run(*words, path=f"{self.bin}:{PATH}", BUILD=str(program), **variables)

    def build(self, name):
        """Runs the gate with an `rt` that builds this stand-in."""
        return self.with_rt(".ci/run", builds=name)

    def change(self, path, old=None, new=None):
        """Changes a file: appends a blank line, or replaces a text."""
        path = self.top / path
        text = path.read_text()
        path.write_text(text.replace(old, new) if old else text + "\n")


def prints(found, status, out, *err):
    """Returns whether a run has this status and output, and these texts on standard error, or an empty one if there are none."""
    right = found[0] == status and found[1] == out and all(text in found[2] for text in err) and bool(err) == bool(found[2])
    if not right:
        print("wanted", (status, out, *err), "found", found, sep="\n  ")
    return right


def try_fresh(checkout):
    """Yields whether a fresh checkout without rt runs the released program, in each way of calling it."""
    for words in (("check", "tree"), ("list", "A.class")):
        yield prints(checkout.run("jclink", *words), 1, f"first {' '.join(words)}\n")
    yield prints(checkout.run("jclink", "session"), 0, "first session\na line\n")
    for words in ((), ("check",), ("session", "word"), ("word",), ("check --help",)):
        yield prints(checkout.run("jclink", *words), 2, "", "jclink: usage\n" + HINT)
    for words in (("--help",), ("-h",), ("help",), ("check", "--help"), ("list", "-h"), ("session", "--help")):
        status, out, err = checkout.run("jclink", *words)
        yield prints((status, out[:13], err), 0, "jclink check ")
    for word in ("--help", "--version"):
        yield prints(checkout.run("jclink", word, "x"), 2, "", f"jclink: {word} takes no argument: x\n")
    status, out, err = checkout.run("jclink", "--version")
    yield status == 0 and err == "" and KIT in out and out.endswith("\ndist/x86_64-linux, built from this checkout's sources\n")
    link = checkout.folder / "link"
    link.symlink_to(checkout.top / "jclink")
    done = subprocess.run([link, "check", "x"], env={"PATH": PATH}, capture_output=True, text=True, check=False)
    yield prints((done.returncode, done.stdout, done.stderr), 1, "first check x\n")
    (checkout.top / CHANGED).touch()
    yield prints(checkout.run("jclink", "check", "x"), 1, "first check x\n")
    yield not (checkout.top / "crates/jclink/out").exists()


def try_own_build(checkout):
    """Yields whether the checkout's own build runs exactly if it is of the checkout's sources."""
    checkout.build("own")
    yield prints(checkout.run("jclink", "check", "x"), 1, "own check x\n")
    yield checkout.run("jclink", "--version")[1].endswith("\nbuilt in this checkout\n")
    (checkout.top / CHANGED).touch()
    yield prints(checkout.run("jclink", "check", "x"), 1, "own check x\n")
    whole = (checkout.top / CHANGED).read_text()
    checkout.change(CHANGED)
    yield prints(checkout.run("jclink", "check", "x"), 1, "first check x\n", STALE)
    yield prints(checkout.run("jclink", "session"), 0, "first session\na line\n", STALE)
    yield checkout.run("jclink", "--version")[1].endswith("\ndist/x86_64-linux, built from other sources than this checkout's\n")
    (checkout.top / CHANGED).write_text(whole)
    yield prints(checkout.run("jclink", "check", "x"), 1, "own check x\n")
    # Tests are not sources of the program. An added file is one, even if it is empty.
    checkout.change("crates/jc_tests/src/lib.rt")
    yield prints(checkout.run("jclink", "check", "x"), 1, "own check x\n")
    added = write(checkout.top / "crates/jc_view/specs/Added.antt", "")
    yield prints(checkout.run("jclink", "check", "x"), 1, "first check x\n", STALE)
    added.unlink()
    # A build without a MANIFEST, for example one of a bare `rt ci`.
    write(checkout.top / BUILT, PROGRAM.format(name="unknown"))
    yield prints(checkout.run("jclink", "check", "x"), 1, "first check x\n")
    checkout.build("own")
    shutil.rmtree(checkout.top / "dist")
    yield prints(checkout.run("jclink", "check", "x"), 1, "own check x\n")


def try_no_program(checkout):
    """Yields whether ./jclink says why no program runs."""
    machine = write(checkout.folder / "machine" / "uname", '#!/bin/sh\n[ "$1" = -m ] && echo aarch64 || echo Linux\n').parent
    found = checkout.run("jclink", "check", "x", path=f"{machine}:{PATH}")
    yield prints(found, 70, "", "no program for this platform: it needs x86-64 Linux with glibc 2.34 or later; this is aarch64-linux")
    yield prints(checkout.run("jclink", "--help", path=f"{machine}:{PATH}")[:1] + ("", ""), 0, "")
    released, whole = checkout.top / RELEASED, (checkout.top / RELEASED).read_text()
    released.write_text(whole.replace("stand-in", "stand in"))
    yield prints(checkout.run("jclink", "check", "x"), 70, "", "is not the program that dist/MANIFEST describes")
    released.unlink()
    for words in (("check", "x"), ("--version",)):
        yield prints(checkout.run("jclink", *words), 70, "", f"{RELEASED} is missing", "./jclink --build")
    # If the C library rejects a program, the status is 1.
    checkout.with_rt(".ci/run")
    write(checkout.folder / "refused", "#!/bin/sh\nexit 1\n")
    shutil.copy(checkout.folder / "refused", checkout.top / BUILT)
    lines = (checkout.top / "crates/jclink/out/MANIFEST").read_text().splitlines()
    sums = subprocess.run(["sha256sum", checkout.top / BUILT], capture_output=True, text=True, check=True).stdout.split()[0]
    (checkout.top / "crates/jclink/out/MANIFEST").write_text("\n".join([*lines[:-1], f"program {sums}"]) + "\n")
    yield prints(checkout.run("jclink", "check", "x"), 70, "", "does not start: it needs x86-64 Linux with glibc 2.34 or later")
    shutil.rmtree(checkout.top / "dist")
    shutil.rmtree(checkout.top / "crates/jclink/out")
    yield prints(checkout.run("jclink", "check", "x"), 70, "", f"{RELEASED} is missing")


def try_read_only(checkout):
    """Yields whether a checkout that cannot be written runs, and says that nothing can be built there."""
    subprocess.run(["chmod", "-R", "a-w,a+rX", checkout.top], check=True)
    yield prints(checkout.run("jclink", "check", "x", nobody=True), 1, "first check x\n")
    path = f"{checkout.bin}:{PATH}"
    yield prints(checkout.run("jclink", "--build", nobody=True, path=path), 70, "", "crates/jclink cannot be written")
    subprocess.run(["chmod", "-R", "u+w", checkout.top], check=True)


def try_build(checkout):
    """Yields whether --build says whether its program is the released one."""
    yield prints(checkout.run("jclink", "--build"), 70, "", "it needs rt")
    for words in (["--build", "--word"], ["--build", "--aside", "--in-turn"]):
        yield prints(checkout.with_rt("jclink", *words), 2, "", "usage")
    for words in ([], ["--in-turn"], ["--aside"]):
        found = checkout.with_rt("jclink", "--build", *words)
        yield prints(found, 0, "jclink: dist/ has this program, byte for byte\n", "proving and building")
    yield prints(checkout.run("jclink", "check", "x"), 1, "first check x\n")
    found = checkout.with_rt("jclink", "--build", builds="other")
    yield prints(found, 1, "jclink: dist/ differs from what the same sources and the same kit gave here\n", "proving and building")
    checkout.change(CHANGED)
    found = checkout.with_rt("jclink", "--build", builds="other")
    yield prints(found, 0, "jclink: dist/ was built from other sources, and is not compared\n", "proving and building")
    yield prints(checkout.run("jclink", "check", "x"), 1, "other check x\n")


def try_gate(checkout):
    """Yields whether the gate passes exactly if dist/ contradicts neither itself nor the build, and ends with rt's last line."""
    passed, manifest = "2 passed, 0 failed\n", (checkout.top / "dist/MANIFEST").read_text()
    same = "proved\njclink: dist/ has this program, byte for byte\n" + passed
    yield prints(checkout.build("first"), 0, same)
    yield prints(checkout.with_rt(".ci/run", FAILS="yes"), 3, "proved\n1 passed, 1 failed\n")
    yield prints(checkout.build("other"), 1, "proved\njclink: dist/ differs from what the same sources and the same kit gave here\n" + passed)
    for field in ("program", "version"):
        wrong = [line if not line.startswith(field) else f"{field} 0" for line in manifest.splitlines()]
        (checkout.top / "dist/MANIFEST").write_text("\n".join(wrong) + "\n")
        status, out, _ = checkout.build("first")
        yield status == 1 and out.endswith(passed)
    (checkout.top / "dist/MANIFEST").write_text(manifest)
    program = (checkout.top / RELEASED).read_bytes()
    (checkout.top / RELEASED).write_bytes(program[:-1] + b" ")
    status, out, _ = checkout.build("first")
    yield status == 1 and "is not the program that dist/MANIFEST describes" in out and out.endswith(passed)
    (checkout.top / RELEASED).write_bytes(program)
    checkout.use_rt("kit-2 logic 1")
    yield prints(checkout.build("other"), 0, f"proved\njclink: dist/ was built with another kit, {KIT}, and is not compared\n" + passed)
    checkout.use_rt()
    checkout.change("HANDLES")
    yield prints(checkout.build("other"), 0, "proved\njclink: dist/ was built from other sources, and is not compared\n" + passed)
    shutil.rmtree(checkout.top / "dist")
    yield checkout.build("other")[0] == 1


def try_update(checkout):
    """Yields whether dist/update releases the checkout's build, and no other."""
    refused = "is not a build of this checkout's sources: run .ci/run first"
    yield prints(checkout.run("dist/update"), 1, "", refused)
    checkout.build("other")
    yield prints(checkout.run("dist/update"), 0, "")
    yield prints(checkout.build("other"), 0, "proved\njclink: dist/ has this program, byte for byte\n2 passed, 0 failed\n")
    checkout.change(CHANGED)
    yield prints(checkout.run("dist/update"), 1, "", refused)


def try_sources(checkout):
    """Yields whether the sources are the files of the crates that the program is built from, as computed in Python."""
    uses = dict(line.split(":") for line in (common.TOP / "crates.txt").read_text().splitlines() if ":" in line and line[0] in "j")
    crates, left = set(), ["jclink"]
    while left:
        name = left.pop()
        if name in uses and name not in crates:
            crates.add(name)
            left += uses[name].split()
    wanted = {"HANDLES", "crates.txt"}
    for name in crates:
        for part in ("src", "specs", "proofs"):
            wanted |= {str(path.relative_to(checkout.top)) for path in (checkout.top / "crates" / name / part).rglob("*") if path.is_file()}
    script = 'top=$1; . "$top/scripts/manifest.sh"; source_files'
    found = subprocess.run(["sh", "-c", script, "sh", checkout.top], capture_output=True, text=True, check=True).stdout.split("\0")[:-1]
    yield set(found) == wanted and sorted(found) == found and len(crates) < len(uses)


def try_released(folder):
    """Yields whether the real program of this checkout, without rt, reports a tree of one class within a second."""
    (folder / "tree").mkdir()
    (folder / "tree" / "A.class").write_bytes(common.class_file())
    began = time.monotonic()
    done = subprocess.run([common.TOP / "jclink", "check", "tree"], cwd=folder, env={"PATH": PATH}, capture_output=True, text=True, check=False)
    took = time.monotonic() - began
    print(f"the first answer took {took:.2f} s")
    yield done.returncode == 0 and done.stdout.startswith("[files]\nA.class: class A\n") and took < 1
    (folder / "empty").mkdir()
    for status, words, told in (
        (0, ("check", "empty"), "empty has no class files"),
        (0, ("check", "empty", "--errors", "--outside", "tree"), "empty has no class files"),
        (2, ("check", "--used", "tree"), "--used and --only need --errors\n" + HINT),
        (2, ("check", "--errors", "--unknown", "tree"), "usage\n" + HINT),
        (3, ("check", "tree/A.class"), "tree/A.class is a file"),
        (3, ("list", "tree"), "tree is a folder"),
    ):
        done = subprocess.run([common.TOP / "jclink", *words], cwd=folder, env={"PATH": PATH}, capture_output=True, text=True, check=False)
        yield prints((done.returncode, "", done.stderr), status, "", f"jclink: {told}")


def main():
    trials = (try_fresh, try_own_build, try_no_program, try_read_only, try_build, try_gate, try_update, try_sources)
    right = []
    for trial in trials:
        with common.Workplace() as folder:
            folder.chmod(0o755)
            found = list(trial(Checkout(folder)))
            print(f"{trial.__name__}: {len(found)}, {found.count(False)} differ")
            right += found
    with common.Workplace() as folder:
        right += try_released(folder)
    print(f"{len(right)} runs, {right.count(False)} differ")
    sys.exit(0 if all(right) else 1)


if __name__ == "__main__":
    main()
