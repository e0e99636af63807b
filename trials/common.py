"""Code that the trials share: the programs that they run, class files from javac, and failing allocations.

A trial can be run from any folder by its path, for example trials/parse/run.py. The program jc_asked answers frames of its
input. Its first argument says what the answers are. Its sources are in trials/asked, outside the crates that `rt ci` proves.
"""
import argparse
import fcntl
import importlib.util
import os
import pathlib
import random
import shutil
import subprocess
import sys
import tempfile
import zipfile

TOP = pathlib.Path(__file__).resolve().parent.parent
TRIALS = TOP / "trials"
# A copy of the tree in which jc_asked is a crate, and the libraries that this crate uses.
COPY = pathlib.Path(tempfile.gettempdir()) / "jclink-asked"
ASKED = COPY / "crates" / "jc_asked"
LIBRARIES = "jc_base jc_text jc_file jc_code jc_list jc_link jc_report jc_edits"
# The command for answering frames, without its first argument.
ANSWERS = [ASKED / "out" / "jc_asked"]
# The environment variable may name another program.
JCLINK = pathlib.Path(os.environ.get("JCLINK", TOP / "crates" / "jclink" / "out" / "jclink"))

# The options of each compilation, and the folders of sources that it reads. The trial generates the sources of `made`.
SEVEN, EIGHT = ("seven", "made"), ("seven", "eight", "made")
FOR_PARSE = [
    (["--release", "7", "-g"], SEVEN),
    (["--release", "8", "-g", "-parameters"], EIGHT),
    (["--release", "8", "-g:none"], EIGHT),
]
FOR_VIEWS = [
    (["--release", "7", "-g"], SEVEN),
    (["--release", "7", "-g:none"], SEVEN),
    (["--release", "8", "-g", "-parameters"], EIGHT),
    (["--release", "8", "-g:lines"], EIGHT),
    (["--release", "8", "-g:none"], EIGHT),
]
WITHOUT_MADE = [
    (["--release", "7", "-g"], ("seven",)),
    (["--release", "8", "-g"], ("seven", "eight")),
]


def load(path):
    """Loads the module in a file of the trials. Several folders have files of the same name."""
    spec = importlib.util.spec_from_file_location(path.removesuffix(".py").replace("/", "_"), TRIALS / path)
    module = importlib.util.module_from_spec(spec)
    spec.loader.exec_module(module)
    return module


def copy_anew(folder, to):
    shutil.rmtree(to, ignore_errors=True)
    if folder.exists():
        shutil.copytree(folder, to)


def make_copy():
    """Copies the sources of all crates and those of jc_asked.

    Earlier proofs in the copy are kept. A crate that is new in the copy also gets its proofs, unless rt shares them: some kits
    do, in a folder beside the kit.
    """
    is_shared = (pathlib.Path(shutil.which("rt")).resolve().parents[2] / "rattle-kept").is_dir()
    for crate in (TOP / "crates").iterdir():
        copy = COPY / "crates" / crate.name
        if not copy.exists() and not is_shared:
            copy_anew(crate / "out", copy / "out")
        for part in ("src", "specs", "proofs"):
            copy_anew(crate / part, copy / part)
    shutil.rmtree(ASKED / "src", ignore_errors=True)
    (ASKED / "src").mkdir(parents=True)
    for source in (TRIALS / "asked").glob("*.rt.in"):
        shutil.copy(source, ASKED / "src" / source.name.removesuffix(".in"))
    shutil.copy(TOP / "HANDLES", COPY)
    (COPY / "crates.txt").write_text((TOP / "crates.txt").read_text() + f"jc_asked: {LIBRARIES}\n")


def build():
    """Proves and builds jc_asked, unless its build is up to date. Trials that run at the same time build one after another."""
    with open(COPY.with_suffix(".lock"), "w") as lock:
        fcntl.flock(lock, fcntl.LOCK_EX)
        make_copy()
        done = subprocess.run(["rt", "run", "--", "faults"], cwd=ASKED, stdin=subprocess.DEVNULL, capture_output=True, check=False)
    if done.returncode != 0 or not ANSWERS[0].exists():
        sys.exit("the program was not built:\n" + done.stdout.decode() + done.stderr.decode())


def number(size, value):
    return value.to_bytes(size, "big")


def framed(frames):
    return b"".join(number(4, len(frame)) + frame for frame in frames)


def answer_text(word, frames):
    return subprocess.run([*ANSWERS, word], input=framed(frames), stdout=subprocess.PIPE, check=True).stdout.decode()


def ask(word, frames):
    """Returns the answer to each frame, a line."""
    lines = answer_text(word, frames).splitlines()
    if len(lines) != len(frames):
        sys.exit(f"{len(frames)} frames and {len(lines)} answers")
    return lines


def class_file(name=b"A", constants=(), fields=(), methods=(), attributes=()):
    """Returns a class that extends java/lang/Object, with these constants from index 5 on and these tables."""
    pool = [b"\x07\0\x02", utf8(name), b"\x07\0\x04", utf8(b"java/lang/Object"), *constants]
    tables = b"".join(number(2, len(table)) + b"".join(table) for table in ((), fields, methods, attributes))
    head = b"\xca\xfe\xba\xbe\0\0\0\x34" + number(2, 1 + len(pool))
    return head + b"".join(pool) + b"\0\x21\0\x01\0\x03" + tables


def utf8(text):
    return b"\x01" + number(2, len(text)) + text


def make_sources(folder, rng):
    """Writes sources with random members. The last one has many constants."""
    types = ["int", "long", "double", "float", "char", "String", "Object[][]", "java.util.List<String>"]
    for at in range(12):
        lines = [f"package made.of{at % 3};", f"class Made{at} {{"]
        for field in range(rng.randrange(20)):
            lines.append(f"    {rng.choice(types)} field{field};")
        for method in range(rng.randrange(20)):
            long, real = rng.getrandbits(62), rng.random() * 10 ** rng.randrange(-9, 9)
            lines.append(f"    double method{method}({rng.choice(types)} taken) {{")
            lines.append(f'        System.out.println("text {long:x} " + {long}L);')
            lines.append(f"        return {real!r} + {long % 1000003};")
            lines.append("    }")
        lines.append("    static class Inside { Inside[] all; }")
        lines.append("}")
        (folder / f"Made{at}.java").write_text("\n".join(lines) + "\n")
    sums = "\n".join(f"        sum += {rng.getrandbits(62)}L;" for _ in range(2000))
    (folder / "Many.java").write_text(f"class Many {{\n    long sum() {{\n        long sum = 0;\n{sums}\n        return sum;\n    }}\n}}\n")


def compile_all(work, compilations, rng):
    """Compiles into folders of `work`, and returns the class files."""
    made = work / "made"
    made.mkdir()
    make_sources(made, rng)
    environment = dict(os.environ, LC_ALL="C.UTF-8")
    files = []
    for at, (options, folders) in enumerate(compilations):
        out = work / f"classes{at}"
        out.mkdir()
        sources = [source for name in folders
                   for source in sorted((made if name == "made" else TRIALS / "sources" / name).glob("*.java"))]
        subprocess.run(["javac", "-encoding", "UTF-8", "-nowarn", "-Xlint:-options", *options, "-d", out, *sources],
                       env=environment, check=True, stderr=subprocess.DEVNULL)
        files += sorted(out.rglob("*.class"))
    return files


class Workplace:
    """A temporary folder that is deleted at the end of the block."""

    def __enter__(self):
        self.folder = pathlib.Path(tempfile.mkdtemp(prefix="jclink-trial-"))
        return self.folder

    def __exit__(self, *_):
        shutil.rmtree(self.folder)


def make_shim(folder):
    """Compiles the library that is preloaded into a program and makes one of its allocations fail."""
    shim = folder / "refuse.so"
    subprocess.run(["cc", "-shared", "-fPIC", "-O1", "-o", shim, TRIALS / "memory" / "refuse.c", "-ldl"], check=True)
    return shim


def run_refused(command, text, folder, shim, at):
    """Runs a command whose allocation number `at` fails; with 0 none fails.

    Returns the status, standard output, standard error, and the number of allocations.
    """
    count = folder / "count"
    env = {"LD_PRELOAD": str(shim), "REFUSE": str(at), "COUNT": str(count)}
    done = subprocess.run(command, input=text, cwd=folder, env=env, capture_output=True, timeout=60)
    return done.returncode, done.stdout, done.stderr, int(count.read_text())


def class_files_of(folder, work):
    """Copies the different class files of versions 51 and 52 in the jars of a folder, and returns their paths."""
    seen, paths = set(), []
    for jar in sorted(pathlib.Path(folder).rglob("*.jar")):
        try:
            with zipfile.ZipFile(jar) as archive:
                for name in archive.namelist():
                    if not name.endswith(".class"):
                        continue
                    data = archive.read(name)
                    if data[:4] == b"\xca\xfe\xba\xbe" and data[6:8] in (b"\0\x33", b"\0\x34") and data not in seen:
                        seen.add(data)
                        path = work / f"{len(seen)}.class"
                        path.write_bytes(data)
                        paths.append(path)
        except (zipfile.BadZipFile, OSError):
            continue
    return paths


def trees_parser():
    """Returns the parser of a trial's arguments. The class files are javac's and, with --jars, those of a folder's jars."""
    parser = argparse.ArgumentParser()
    parser.add_argument("--seed", type=int, default=1)
    parser.add_argument("--jars")
    return parser


def files_of_trees(work, options):
    """Returns these class files, and how many of them are javac's."""
    files = compile_all(work, FOR_VIEWS, random.Random(options.seed))
    of_javac = len(files)
    if options.jars:
        (work / "jars").mkdir()
        files += class_files_of(options.jars, work / "jars")
    return files, of_javac
