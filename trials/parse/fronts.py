#!/usr/bin/env python3
"""Checks that each truncation of each readable class file in the test rows is too short, also of files over 4,096 bytes.

The gate omits the files over 4,096 bytes, because all truncations of a file cost the square of its length. The trial builds
jc_rows without that limit, in a copy of the tree, and runs it over all rows.
"""
import pathlib
import subprocess
import sys

sys.dont_write_bytecode = True
sys.path.insert(0, str(pathlib.Path(__file__).resolve().parent.parent))
import common

LIMIT = "const MOST_BYTES: usize = 4096;"


def main():
    common.make_copy()
    rows = common.COPY / "crates" / "jc_rows"
    common.copy_anew(common.TOP / "crates" / "jc_rows" / "data", rows / "data")
    source = rows / "src" / "class_answers.rt"
    text = source.read_text()
    if text.count(LIMIT) != 1:
        sys.exit("the limit stands elsewhere")
    source.write_text(text.replace(LIMIT, "const MOST_BYTES: usize = 67_108_864;"))
    done = subprocess.run(["rt", "run", "--", "signatures.rows"], cwd=rows, stdin=subprocess.DEVNULL, capture_output=True, check=False)
    program = rows / "out" / "jc_rows"
    if not program.exists():
        sys.exit("the program was not built:\n" + done.stdout.decode() + done.stderr.decode())
    files = sorted(file.name for file in (rows / "data").glob("*.rows"))
    ran = subprocess.run([program, *files], cwd=rows / "data", capture_output=True, check=False)
    print(ran.stdout.decode() + ran.stderr.decode(), end="")
    sys.exit(ran.returncode)


if __name__ == "__main__":
    main()
