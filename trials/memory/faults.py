#!/usr/bin/env python3
"""Makes each allocation of jc_asked fail in turn while it searches for format faults.

Usage: faults.py. It builds the program by `rt run`, and needs a C compiler.

Then the line of the current file must report out of memory, and the lines of all other files must be those of a run with
enough memory. Or the program ends with an error before it prints a line.
"""
import pathlib
import sys

sys.dont_write_bytecode = True
sys.path.insert(0, str(pathlib.Path(__file__).resolve().parent.parent))
import common

FRAMES = (common.TRIALS / "memory" / "frames").read_bytes()
LACKS = ("no memory", "refused 9 NoMemory")


def run(folder, shim, number):
    status, out, _, count = common.run_refused([*common.ANSWERS, "faults"], FRAMES, folder, shim, number)
    return status, out.decode().splitlines(), count


def main():
    common.build()
    with common.Workplace() as folder:
        shim = common.make_shim(folder)
        status, owed, count = run(folder, shim, 0)
        if status != 0:
            sys.exit(f"with ample memory: status {status}")
        ended = refused = unfelt = 0
        for number in range(1, count + 1):
            status, lines, _ = run(folder, shim, number)
            wrong = [(mine, full) for mine, full in zip(lines, owed) if mine != full]
            if status != 0:
                ended += 1
            elif len(lines) == len(owed) and not wrong:
                unfelt += 1
            elif len(lines) == len(owed) and len(wrong) == 1 and wrong[0][0] in LACKS:
                refused += 1
            else:
                sys.exit(f"request {number}: {lines!r}")
        print(f"requests for memory: {count}, each refused in turn")
        print(f"one file without memory, the others unchanged: {refused}")
        print(f"the program ended with an error: {ended}; answered in full without that memory: {unfelt}")


if __name__ == "__main__":
    main()
