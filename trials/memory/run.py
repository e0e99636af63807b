#!/usr/bin/env python3
"""Makes each allocation of the built program fail in turn, and compares its output.

Usage: run.py, once ./jclink is built. It needs a C compiler.
Each run with one failing allocation must end with status 4, `jclink: no memory` and a beginning of the right output, which is
empty for `check`. Or it prints the whole output, if it can do without the allocation.
"""
import pathlib
import sys

sys.dont_write_bytecode = True
sys.path.insert(0, str(pathlib.Path(__file__).resolve().parent.parent))
import common

worlds = common.load("link/worlds.py")

GETSTATIC, NEW = 178, 187
CLASS_A = common.class_file()
LINES = b"""add a/A.class
add x/A.class
add a/A.class
add cut
replace cut
report
remove a/A.class
add gone
report
add tree/p/D.class
add tree/I.class
add tree/p/C.class
add tree/q.class
report
replace x/A.class
remove tree/p/C.class
part p/D
outside add q/
outside add q/E
outside drop java/
report
outside drop q/
remove tree/I.class
report
wrong
end
"""

# A use of q/E by a descriptor, a use of q/F by an instruction, and a `getstatic` of a field that is not static. Nothing uses
# q/G.
CODE_OF_D = [(worlds.LDC, (worlds.METHOD_TYPE, b"(Lq/E;[Lp/C;)V")), (NEW, (7, b"q/F")), (GETSTATIC, (9, b"p/D", b"x", b"I"))]
TREE = {
    "tree/I.class": worlds.class_file(b"I", 0x601, worlds.OBJECT, [], [], [(1, b"m", b"()V")], []),
    "tree/p/C.class": worlds.class_file(b"p/C", 0x21, worlds.OBJECT, [b"I"], [(1, b"x", b"I")], [], [(9, b"p/D", b"x", b"I")]),
    "tree/p/D.class": worlds.class_file(b"p/D", 0x21, b"p/C", [], [], [(9, b"n", b"()V")],
                                        [(10, b"p/D", b"m", b"()V"), (7, b"[[Lq/E;"), (7, b"q/G")], codes={0: CODE_OF_D}),
    "tree/q.class": worlds.class_file(b"p/C", 0x21, worlds.OBJECT, [], [], [], []),
    "tree/cut.class": CLASS_A[:52],
}


def refuse_each(words, lines, folder, shim, begun):
    """Makes each allocation fail in turn. `begun` decides whether an output is allowed before an end with out of memory."""
    def run(number):
        return common.run_refused([common.JCLINK, *words], lines, folder, shim, number)

    ample, owed, said, count = run(0)
    if ample not in (0, 1) or said:
        sys.exit(f"with ample memory: status {ample}, {said!r}")
    ended = unfelt = 0
    for number in range(1, count + 1):
        status, out, said, _ = run(number)
        if (status, out, said) == (ample, owed, b""):
            unfelt += 1
        elif status == 4 and said == b"jclink: no memory\n" and begun(owed, out):
            ended += 1
        else:
            sys.exit(f"request {number}: status {status}, {said!r}, {out!r}")
    print(f"{' '.join(words)}: requests for memory: {count}, each refused in turn")
    print(f"ended with status 4 and a beginning of the output: {ended}")
    print(f"answered in full without that memory: {unfelt}")


def main():
    with common.Workplace() as folder:
        shim = common.make_shim(folder)
        files = {"a/A.class": CLASS_A, "x/A.class": CLASS_A, "cut": CLASS_A[:52], **TREE}
        for path, data in files.items():
            (folder / path).parent.mkdir(parents=True, exist_ok=True)
            (folder / path).write_bytes(data)
        refuse_each(["session"], LINES, folder, shim, lambda owed, out: owed.startswith(out))
        refuse_each(["check", "tree"], b"", folder, shim, lambda owed, out: out == b"")
        refuse_each(["check", "--errors", "--only", "p/", "--only", "cut", "tree"], b"", folder, shim, lambda owed, out: out == b"")
        refuse_each(["check", "--errors", "--used", "--only", "p/", "tree"], b"", folder, shim, lambda owed, out: out == b"")
        refuse_each(["list", "tree/p/C.class"], b"", folder, shim, lambda owed, out: owed.startswith(out))


if __name__ == "__main__":
    main()
