#!/usr/bin/env python3
"""Compares the plain judge with small worlds whose reports were worked out by hand.

Usage: rows.py. It needs only Python. run.py compares the built program with the judge.
"""
import pathlib
import sys

sys.dont_write_bytecode = True
sys.path.insert(0, str(pathlib.Path(__file__).resolve().parent.parent))
import common
import judge

links = common.load("link/worlds.py")
OBJECT = links.OBJECT

A = bytes.fromhex("cafebabe 0000 0034 0005 07 0002 01 0001 41 07 0004 01 0010 6a6176612f6c616e672f4f626a656374"
                  "0021 0001 0003 0000 0000 0000 0000")
REPORT_OF_A = """[files]
A.class: class A
[parts]
part A: loaded
  #1 class A -> To A
  #3 class java/lang/Object -> To java/lang/Object
[circular]
[provided]
class A
[required]
"""
NAMELESS = A.replace(b"\x01\0\x01A", bytes.fromhex("010002c181"))
BAD_TEXT = A[:9] + b"\x06" + A[10:-14] + bytes.fromhex("010002c181") + A[-14:]


def made(name, parent=OBJECT, references=(), flags=0x21, interfaces=(), methods=(), fields=(), codes=None):
    return links.class_file(name, flags, parent, interfaces, fields, methods, references, codes=codes)


def interface(name, bits, interfaces=()):
    return made(name, flags=0x601, interfaces=interfaces, methods=[(bits, b"m", b"()V")])


def with_code(code, max_locals=8):
    """Returns a class whose only method has this code."""
    plain = made(b"A", methods=[(1, b"m", b"()V")])
    number = common.number
    body = b"\0\2" + number(2, max_locals) + number(4, len(code)) + code + b"\0\0\0\0"
    return plain.replace(b"\0\0\0\x0d\0\2\0\x08\0\0\0\1\xb1\0\0\0\0", number(4, len(body)) + body)


def two_defaults(bits_of_i, bits_of_j, j_extends=()):
    user = made(b"D", references=[(10, b"C", b"m", b"()V")])
    return {b"D": user, b"C": made(b"C", interfaces=[b"I", b"J"]),
            b"I": interface(b"I", bits_of_i), b"J": interface(b"J", bits_of_j, j_extends)}


def guarded():
    through = [(10, owner, b"m", b"()V") for owner in (b"p/S", b"q/D", b"q/E")]
    return {b"S": made(b"p/S", methods=[(4, b"m", b"()V")]), b"E": made(b"q/E", b"p/S"), b"D": made(b"q/D", b"p/S", through)}


def ring(parent_of_b):
    return {b"A": made(b"A", b"B"), b"B": made(b"B", parent_of_b), b"C": made(b"C", b"A")}


def answer_row(data):
    """Returns the row of a file that is the only one of its world."""
    return judge.report({b"f": data})[0].split("\n")[1].removeprefix("f: ")


R, D_OF_X = made(b"R", references=[(7, b"A"), (7, b"B")]), made(b"D", references=[(7, b"X")])
ARRAYS = [(10, b"[I", b"clone", b"()Ljava/lang/Object;"), (9, b"[I", b"x", b"I")]
HASH = [(11, b"I", b"hashCode", b"()I"), (11, b"A", b"hashCode", b"()I")]
LIST = b"java/util/ArrayList"

UNREADABLE = [
    (b"", "7 Short"), (A + b"\0", "6 Trailing(53)"), (A[:52], "7 Short"), (b"\0" + A[1:], "1 Magic"),
    (A[:7] + b"\x3d" + A[8:], "2 Version"), (A[:5] + b"\1" + A[6:], "2 Version"), (A[:8] + b"\0\0" + A[10:], "3 Count"),
    (NAMELESS, "8 NoName"), (A[:8] + b"\0\2\5", "5 Wide(10)"), (A[:8] + b"\0\2\2", "4 Tag(10)"),
]

# Files, and texts that the report contains.
WORLDS = [
    ({}, ["[files]\n[parts]\n[circular]\n[provided]\n[required]\n"]),
    ({b"A.class": A}, [REPORT_OF_A]),
    ({b"f": A[:5] + b"\7\0\x33" + A[8:]}, ["f: class A\n"]),
    ({b"f": BAD_TEXT}, ["part A: error 2 Format A\n  format F2 5\n[circular]\n[provided]\n[required]\n"]),
    ({b"x/A.class": A, b"a/A.class": A}, ["a/A.class: class A\nx/A.class: shadowed A by a/A.class\n"]),
    ({b"D": D_OF_X}, ["class X -> error 1 NoClass X\n", "[required]\nclass X\n"]),
    ({b"D": D_OF_X, b"X": made(b"X", b"Y")}, ["class X -> error 1 NoClass Y\n", "part X: error 1 NoClass Y\n", "class Y -> NotLoaded\n"]),
    ({b"D": D_OF_X, b"X": made(b"X", b"Y"), b"Y": made(b"Y")}, ["class X -> To X\n", "part X: loaded\n", "part Y: loaded\n", "[required]\n"]),
    ({b"D": D_OF_X, b"E": made(b"E", references=[(7, b"X")])}, ["[required]\nclass X\n"]),
    (ring(b"A"), ["part A: error 3 Circular A\n", "part B: error 3 Circular B\n", "part C: error 3 Circular A\n", "[circular]\nA\nB\n[provided]\n[required]\n"]),
    (ring(OBJECT), ["part A: loaded\n", "part B: loaded\n", "part C: loaded\n", "[circular]\n[provided]\nclass A\nclass B\nclass C\n[required]\n"]),
    ({b"R": R, b"p": A}, ["class A -> To A\n", "class B -> error 1 NoClass B\n"]),
    ({b"R": R, b"p": made(b"B")}, ["class A -> error 1 NoClass A\n", "class B -> To B\n"]),
    (two_defaults(1, 1, [b"I"]), ["method C.m:()V -> To J.m:()V\n"]),
    (two_defaults(1, 1), ["method C.m:()V -> To I.m:()V\n"]),
    (two_defaults(0x401, 1), ["method C.m:()V -> To J.m:()V\n"]),
    (guarded(), ["p/S.m:()V -> To p/S.m:()V\n", "q/D.m:()V -> To p/S.m:()V\n", "q/E.m:()V -> error 5 IllegalAccess p/S\n"]),
    ({b"f": with_code(bytes.fromhex("00aa0000000000100000000300000002"))}, ["part A: loaded\n  code S1 0 1\n"]),
    ({b"f": with_code(bytes.fromhex("c415000157a7fffc"), 2)}, ["part A: loaded\n  code S3 0 5\n"]),
    ({b"f": made(b"A", references=ARRAYS)}, ["method [I.clone:()Ljava/lang/Object; -> To java/lang/Object.clone:()Ljava/lang/Object;\n",
                                             "field [I.x:I -> error 6 NoField [I\n", "[required]\nfield [I.x:I\n"]),
    ({b"f": made(b"A", references=HASH), b"g": made(b"I", flags=0x601)}, [
        "imethod I.hashCode:()I -> To java/lang/Object.hashCode:()I\n", "imethod A.hashCode:()I -> error 4 Incompatible A\n"]),
    ({b"f": made(b"D", LIST, [(10, b"D", b"add", b"(Ljava/lang/Object;)Z")])}, [
        "class java/util/ArrayList -> Outside java/util/ArrayList\n", "method D.add:(Ljava/lang/Object;)Z -> Outside java/util/ArrayList\n",
        "[required]\nmethod D.add:(Ljava/lang/Object;)Z\nclass java/util/ArrayList\n"]),
    ({b"f": made(b"A", flags=0x431)}, ["part A: error 2 Format A\n  format F12 0\n[circular]\n"]),
    ({b"\\\xc3\xa9\n": made(b"\xc3\xa9")}, ["\\\\\\xc3\\xa9\\x0a: class \\u00e9\n", "part \\u00e9: loaded\n"]),
    ({b"f": made(b"\xed\xa0\xbd\xed\xb8\x80\\")}, ["f: class \\ud83d\\ude00\\\\\n"]),
    ({b"f": made(b"\xc0\x80")}, ["f: class \\u0000\n"]),
    ({b"f": made(b"A", references=[(7, b"\xf0\x9f\x98\x80")])}, ["  format F2 "]),
]
RIGHT = [{}, {b"A.class": A}, {b"x/A.class": A, b"a/A.class": A}, ring(OBJECT), two_defaults(1, 1),
         {b"f": made(b"D", LIST)}, {b"f": A, b"g": with_code(b"\xff")}]
WRONG = [{b"f": A, b"g": b""}, {b"f": BAD_TEXT}, {b"f": with_code(b"\xff")}, {b"D": D_OF_X}, {b"f": made(b"A", b"B")}]


# ---- instructions

GETSTATIC, PUTSTATIC, GETFIELD, PUTFIELD = 178, 179, 180, 181
INVOKEVIRTUAL, INVOKESPECIAL, INVOKESTATIC, INVOKEINTERFACE, NEW = 182, 183, 184, 185, 187
M, INIT, CLINIT = (1, b"m", b"()V"), (1, b"<init>", b"()V"), (8, b"<clinit>", b"()V")
ABSTRACT, IS_INTERFACE, ALOAD_200 = 0x421, 0x601, (25, b"\xc8")


def user(opcode, reference, method=M, **more):
    """Returns a class with one method of one instruction."""
    return made(b"U", methods=[method], codes={0: [(opcode, reference)]}, **more)


def at_field(opcode, flags, method=M):
    return {b"U": user(opcode, (9, b"F", b"x", b"I"), method), b"F": made(b"F", fields=[(flags, b"x", b"I")])}


def at_own(opcode, flags, method=M):
    return {b"U": user(opcode, (9, b"U", b"x", b"I"), method, fields=[(flags, b"x", b"I")])}


def at_inherited(opcode, flags, method=M):
    """Returns a world with an instruction on a field that its class inherits."""
    return {**at_field(opcode, flags), b"U": user(opcode, (9, b"U", b"x", b"I"), method, parent=b"F")}


def at_method(opcode, tag, flags, name=b"m"):
    """Returns a world with an instruction that names a method of another class, or of an interface."""
    other = made(b"F", flags=IS_INTERFACE if tag == 11 else 0x21, methods=[(flags, name, b"()V")])
    return {b"U": user(opcode, (tag, b"F", name, b"()V")), b"F": other}


def at_inherited_method(opcode, tag, flags, name=b"m"):
    """Returns a world with an instruction that names such a method by a direct subclass or subinterface."""
    low = made(b"G", b"F") if tag == 10 else made(b"G", flags=IS_INTERFACE, interfaces=[b"F"])
    return {**at_method(opcode, tag, flags, name), b"U": user(opcode, (tag, b"G", name, b"()V")), b"G": low}


def at_own_method(opcode, flags):
    """Returns a world of an interface one of whose methods names another."""
    methods, codes = [M, (flags, b"n", b"()V")], {0: [(opcode, (11, b"U", b"n", b"()V"))]}
    return {b"U": made(b"U", flags=IS_INTERFACE, methods=methods, codes=codes)}


def at_handle(opcode):
    handle = made(links.HANDLE, methods=[(0x181, b"invoke", b"([Ljava/lang/Object;)Ljava/lang/Object;")])
    return {b"U": user(opcode, (10, links.HANDLE, b"invoke", b"(I)V")), b"H": handle}


def at_init(tag, owner, **more):
    return {b"U": user(INVOKESPECIAL, (tag, owner, *INIT[1:])), b"F": made(b"F", **more)}


def at_class(flags, opcode=NEW):
    return {b"U": user(opcode, (7, b"F")), b"F": made(b"F", flags=flags)}


def two_methods(first, second, **more):
    """Returns a world of a class with two methods of these instructions. The class's own field is not STATIC."""
    methods, fields = [M, (1, b"n", b"()V")], [(1, b"x", b"I")]
    return {b"U": made(b"U", methods=methods, fields=fields, codes={0: first, 1: second}, **more)}


OWN = (GETSTATIC, (9, b"U", b"x", b"I"))
FAULTY_AND_UNLINKED = two_methods([OWN, ALOAD_200], [OWN])
LINES_OF_IT = """part U: loaded
  code S22 0 3
  link 1 0 error 4 Incompatible U
  #2 class U -> To U
"""
# Worlds, and the rows of the instructions of U. The other classes have none.
UNLINKED = [
    (at_field(GETSTATIC, 1), ["0 0 error 4 Incompatible F"]),
    (at_field(GETSTATIC, 0x11), ["0 0 error 4 Incompatible F"]),
    (at_inherited(GETSTATIC, 1), ["0 0 error 4 Incompatible F"]),
    (at_field(PUTSTATIC, 1), ["0 0 error 4 Incompatible F"]),
    (at_own(PUTSTATIC, 0x11, CLINIT), ["0 0 error 4 Incompatible U"]),
    (at_own(PUTSTATIC, 0x11), ["0 0 error 4 Incompatible U"]),
    (at_field(GETFIELD, 9), ["0 0 error 4 Incompatible F"]),
    (at_field(PUTFIELD, 9), ["0 0 error 4 Incompatible F"]),
    (at_inherited(PUTFIELD, 9), ["0 0 error 4 Incompatible F"]),
    (at_own(PUTFIELD, 0x19, INIT), ["0 0 error 4 Incompatible U"]),
    (at_own(PUTFIELD, 0x19), ["0 0 error 4 Incompatible U"]),
    (at_own(PUTSTATIC, 0x19), ["0 0 error 5 IllegalAccess U"]),
    (at_own(PUTSTATIC, 0x19, INIT), ["0 0 error 5 IllegalAccess U"]),
    (at_field(PUTSTATIC, 0x19), ["0 0 error 5 IllegalAccess F"]),
    (at_field(PUTSTATIC, 0x19, CLINIT), ["0 0 error 5 IllegalAccess F"]),
    (at_inherited(PUTSTATIC, 0x19, CLINIT), ["0 0 error 5 IllegalAccess F"]),
    (at_own(PUTFIELD, 0x11), ["0 0 error 5 IllegalAccess U"]),
    (at_own(PUTFIELD, 0x11, CLINIT), ["0 0 error 5 IllegalAccess U"]),
    (at_field(PUTFIELD, 0x11), ["0 0 error 5 IllegalAccess F"]),
    (at_field(PUTFIELD, 0x11, INIT), ["0 0 error 5 IllegalAccess F"]),
    (at_inherited(PUTFIELD, 0x11, INIT), ["0 0 error 5 IllegalAccess F"]),
    (at_init(10, b"F"), ["0 0 error 7 NoMethod F"]),
    (at_init(10, b"[LF;"), ["0 0 error 7 NoMethod [LF;"]),
    (at_init(10, b"[[I"), ["0 0 error 7 NoMethod [[I"]),
    (at_init(11, b"F", flags=IS_INTERFACE), ["0 0 error 7 NoMethod F"]),
    (at_inherited_method(INVOKESPECIAL, 10, 1, b"<init>"), ["0 0 error 7 NoMethod G"]),
    (at_method(INVOKEVIRTUAL, 10, 9), ["0 0 error 4 Incompatible F"]),
    (at_inherited_method(INVOKEVIRTUAL, 10, 9), ["0 0 error 4 Incompatible F"]),
    (at_method(INVOKESPECIAL, 10, 9), ["0 0 error 4 Incompatible F"]),
    (at_method(INVOKESPECIAL, 11, 9), ["0 0 error 4 Incompatible F"]),
    (at_own_method(INVOKESPECIAL, 10), ["0 0 error 4 Incompatible U"]),
    (at_method(INVOKESTATIC, 10, 1), ["0 0 error 4 Incompatible F"]),
    (at_method(INVOKESTATIC, 11, 1), ["0 0 error 4 Incompatible F"]),
    (at_inherited_method(INVOKESTATIC, 11, 0x401), ["0 0 error 4 Incompatible F"]),
    (at_handle(INVOKESTATIC), ["0 0 error 4 Incompatible java/lang/invoke/MethodHandle"]),
    (at_method(INVOKEINTERFACE, 11, 9), ["0 0 error 4 Incompatible F"]),
    (at_own_method(INVOKEINTERFACE, 2), ["0 0 error 4 Incompatible U"]),
    (at_own_method(INVOKEINTERFACE, 10), ["0 0 error 4 Incompatible U"]),
    (at_class(ABSTRACT), ["0 0 error 8 Instantiation F"]),
    (at_class(IS_INTERFACE), ["0 0 error 8 Instantiation F"]),
    ({b"U": user(NEW, (7, b"U"), flags=ABSTRACT)}, ["0 0 error 8 Instantiation U"]),
    (two_methods([(16, b"\xb2"), (170,), OWN, (0,), OWN], [(196, b"\x15\0\1"), OWN]),
     ["0 20 error 4 Incompatible U", "0 24 error 4 Incompatible U", "1 4 error 4 Incompatible U"]),
    (FAULTY_AND_UNLINKED, ["1 0 error 4 Incompatible U"]),
    ({**at_own(GETSTATIC, 1), b"V": at_own(GETFIELD, 9)[b"U"]}, ["0 0 error 4 Incompatible U"]),
]
LINKED = [
    at_field(GETSTATIC, 9), at_field(GETSTATIC, 0x19), at_field(PUTSTATIC, 9), at_inherited(PUTSTATIC, 9),
    at_field(GETFIELD, 1), at_field(GETFIELD, 0x11), at_field(PUTFIELD, 1), at_inherited(PUTFIELD, 1),
    at_own(PUTSTATIC, 0x19, CLINIT), at_own(PUTSTATIC, 0x19, (1, b"<clinit>", b"(I)V")),
    at_own(PUTFIELD, 0x11, INIT), at_own(PUTFIELD, 0x11, (2, b"<init>", b"(I)I")),
    at_init(10, b"F", methods=[INIT]), at_init(10, OBJECT), at_init(11, b"F", flags=IS_INTERFACE, methods=[INIT]),
    at_method(INVOKEVIRTUAL, 10, 1), at_inherited_method(INVOKEVIRTUAL, 10, 1), at_handle(INVOKEVIRTUAL),
    at_method(INVOKESPECIAL, 10, 1), at_inherited_method(INVOKESPECIAL, 10, 1), at_method(INVOKESPECIAL, 11, 1),
    at_own_method(INVOKESPECIAL, 2), at_method(INVOKESTATIC, 10, 9), at_inherited_method(INVOKESTATIC, 10, 9),
    at_method(INVOKESTATIC, 11, 9), at_own_method(INVOKESTATIC, 10), at_method(INVOKEINTERFACE, 11, 1),
    at_inherited_method(INVOKEINTERFACE, 11, 0x401), {b"U": user(INVOKEINTERFACE, (11, b"F", b"hashCode", b"()I")),
                                                     b"F": made(b"F", flags=IS_INTERFACE)},
    at_class(0x21), {b"U": user(NEW, (7, OBJECT))}, *(at_class(ABSTRACT, opcode) for opcode in (19, 189, 192, 193)),
    {b"U": user(GETSTATIC, (9, b"java/util/List", b"x", b"I"))}, {b"U": user(NEW, (7, b"java/util/List"))},
]
# Worlds that are wrong, but not because of an instruction.
UNTOLD = [
    two_methods([OWN, ALOAD_200], []), two_methods([OWN], [], parent=b"X"), two_methods([OWN], [], flags=0x431),
    {b"U": user(GETSTATIC, (9, b"X", b"x", b"I"))}, {b"U": user(NEW, (7, b"X"))}, at_field(GETSTATIC, 2),
    {b"U": user(GETSTATIC, (9, b"U", b"y", b"I"), fields=[(1, b"x", b"I")])}, at_method(INVOKESTATIC, 10, 2),
    at_inherited_method(INVOKEINTERFACE, 11, 9), at_class(0x420 | 0x10), at_class(0x211),
]


def link_rows(files):
    """Returns the report's rows of instructions. Those of classes other than U begin with the name of the class."""
    found, name = [], ""
    for line in judge.report(files)[0].splitlines():
        name = line.split(" ")[1][:-1] if line.startswith("part ") else name
        if line.startswith("  link "):
            found.append(line[len("  link "):] if name == "U" else f"{name}: {line}")
    return found


def missed_links():
    """Yields the worlds with other rows of instructions than wanted, or another status."""
    if LINES_OF_IT not in judge.report(FAULTY_AND_UNLINKED)[0]:
        yield LINES_OF_IT, judge.report(FAULTY_AND_UNLINKED)[0]
    told = [*((files, wanted, True) for files, wanted in UNLINKED), *((files, [], False) for files in LINKED),
            *((files, [], True) for files in UNTOLD)]
    for files, wanted, wrong in told:
        if link_rows(files) != wanted or judge.report(files)[1] != wrong:
            yield (wanted, wrong), judge.report(files)[0]


def missed():
    """Yields what the judge should return, and what it returns instead."""
    yield from missed_links()
    for data, wanted in UNREADABLE:
        if answer_row(data) != f"unreadable {wanted}":
            yield wanted, answer_row(data)
    for files, wanted in WORLDS:
        text = judge.report(files)[0]
        yield from ((one, text) for one in wanted if one not in text)
    for worlds, wrong in ((RIGHT, False), (WRONG, True)):
        yield from ((wrong, files) for files in worlds if judge.report(files)[1] != wrong)


def main():
    found = list(missed())
    for wanted, text in found:
        print(f"wanted {wanted!r} in\n{text}")
    count = sum(map(len, (UNREADABLE, WORLDS, RIGHT, WRONG, UNLINKED, LINKED, UNTOLD)))
    print(f"{count} worlds, {len(found)} texts missed")
    sys.exit(1 if found else 0)


if __name__ == "__main__":
    main()
