#!/usr/bin/env python3
"""Compares listings with what `javap -c -p -v` prints.

The trial compiles the sources of trials/sources for Java 7 and 8. The program jc_asked lists each class file. The trial
rewrites the listings and javap's text into a common form and compares the lines. They have:

- the class with its flags, version and superclass, and the number of interfaces, members and attributes
- the constants
- the members with their flags, signatures, and the source file
- each instruction with its operands, and the reference in javap's comment
- switches and exception tables

A fault in a listing is a difference. With --jars the trial also compares the class files of versions 51 and 52 in the jars
of a folder.

Usage: javap.py [--seed N] [--jars FOLDER] [--most N]. It builds the program by `rt run`, and needs javac and javap.
"""
import pathlib
import re
import struct
import subprocess
import sys
from collections import Counter

sys.dont_write_bytecode = True
sys.path.insert(0, str(pathlib.Path(__file__).resolve().parent.parent))
import common

ELEMENTS = {4: "boolean", 5: "char", 6: "float", 7: "double", 8: "byte", 9: "short", 10: "int", 11: "long"}
KINDS = {"class": "class", "field": "Field", "method": "Method", "imethod": "InterfaceMethod"}
TWICE_SHOWN = {"Signature", "SourceFile"}
ESCAPE = re.compile(r"\\(\\|u([0-9a-f]{4}))")
CONTROL = {"\t": "\\t", "\n": "\\n", "\r": "\\r", "\b": "\\b", "\f": "\\f", '"': '\\"', "'": "\\'", "\\": "\\\\"}


def plain(text):
    """Returns the decoded text that a listing shows, with lone surrogates as javap prints them."""
    units = ESCAPE.sub(lambda found: "\\" if found[2] is None else chr(int(found[2], 16)), text)
    whole = units.encode("utf-16", "surrogatepass").decode("utf-16", "surrogatepass")
    return "".join("?" if 0xd800 <= ord(c) <= 0xdfff else c for c in whole)


def escaped(text):
    """Returns a Utf8 in the form in which javap prints it."""
    return "".join(CONTROL.get(c, c) if ord(c) > 0x1f and not 0x7f <= ord(c) <= 0x9f or c in CONTROL else f"\\u{ord(c):04x}" for c in plain(text))


def reference(words, this):
    """Returns a reference in the form of javap's comment, without quotes."""
    kind, text = words.split(" ", 1)
    text = plain(text)
    if kind != "class" and text.startswith(this + "."):
        text = text[len(this) + 1:]
    return f"{KINDS[kind]} {text}"


def real(size, text):
    """Returns the bits of a floating-point number that javap prints."""
    number = float({"NaN": "nan", "Infinity": "inf", "-Infinity": "-inf"}.get(text, text))
    return "NaN" if number != number else struct.pack(">f" if size == 4 else ">d", number).hex()


def bits(size, text):
    number = struct.unpack(">f" if size == 4 else ">d", bytes.fromhex(text[2:]))[0]
    return "NaN" if number != number else text[2:]


# ---- the listing

def constant(words):
    """Returns a constant's line in the common form: its index, its kind and its body."""
    index, kind, body = words[3:].split(" ", 2)
    if kind == "Utf8":
        # (javap drops blanks at the end of a line)
        return f"{index} {kind} {escaped(body)}".rstrip()
    elif kind in ("Float", "Double"):
        body = bits(4 if kind == "Float" else 8, body)
    elif kind == "MethodHandle":
        body = body.replace(" ", ":")
    elif kind in ("Fieldref", "Methodref", "InterfaceMethodref"):
        body = body.replace(" ", ".")
    elif kind == "NameAndType":
        body = body.replace(" ", ":")
    elif kind == "InvokeDynamic":
        body = "#" + body.replace(" ", ":")
    return f"{index} {kind} {body}"


def instruction(line, this, loads):
    at, rest = line.strip().split(": ", 1)
    words = rest.split(" ")
    wide = words[0] == "wide"
    words = words[wide:]
    mnemonic, operands, said = words[0] + ("_w" if wide else ""), words[1:], ""
    for place, word in enumerate(operands):
        if word in KINDS:
            operands, said = operands[:place], reference(" ".join(words[1 + place:]), this)
            break
    if mnemonic == "newarray":
        operands = [ELEMENTS[int(operands[0])]]
    if mnemonic in ("tableswitch", "lookupswitch"):
        return f"{at} {mnemonic} default:{operands[-1]}"
    if mnemonic == "invokedynamic":
        operands = [operands[0], "0"]
    if mnemonic in ("ldc", "ldc_w", "ldc2_w") and not said:
        said = loads
    return " ".join([at, mnemonic, *operands]) + (f" // {said}" if said else "")


def counts(lines):
    """Returns the numbers of interfaces, fields, methods and attributes of the class in a listing."""
    of = Counter(line.split(" ")[0] for line in lines)
    return f"counts {of['interface']} {of['field']} {of['method']} {of['attribute']}"


def ours(lines):
    """Returns a listing in the common form."""
    out, this = [], ""
    for line in lines:
        words = line.split(" ")
        if line.startswith("      "):
            value, target = line.strip().split(": ")
            out.append(f"case {value}: {target}")
        elif line.startswith("    catch "):
            said = reference(line.split(" ", 9)[9], this).split(" ", 1)[1] if words[8] != "any" else "any"
            out.append(f"catch {words[5]} {words[6]} {words[7]} {said}")
        elif line.startswith("    attribute "):
            continue
        elif line.startswith("    "):
            out.append(instruction(line, this, "a constant"))
        elif line.startswith("  code "):
            out.append(f"code {words[4]} {words[6]}")
        elif line.startswith("  #"):
            out.append(constant(line))
        elif words[0] == "class":
            this = plain(line[6:])
            out.append(f"class {this}")
        elif words[0] == "super":
            out += [line if line == "super none" else f"super {plain(line[6:])}", counts(lines)]
        elif words[0] == "flags" or words[0] == "version":
            out.append(line)
        elif words[0] in ("field", "method"):
            out.append(f"{words[0]} {plain(words[1])} {plain(words[2])} {' '.join(words[3:])}")
        elif line.lstrip().startswith("attribute ") and line.split()[1] in TWICE_SHOWN:
            out.append(line.split()[1] + " " + plain(line.split(" ", line.index("attribute") + 3)[-1]))
        elif line.split()[0] in ("format", "code", "cut"):
            out.append(line)
    return out


# ---- javap

HEAD = re.compile(r"^  flags: \((0x[0-9a-f]{4})\) ?(.*)$")
FLAGS = re.compile(r"^    flags: \((0x[0-9a-f]{4})\) ?(.*)$")
CONSTANT = re.compile(r"^ +#(\d+) = (\w+) *(.*)$")
UTF8 = re.compile(r"^ +#(\d+) = (Utf8) {0,15}(.*)$")
INSN = re.compile(r"^ +(\d+): (\w+)\s*(.*)$")
CASE = re.compile(r"^\s+(-?\d+|default): (-?\d+)$")
CATCH = re.compile(r"^\s+(\d+)\s+(\d+)\s+(\d+)\s+(any|Class .*)$")
COUNTS = re.compile(r"^  interfaces: (\d+), fields: (\d+), methods: (\d+), attributes: (\d+)$")
ROOM = re.compile(r"^      stack=(\d+), locals=(\d+), args_size=\d+$")


def flags(found):
    names = [name.removeprefix("ACC_") for name in found[2].split(", ") if name]
    return " ".join([found[1], *names])


def member_name(header, this):
    """Returns the name in a member's declaration, which javap prints in Java's syntax."""
    if header.endswith("{}"):
        return "<clinit>"
    before = header.split("(")[0] if "(" in header else header
    name = before.split(" ")[-1]
    return "<init>" if "(" in header and name == this.replace("/", ".") else name


def javap_constant(index, kind, body):
    if kind == "Utf8":
        return f"{index} {kind} {body}".rstrip()
    body = body.split("//")[0].strip() if kind not in ("Float", "Double", "Long", "Integer") else body.strip()
    if kind == "Float":
        body = real(4, body[:-1])
    elif kind == "Double":
        body = real(8, body[:-1])
    elif kind == "Long":
        body = body[:-1]
    return f"{index} {kind} {body}"


class Reader:
    """Reads javap's text of one class into the common form."""

    def __init__(self):
        self.out, self.this, self.header, self.descriptor = [], "", "", ""
        self.switch, self.table, self.code, self.pool, self.minor = False, False, False, False, ""

    def head(self, line):
        if line.startswith("  minor version: "):
            self.minor = line.split()[-1]
        elif line.startswith("  major version: "):
            self.major = line.split()[-1]
        elif HEAD.match(line):
            self.flags = flags(HEAD.match(line))
        elif line.startswith("  this_class: "):
            self.this = line.split("// ")[1].replace('"', "")
            self.out += [f"class {self.this}", f"flags {self.flags}", f"version {self.major}.{self.minor}"]
        elif line.startswith("  super_class: "):
            self.out.append("super " + (line.split("// ")[1].replace('"', "") if "//" in line else "none"))
        elif COUNTS.match(line):
            self.out.append("counts {} {} {} {}".format(*COUNTS.match(line).groups()))

    def take(self, line):
        if line == "Constant pool:":
            self.pool = True
        elif line == "{":
            self.pool, self.code, self.members = False, False, True
        elif self.pool:
            found = UTF8.match(line) or CONSTANT.match(line)
            self.out.append(javap_constant(found[1], found[2], found[3]))
        elif not hasattr(self, "members"):
            self.head(line)
        else:
            self.member(line)

    def member(self, line):
        if line == "}":
            self.code, self.header = False, "}"
        elif self.header == "}" or line.startswith("    ") and not line.startswith("     ") or line.startswith("  ") and not line.startswith("   "):
            self.table = False
            self.outside(line)
        elif self.switch:
            self.case(line)
        elif line == "      Exception table:":
            self.table = True
        elif ROOM.match(line) and self.code:
            self.out.append("code {} {}".format(*ROOM.match(line).groups()))
        elif self.table and CATCH.match(line):
            found = CATCH.match(line)
            said = found[4].removeprefix("Class ").replace('"', "")
            self.out.append(f"catch {found[1]} {found[2]} {found[3]} {said}")
        elif self.code and not self.table and INSN.match(line):
            self.instruction(INSN.match(line))
        elif line.startswith("      ") and not line.startswith("       "):
            self.table, self.code = False, False

    def outside(self, line):
        text = line.strip()
        if line.startswith("    Signature: ") or self.header == "}" and line.startswith("Signature: "):
            self.out.append("Signature " + text.split("// ", 1)[1])
        elif self.header == "}" and line.startswith("SourceFile: "):
            self.out.append("SourceFile " + text.split('"', 1)[1][:-1])
        elif self.header == "}":
            return
        elif line == "    Code:":
            self.code = True
        elif line.startswith("    descriptor: "):
            self.descriptor = text.removeprefix("descriptor: ")
        elif FLAGS.match(line):
            kind = "method" if self.descriptor.startswith("(") else "field"
            self.out.append(f"{kind} {member_name(self.header, self.this)} {self.descriptor} {flags(FLAGS.match(line))}")
        elif line.startswith("  ") and not line.startswith("   ") and text:
            self.header = re.sub(r" throws .*", "", text.rstrip(";"))

    def case(self, line):
        if line.strip() == "}":
            self.out.append(f"{self.at} default:{self.default}")
            self.out += self.cases
            self.switch = False
            return
        found = CASE.match(line)
        if found[1] == "default":
            self.default = found[2]
        else:
            self.cases.append(f"case {found[1]}: {found[2]}")

    def instruction(self, found):
        if found[2] in ("tableswitch", "lookupswitch"):
            self.switch, self.at, self.cases = True, f"{found[1]} {found[2]}", []
            return
        operands, _, said = found[3].partition("//")
        operands = operands.replace(",", " ").split()
        said = said.strip().replace('"', "")
        if found[2] in ("ldc", "ldc_w", "ldc2_w") and not said.startswith("class "):
            said = "a constant"
        elif found[2] == "invokedynamic":
            said = ""
        self.out.append(" ".join([found[1], found[2], *operands]) + (f" // {said}" if said else ""))


def javaps(paths):
    """Returns javap's text of each of these files in the common form."""
    done = subprocess.run(["javap", "-J-Dfile.encoding=UTF-8", "-J-Xss8m", "-c", "-p", "-v", *paths], capture_output=True, check=False)
    found, reader = [], None
    for line in done.stdout.decode("utf-8", "replace").split("\n"):
        if line.startswith("Classfile "):
            reader = Reader()
            found.append(reader)
        elif reader is not None and line.strip():
            reader.take(line.rstrip("\r"))
    return [reader.out for reader in found]


def listings(frames):
    """Returns the lines of each listing of jc_asked."""
    text = common.answer_text("listings", frames)
    found = [[]]
    for line in text.splitlines():
        if line == "end":
            found.append([])
        else:
            found[-1].append(line)
    return found[:-1]


def normal(lines):
    """Returns the lines with signatures and source files last and sorted, since the tools print them in different places."""
    apart = [line for line in lines if line.split(" ")[0] in TWICE_SHOWN]
    return [line for line in lines if line.split(" ")[0] not in TWICE_SHOWN] + sorted(apart)


def sort_of(line):
    word = line.split(" ")[0]
    if word.isdigit():
        return "constants" if re.match(r"^\d+ [A-Z]", line) else "instructions"
    return {"case": "targets of switches", "catch": "handlers", "field": "members", "method": "members"}.get(word, "other lines")


def main():
    parser = common.trees_parser()
    parser.add_argument("--most", type=int, default=10 ** 9)
    options = parser.parse_args()
    common.build()
    with common.Workplace() as work:
        files, of_javac = common.files_of_trees(work, options)
        counts, differences, unlike = Counter(), 0, Counter()
        files = files[:options.most]
        for at in range(0, len(files), 200):
            part = files[at:at + 200]
            here = [normal(ours(lines)) for lines in listings([path.read_bytes() for path in part])]
            there = [normal(lines) for lines in javaps(part)]
            if len(here) != len(there):
                sys.exit(f"files {at}..: {len(here)} listings, and javap has {len(there)}")
            for path, mine, javap in zip(part, here, there):
                counts.update(sort_of(line) for line in mine)
                if mine != javap:
                    differences += 1
                    pairs = [pair for pair in zip(mine, javap) if pair[0] != pair[1]]
                    unlike.update([sort_of(pairs[0][0])] if pairs else ["lengths"])
                    if differences <= 8:
                        print(f"{path}: {len(mine)} lines and {len(javap)}: {pairs[:2] or (mine[len(javap):][:2], javap[len(mine):][:2])}")
        told = ", ".join(f"{count} {name}" for name, count in sorted(counts.items()))
        print(f"{len(files)} class files, {min(of_javac, len(files))} of javac: {told}; {differences} files differ {dict(unlike) or ''}")
        sys.exit(1 if differences else 0)


if __name__ == "__main__":
    main()
