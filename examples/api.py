#!/usr/bin/env python3
"""Writes the API of a version of Java as class files, so that a tree can be resolved against it.

Usage: api.py RELEASE CT_SYM FOLDER

RELEASE is 7 or 8. CT_SYM is the file lib/ct.sym of a JDK, which javac reads for --release. RELEASE 8 needs the file of a JDK
of version 12 or later, and RELEASE 7 that of version 12 to 19. The file has the classes with their PUBLIC and PROTECTED
members, without code. Their class files have the JDK's own version. The script writes them below FOLDER with the version of
RELEASE. A method that needs code gets code that throws. So a tree can be linked against these class files, but cannot run
with them.

Status 1: CT_SYM is not such a file, or has no classes of RELEASE. 2: a usage error.
"""
import pathlib
import struct
import sys
import zipfile

# The number of bytes after a constant's tag.
SIZES = {3: 4, 4: 4, 5: 8, 6: 8, 7: 2, 8: 2, 9: 4, 10: 4, 11: 4, 12: 4, 15: 3, 16: 2, 17: 4, 18: 4, 19: 2, 20: 2}
ABSTRACT_OR_NATIVE = 0x0500
# aconst_null, athrow: stack 1, room for any parameters, two bytes, no handlers, no attributes.
THROWS = struct.pack(">HHI2sHH", 1, 255, 2, b"\x01\xbf", 0, 0)


class Reader:
    def __init__(self, data):
        self.data, self.at = data, 8

    def skip(self, size):
        self.at += size

    def number(self, size):
        self.skip(size)
        return int.from_bytes(self.data[self.at - size:self.at], "big")

    def constants(self):
        """Reads all constants, and returns constant_pool_count."""
        count, index = self.number(2), 1
        while index < count:
            tag = self.number(1)
            self.skip(self.number(2) if tag == 1 else SIZES[tag])
            index += 2 if tag in (5, 6) else 1
        return count

    def attributes(self):
        for _ in range(self.number(2)):
            self.skip(2)
            self.skip(self.number(4))


def with_code(data, version):
    """Returns the class file with this version, in which each method that needs code has code that throws."""
    reader = Reader(data)
    count = reader.constants()
    constants_end = reader.at
    reader.skip(6)
    reader.skip(2 * reader.number(2))
    for _ in range(reader.number(2)):
        reader.skip(6)
        reader.attributes()
    pieces, copied = [], constants_end
    for _ in range(reader.number(2)):
        flags = reader.number(2)
        reader.skip(4)
        at = reader.at
        reader.attributes()
        if not flags & ABSTRACT_OR_NATIVE:
            attributes = int.from_bytes(data[at:at + 2], "big") + 1
            code = struct.pack(">HI", count, len(THROWS)) + THROWS
            pieces += [data[copied:at], struct.pack(">H", attributes), code]
            copied = at + 2
    head = data[:4] + struct.pack(">HHH", 0, version, count + 1)
    return head + data[10:constants_end] + b"\x01\0\x04Code" + b"".join(pieces) + data[copied:]


def main():
    if len(sys.argv) != 4 or sys.argv[1] not in ("7", "8"):
        sys.exit(print(__doc__.split("\n")[2], file=sys.stderr) or 2)
    release, ct_sym, folder = sys.argv[1:]
    written = 0
    try:
        archive = zipfile.ZipFile(ct_sym)
    except (OSError, zipfile.BadZipFile) as error:
        sys.exit(f"{ct_sym}: {error}")
    for name in archive.namelist():
        # RELEASES/MODULE/PACKAGE../CLASS.sig. RELEASES has a letter or digit for each version with this class.
        releases, *path = name.removesuffix(".sig").split("/")
        if release not in releases or not name.endswith(".sig") or path[-1] == "module-info":
            continue
        path = pathlib.Path(folder, *path[1 if "." in path[0] else 0:])
        path.parent.mkdir(parents=True, exist_ok=True)
        path.with_name(path.name + ".class").write_bytes(with_code(archive.read(name), 44 + int(release)))
        written += 1
    if not written:
        sys.exit(f"{ct_sym}: nothing of Java {release}")


if __name__ == "__main__":
    main()
