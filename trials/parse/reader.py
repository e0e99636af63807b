"""A plain reader of class files, written from the table of refusals.

answer(bytes) returns the line that jc_asked prints: `ok` and the name's bytes in hexadecimal, or the number and the name of
the first refusal that applies.
"""
import re

# The number of bytes after each tag. A Utf8 contains its length.
BODIES = {3: 4, 4: 4, 5: 8, 6: 8, 7: 2, 8: 2, 9: 4, 10: 4, 11: 4, 12: 4, 15: 3, 16: 2, 18: 4}

CHARACTER = (rb"(?:(?![.;\[/])[\x01-\x7f]|\xc0\x80|[\xc2-\xdf][\x80-\xbf]"
             rb"|\xe0[\xa0-\xbf][\x80-\xbf]|[\xe1-\xef][\x80-\xbf][\x80-\xbf])")
CLASS_NAME = re.compile(rb"%s+(?:/%s+)*" % (CHARACTER, CHARACTER), re.DOTALL)


class Cut(Exception):
    """A part reaches past the end of the bytes."""


class Reader:
    def __init__(self, file):
        self.file = file
        self.at = 0

    def skip(self, count):
        if self.at + count > len(self.file):
            raise Cut
        self.at += count

    def number(self, size):
        self.skip(size)
        return int.from_bytes(self.file[self.at - size:self.at], "big")

    def attributes(self):
        for _ in range(self.number(2)):
            self.skip(2)
            self.skip(self.number(4))

    def members(self):
        for _ in range(self.number(2)):
            self.skip(6)
            self.attributes()


def read_constants(reader, count):
    """Returns the offset of each constant by index, and the refusal of a tag or None."""
    places = {}
    index = 1
    while index < count:
        place = reader.at
        tag = reader.number(1)
        if tag != 1 and tag not in BODIES:
            return None, f"4 Tag({place})"
        if tag in (5, 6) and index + 1 == count:
            return None, f"5 Wide({place})"
        reader.skip(reader.number(2) if tag == 1 else BODIES[tag])
        places[index] = place
        index += 2 if tag in (5, 6) else 1
    return places, None


def name_place(file, places, this_class):
    """Returns the offset of the text that this_class names, or None."""
    place = places.get(this_class)
    if place is None or file[place] != 7:
        return None
    text = places.get(int.from_bytes(file[place + 1:place + 3], "big"))
    return text if text is not None and file[text] == 1 else None


def read(file):
    """Returns the answer, and for a readable class the offsets of its constants, of its name, and of the end of the constants."""
    if len(file) >= 4 and file[:4] != b"\xca\xfe\xba\xbe":
        return "1 Magic", None
    minor, major = int.from_bytes(file[4:6], "big"), int.from_bytes(file[6:8], "big")
    if len(file) >= 8 and not (major == 51 or (major, minor) == (52, 0)):
        return "2 Version", None
    if len(file) >= 10 and file[8:10] == b"\0\0":
        return "3 Count", None
    reader = Reader(file)
    try:
        reader.skip(8)
        places, refusal = read_constants(reader, reader.number(2))
        if refusal:
            return refusal, None
        tail = reader.at
        reader.skip(2)
        this_class = reader.number(2)
        reader.skip(2)
        reader.skip(2 * reader.number(2))
        reader.members()
        reader.members()
        reader.attributes()
    except Cut:
        return "7 Short", None
    if reader.at < len(file):
        return f"6 Trailing({reader.at})", None
    text = name_place(file, places, this_class)
    if text is not None:
        length = int.from_bytes(file[text + 1:text + 3], "big")
        name = file[text + 3:text + 3 + length]
        if CLASS_NAME.fullmatch(name):
            return "ok " + name.hex(), (places, text, tail)
    return "8 NoName", None


def answer(file):
    return read(file)[0]
