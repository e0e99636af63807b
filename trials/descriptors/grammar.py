"""A plain recogniser of descriptors and signatures (JVMS 4.3, 4.7.9.1), written only from the grammar.

is_text(kind, bytes) returns whether the bytes are a text of the kind. The kinds are `field` and `method` for descriptors, and
`class`, `method-signature` and `field-signature`.
"""
import re

CHARACTER = (rb"(?:[\x01-\x7f]|\xc0\x80|[\xc2-\xdf][\x80-\xbf]"
             rb"|\xe0[\xa0-\xbf][\x80-\xbf]|[\xe1-\xef][\x80-\xbf][\x80-\xbf])")
TEXT = re.compile(rb"%s*" % CHARACTER, re.DOTALL)
BASES = b"BCDFIJSZ"


class Wrong(Exception):
    """The bytes are not a text of the kind."""


class Reader:
    def __init__(self, text):
        self.text = text
        self.at = 0

    def peek(self):
        return self.text[self.at:self.at + 1]

    def takes(self, mark):
        if self.peek() == mark:
            self.at += 1
            return True
        return False

    def wants(self, mark):
        if not self.takes(mark):
            raise Wrong

    def run(self, stops):
        """Reads at least one byte, up to one of the stops."""
        start = self.at
        while self.peek() and self.peek() not in stops:
            self.at += 1
        if self.at == start:
            raise Wrong

    # -- descriptors

    def field(self):
        """Reads a field descriptor, and returns the number of its slots."""
        dims = 0
        while self.takes(b"["):
            dims += 1
        if dims > 255:
            raise Wrong
        if self.takes(b"L"):
            self.run([b".", b";", b"[", b"/"])
            while self.takes(b"/"):
                self.run([b".", b";", b"[", b"/"])
            self.wants(b";")
            return 1
        base = self.peek()
        if not base or base not in BASES:
            raise Wrong
        self.at += 1
        return 2 if base in (b"J", b"D") and dims == 0 else 1

    def method(self):
        self.wants(b"(")
        slots = 0
        while not self.takes(b")"):
            slots += self.field()
        if slots > 255:
            raise Wrong
        if not self.takes(b"V"):
            self.field()

    # -- signatures

    def identifier(self):
        self.run([b".", b";", b"[", b"/", b"<", b">", b":"])

    def class_type(self):
        self.wants(b"L")
        self.identifier()
        while self.takes(b"/"):
            self.identifier()
        self.arguments()
        while self.takes(b"."):
            self.identifier()
            self.arguments()
        self.wants(b";")

    def arguments(self):
        if not self.takes(b"<"):
            return
        self.argument()
        while not self.takes(b">"):
            self.argument()

    def argument(self):
        if self.takes(b"*"):
            return
        if not self.takes(b"+"):
            self.takes(b"-")
        self.reference()

    def reference(self):
        if self.takes(b"["):
            self.java()
        elif self.takes(b"T"):
            self.identifier()
            self.wants(b";")
        else:
            self.class_type()

    def java(self):
        if self.peek() and self.peek() in BASES:
            self.at += 1
        else:
            self.reference()

    def params(self):
        if not self.takes(b"<"):
            return
        self.param()
        while not self.takes(b">"):
            self.param()

    def param(self):
        self.identifier()
        self.wants(b":")
        if self.bound_stands():
            self.reference()
        while self.takes(b":"):
            self.reference()

    def bound_stands(self):
        """Returns whether a bound is next, and not another parameter, its colon, or the end."""
        if self.peek() in (b":", b">", b""):
            return False
        ahead = Reader(self.text)
        ahead.at = self.at
        try:
            ahead.identifier()
        except Wrong:
            return True
        return ahead.peek() != b":"

    def class_signature(self):
        self.params()
        self.class_type()
        while self.peek():
            self.class_type()

    def method_signature(self):
        self.params()
        self.wants(b"(")
        while not self.takes(b")"):
            self.java()
        if not self.takes(b"V"):
            self.java()
        while self.takes(b"^"):
            if self.takes(b"T"):
                self.identifier()
                self.wants(b";")
            else:
                self.class_type()


KINDS = {
    "field": Reader.field,
    "method": Reader.method,
    "class": Reader.class_signature,
    "method-signature": Reader.method_signature,
    "field-signature": Reader.reference,
}


def is_text(kind, text):
    if not TEXT.fullmatch(text):
        return False
    reader = Reader(text)
    try:
        KINDS[kind](reader)
    except Wrong:
        return False
    return reader.at == len(text)
