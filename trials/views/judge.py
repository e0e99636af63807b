"""A plain judge of the format rules F1 to F30, written only from the table of `docs/RULES.md`.

faults(bytes) returns the faults of a readable class file, pairs of a rule's number and a place, sorted.
"""
import re

UNIT = (rb"(?:[\x01-\x7f]|\xc0\x80|[\xc2-\xdf][\x80-\xbf]"
        rb"|\xe0[\xa0-\xbf][\x80-\xbf]|[\xe1-\xef][\x80-\xbf][\x80-\xbf])")
WELL_SPELLED = re.compile(rb"%s*" % UNIT, re.DOTALL)
UNQUALIFIED = re.compile(rb"(?:(?![.;\[/])%s)+" % UNIT, re.DOTALL)
METHOD_NAME = re.compile(rb"<init>|<clinit>|(?:(?![.;\[/<>])%s)+" % UNIT, re.DOTALL)
CLASS = rb"(?:(?![.;\[/])%s)+(?:/(?:(?![.;\[/])%s)+)*" % (UNIT, UNIT)
CLASS_NAME = re.compile(CLASS, re.DOTALL)
TYPE = rb"\[{0,255}(?:[BCDFIJSZ]|L%s;)" % CLASS
FIELD = re.compile(TYPE, re.DOTALL)
METHOD = re.compile(rb"\(((?:%s)*)\)(V|%s)" % (TYPE, TYPE), re.DOTALL)
OBJECT = b"java/lang/Object"

SIZES = {3: 4, 4: 4, 5: 8, 6: 8, 7: 2, 8: 2, 9: 4, 10: 4, 11: 4, 12: 4, 15: 3, 16: 2, 18: 4}
PUBLIC, PRIVATE, PROTECTED, STATIC, FINAL = 0x1, 0x2, 0x4, 0x8, 0x10
SUPER, SYNCHRONIZED, VOLATILE, BRIDGE, TRANSIENT = 0x20, 0x20, 0x40, 0x40, 0x80
NATIVE, INTERFACE, ABSTRACT, STRICT, ANNOTATION, ENUM = 0x100, 0x200, 0x400, 0x800, 0x2000, 0x4000


class Cut(Exception):
    """A part reaches past the end of the bytes, or bytes are left over."""


def number(data, at, size):
    if at + size > len(data):
        raise Cut
    return int.from_bytes(data[at:at + size], "big")


class Attribute:
    def __init__(self, place, name, body):
        self.place, self.name, self.body, self.inner = place, name, body, []


class Member:
    def __init__(self, flags, name, descriptor, attributes):
        self.flags, self.name, self.descriptor, self.attributes = flags, name, descriptor, attributes


def read_attributes(data, at, base=0):
    """Returns the attributes of a table, and the offset after it."""
    count, at, found = number(data, at, 2), at + 2, []
    for _ in range(count):
        name, length = number(data, at, 2), number(data, at + 2, 4)
        if at + 6 + length > len(data):
            raise Cut
        found.append(Attribute(base + at, name, data[at + 6:at + 6 + length]))
        at += 6 + length
    return found, at


def read_members(data, at):
    count, at, found = number(data, at, 2), at + 2, []
    for _ in range(count):
        flags, name, descriptor = (number(data, at + offset, 2) for offset in (0, 2, 4))
        attributes, at = read_attributes(data, at + 6)
        found.append(Member(flags, name, descriptor, attributes))
    return found, at


class ClassFile:
    def __init__(self, data):
        self.major = number(data, 6, 2)
        self.count, self.entries, at, index = number(data, 8, 2), {}, 10, 1
        while index < self.count:
            tag = data[at]
            size = 2 + number(data, at + 1, 2) if tag == 1 else SIZES[tag]
            body = data[at + 1:at + 1 + size]
            self.entries[index] = (tag, body[2:] if tag == 1 else body)
            at, index = at + 1 + size, index + (2 if tag in (5, 6) else 1)
        self.flags, self.this, self.parent = (number(data, at + offset, 2) for offset in (0, 2, 4))
        interfaces = number(data, at + 6, 2)
        self.interfaces = [number(data, at + 8 + 2 * k, 2) for k in range(interfaces)]
        self.fields, at = read_members(data, at + 8 + 2 * interfaces)
        self.methods, at = read_members(data, at)
        self.attributes, at = read_attributes(data, at)
        for method in self.methods:
            for attribute in method.attributes:
                if self.text(attribute.name) == b"Code":
                    attribute.inner = read_code(attribute) or []

    def tag(self, index):
        return self.entries.get(index, (0, b""))[0]

    def text(self, index):
        tag, body = self.entries.get(index, (0, None))
        return body if tag == 1 else None

    def pair(self, index):
        body = self.entries[index][1]
        return int.from_bytes(body[:2], "big"), int.from_bytes(body[2:4], "big")

    def class_text(self, index):
        return self.text(self.pair(index)[0]) if self.tag(index) == 7 else None

    def named(self, index):
        """Returns the name and descriptor of the reference at the index, or None for each."""
        if self.tag(index) in (9, 10, 11, 18):
            entry = self.pair(index)[1]
            if self.tag(entry) == 12:
                return tuple(map(self.text, self.pair(entry)))
        return None, None

    def of(self, attributes, name):
        return [attribute for attribute in attributes if self.text(attribute.name) == name]


def read_code(attribute):
    """Returns the attributes inside a well-formed Code, or None if it is not well-formed."""
    data = attribute.body
    try:
        length = number(data, 4, 4)
        if not 1 <= length <= 65535 or 8 + length > len(data):
            return None
        at = 8 + length
        at += 2 + 8 * number(data, at, 2)
        inner, at = read_attributes(data, at, attribute.place + 6)
        return inner if at == len(data) else None
    except Cut:
        return None


def read_indexes(data, at=0):
    count = number(data, at, 2)
    return [number(data, at + 2 + 2 * k, 2) for k in range(count)], at + 2 + 2 * count


def is_field(text):
    return FIELD.fullmatch(text) is not None


def slots(text):
    """Returns the slots of a method descriptor's parameters, or None if the text is not a method descriptor."""
    match = METHOD.fullmatch(text)
    if match is None:
        return None
    total = sum(2 if param in (b"J", b"D") else 1 for param in FIELD.findall(match[1]))
    return total if total <= 255 else None


def is_method(text):
    return slots(text) is not None


def returns_value(text):
    return is_method(text) and not text.endswith(b")V")


def two_of(flags):
    return sum(bool(flags & flag) for flag in (PUBLIC, PRIVATE, PROTECTED)) > 1


def repeated(file, members):
    seen, found = set(), []
    for at, member in enumerate(members):
        key = file.text(member.name), file.text(member.descriptor)
        if None not in key and key in seen:
            found.append(at)
        seen.add(key)
    return found


WANTED = {7: (1,), 8: (1,), 9: (7, 12), 10: (7, 12), 11: (7, 12), 12: (1, 1), 16: (1,)}


def constant_rules(file, index):
    """Yields the rules that the constant at an index breaks."""
    tag, body = file.entries[index]
    name, descriptor = file.named(index)
    if tag in WANTED and any(file.tag(k) != want for k, want in zip(file.pair(index), WANTED[tag])):
        yield 1
    if tag == 18 and file.tag(file.pair(index)[1]) != 12:
        yield 1
    if tag == 1 and not WELL_SPELLED.fullmatch(body):
        yield 2
    if tag == 7:
        text = file.class_text(index)
        if text is not None and not CLASS_NAME.fullmatch(text) and not (text.startswith(b"[") and is_field(text)):
            yield 3
    if tag == 12:
        own, kind = map(file.text, file.pair(index))
        if kind is not None and not is_field(kind) and not is_method(kind):
            yield 4
        if None not in (own, kind):
            if is_field(kind) and not UNQUALIFIED.fullmatch(own) or is_method(kind) and not METHOD_NAME.fullmatch(own):
                yield 5
    if descriptor is not None and not (is_field if tag == 9 else is_method)(descriptor):
        yield 6
    if tag == 10 and name is not None and name.startswith(b"<"):
        if name != b"<init>" or descriptor is not None and returns_value(descriptor):
            yield 7
    if tag == 15:
        yield from handle_rules(file, body[0], int.from_bytes(body[1:], "big"))
    if tag == 16:
        text = file.text(file.pair(index)[0])
        if text is not None and not is_method(text):
            yield 10
    if tag == 18:
        told = file.of(file.attributes, b"BootstrapMethods")
        if len(told) != 1 or file.pair(index)[0] >= (int.from_bytes(told[0].body[:2], "big") if len(told[0].body) > 1 else 0):
            yield 11


def handle_rules(file, kind, reference):
    allowed = {1: [9], 2: [9], 3: [9], 4: [9], 5: [10], 6: [10], 7: [10], 8: [10], 9: [11]}.get(kind, [])
    if kind in (6, 7) and file.major == 52:
        allowed = [10, 11]
    if file.tag(reference) not in allowed:
        yield 8
        return
    name, _ = file.named(reference)
    if name is not None:
        if kind == 8 and name != b"<init>" or kind in (5, 6, 7, 9) and name in (b"<init>", b"<clinit>"):
            yield 9


def class_rules(file):
    flags, is_interface = file.flags, bool(file.flags & INTERFACE)
    if (is_interface and (not flags & ABSTRACT or flags & (FINAL | SUPER | ENUM))
            or flags & ANNOTATION and not is_interface or flags & FINAL and flags & ABSTRACT):
        yield 12
    is_object, parent = file.class_text(file.this) == OBJECT, file.class_text(file.parent)
    if file.parent == 0:
        if not is_object or is_interface:
            yield 13
    elif is_object or parent is None or not CLASS_NAME.fullmatch(parent) or is_interface and parent != OBJECT:
        yield 13
    told = file.of(file.attributes, b"BootstrapMethods")
    if len(told) > 1 or any(not is_bootstrap(file, attribute.body) for attribute in told):
        yield 27


def is_bootstrap(file, data):
    try:
        at = 2
        for _ in range(number(data, 0, 2)):
            if file.tag(number(data, at, 2)) != 15:
                return False
            arguments, at = read_indexes(data, at + 2)
            if any(file.tag(argument) not in (3, 4, 5, 6, 7, 8, 15, 16) for argument in arguments):
                return False
        return at == len(data)
    except Cut:
        return False


def is_exceptions(file, data):
    try:
        indexes, at = read_indexes(data)
        return at == len(data) and all(file.tag(index) == 7 for index in indexes)
    except Cut:
        return False


VALUES = {b"I": 3, b"S": 3, b"C": 3, b"B": 3, b"Z": 3, b"F": 4, b"J": 5, b"D": 6, b"Ljava/lang/String;": 8}


def field_rules(file, field):
    flags, name, descriptor = field.flags, file.text(field.name), file.text(field.descriptor)
    if name is None or not UNQUALIFIED.fullmatch(name):
        yield 15
    if descriptor is None or not is_field(descriptor):
        yield 16
    fixed = PUBLIC | STATIC | FINAL
    if (two_of(flags) or flags & FINAL and flags & VOLATILE or file.flags & INTERFACE
            and (flags & fixed != fixed or flags & (PRIVATE | PROTECTED | VOLATILE | TRANSIENT | ENUM))):
        yield 17
    values = file.of(field.attributes, b"ConstantValue")
    if flags & STATIC:
        wrong = descriptor is not None and any(
            descriptor not in VALUES or len(value.body) == 2 and file.tag(number(value.body, 0, 2)) != VALUES[descriptor]
            for value in values)
        if len(values) > 1 or wrong:
            yield 25


def method_rules(file, method):
    flags, name, descriptor = method.flags, file.text(method.name), file.text(method.descriptor)
    if name is None or not METHOD_NAME.fullmatch(name):
        yield 19
    taken = None if descriptor is None else slots(descriptor)
    if taken is None or taken == 255 and not flags & STATIC:
        yield 20
    if name != b"<clinit>" and breaks_flags(file, flags, name):
        yield 21
    codes = file.of(method.attributes, b"Code")
    if flags & (NATIVE | ABSTRACT) and name != b"<clinit>":
        if codes:
            yield 23
    elif len(codes) != 1:
        yield 23
    if any(read_code(code) is None for code in codes):
        yield 24
    told = file.of(method.attributes, b"Exceptions")
    if len(told) > 1 or any(not is_exceptions(file, attribute.body) for attribute in told):
        yield 26


def breaks_flags(file, flags, name):
    if two_of(flags) or flags & ABSTRACT and flags & (PRIVATE | STATIC | FINAL | SYNCHRONIZED | NATIVE | STRICT):
        return True
    if file.flags & INTERFACE:
        if flags & (PROTECTED | FINAL | SYNCHRONIZED | NATIVE):
            return True
        if file.major < 52 and not (flags & PUBLIC and flags & ABSTRACT):
            return True
        if file.major >= 52 and bool(flags & PUBLIC) == bool(flags & PRIVATE):
            return True
    return name == b"<init>" and bool(flags & (STATIC | FINAL | SYNCHRONIZED | BRIDGE | NATIVE | ABSTRACT))


LENGTHS = {b"ConstantValue": 2, b"SourceFile": 2, b"Signature": 2, b"EnclosingMethod": 4, b"Synthetic": 0, b"Deprecated": 0}
COMMON = (b"Signature", b"Synthetic", b"Deprecated")
RECOGNISED = {"field": (b"ConstantValue", *COMMON), "method": COMMON, "class": (b"SourceFile", b"EnclosingMethod", *COMMON), "code": ()}


def attribute_rules(file, holder, attribute):
    name, body = file.text(attribute.name), attribute.body
    if name is None:
        yield 28
    if name not in RECOGNISED[holder]:
        return
    if len(body) != LENGTHS[name]:
        yield 29
    elif name in (b"SourceFile", b"Signature") and file.tag(number(body, 0, 2)) != 1:
        yield 30
    elif name == b"EnclosingMethod":
        method = number(body, 2, 2)
        if file.tag(number(body, 0, 2)) != 7 or method != 0 and file.tag(method) != 12:
            yield 30


def faults(data):
    file = ClassFile(data)
    found = [(rule, index) for index in file.entries for rule in constant_rules(file, index)]
    found += [(rule, 0) for rule in class_rules(file)]
    found += [(14, at) for at, index in enumerate(file.interfaces)
              if file.class_text(index) is None or not CLASS_NAME.fullmatch(file.class_text(index))]
    found += [(rule, at) for at, field in enumerate(file.fields) for rule in field_rules(file, field)]
    found += [(18, at) for at in repeated(file, file.fields)] + [(22, at) for at in repeated(file, file.methods)]
    found += [(rule, at) for at, method in enumerate(file.methods) for rule in method_rules(file, method)]
    tables = [("field", field.attributes) for field in file.fields]
    tables += [("method", method.attributes) for method in file.methods] + [("class", file.attributes)]
    for holder, attributes in tables:
        for attribute in attributes:
            found += [(rule, attribute.place) for rule in attribute_rules(file, holder, attribute)]
            for inner in attribute.inner:
                found += [(rule, inner.place) for rule in attribute_rules(file, "code", inner)]
    return sorted(found)
