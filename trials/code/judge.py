"""A plain judge of the code rules S1 to S24, written only from the tables of `docs/RULES.md`.

faults(bytes) returns the code faults of a readable class file, sorted. A fault is the method's number, the rule's number and
the place. The module reads class files with the judge of the format rules.
"""
import importlib.util
import pathlib

PATH = pathlib.Path(__file__).resolve().parent.parent / "views" / "judge.py"
spec = importlib.util.spec_from_file_location("format_judge", PATH)
format_judge = importlib.util.module_from_spec(spec)
spec.loader.exec_module(format_judge)

INTEGER, FLOAT, LONG, DOUBLE, CLASS, STRING, FIELDREF, METHODREF, INTERFACE_METHODREF = 3, 4, 5, 6, 7, 8, 9, 10, 11
METHOD_HANDLE, METHOD_TYPE, INVOKE_DYNAMIC = 15, 16, 18

# The lengths of instructions of fixed length, by opcode.
LENGTH = {opcode: 1 for opcode in range(202)}
LENGTH.update(dict.fromkeys([16, 18, *range(21, 26), *range(54, 59), 169, 188], 2))
LENGTH.update(dict.fromkeys([17, 19, 20, 132, *range(153, 169), *range(178, 185), 187, 189, 192, 193, 198, 199], 3))
LENGTH.update({197: 4, 185: 5, 186: 5, 200: 5, 201: 5})
LONG_LOADS, LONG_STORES = (22, 24), (55, 57)


def unsigned(code, at, size):
    return int.from_bytes(code[at:at + size], "big")


def signed(code, at, size):
    return int.from_bytes(code[at:at + size], "big", signed=True)


def length_at(code, at):
    """Returns the length of the instruction at an offset, or None if there is none."""
    opcode = code[at]
    if opcode in (170, 171):
        default = at + 4 - at % 4
        if opcode == 170:
            if default + 12 > len(code):
                return None
            low, high = signed(code, default + 4, 4), signed(code, default + 8, 4)
            if low > high:
                return None
            end = default + 12 + 4 * (high - low + 1)
        else:
            if default + 8 > len(code):
                return None
            pairs = signed(code, default + 4, 4)
            if pairs < 0:
                return None
            end = default + 8 + 8 * pairs
    elif opcode == 196:
        if at + 1 >= len(code):
            return None
        if code[at + 1] in (*range(21, 26), *range(54, 59), 169):
            end = at + 4
        elif code[at + 1] == 132:
            end = at + 6
        else:
            return None
    elif opcode in LENGTH:
        end = at + LENGTH[opcode]
    else:
        return None
    return end - at if end <= len(code) else None


class Judge:
    def __init__(self, view, max_locals, code, handlers):
        self.view, self.max_locals, self.code, self.handlers = view, max_locals, code, handlers
        self.found = set()

    def tag(self, index):
        return self.view.tag(index)

    def dimensions(self, index):
        """Returns the dimensions of the class that a constant names, or None if the Class or its text is missing."""
        text = self.view.class_text(index)
        if text is None:
            return None
        return len(text) - len(text.lstrip(b"[")) if format_judge.is_field(text) else 0

    def add(self, rule, place, is_broken=True):
        if is_broken:
            self.found.add((rule, place))

    def faults(self):
        at, lengths = 0, {}
        while at < len(self.code):
            length = length_at(self.code, at)
            if length is None:
                return [(1, at)]
            lengths[at] = length
            at += length
        self.starts = lengths
        for at in lengths:
            self.instruction(at)
        for number, (start, end, handler, kind) in enumerate(self.handlers):
            self.add(23, number, start not in lengths or handler not in lengths
                     or end not in lengths and end != len(self.code) or start >= end)
            self.add(24, number, kind != 0 and self.tag(kind) != CLASS)
        return sorted(self.found)

    def instruction(self, at):
        code, opcode = self.code, self.code[at]
        if opcode in (168, 201):
            self.add(2, at)
        if opcode in range(153, 169) or opcode in (198, 199):
            self.add(3, at, at + signed(code, at + 1, 2) not in self.starts)
        if opcode in (200, 201):
            self.add(3, at, at + signed(code, at + 1, 4) not in self.starts)
        if opcode in (170, 171):
            self.switch(at, opcode)
        if opcode in (18, 19):
            index = code[at + 1] if opcode == 18 else unsigned(code, at + 1, 2)
            self.add(6, at, self.tag(index) not in (INTEGER, FLOAT, STRING, CLASS, METHOD_TYPE, METHOD_HANDLE))
        if opcode == 20:
            self.add(7, at, self.tag(unsigned(code, at + 1, 2)) not in (LONG, DOUBLE))
        if opcode in range(178, 182):
            self.add(8, at, self.tag(unsigned(code, at + 1, 2)) != FIELDREF)
        if opcode in range(182, 186):
            self.invocation(at, opcode)
        if opcode == 186:
            self.add(14, at, self.tag(unsigned(code, at + 1, 2)) != INVOKE_DYNAMIC)
            self.add(15, at, code[at + 3] != 0 or code[at + 4] != 0)
        if opcode in (187, 189, 192, 193, 197):
            index = unsigned(code, at + 1, 2)
            self.add(17, at, self.tag(index) != CLASS)
            dimensions = self.dimensions(index)
            self.add(18, at, opcode == 187 and dimensions is not None and dimensions > 0)
            self.add(19, at, opcode == 189 and dimensions == 255)
            self.add(20, at, opcode == 197 and (code[at + 3] == 0 or dimensions is not None and code[at + 3] > dimensions))
        if opcode == 188:
            self.add(21, at, code[at + 1] not in range(4, 12))
        self.local(at, opcode)

    def switch(self, at, opcode):
        code, default = self.code, at + 4 - at % 4
        targets = [signed(code, default, 4)]
        if opcode == 170:
            count = signed(code, default + 8, 4) - signed(code, default + 4, 4) + 1
            targets += [signed(code, default + 12 + 4 * k, 4) for k in range(count)]
        else:
            count = signed(code, default + 4, 4)
            targets += [signed(code, default + 12 + 8 * k, 4) for k in range(count)]
            values = [signed(code, default + 8 + 8 * k, 4) for k in range(count)]
            self.add(5, at, any(b <= a for a, b in zip(values, values[1:])))
        self.add(4, at, any(at + target not in self.starts for target in targets))

    def invocation(self, at, opcode):
        code, index = self.code, unsigned(self.code, at + 1, 2)
        tag = self.tag(index)
        allowed = {182: (METHODREF,), 185: (INTERFACE_METHODREF,)}.get(
            opcode, (METHODREF, INTERFACE_METHODREF) if self.view.major == 52 else (METHODREF,))
        rule = {182: 9, 183: 10, 184: 10, 185: 11}[opcode]
        self.add(rule, at, tag not in allowed)
        name, descriptor = self.view.named(index)
        if tag in allowed:
            special = name is not None and name.startswith(b"<")
            self.add(16, at, special and not (opcode == 183 and name == b"<init>"))
            if opcode == 185:
                slots = None if descriptor is None else format_judge.slots(descriptor)
                self.add(12, at, slots is not None and code[at + 3] != slots + 1)
        if opcode == 185:
            self.add(13, at, code[at + 4] != 0)

    def local(self, at, opcode):
        code, wide = self.code, opcode == 196
        if wide:
            opcode, index = code[at + 1], unsigned(code, at + 2, 2)
        elif opcode in (*range(21, 26), *range(54, 59), 132, 169):
            index = code[at + 1]
        elif opcode in range(26, 46):
            index, opcode = (opcode - 26) % 4, 21 + (opcode - 26) // 4
        elif opcode in range(59, 79):
            index, opcode = (opcode - 59) % 4, 54 + (opcode - 59) // 4
        else:
            return
        slots = 2 if opcode in (*LONG_LOADS, *LONG_STORES) else 1
        self.add(22, at, index + slots > self.max_locals)


def codes_of(view, method):
    """Returns the well-formed Code attributes of a method: max_locals, the code and its handlers."""
    found = []
    for attribute in view.of(method.attributes, b"Code"):
        if format_judge.read_code(attribute) is None:
            continue
        body = attribute.body
        end = 8 + unsigned(body, 4, 4)
        handlers = [tuple(unsigned(body, end + 2 + 8 * k + 2 * part, 2) for part in range(4)) for k in range(unsigned(body, end, 2))]
        found.append((unsigned(body, 2, 2), body[8:end], handlers))
    return found


def faults(data):
    view = format_judge.ClassFile(data)
    found = []
    for number, method in enumerate(view.methods):
        codes = codes_of(view, method)
        if len(codes) == 1:
            found += [(number, rule, place) for rule, place in Judge(view, *codes[0]).faults()]
    return found
