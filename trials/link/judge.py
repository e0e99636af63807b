"""A plain judge of linking, written from `docs/RULES.md`.

It finds how each class of a world loads, which names are circular, what each symbolic reference resolves to, and which
instructions do not link. Each question searches the whole world.

World(files, prefixes) takes pairs of a path and a file's bytes. parts() returns the lines of the parts. uses(name) yields the
instructions of a class that are judged. deciding(use) returns the line of the table by which an instruction does not link.
final_superclass(name) and overridden(name) return the errors of inheritance of a class that loads.
"""
import importlib.util
import pathlib
import re
import typing

PATH = pathlib.Path(__file__).resolve().parent.parent / "code" / "judge.py"
spec = importlib.util.spec_from_file_location("code_judge", PATH)
code_rules = importlib.util.module_from_spec(spec)
spec.loader.exec_module(code_rules)
rules = code_rules.format_judge

OBJECT, HANDLE = b"java/lang/Object", b"java/lang/invoke/MethodHandle"
POLYMORPHIC = b"([Ljava/lang/Object;)Ljava/lang/Object;"
PUBLIC, PRIVATE, PROTECTED, STATIC, FINAL = 1, 2, 4, 8, 0x10
VARARGS, NATIVE, INTERFACE, ABSTRACT = 0x80, 0x100, 0x200, 0x400
ERRORS = {"NoClass": 1, "Format": 2, "Circular": 3, "Incompatible": 4, "IllegalAccess": 5, "NoField": 6, "NoMethod": 7,
          "Instantiation": 8}
KINDS = {7: "class", 9: "field", 10: "method", 11: "imethod"}
INSTRUCTIONS = {178: "getstatic", 179: "putstatic", 180: "getfield", 181: "putfield", 182: "invokevirtual",
                183: "invokespecial", 184: "invokestatic", 185: "invokeinterface", 187: "new"}
OK, OUTSIDE = ("ok",), ("outside",)


def package(name):
    return name.rpartition(b"/")[0]


class Record:
    """The declarations and references of a class file. A class file with a format fault has none."""

    def __init__(self, data):
        file = rules.ClassFile(data)
        self.name, self.flags = file.class_text(file.this), file.flags
        self.faults = [(f"F{rule}", place) for rule, place in rules.faults(data)]
        self.code_faults, self.uses, self.parent, self.references, self.used = [], [], None, [], set()
        self.interfaces, self.fields, self.methods, self.described, self.first = [], [], [], set(), {}
        if self.faults:
            return
        self.code_faults = code_rules.faults(data)
        self.uses = list(uses_of(file, {method for method, _, _ in self.code_faults}))
        direct, described = used_by(file)
        self.used, self.described = direct | described, described - direct
        self.first = first_methods(file)
        self.parent = file.class_text(file.parent)
        self.interfaces = [file.class_text(index) for index in file.interfaces]
        self.fields = [self.member(file, field) for field in file.fields]
        self.methods = [self.member(file, method) for method in file.methods]
        for index in sorted(file.entries):
            if file.tag(index) == 7:
                self.references.append((index, 7, file.class_text(index), None))
            elif file.tag(index) in (9, 10, 11):
                self.references.append((index, file.tag(index), file.class_text(file.pair(index)[0]), file.named(index)))

    @staticmethod
    def member(file, member):
        return file.text(member.name), file.text(member.descriptor), member.flags

    def supers(self):
        return ([self.parent] if self.parent is not None else []) + self.interfaces

    def interface(self):
        return bool(self.flags & INTERFACE)


class BuiltIn(Record):
    def __init__(self):
        self.name, self.flags, self.faults, self.code_faults, self.parent = OBJECT, PUBLIC, [], [], None
        self.interfaces, self.fields, self.references, self.uses, self.used, self.first = [], [], [], [], set(), {}
        public = [(b"<init>", b"()V"), (b"getClass", b"()Ljava/lang/Class;"), (b"hashCode", b"()I"),
                  (b"equals", b"(Ljava/lang/Object;)Z"), (b"toString", b"()Ljava/lang/String;"), (b"notify", b"()V"),
                  (b"notifyAll", b"()V"), (b"wait", b"()V"), (b"wait", b"(J)V"), (b"wait", b"(JI)V")]
        self.methods = [(*key, PUBLIC) for key in public]
        self.methods += [(b"clone", b"()Ljava/lang/Object;", PROTECTED), (b"finalize", b"()V", PROTECTED)]


def uses_of(file, faulty):
    """Yields each of the nine instructions in methods without faults.

    An instruction is the method's number, the offset, the opcode and the constant's index.
    """
    for number, method in enumerate(file.methods):
        codes = code_rules.codes_of(file, method)
        if len(codes) != 1 or number in faulty:
            continue
        _, code, _ = codes[0]
        at = 0
        while at < len(code):
            if code[at] in INSTRUCTIONS:
                yield number, at, code[at], code_rules.unsigned(code, at + 1, 2)
            at += code_rules.length_at(code, at)


# The opcodes of instructions with an index of two bytes. The index of `ldc` (18) has one byte.
NAMING = {19, 20, *range(178, 188), 189, 192, 193, 197}


def named_in(file, method):
    """Yields the indexes that the instructions and handlers of a method name."""
    codes = code_rules.codes_of(file, method)
    if len(codes) != 1:
        return
    _, code, handlers = codes[0]
    yield from (handler[3] for handler in handlers)
    at = 0
    while at < len(code) and (length := code_rules.length_at(code, at)):
        if code[at] == 18:
            yield code[at + 1]
        elif code[at] in NAMING:
            yield code_rules.unsigned(code, at + 1, 2)
        at += length


def first_methods(file):
    """Returns for each index the number of the first method that names it, or names a member of the class at this index."""
    first = {}
    for number, method in enumerate(file.methods):
        for index in named_in(file, method):
            first.setdefault(index, number)
            if file.tag(index) in (9, 10, 11):
                first.setdefault(file.pair(index)[0], number)
    return first


def named_by(file):
    """Yields the indexes that instructions, handlers, method handles and bootstrap methods name."""
    for method in file.methods:
        yield from named_in(file, method)
    for index in file.entries:
        if file.tag(index) == 15:
            yield code_rules.unsigned(file.entries[index][1], 1, 2)
    for attribute in file.of(file.attributes, b"BootstrapMethods"):
        yield from arguments_in(attribute.body)


def arguments_in(body):
    at = 2
    for _ in range(code_rules.unsigned(body, 0, 2)):
        count = code_rules.unsigned(body, at + 2, 2)
        yield from (code_rules.unsigned(body, at + 4 + 2 * number, 2) for number in range(count))
        at += 4 + 2 * count


def resolved_descriptors(file, named):
    """Yields the descriptors whose classes code resolves.

    These are the descriptors of named method types, call sites and methods of java/lang/invoke/MethodHandle, and those of
    the members that method handles refer to.
    """
    for index in named:
        if file.tag(index) == 16:
            yield file.text(file.pair(index)[0])
        elif file.tag(index) == 18 or file.tag(index) == 10 and file.class_text(file.pair(index)[0]) == HANDLE:
            yield file.named(index)[1]
    for index in file.entries:
        if file.tag(index) == 15:
            yield file.named(code_rules.unsigned(file.entries[index][1], 1, 2))[1]


def used_by(file):
    """Returns the indexes that are used, and the Class constants whose classes are in descriptors that code resolves.

    An index is used if something names it, or names a reference to a member of the class at this index.
    """
    named = set(named_by(file))
    owners = {file.pair(index)[0] for index in named if file.tag(index) in (9, 10, 11)}
    classes = {name for text in set(resolved_descriptors(file, named)) for name in re.findall(rb"L([^;]*);", text)}
    described = {index for index in file.entries if file.tag(index) == 7 and innermost(file.class_text(index)) in classes}
    return named | owners, described


class Use(typing.NamedTuple):
    """An instruction with an answer To: its place, what it names, and the member that is found with the class that declares it.

    If it names a class, `home` is that class, and there is no member.
    """
    user: bytes
    method: int
    method_name: bytes
    offset: int
    instruction: str
    tag: int
    named: bytes
    home: bytes
    member: tuple
    flags: int

    def has(self, flags):
        return bool(self.flags & flags)

    def stands_in(self, name):
        """Returns whether its class declares the member, and its method has this name."""
        return self.user == self.home and self.method_name == name

    def makes_another(self):
        return self.member[0] == b"<init>" and self.home != self.named


# The table of instructions that do not link: opcodes, the condition as text and as test, the error, and the class at fault.
LINES = [
    (["getstatic", "putstatic"], "not STATIC", lambda use: not use.has(STATIC), "Incompatible", "home"),
    (["getfield", "putfield"], "STATIC", lambda use: use.has(STATIC), "Incompatible", "home"),
    (["putstatic"], "FINAL", lambda use: use.has(FINAL) and not use.stands_in(b"<clinit>"), "IllegalAccess", "home"),
    (["putfield"], "FINAL", lambda use: use.has(FINAL) and not use.stands_in(b"<init>"), "IllegalAccess", "home"),
    (["invokespecial"], "<init> of another", lambda use: use.makes_another(), "NoMethod", "named"),
    (["invokevirtual", "invokespecial"], "STATIC", lambda use: use.has(STATIC), "Incompatible", "home"),
    (["invokestatic"], "not STATIC", lambda use: not use.has(STATIC), "Incompatible", "home"),
    (["invokeinterface"], "STATIC or PRIVATE", lambda use: use.has(STATIC | PRIVATE), "Incompatible", "home"),
    (["new"], "INTERFACE or ABSTRACT", lambda use: use.has(INTERFACE | ABSTRACT), "Instantiation", "home"),
]


def deciding(use):
    """Returns the first line of the table that applies, or None if the instruction links."""
    return next((line for line in LINES if use.instruction in line[0] and line[2](use)), None)


def innermost(text):
    """Returns the class that the text of a Class constant names, or the innermost element class of an array, or None."""
    if not text.startswith(b"["):
        return text
    element = text.lstrip(b"[")
    return element[1:-1] if element.startswith(b"L") else None


class World:
    def __init__(self, files, prefixes):
        self.prefixes, self.given = prefixes, {}
        for _, data in sorted(files, reverse=True):
            record = Record(data)
            self.given[record.name] = record
        self.records = {OBJECT: BuiltIn(), **self.given}
        self.aboves, self.loads = {}, {}

    def outside(self, name):
        return name not in self.records and name.startswith(self.prefixes)

    def above(self, name):
        """Returns the transitive supertypes of a name."""
        if name not in self.aboves:
            found, waiting = [], [name]
            while waiting:
                record = self.records.get(waiting.pop())
                for parent in record.supers() if record else []:
                    if parent not in found:
                        found.append(parent)
                        waiting.append(parent)
            self.aboves[name] = found
        return self.aboves[name]

    def circular(self, name):
        return name in self.above(name)

    def sees(self, user, name):
        return bool(self.records[name].flags & PUBLIC) or package(user) == package(name)

    def load(self, name):
        if name not in self.loads:
            self.loads[name] = self.load_anew(name)
        return self.loads[name]

    def load_anew(self, name):
        record = self.records.get(name)
        if record is None:
            return OUTSIDE if self.outside(name) else ("error", "NoClass", name)
        if record.faults:
            return "error", "Format", name
        if self.circular(name):
            return "error", "Circular", name
        parents = ([(record.parent, False)] if record.parent is not None else []) + [(one, True) for one in record.interfaces]
        for parent, wants_interface in parents:
            state = self.load(parent)
            if state[0] == "error":
                return state
            if state == OUTSIDE:
                continue
            if not self.sees(name, parent):
                return "error", "IllegalAccess", parent
            if self.records[parent].interface() != wants_interface:
                return "error", "Incompatible", parent
        return OK

    # ---- references

    def resolve_class(self, user, text):
        element = innermost(text)
        if element is None:
            return "To", text, None
        state = self.load(element)
        if state[0] == "error":
            return state
        if state == OUTSIDE:
            return "Outside", element
        return ("To", text, None) if self.sees(user, element) else ("error", "IllegalAccess", element)

    def start(self, user, text):
        """Returns the class where look-up begins, or an answer."""
        answer = self.resolve_class(user, text)
        if not text.startswith(b"["):
            return (text, None) if answer[0] == "To" else (None, answer)
        if answer[0] == "error":
            return None, answer
        state = self.load(OBJECT)
        if state[0] == "error":
            return None, state
        return (OBJECT, None) if state == OK else (None, ("Outside", OBJECT))

    def field(self, name, key):
        record = self.records.get(name)
        if record is None:
            return None
        for field in record.fields:
            if field[:2] == key:
                return name, field
        for parent in record.interfaces + ([record.parent] if record.parent is not None else []):
            found = self.field(parent, key)
            if found:
                return found
        return None

    def declared(self, name, key):
        methods = self.records[name].methods
        named = [method for method in methods if method[0] == key[0]]
        if name == HANDLE and len(named) == 1 and named[0][1] == POLYMORPHIC and named[0][2] & VARARGS and named[0][2] & NATIVE:
            return named[0]
        return next((method for method in methods if method[:2] == key), None)

    def in_classes(self, name, key):
        while name is not None and name in self.records:
            found = self.declared(name, key)
            if found:
                return name, found
            name = self.records[name].parent
        return None

    def in_superinterfaces(self, name, key):
        supers = [one for one in self.above(name) if one in self.records and self.records[one].interface()]
        found = {one: method for one in supers for method in self.records[one].methods
                 if method[:2] == key and not method[2] & (PRIVATE | STATIC)}
        maximal = [one for one in found if not any(one in self.above(other) for other in found if other != one)]
        concrete = [one for one in maximal if not found[one][2] & ABSTRACT]
        if len(concrete) == 1:
            return concrete[0], found[concrete[0]]
        return (min(found), found[min(found)]) if found else None

    def method(self, name, key):
        return self.in_classes(name, key) or self.in_superinterfaces(name, key)

    def interface_method(self, name, key):
        own = next((method for method in self.records[name].methods if method[:2] == key), None)
        if own:
            return name, own
        for method in self.records[OBJECT].methods:
            if method[:2] == key and method[2] & PUBLIC and not method[2] & STATIC:
                return OBJECT, method
        return self.in_superinterfaces(name, key)

    def resolve(self, user, tag, text, key):
        if tag == 7:
            return self.resolve_class(user, text)
        start, answer = self.start(user, text)
        if answer:
            return answer
        if tag == 10 and self.records[start].interface():
            return "error", "Incompatible", start
        if tag == 11 and not self.records[start].interface():
            return "error", "Incompatible", text
        search = {9: self.field, 10: self.method, 11: self.interface_method}[tag]
        found = search(start, key)
        if found is None:
            beyond = [name for name in self.above(start) if self.outside(name)]
            return ("Outside", min(beyond)) if beyond else ("error", "NoField" if tag == 9 else "NoMethod", text)
        home, member = found
        return ("To", home, member) if self.usable(user, text, home, member) else ("error", "IllegalAccess", home)

    # ---- instructions

    def uses(self, name):
        """Yields the instructions of a class whose references have the answer To."""
        if self.load(name) != OK:
            return
        record, answers = self.records[name], {}
        references = {index: reference for index, *reference in record.references}
        for method, offset, opcode, index in record.uses:
            tag, text, _ = references[index]
            if index not in answers:
                answers[index] = self.resolve(name, *references[index])
            if answers[index][0] == "To":
                _, home, found = answers[index]
                flags = self.records[home].flags if found is None else found[2]
                name_of_method = record.methods[method][0]
                yield Use(name, method, name_of_method, offset, INSTRUCTIONS[opcode], tag, text, home, found, flags)

    def unlinked(self, name):
        """Yields the instructions of a class that do not link, each with the error and the class at fault."""
        for use in self.uses(name):
            line = deciding(use)
            if line:
                _, _, _, error, fault = line
                yield use, ("error", error, getattr(use, fault))

    # ---- inheritance

    def superclasses(self, name):
        """Returns the superclasses of a class, the nearest first, as far as files give them."""
        found = []
        while name in self.records and self.records[name].parent in self.records:
            name = self.records[name].parent
            found.append(name)
        return found

    def overridable(self, name, key):
        """Returns the flags of a class's method that is neither STATIC nor PRIVATE, or None."""
        return next((method[2] for method in self.records[name].methods if method[:2] == key and not method[2] & (STATIC | PRIVATE)),
                    None)

    def overrides(self, name, other, key):
        """Returns whether the method of a class overrides that of a superclass (5.4.5)."""
        flags = self.overridable(other, key)
        if self.overridable(name, key) is None or flags is None:
            return False
        if flags & (PUBLIC | PROTECTED) or package(name) == package(other):
            return True
        between = self.superclasses(name)
        return any(self.overrides(name, middle, key) and self.overrides(middle, other, key)
                   for middle in between[:between.index(other)])

    def final_superclass(self, name):
        """Returns the FINAL superclass of a class that loads, or None."""
        parent = self.records[name].parent
        return parent if parent in self.records and self.records[parent].flags & FINAL else None

    def overridden(self, name):
        """Yields the nearest FINAL method that each method of a class overrides: its name and descriptor, and its class."""
        for key in sorted({method[:2] for method in self.records[name].methods}):
            for other in self.superclasses(name):
                if self.overrides(name, other, key) and self.overridable(other, key) & FINAL:
                    yield key, other
                    break

    # ---- access

    def below(self, name, other):
        """Returns whether a class is the other one or a subclass of it, along superclasses."""
        if other == OBJECT:
            return True
        while name is not None and name != other:
            name = self.records[name].parent if name in self.records else None
        return name is not None

    def usable(self, user, text, home, member):
        flags, array = member[2], text.startswith(b"[")
        if flags & PUBLIC or array and home == OBJECT and member[:2] == (b"clone", b"()Ljava/lang/Object;"):
            return True
        if flags & PROTECTED and self.below(user, home):
            related = user == OBJECT if array else self.below(text, user) or self.below(user, text)
            if flags & STATIC or related:
                return True
        if not flags & (PUBLIC | PRIVATE) and package(user) == package(home):
            return True
        return bool(flags & PRIVATE) and home == user

    # ---- lines

    def part(self, name):
        record, state = self.records[name], self.load(name)
        yield f"part {shown(name)}: " + ("loaded" if state == OK else answered(state))
        for rule, place in record.faults:
            yield f"  format {rule} {place}"
        for method, rule, place in record.code_faults:
            yield f"  code S{rule} {method} {place}"
        for use, error in self.unlinked(name):
            yield f"  link {use.method} {use.offset} {answered(error)}"
        for index, tag, text, key in record.references:
            answer = self.resolve(name, tag, text, key) if state == OK else ("NotLoaded",)
            yield f"  #{index} {KINDS[tag]} {shown(text)}{member(key)} -> {answered(answer)}"

    def parts(self):
        lines = [line for name in sorted(self.given) for line in self.part(name)]
        return lines + ["[circular]"] + [shown(name) for name in sorted(self.given) if self.circular(name)]


def shown(text):
    """Returns a name in the form in which jclink prints it."""
    units = text.replace(b"\xc0\x80", b"\0").decode("utf-8", "surrogatepass").encode("utf-16-be", "surrogatepass")
    codes = [int.from_bytes(units[at:at + 2], "big") for at in range(0, len(units), 2)]
    return "".join("\\\\" if code == 0x5c else chr(code) if 0x20 <= code <= 0x7e else f"\\u{code:04x}" for code in codes)


def member(key):
    return "" if key is None else f".{shown(key[0])}:{shown(key[1])}"


def answered(answer):
    if answer[0] == "error":
        return f"error {ERRORS[answer[1]]} {answer[1]} {shown(answer[2])}"
    if answer[0] == "To":
        return f"To {shown(answer[1])}{member(answer[2])}"
    return answer[0] if len(answer) == 1 else f"{answer[0]} {shown(answer[1])}"
