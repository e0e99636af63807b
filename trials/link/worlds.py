"""Makes random small worlds: class files with supertypes, members, references and instructions, some of them faulty."""
import re
import struct

OBJECT, HANDLE = b"java/lang/Object", b"java/lang/invoke/MethodHandle"
NAMES = [b"A", b"B", b"C", b"D", b"p/A", b"p/B", b"p/C", b"q/A", b"q/B", b"p/r/A", b"java/util/T", b"org/Y"]
MISSING = [b"X", b"p/X", b"java/util/List", b"javax/Z", b"org/Z", b"java/Top"]
MEMBERS = [b"m", b"n", b"clone", b"hashCode"]
FIELDS = [b"x", b"y"]
METHOD_TYPES = [b"()V", b"(I)V", b"()I", b"()Ljava/lang/Object;"]
FIELD_TYPES = [b"I", b"LA;"]
PUBLIC, PRIVATE, PROTECTED, STATIC, FINAL, NATIVE, ABSTRACT, INTERFACE = 1, 2, 4, 8, 0x10, 0x100, 0x400, 0x200
OF_METHOD = [PUBLIC, PUBLIC, PRIVATE, PROTECTED, PROTECTED, 0]
CLASS, FIELDREF, METHODREF, INTERFACE_METHODREF = 7, 9, 10, 11
STRING, METHOD_HANDLE, METHOD_TYPE, INVOKE_DYNAMIC = 8, 15, 16, 18
# The instructions that may not link, and the kinds of constants that each names. A second kind is only for version 52.
NAMES_OF = {178: [9], 179: [9], 180: [9], 181: [9], 182: [10], 183: [10, 11], 184: [10, 11], 185: [11], 187: [7]}
PUTFIELD, INVOKESPECIAL, INVOKEINTERFACE, TABLESWITCH, LOOKUPSWITCH = 181, 183, 185, 170, 171
LDC, LDC_W, INVOKEVIRTUAL, INVOKEDYNAMIC = 18, 19, 182, 186
# The kinds of a method handle, by the tag of its member.
HANDLE_KINDS = {FIELDREF: [1, 2, 3, 4], METHODREF: [5, 6, 7], INTERFACE_METHODREF: [9]}
# Instructions that may fail to link in several ways are more frequent here.
OFTEN = [*NAMES_OF, PUTFIELD, INVOKESPECIAL, INVOKESPECIAL, INVOKEINTERFACE]
# Other instructions. Some of their operands look like those opcodes.
OTHERS = [(0,), (16, b"\xb2"), (17, b"\xbb\xb5"), (21, b"\3"), (132, b"\2\xb7"), (167, b"\0\3"), (196, b"\x15\0\2"),
          (196, b"\x84\0\1\xb8\xb9"), (TABLESWITCH,), (LOOKUPSWITCH,)]
NAMING_A_CLASS = [19, 189, 192, 193]
# Instructions that break a rule for a local variable, a count, a name, a kind of constant, or a class with dimensions.
FAULTY = [(21, b"\xc8"), (185, (11, b"A", b"m", b"()V"), b"\0\0"), (182, (10, b"A", b"<init>", b"()V")),
          (182, (11, b"A", b"m", b"()V")), (187, (7, b"[LA;"))]


class Pool:
    def __init__(self):
        self.places, self.bytes, self.bootstraps = {}, b"", []

    def entry(self, data):
        if data not in self.places:
            self.places[data] = len(self.places) + 1
            self.bytes += data
        return self.places[data]

    def utf8(self, text):
        return self.entry(b"\x01" + struct.pack(">H", len(text)) + text)

    def named(self, text):
        return self.entry(b"\x07" + struct.pack(">H", self.utf8(text)))

    def pair(self, name, descriptor):
        return self.entry(b"\x0c" + struct.pack(">HH", self.utf8(name), self.utf8(descriptor)))

    def refer(self, tag, owner, name=None, descriptor=None):
        """Returns the index of a constant.

        For a class, a string or a method type, `owner` is its text. For a method handle, `owner` is its kind and `name` its
        member. For a call site, `owner` is the handle and the arguments of its bootstrap method.
        """
        if tag in (CLASS, STRING, METHOD_TYPE):
            return self.entry(bytes([tag]) + struct.pack(">H", self.utf8(owner)))
        if tag == METHOD_HANDLE:
            return self.entry(b"\x0f" + struct.pack(">BH", owner, self.refer(*name)))
        first = self.bootstrap(*owner) if tag == INVOKE_DYNAMIC else self.named(owner)
        return self.entry(bytes([tag]) + struct.pack(">HH", first, self.pair(name, descriptor)))

    def bootstrap(self, handle, arguments):
        """Returns the number of a bootstrap method."""
        indexes = [self.refer(*one) for one in (handle, *arguments)]
        method = struct.pack(f">HH{len(arguments)}H", indexes[0], len(arguments), *indexes[1:])
        if method not in self.bootstraps:
            self.bootstraps.append(method)
        return self.bootstraps.index(method)

    def attributes(self):
        """Returns the attributes of the class: its bootstrap methods, if it has any."""
        if not self.bootstraps:
            return b"\0\0"
        body = struct.pack(">H", len(self.bootstraps)) + b"".join(self.bootstraps)
        return struct.pack(">HHI", 1, self.utf8(b"BootstrapMethods"), len(body)) + body


def count_of(descriptor):
    """Returns the number of slots of the parameters, plus one."""
    parameters = re.findall(rb"\[*(?:[BCDFIJSZ]|L[^;]*;)", descriptor[1:descriptor.index(b")")])
    return 1 + sum(2 if one in (b"J", b"D") else 1 for one in parameters)


def instruction(pool, at, opcode, operand=b"", more=None):
    """Returns the bytes of an instruction at an offset.

    Its operand is bytes, or a reference followed by more bytes. The only target of a switch is the switch itself. An ldc whose
    index is too large becomes an ldc_w.
    """
    if opcode in (TABLESWITCH, LOOKUPSWITCH):
        operand = bytes(3 - at % 4) + struct.pack(">iiii", 0, opcode == LOOKUPSWITCH, 0, 0)
    if isinstance(operand, bytes):
        return bytes([opcode]) + operand
    if more is None:
        count = bytes([count_of(operand[3]), 0]) if opcode == INVOKEINTERFACE else b""
        more = b"\0\0" if opcode == INVOKEDYNAMIC else count
    index = pool.refer(*operand)
    if opcode == LDC:
        return bytes([LDC, index]) if index < 256 else bytes([LDC_W]) + struct.pack(">H", index)
    return bytes([opcode]) + struct.pack(">H", index) + more


def code_of(pool, instructions):
    """Returns a Code with these instructions and a return."""
    code = b""
    for one in instructions:
        code += instruction(pool, len(code), *one)
    code += b"\xb1"
    return struct.pack(">HIHHI", pool.utf8(b"Code"), 12 + len(code), 2, 8, len(code)) + code + bytes(4)


def class_file(name, flags, parent, interfaces, fields, methods, references, major=52, codes=None):
    """Returns a class file.

    Members are (flags, name, descriptor). References are arguments of Pool.refer, for example (tag, class) and
    (tag, class, name, descriptor). The code of a method is the instructions that `codes` has for the method's number, and a
    return.
    """
    pool = Pool()
    head = struct.pack(">HHH", flags, pool.named(name), pool.named(parent) if parent is not None else 0)
    tables = struct.pack(">H", len(interfaces)) + b"".join(struct.pack(">H", pool.named(one)) for one in interfaces)
    for members in (fields, methods):
        tables += struct.pack(">H", len(members))
        for number, (bits, member, descriptor) in enumerate(members):
            body = members is methods and (member == b"<clinit>" or not bits & (NATIVE | ABSTRACT))
            code = code_of(pool, (codes or {}).get(number, [])) if body else b""
            tables += struct.pack(">HHHH", bits, pool.utf8(member), pool.utf8(descriptor), int(body)) + code
    for reference in references:
        pool.refer(*reference)
    attributes = pool.attributes()
    version = struct.pack(">HH", major, len(pool.places) + 1)
    return b"\xca\xfe\xba\xbe\0\0" + version + pool.bytes + head + tables + attributes


def some(rng, things, most):
    return [rng.choice(things) for _ in range(rng.randrange(most + 1))] if things else []


def once(members):
    """Returns the members without those that repeat a name and descriptor."""
    return list({member[1:]: member for member in members}.values())


def make_interface(rng, name, names, major):
    methods = []
    for _ in range(rng.randrange(4)):
        if major == 51:
            bits = PUBLIC | ABSTRACT
        else:
            bits = rng.choice([PUBLIC | ABSTRACT, PUBLIC, PUBLIC, PUBLIC | STATIC, PRIVATE, PRIVATE | STATIC])
        methods.append((bits, rng.choice(MEMBERS), rng.choice(METHOD_TYPES)))
    methods += [(STATIC, b"<clinit>", b"()V")] * (rng.random() < 0.3)
    fields = [(0x19, rng.choice(FIELDS), rng.choice(FIELD_TYPES)) for _ in range(rng.randrange(3))]
    flags = INTERFACE | ABSTRACT | rng.choice([0, PUBLIC, PUBLIC, PUBLIC])
    return flags, OBJECT, some(rng, names, 2), once(fields), once(methods)


def make_class(rng, name, names, supers):
    flags_of = lambda more: rng.choice(OF_METHOD) | rng.choice(more)
    methods = [(flags_of([0, 0, STATIC, NATIVE]), rng.choice(MEMBERS), rng.choice(METHOD_TYPES))
               for _ in range(rng.randrange(4))]
    methods += [(flags_of([0]), b"<init>", one) for one in (b"()V", b"(I)V") if rng.random() < 0.4]
    methods += [(STATIC, b"<clinit>", b"()V")] * (rng.random() < 0.4)
    flags_of_field = lambda: flags_of([0, STATIC]) | rng.choice([0, FINAL])
    fields = [(flags_of_field(), rng.choice(FIELDS), rng.choice(FIELD_TYPES)) for _ in range(rng.randrange(4))]
    flags = 0x20 | rng.choice([0, PUBLIC, PUBLIC, PUBLIC, PUBLIC | ABSTRACT])
    if rng.random() < 0.04:
        flags |= FINAL | ABSTRACT
    parent = rng.choice(supers) if rng.random() < 0.6 else OBJECT
    return flags, parent, some(rng, names, 2), once(fields), once(methods)


def make_reference(rng, tag, names):
    owner = rng.choice(names)
    if rng.random() < 0.2:
        owner = b"[" * rng.randrange(1, 3) + (b"I" if rng.random() < 0.3 else b"L" + owner + b";")
    if tag == CLASS:
        return CLASS, owner
    if tag == FIELDREF:
        return FIELDREF, owner, rng.choice(FIELDS), rng.choice(FIELD_TYPES)
    return tag, owner, rng.choice(MEMBERS), rng.choice(METHOD_TYPES)


def make_type(rng, names):
    letter = rng.choice([b"I", b"J"]) if rng.random() < 0.3 else b"L" + rng.choice(names) + b";"
    return b"[" * rng.choice([0, 0, 0, 1, 2]) + letter


def make_descriptor(rng, names):
    """Returns the descriptor of a method, mostly with classes in it."""
    parameters = b"".join(make_type(rng, names) for _ in range(rng.randrange(3)))
    return b"(" + parameters + b")" + (b"V" if rng.random() < 0.4 else make_type(rng, names))


def make_handle(rng, members, names):
    """Returns a method handle of an existing member, or of one with a random descriptor."""
    tag = rng.choice([FIELDREF, METHODREF, METHODREF, INTERFACE_METHODREF])
    fitting = [one for one in members if one[0] == tag and one[2] not in (b"<init>", b"<clinit>")]
    if fitting and rng.random() < 0.4:
        member = rng.choice(fitting)
    elif tag == METHODREF and rng.random() < 0.2:
        return METHOD_HANDLE, 8, (tag, rng.choice(names), b"<init>", make_descriptor(rng, names).rpartition(b")")[0] + b")V")
    elif tag == FIELDREF:
        member = (tag, rng.choice(names), rng.choice(FIELDS), make_type(rng, names))
    else:
        member = (tag, rng.choice(names), rng.choice(MEMBERS), make_descriptor(rng, names))
    return METHOD_HANDLE, rng.choice(HANDLE_KINDS[tag]), member


def make_call_site(rng, members, names):
    arguments = []
    for _ in range(rng.randrange(3)):
        arguments.append(rng.choice([(METHOD_TYPE, make_descriptor(rng, names)), make_handle(rng, members, names), (CLASS, rng.choice(names))]))
    bootstrap = METHOD_HANDLE, 6, (METHODREF, rng.choice(names), b"m", b"()Ljava/lang/invoke/CallSite;")
    return INVOKE_DYNAMIC, (bootstrap, tuple(arguments)), rng.choice(MEMBERS), make_descriptor(rng, names)


def make_described(rng, members, names):
    """Returns an opcode and a constant whose descriptor is resolved when code names the constant."""
    return rng.choice([
        (rng.choice([LDC, LDC_W]), (METHOD_TYPE, make_descriptor(rng, names))),
        (rng.choice([LDC, LDC_W]), make_handle(rng, members, names)),
        (INVOKEDYNAMIC, make_call_site(rng, members, names)),
        (INVOKEVIRTUAL, (METHODREF, HANDLE, rng.choice([b"invoke", b"invokeExact"]), make_descriptor(rng, names))),
    ])


def make_references(rng, names, members=()):
    """Returns references that code need not name. Some are classes, arrays or constants with descriptors."""
    references = [make_reference(rng, rng.choice([7, 9, 9, 10, 10, 11, 11]), names) for _ in range(rng.randrange(10))]
    if rng.random() < 0.3:
        references += [make_reference(rng, CLASS, names) for _ in range(rng.randrange(4))]
    if rng.random() < 0.15:
        references.append(make_described(rng, members, names)[1])
    return references


def declared(shapes):
    """Yields references to the members that classes declare, by these classes and by their direct subtypes."""
    for name, (_, _, _, fields, methods) in shapes:
        for owner, (flags, parent, interfaces, _, _) in shapes:
            if name in (owner, parent, *interfaces):
                tag = INTERFACE_METHODREF if flags & INTERFACE else METHODREF
                yield from ((FIELDREF, owner, *field[1:]) for field in fields)
                yield from ((tag, owner, *method[1:]) for method in methods if method[1] != b"<clinit>")


def named_by(rng, opcode, tag, user, members, names):
    """Returns the reference of an instruction, mostly to an existing member, often to one of its own class."""
    if tag == CLASS:
        return CLASS, rng.choice(names)
    makes = opcode == INVOKESPECIAL and tag == METHODREF and rng.random() < 0.5
    fitting = [one for one in members if one[0] == tag and (one[2] == b"<init>") == makes]
    own = [one for one in fitting if one[1] == user]
    chance = rng.random()
    if fitting and chance < 0.75:
        return rng.choice(own if own and chance < 0.4 else fitting)
    reference = make_reference(rng, tag, names)
    return (*reference[:2], b"<init>", b"()V") if makes else reference


def make_code(rng, user, major, members, names):
    code = []
    for _ in range(rng.randrange(1, 12)):
        chance = rng.random()
        if chance < 0.8:
            opcode = rng.choice(OFTEN)
            tag = rng.choice(NAMES_OF[opcode] if major == 52 else NAMES_OF[opcode][:1])
            code.append((opcode, named_by(rng, opcode, tag, user, members, names)))
        elif chance < 0.92:
            code.append(rng.choice(OTHERS))
        elif chance < 0.96:
            code.append((rng.choice(NAMING_A_CLASS), make_reference(rng, CLASS, names)))
        else:
            code.append(make_described(rng, members, names))
    if rng.random() < 0.06:
        code.insert(rng.randrange(len(code)), rng.choice(FAULTY))
    return code


def make_codes(rng, user, major, methods, members, names):
    """Returns instructions for most methods, by the methods' numbers."""
    some_methods = [number for number in range(len(methods)) if rng.random() < 0.85]
    return {number: make_code(rng, user, major, members, names) for number in some_methods}


def handle_class(rng):
    methods = [(0x191 | rng.choice([0, 0, STATIC]), b"invoke", b"([Ljava/lang/Object;)Ljava/lang/Object;")]
    if rng.random() < 0.4:
        methods.append((0x101, b"invoke", b"(I)I"))
    return class_file(HANDLE, 0x31, OBJECT, [], [], methods, [])


def object_class(rng):
    clone = (rng.choice([PUBLIC, PROTECTED]), b"clone", b"()Ljava/lang/Object;")
    methods = [(PUBLIC, b"<init>", b"()V"), clone, (PUBLIC | rng.choice([0, 0, STATIC]), b"hashCode", b"()I")]
    fields = [(PUBLIC | rng.choice([0, STATIC]) | rng.choice([0, FINAL]), b"x", b"I")] * rng.randrange(2)
    shape, names = (rng.choice([0x21, 0x21, 0x20]), None, [], fields, methods), [b"A", b"X"]
    codes = make_codes(rng, OBJECT, 52, methods, list(declared([(OBJECT, shape)])), names)
    return class_file(OBJECT, *shape, make_references(rng, names), 52, codes)


def make_shapes(rng):
    """Returns the shapes of all files, and names to refer to.

    A shape is a name, a version, and flags, superclass, interfaces, fields and methods.
    """
    given = rng.sample(NAMES, rng.randrange(2, 10))
    anything = given * 3 + MISSING + [OBJECT]
    shapes, interfaces = [], set(rng.sample(given, rng.randrange(len(given))))
    for at, name in enumerate(given + some(rng, given, 1)):
        major = rng.choice([51, 52, 52])
        # Most supertypes are of the right kind and occur earlier, so that few classes are circular.
        before = given if rng.random() < 0.08 else given[:at]
        supertypes = [one for one in before if one in interfaces] * 9 + [one for one in anything if rng.random() < 0.04]
        downs = [one for one in before if one not in interfaces] * 9 + [one for one in anything if rng.random() < 0.04]
        if name in interfaces:
            made = make_interface(rng, name, supertypes, major)
        else:
            made = make_class(rng, name, supertypes, downs or [OBJECT])
        shapes.append((name, major, made))
    return shapes, anything


def make_world(rng):
    """Returns the files of a world: pairs of a path and bytes, sorted by path."""
    files, (shapes, anything), has_handle = [], make_shapes(rng), rng.random() < 0.1
    members = list(declared([(name, made) for name, _, made in shapes]))
    members += [(METHODREF, HANDLE, b"invoke", b"(I)V")] * 5 * has_handle
    for at, (name, major, made) in enumerate(shapes):
        references = make_references(rng, anything, members)
        if rng.random() < 0.1:
            references.append((METHODREF, HANDLE, b"invoke", b"(I)V"))
        codes = make_codes(rng, name, major, made[-1], members, anything)
        files.append((b"%02d.class" % at, class_file(name, *made, references, major, codes)))
    if has_handle:
        files.append((b"handle.class", handle_class(rng)))
    if rng.random() < 0.1:
        files.append((b"object.class", object_class(rng)))
    return files
