"""Makes random classes for worlds.py: classes that mostly load, classes with code or with faults, and unreadable bytes."""
import struct

import common

links, reader, views = common.load("link/worlds.py"), common.load("parse/reader.py"), common.load("views/judge.py")
opcodes = common.load("code/judge.py").LENGTH

DENSE = [b"A", b"B", b"C", b"D", b"E", b"p/A", b"p/B", b"p/C", b"java/lang/A"]
CLONE = (b"clone", b"()Ljava/lang/Object;")
LOOKED_UP = [(9, b"x", b"I"), (10, b"m", b"()V"), (11, b"m", b"()V"), (10, *CLONE), (11, b"hashCode", b"()I"), (10, b"finalize", b"()V")]
OF_INTERFACE = [0x401, 0x401, 1, 1, 1, 9, 2]
OF_CLASS = [1, 2, 4, 4, 0, 12, 8, 12]
OF_FIELD = [*OF_CLASS, 0x11, 0x14, 0x10, 0x19, 0x1c]
INIT, CLINIT = (b"<init>", b"()V"), (b"<clinit>", b"()V")

TEXTS = [b"Code", b"ConstantValue", b"Exceptions", b"BootstrapMethods", b"SourceFile", b"EnclosingMethod", b"Signature",
         b"Deprecated", b"I", b"J", b"Ljava/lang/String;", b"()V", b"()I", b"x", b"<init>", b"<clinit>", b"[I", b"\xc1\x81", b"a;b"]
BODIES = {3: 4, 4: 4, 7: 2, 8: 2, 9: 4, 10: 4, 11: 4, 12: 4, 15: 3, 16: 2, 18: 4}
# The opcodes that rules name, the rarer ones twice, and the references of a class with code.
TOLD = [18, 19, 20, 22, 58, 132, 153, 167, 168, 169, 170, 171, *range(178, 190), 192, 193, 196, 197, 200, 187, 189, 189]
HANDLE_OF_B = (15, 6, (10, b"B", b"m", b"(LC;)V"))
ENTRIES = [(10, b"A", b"<init>", b"()V"), (11, b"B", b"m", b"(IJ)V"), (11, b"B", b"m", b"()V"), (9, b"A", b"x", b"I"),
           (7, b"[[I"), (7, b"[" * 255 + b"J"), (7, b"[" * 255 + b"LA;"), (7, b"[" * 254 + b"I"), (7, b"A"),
           (10, links.HANDLE, b"invokeExact", b"(LB;)V"), (16, b"(I[LB;)V"), HANDLE_OF_B,
           (18, (HANDLE_OF_B, ((16, b"()LC;"), (7, b"D"))), b"m", b"(LA;)V")]


def put(data, at, new):
    return data[:at] + new + data[at + len(new):]


def some(rng, most):
    return range(rng.randrange(most + 1))


def by_parts(data):
    """Returns the constants by their indexes, and the bytes before and after the constants."""
    _, (places, _, tail) = reader.read(data)
    ends = [*places.values(), tail][1:]
    return data[:10], {index: data[begin:end] for (index, begin), end in zip(places.items(), ends)}, data[tail:]


# ---- classes that mostly load, all with the same few members

def now_and_then(rng, chance, flags, key):
    return [(rng.choice(flags), *key)] if rng.random() < chance else []


def dense_references(rng, interfaces, names):
    references = []
    for _ in some(rng, 6):
        owner, (tag, *key) = rng.choice(names), rng.choice(LOOKED_UP[:3] * 3 + LOOKED_UP)
        if tag > 9 and rng.random() < 0.9:
            tag = 11 if owner in interfaces else 10
        if rng.random() < 0.1:
            owner = b"[L" + owner + b";"
        references.append((tag, owner, *key))
    return references


def dense_interface(rng):
    fields, methods = now_and_then(rng, 0.3, [0x19], (b"x", b"I")), now_and_then(rng, 0.7, OF_INTERFACE, (b"m", b"()V"))
    return fields, methods + now_and_then(rng, 0.1, [1, 2], INIT) + now_and_then(rng, 0.2, [8], CLINIT)


def dense_class(rng):
    fields, methods = now_and_then(rng, 0.4, OF_FIELD, (b"x", b"I")), now_and_then(rng, 0.4, OF_CLASS, (b"m", b"()V"))
    methods += now_and_then(rng, 0.1, OF_CLASS, CLONE) + now_and_then(rng, 0.3, [1, 1, 4, 0, 2], INIT)
    return fields, methods + now_and_then(rng, 0.2, [8], CLINIT)


def dense_shapes(rng, names, interfaces):
    """Returns interfaces that extend interfaces and classes that extend both. Each has its supertypes before it."""
    for at, name in enumerate(names):
        supertypes = [one for one in names[:at] if one in interfaces]
        supertypes = rng.sample(supertypes, min(len(supertypes), rng.randrange(4))) + [b"java/util/List"] * (rng.random() < 0.05)
        public = rng.random() < 0.9
        if name in interfaces:
            yield name, (0x600 + public, links.OBJECT, supertypes, *dense_interface(rng))
        else:
            parent = rng.choice([links.OBJECT, b"java/Top", *names[len(interfaces):at] * 3])
            yield name, (rng.choice([0x20, 0x20, 0x420]) + public, parent, supertypes, *dense_class(rng))


def dense_codes(rng, name, methods, members, names, interfaces):
    codes = links.make_codes(rng, name, 52, methods, members, names)
    for code in codes.values():
        if rng.random() < 0.1:
            code.append((links.INVOKESPECIAL, (11, rng.choice(interfaces), *INIT)))
    return codes


def dense_classes(rng):
    names = rng.sample(DENSE, rng.randrange(4, 10))
    interfaces = names[:rng.randrange(1, 5)]
    shapes, made = list(dense_shapes(rng, names, interfaces)), []
    invoke = (10, links.HANDLE, b"invoke", b"(I)V")
    members = [*links.declared(shapes), invoke]
    for name, shape in shapes:
        references = dense_references(rng, interfaces, [*names, links.OBJECT]) + [invoke] * (rng.random() < 0.1)
        codes = dense_codes(rng, name, shape[-1], members, [*names, links.OBJECT], interfaces)
        made.append(links.class_file(name, *shape, references, codes=codes))
    made += [links.handle_class(rng)] * (rng.random() < 0.3)
    return made + [links.object_class(rng)] * (rng.random() < 0.1)


# ---- code

def codes_of(data):
    """Returns the Code of each method that has one, by the method's number."""
    view = views.ClassFile(data)
    found = {number: view.of(method.attributes, b"Code") for number, method in enumerate(view.methods)}
    return {number: codes[0] for number, codes in found.items() if codes}


def without(data, uses):
    """Returns the class with nops in the place of instructions, each given by its method's number, offset and opcode."""
    codes = codes_of(data)
    for method, offset, opcode in uses:
        data = put(data, codes[method].place + 14 + offset, bytes(opcodes[opcode]))
    return data


def one_instruction(rng, name):
    """Returns a class with an instruction on its field or on itself, which may or may not link."""
    fields, instructions = [(rng.choice([1, 9, 0x11, 0x19]), b"x", b"I")], [(187, (7, name))]
    instructions += [(opcode, (9, name, b"x", b"I")) for opcode in range(178, 182)]
    codes = {0: [rng.choice(instructions)]}
    methods = [(rng.choice([1, 9]), *rng.choice([(b"m", b"()V"), CLINIT]))]
    return links.class_file(name, rng.choice([0x21, 0x421]), links.OBJECT, [], fields, methods, [], codes=codes)


def instruction(rng, at, indexes):
    """Returns an instruction at an offset that names one of these constants. Other operands are small numbers."""
    small = lambda: rng.randrange(-3, 12)
    opcode = rng.choice(TOLD + [0, 1, 3, 42, 87, rng.randrange(202)])
    pad = b"\1" * (3 - at % 4)
    if opcode == 170:
        low = small()
        return bytes([170]) + pad + struct.pack(">iiiii", small(), low, low + 1, small(), small())
    if opcode == 171:
        return bytes([171]) + pad + struct.pack(">iiiiii", small(), 2, small(), small(), small(), small())
    if opcode == 196:
        return bytes([196, rng.choice([21, 22, 58, 169])]) + common.number(2, rng.randrange(9))
    length = opcodes[opcode]
    index = struct.pack(">h", small() if opcode in range(153, 169) else rng.choice(indexes))
    operands = index[1:] if length == 2 else index + bytes(rng.randrange(3) for _ in range(length - 3))
    return bytes([opcode]) + operands[:length - 1]


def code_body(rng, indexes):
    code = b""
    for _ in some(rng, 8):
        code += instruction(rng, len(code), indexes)
    code += rng.choice([b"\xb1"] * 9 + [b"\xff", b"\x11\0", b"\xc4\0"])
    handlers = [struct.pack(">HHHH", *(rng.randrange(len(code) + 1) for _ in range(3)), rng.choice(indexes)) for _ in some(rng, 1)]
    body = struct.pack(">HHI", 2, rng.choice([0, 1, 4, 12]), len(code)) + code
    return body + common.number(2, len(handlers)) + b"".join(handlers) + b"\0\0"


def with_code(rng, data):
    """Returns the class with other code in each of its methods."""
    indexes = [0, *(index for index, piece in by_parts(data)[1].items() if piece[0] != 1)]
    for code in reversed(list(codes_of(data).values())):
        body = code_body(rng, indexes)
        data = data[:code.place + 2] + common.number(4, len(body)) + body + data[code.place + 6 + len(code.body):]
    return data


def code_class(rng, name):
    """Returns a class whose methods refer to constants of many kinds."""
    names = [b"m", b"n", rng.choice([b"<init>", b"<clinit>", b"<clinit>", b"o"])]
    methods = [(rng.choice([0, 1, 2, 4]), one, b"()V") for one in names]
    fields = [(rng.choice([1, 4]), b"<clinit>", b"I")] * rng.randrange(2)
    references = [*rng.sample(ENTRIES, 9), *((7, name) for name in rng.sample([b"B", b"C", b"[[LC;"], 2))]
    data = links.class_file(name, rng.choice([0x21, 0x20]), links.OBJECT, [], fields, methods, references, rng.choice([51, 52]))
    return with_code(rng, data) if rng.random() < 0.7 else data


# ---- faults

def wild_constants(rng):
    """Returns texts, and constants that name them or one another. They follow the four constants of a class."""
    base = 5 + len(TEXTS)
    text = lambda: common.number(2, 5 + rng.randrange(len(TEXTS)))
    special = lambda: common.number(2, 5 + TEXTS.index(rng.choice([b"<init>", b"<clinit>", b"x"])))
    near = lambda: rng.choice([text(), common.number(2, rng.choice([1, 3, rng.randrange(base + 9)]))])
    pairs = [b"\x0c" + rng.choice([special, text])() + text() for _ in range(2)]
    references = [bytes([rng.choice([9, 10, 10, 11, 18])]) + near() + common.number(2, base + rng.randrange(2)) for _ in range(2)]
    handle = b"\x0f" + bytes([rng.randrange(11)]) + common.number(2, base + 2 + rng.randrange(2))
    others = [bytes([tag]) + b"\5" * (tag == 15) + b"".join(near() for _ in range(size // 2)) for tag, size in rng.sample(list(BODIES.items()), 3)]
    return [common.utf8(one) for one in TEXTS] + pairs + references + [handle] + others[:rng.randrange(4)]


def wild_attributes(rng, names, count):
    """Returns attributes of these names, by the indexes of the texts."""
    index = lambda: common.number(2, rng.randrange(count))
    for _ in some(rng, 2):
        body = rng.choice([b"", index(), index(), index() + index(), b"\0\1" + index(), code_body(rng, range(count))])
        yield common.number(2, rng.choice(names)) + common.number(4, len(body)) + body


def wild_members(rng, names, count):
    members = []
    for _ in some(rng, 2):
        inside = list(wild_attributes(rng, names, count))
        flags = rng.choice([1, 8, 9, 0x400, rng.randrange(0x1000)])
        texts = rng.randrange(4, 5 + len(TEXTS)), 5 + rng.randrange(len(TEXTS))
        members.append(struct.pack(">HHHH", flags, *texts, len(inside)) + b"".join(inside))
    # A repeated attribute is a fault too.
    return members * rng.choice([1, 1, 1, 2])


def wild_class(rng, name):
    """Returns a class whose constants, members and attributes are nearly all faulty."""
    constants = wild_constants(rng)
    count = 5 + len(constants)
    fields, methods = wild_members(rng, [3, 6, 6, 11, 12], count), wild_members(rng, [5, 5, 5, 7, 7, 11], count)
    return common.class_file(name, constants, fields, methods, list(wild_attributes(rng, range(3, 13), count)))


def changed(rng, data):
    """Returns the class with some bytes changed, so that it may be unreadable."""
    for _ in range(rng.choice([1, 1, 2, 4])):
        at = rng.randrange(8, len(data))
        data = put(data, at, bytes([rng.choice([0, 1, 2, 4, 8, 0x3b, 255, data[at] ^ 1 << rng.randrange(8)])]))
    return data


def unreadable(rng, data):
    """Returns unreadable bytes. All refusals are equally frequent."""
    _, (places, _, tail) = reader.read(data)
    starts = list(places.values())
    version = rng.choice([(0, 50), (0, 53), (1, 52), (0, 61), (52, 0)])
    return rng.choice([
        put(data, rng.randrange(4), b"\0"),
        put(data, 4, struct.pack(">HH", *version)),
        put(data, 8, b"\0\0"),
        put(data, rng.choice(starts), bytes([rng.choice([0, 2, 13, 14, 17, 19, 255])])),
        put(data, starts[-1], bytes([rng.choice([5, 6])])),
        data + b"\xca\xfe\xba\xbe"[:rng.randrange(1, 5)],
        data[:rng.randrange(len(data))],
        put(data, tail + 2, common.number(2, rng.choice([0, 1, 60000]))),
    ])
