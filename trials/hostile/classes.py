"""Makes class files that are as expensive as their size allows.

A kind is a function that returns files by their paths. Each kind repeats one thing as often as a class file has room for. All
files are readable class files of version 52.0. They have no format fault, unless the kind says so.
"""
import itertools
import struct

OBJECT = b"java/lang/Object"
PUBLIC, FINAL, SUPER, INTERFACE, ABSTRACT, NATIVE, VARARGS = 1, 0x10, 0x20, 0x200, 0x400, 0x100, 0x80
# The greatest length of a text, and the greatest number of constants, members or interfaces.
LONGEST, MOST = 65535, 65534
# The longest code of a method, and how many such methods fit into a file.
CODE, METHODS = 65535, 254


def u2(*numbers):
    return struct.pack(f">{len(numbers)}H", *numbers)


class Pool:
    """The constants of a class. Each occurs once."""

    def __init__(self):
        self.bytes, self.count, self.known = bytearray(), 1, {}

    def add(self, body):
        self.bytes += body
        self.count += 1
        return self.count - 1

    def once(self, body):
        if body not in self.known:
            self.known[body] = self.add(body)
        return self.known[body]

    def text(self, text):
        return self.once(b"\1" + u2(len(text)) + text)

    def of_class(self, name):
        return self.once(b"\7" + u2(self.text(name)))

    def name_and_type(self, name, descriptor):
        return self.once(b"\14" + u2(self.text(name), self.text(descriptor)))

    def reference(self, tag, owner, name, descriptor):
        """Adds a reference, even if there is an equal one."""
        return self.add(bytes([tag]) + u2(self.of_class(owner), self.name_and_type(name, descriptor)))

    def room(self):
        return MOST - self.count


def class_file(pool, name, flags=PUBLIC | SUPER, parent=OBJECT, interfaces=(), fields=(), methods=(), attributes=()):
    """Returns a class file. A member is its flags, its name and descriptor as indexes of constants, and its attributes' bytes."""
    own = u2(flags, pool.of_class(name), pool.of_class(parent))
    above = u2(len(interfaces)) + u2(*interfaces)
    tables = b"".join(u2(len(table)) + b"".join(u2(*head, len(attributes)) + b"".join(attributes) for *head, attributes in table)
                      for table in (fields, methods))
    tables += u2(len(attributes)) + b"".join(attributes)
    return struct.pack(">IHHH", 0xCAFEBABE, 0, 52, pool.count) + bytes(pool.bytes) + own + above + tables


def attribute(pool, name, body):
    return u2(pool.text(name)) + struct.pack(">I", len(body)) + body


def descriptors():
    """Yields different descriptors of methods, the shortest first."""
    for length in itertools.count():
        for letters in itertools.product(b"BCDFIJSZ", repeat=length):
            yield b"(" + bytes(letters) + b")V"


def names():
    for length in itertools.count(1):
        for letters in itertools.product(b"abcdefghijklmnopqrstuvwxyz", repeat=length):
            yield bytes(letters)


def native(pool, name, descriptor):
    return PUBLIC | NATIVE, pool.text(name), pool.text(descriptor), []


def plain(name, **more):
    return class_file(Pool(), name, **more)


def code_of(pool, code, max_locals=0):
    return attribute(pool, b"Code", u2(0, max_locals) + struct.pack(">I", len(code)) + code + u2(0, 0))


def with_code(code, max_locals=0, pool=None):
    """Returns a class with as many methods of this code as a file has room for."""
    pool = pool or Pool()
    each = [code_of(pool, code, max_locals)]
    return {"A.class": class_file(pool, b"A", methods=[(PUBLIC, pool.text(name), pool.text(b"()V"), each)
                                                       for name in itertools.islice(names(), METHODS)])}


# ---- members and references

def methods_of_one_name():
    pool, name, methods = Pool(), b"n" * LONGEST, []
    for descriptor in itertools.islice(descriptors(), MOST // 3 - 20):
        methods.append(native(pool, name, descriptor))
        pool.reference(10, b"A", name, descriptor)
    return {"A.class": class_file(pool, b"A", methods=methods)}


def few_methods_of_one_name():
    """So few methods of one name that they are searched one by one."""
    pool, name, methods = Pool(), b"n" * LONGEST, []
    for descriptor in itertools.islice(descriptors(), MOST // 3 - 20):
        if len(methods) < 15:
            methods.append(native(pool, name, descriptor))
        pool.reference(10, b"A", name, descriptor)
    return {"A.class": class_file(pool, b"A", methods=methods)}


def fields_and_references():
    pool, fields = Pool(), []
    for name in itertools.islice(names(), MOST // 3 - 20):
        fields.append((PUBLIC, pool.text(name), pool.text(b"I"), []))
        pool.reference(9, b"A", name, b"I")
    return {"A.class": class_file(pool, b"A", fields=fields)}


def references_to_one_member():
    pool, name, descriptor = Pool(), b"n" * LONGEST, b"(L" + b"d" * (LONGEST - 5) + b";)V"
    methods = [native(pool, name, descriptor)]
    pool.of_class(b"A"), pool.of_class(OBJECT)
    while pool.room():
        pool.reference(10, b"A", name, descriptor)
    return {"A.class": class_file(pool, b"A", methods=methods)}


def constants_of_one_missing_class():
    pool = Pool()
    text = pool.text(b"m" * LONGEST)
    pool.of_class(b"A"), pool.of_class(OBJECT)
    while pool.room():
        pool.add(b"\7" + u2(text))
    return {"A.class": class_file(pool, b"A")}


def calls_of_method_handles():
    """Methods of one name in `java/lang/invoke/MethodHandle`, and references to it with any descriptor."""
    handle, pool = b"java/lang/invoke/MethodHandle", Pool()
    methods = [native(pool, b"invoke", descriptor) for descriptor in itertools.islice(descriptors(), MOST - 100)]
    user = Pool()
    while user.room() > 3:
        user.reference(10, handle, b"invoke", b"(" + b"J" * (user.count % 120) + b")I")
    return {"H.class": class_file(pool, handle, methods=methods), "U.class": class_file(user, b"U")}


def provided_by_a_long_name():
    pool, fields = Pool(), []
    for name in itertools.islice(names(), MOST - 100):
        fields.append((PUBLIC, pool.text(name), pool.text(b"I"), []))
    return {"A.class": class_file(pool, b"a" * LONGEST, fields=fields)}


# ---- supertypes

def below_an_interface(pool, interfaces):
    """Returns a class with these superinterfaces, all of one name, and its subclasses with references to it."""
    files = {"I.class": plain(b"I", flags=PUBLIC | INTERFACE | ABSTRACT), "C.class": class_file(pool, b"C", interfaces=interfaces)}
    for number in range(20):
        user = Pool()
        for _ in range(3000):
            user.reference(10, b"C", b"m", b"()V")
        files[f"S{number}.class"] = class_file(user, b"S%d" % number, parent=b"C")
    return files


def an_interface_many_times():
    pool = Pool()
    return below_an_interface(pool, [pool.of_class(b"I")] * 65535)


def user_of(tag, owner, name, descriptor):
    """Returns a class that has only references to one member."""
    pool = Pool()
    pool.of_class(b"U"), pool.of_class(OBJECT)
    while pool.room() > 3:
        pool.reference(tag, owner, name, descriptor)
    return class_file(pool, b"U")


def below_a_chain(length):
    """Returns a chain of superclasses and references that are searched in all of it and found nowhere."""
    files = {f"{number}.class": plain(b"C%d" % number, parent=b"C%d" % (number - 1) if number else OBJECT) for number in range(length)}
    return {**files, "U.class": user_of(10, b"C%d" % (length - 1), b"m", b"()V")}


def references_below_a_chain():
    return below_a_chain(60000)


def references_below_a_shorter_chain():
    """A chain short enough for a session, which stores each reach and recomputes all classes below an added one."""
    return below_a_chain(1000)


def references_to_the_first_of_a_chain():
    """A chain of classes, each of which reaches all its superclasses."""
    files = {}
    for number in range(65535):
        pool = Pool()
        pool.reference(10, b"C0", b"m", b"()V")
        files[f"{number}.class"] = class_file(pool, b"C%d" % number, parent=b"C%d" % (number - 1) if number else OBJECT)
    return files


def members_below_a_chain():
    """References to different methods, each of which is searched in all of a chain of superclasses."""
    pool = Pool()
    pool.of_class(b"U"), pool.of_class(OBJECT)
    number = 0
    while pool.room() > 8:
        pool.reference(10, b"C9999", b"m%d" % number, b"()V")
        number += 1
    return {**below_a_chain(10000), "U.class": class_file(pool, b"U")}


def few_references_each_below_a_chain():
    """A chain of classes with few references each, which name the two nearest superclasses in turn."""
    files = {}
    for number in range(2000):
        pool = Pool()
        for at in range(250 if number > 1 else 0):
            pool.reference(10, b"C%d" % (number - 1 - at % 2), b"m%d" % at, b"()V")
        files[f"{number}.class"] = class_file(pool, b"C%d" % number, parent=b"C%d" % (number - 1) if number else OBJECT)
    return files


def with_methods(name, parent, count, flags=PUBLIC | NATIVE):
    """Returns a class that declares methods m0, m1, .. without code."""
    pool = Pool()
    descriptor = pool.text(b"()V")
    return class_file(pool, name, parent=parent, methods=[(flags, pool.text(b"m%d" % at), descriptor, []) for at in range(count)])


def final_methods(count):
    """Returns a file with FINAL methods m0, m1, .., which no class of the tree inherits."""
    return {"F.class": with_methods(b"F", OBJECT, count, PUBLIC | NATIVE | FINAL)}


def methods_of_a_chain():
    """A chain of classes whose methods override those of all their superclasses. A class beside it has FINAL ones."""
    files = {f"{number}.class": with_methods(b"C%d" % number, b"C%d" % (number - 1) if number else OBJECT, 250) for number in range(2000)}
    return files | final_methods(250)


def methods_below_a_chain():
    """Classes with one method each, below a chain of superclasses without methods. A class beside it has a FINAL one."""
    files = {f"{number}.class": plain(b"C%d" % number, parent=b"C%d" % (number - 1) if number else OBJECT) for number in range(30000)}
    return files | final_methods(1) | {f"L{number}.class": with_methods(b"L%d" % number, b"C29999", 1) for number in range(30000)}


def below_one_final_class():
    """Subclasses of a FINAL class, which override its FINAL methods."""
    pool = Pool()
    name, descriptor = pool.text(b"m0"), pool.text(b"()V")
    top = class_file(pool, b"A", flags=PUBLIC | SUPER | FINAL, methods=[(PUBLIC | FINAL | NATIVE, name, descriptor, [])])
    return {"A.class": top} | {f"{number}.class": with_methods(b"C%d" % number, b"A", 1) for number in range(30000)}


def abstract_methods_of_a_chain():
    """A chain of classes whose ABSTRACT methods override those of all their superclasses."""
    flags = PUBLIC | ABSTRACT
    return {f"{number}.class": with_methods(b"C%d" % number, b"C%d" % (number - 1) if number else OBJECT, 250, flags) for number in range(2000)}


def no_body_in_a_chain():
    """A chain of classes without methods, below one with an ABSTRACT method."""
    files = {f"{number}.class": plain(b"C%d" % number, parent=b"C%d" % (number - 1) if number else b"A") for number in range(30000)}
    return files | {"A.class": with_methods(b"A", OBJECT, 1, PUBLIC | ABSTRACT)}


def interfaces_below_a_chain():
    """Classes that implement an interface with a method, below a chain of superclasses without methods."""
    pool = Pool()
    method = (PUBLIC | ABSTRACT, pool.text(b"m0"), pool.text(b"()V"), [])
    files = {"I.class": class_file(pool, b"I", flags=PUBLIC | INTERFACE | ABSTRACT, methods=[method])}
    files |= {f"{number}.class": plain(b"C%d" % number, parent=b"C%d" % (number - 1) if number else OBJECT) for number in range(10000)}
    for number in range(10000):
        leaf = Pool()
        files[f"L{number}.class"] = class_file(leaf, b"L%d" % number, parent=b"C9999", interfaces=[leaf.of_class(b"I")])
    return files


def references_below_interfaces():
    """References that are searched in all of many superinterfaces and found nowhere."""
    many = Pool()
    interfaces = [many.of_class(b"I%d" % number) for number in range(20000)]
    files = {f"{number}.class": plain(b"I%d" % number, flags=PUBLIC | INTERFACE | ABSTRACT) for number in range(20000)}
    return {**files, "C.class": class_file(many, b"C", interfaces=interfaces), "U.class": user_of(9, b"C", b"x", b"I")}


def an_interface_by_many_constants():
    """Interfaces of one class, each with its own constant and its own text. All texts are equal."""
    pool = Pool()
    interfaces = []
    while pool.room() > 8:
        interfaces.append(pool.add(b"\7" + u2(pool.add(b"\1" + u2(1) + b"I"))))
    return below_an_interface(pool, interfaces)


def interfaces_that_give_one_method():
    """References to one method that each of many superinterfaces has."""
    files = {}
    for number in range(2000):
        pool = Pool()
        method = (PUBLIC | ABSTRACT, pool.text(b"m"), pool.text(b"()V"), [])
        files[f"{number}.class"] = class_file(pool, b"I%d" % number, flags=PUBLIC | INTERFACE | ABSTRACT, methods=[method])
    many = Pool()
    interfaces = [many.of_class(b"I%d" % number) for number in range(2000)]
    return {**files, "C.class": class_file(many, b"C", interfaces=interfaces), "U.class": user_of(10, b"C", b"m", b"()V")}


# ---- names

def packages_of_long_names():
    """References to a class that is not PUBLIC, whose name is as long as possible and has no package."""
    owner, pool = b"p" * LONGEST, Pool()
    files = {"P.class": class_file(Pool(), owner, flags=SUPER)}
    pool.of_class(b"u" * LONGEST), pool.of_class(OBJECT)
    while pool.room() > 3:
        pool.reference(10, owner, b"m", b"()V")
    return {**files, "U.class": class_file(pool, b"u" * LONGEST)}


def members_of_a_long_missing_name():
    """References that are rows of [required], which a session stores."""
    pool = Pool()
    pool.of_class(b"A"), pool.of_class(OBJECT)
    for name in itertools.islice(names(), MOST // 3 - 20):
        pool.reference(9, b"m" * LONGEST, name, b"I")
    return {"A.class": class_file(pool, b"A")}


# ---- texts that many things name

def one_signature():
    pool, fields = Pool(), []
    signature = pool.text(b"L" + b"s" * (LONGEST - 2) + b";")
    each = [attribute(pool, b"Signature", u2(signature))]
    for name in itertools.islice(names(), MOST - 100):
        fields.append((PUBLIC, pool.text(name), pool.text(b"I"), each))
    return {"A.class": class_file(pool, b"A", fields=fields)}


def one_descriptor():
    pool, methods = Pool(), []
    descriptor = b"(L" + b"d" * (LONGEST - 5) + b";)V"
    for name in itertools.islice(names(), MOST - 100):
        methods.append(native(pool, name, descriptor))
    return {"A.class": class_file(pool, b"A", methods=methods)}


def one_array_type():
    pool = Pool()
    array = pool.of_class(b"[" * 200 + b"L" + b"a" * (LONGEST - 202) + b";")
    return with_code((b"\xbd" + u2(array)) * (CODE // 3), pool=pool)


def one_array_type_and_a_fault():
    pool = Pool()
    array = pool.of_class(b"[" * 200 + b"L" + b"a" * (LONGEST - 202) + b";")
    return with_code(b"\x2a" + (b"\xbd" + u2(array)) * ((CODE - 1) // 3), pool=pool)


def one_interface_method():
    pool = Pool()
    method = pool.reference(11, b"I", b"m", b"(" + b"I" * 200 + b"L" + b"d" * (LONGEST - 205) + b";)V")
    return with_code((b"\xb9" + u2(method) + bytes([202, 0])) * (CODE // 5), pool=pool)


# ---- descriptors that code resolves

# A descriptor of greatest length, with as many classes as a method may have parameters.
OF_CLASSES = b"(" + b"".join(b"L" + b"%03d" % number * 84 + b"xx;" for number in range(255)) + b")V"


def start(methods):
    """Returns the constants of a class whose methods have code, and the names of its methods."""
    pool = Pool()
    pool.of_class(b"A"), pool.of_class(OBJECT), pool.text(b"Code"), pool.text(b"()V"), pool.text(b"BootstrapMethods")
    return pool, [pool.text(name) for name in itertools.islice(names(), methods)]


def naming(pool, texts, opcode, indexes, behind=b"", attributes=()):
    """Returns a class with an instruction for each of these constants, in as many methods as necessary."""
    each = CODE // (3 + len(behind))
    codes = [b"".join(opcode + u2(index) + behind for index in indexes[at:at + each]) for at in range(0, len(indexes), each)]
    methods = [(PUBLIC, name, pool.text(b"()V"), [code_of(pool, code)]) for name, code in zip(texts, codes)]
    assert len(codes) <= len(texts)
    return {"A.class": class_file(pool, b"A", methods=methods, attributes=attributes)}


def method_types_of_one_descriptor():
    pool, texts = start(3)
    text = pool.text(OF_CLASSES)
    return naming(pool, texts, b"\x13", [pool.add(b"\x10" + u2(text)) for _ in range(pool.room())])


def call_sites_of_one_descriptor():
    pool, texts = start(6)
    entry = pool.name_and_type(b"m", OF_CLASSES)
    handle = pool.add(b"\x0f\6" + u2(pool.reference(10, b"A", b"m", b"()V")))
    bootstrap = attribute(pool, b"BootstrapMethods", u2(1, handle, 0))
    return naming(pool, texts, b"\xba", [pool.add(b"\x12" + u2(0, entry)) for _ in range(pool.room())], b"\0\0", [bootstrap])


def calls_of_method_handles_of_one_descriptor():
    pool, texts = start(3)
    pool.reference(10, b"java/lang/invoke/MethodHandle", b"invokeExact", OF_CLASSES)
    calls = [pool.reference(10, b"java/lang/invoke/MethodHandle", b"invokeExact", OF_CLASSES) for _ in range(pool.room())]
    return naming(pool, texts, b"\xb6", calls)


def handles_of_one_descriptor():
    """Method handles of one member. Nothing names them."""
    pool, _ = start(0)
    member = pool.reference(10, b"A", b"m", OF_CLASSES)
    while pool.room():
        pool.add(b"\x0f\6" + u2(member))
    return {"A.class": class_file(pool, b"A")}


def arrays_of_a_class_in_a_descriptor():
    """Texts as long as possible, each of which many constants name."""
    pool, texts = start(1)
    name = b"a" * (LONGEST - 300)
    kind = pool.once(b"\x10" + u2(pool.text(b"(L" + name + b";)V")))
    arrays = [pool.text(b"[" * dimensions + b"L" + name + b";") for dimensions in range(1, 251)]
    for text in itertools.islice(itertools.cycle(arrays), pool.room()):
        pool.add(b"\7" + u2(text))
    return naming(pool, texts, b"\x13", [kind])


def classes_in_many_descriptors():
    """Descriptors that each name a different class. All class names begin with the same long text."""
    pool, texts = start(1)
    kinds = []
    for number in range(pool.room() // 4):
        name = b"a" * 350 + b"%05d" % number
        pool.of_class(name)
        kinds.append(pool.add(b"\x10" + u2(pool.text(b"([L" + name + b";)V"))))
    return naming(pool, texts, b"\x13", kinds)


# ---- instructions that do not link

def instructions_that_do_not_link():
    """As many instructions as possible. A class with a long name is at fault for all of them."""
    name, owner, pool = b"f" * LONGEST, Pool(), Pool()
    field = PUBLIC, owner.text(b"x"), owner.text(b"I"), []
    files = {"F.class": class_file(owner, name, flags=PUBLIC | SUPER | ABSTRACT, fields=[field])}
    pair = b"\xb2" + u2(pool.reference(9, name, b"x", b"I")) + b"\xbb" + u2(pool.of_class(name))
    return {**files, **with_code((pair * (CODE // 6 + 1))[:CODE], pool=pool)}


def many_methods_of_few_instructions():
    """As many methods as possible, and instructions with as many references as possible. None of them links."""
    pool, fields, loads = Pool(), [], []
    texts, types = list(itertools.islice(names(), 256)), list(itertools.islice(descriptors(), 256))
    keys = [(pool.text(name), pool.text(descriptor)) for name in texts for descriptor in types][:MOST]
    pool.of_class(b"A"), pool.of_class(OBJECT), pool.text(b"Code"), pool.text(b"I")
    for name in itertools.islice(names(), pool.room() // 3):
        fields.append((PUBLIC, pool.text(name), pool.text(b"I"), []))
        loads.append(b"\xb2" + u2(pool.reference(9, b"A", name, b"I")))
    three, methods = itertools.cycle(loads), []
    for key in keys:
        code = next(three) + next(three) + next(three) + b"\xb1"
        methods.append((PUBLIC, *key, [code_of(pool, code)]))
    return {"A.class": class_file(pool, b"A", fields=fields, methods=methods)}


# ---- faults

def code_faults():
    """An aload_0 at each byte, in methods without local variables."""
    return with_code(b"\x2a" * CODE)


def handlers():
    """As many exception handlers as possible, each of which breaks two rules."""
    pool = Pool()
    table = (u2(1, 0, 1) + u2(pool.text(b"x"))) * MOST
    body = u2(0, 1) + struct.pack(">I", 1) + b"\xb1" + u2(MOST) + table + u2(0)
    each = [attribute(pool, b"Code", body)]
    return {"A.class": class_file(pool, b"A", methods=[(PUBLIC, pool.text(name), pool.text(b"()V"), each) for name in itertools.islice(names(), 31)])}


def format_faults():
    """As many fields as possible, each with flags that are a format fault."""
    pool, fields = Pool(), []
    for name in itertools.islice(names(), MOST - 100):
        fields.append((3, pool.text(name), pool.text(b"I"), []))
    return {"A.class": class_file(pool, b"A", fields=fields)}


KINDS = [methods_of_one_name, few_methods_of_one_name, fields_and_references, references_to_one_member, constants_of_one_missing_class, calls_of_method_handles,
         provided_by_a_long_name, an_interface_many_times, an_interface_by_many_constants, references_below_a_chain,
         references_below_a_shorter_chain, references_to_the_first_of_a_chain, members_below_a_chain,
         few_references_each_below_a_chain, methods_of_a_chain, methods_below_a_chain, below_one_final_class,
         abstract_methods_of_a_chain, no_body_in_a_chain, interfaces_below_a_chain, references_below_interfaces,
         interfaces_that_give_one_method, packages_of_long_names, members_of_a_long_missing_name, one_signature, one_descriptor, one_array_type,
         one_array_type_and_a_fault, one_interface_method, method_types_of_one_descriptor, call_sites_of_one_descriptor,
         calls_of_method_handles_of_one_descriptor, handles_of_one_descriptor, arrays_of_a_class_in_a_descriptor,
         classes_in_many_descriptors, instructions_that_do_not_link,
         many_methods_of_few_instructions, code_faults, handlers, format_faults]
