"""Compares a report with the results of the virtual machine, by reference and by instruction.

read_report and read_resolved read the lines of `jclink check` and of Resolve.java. `Comparison(files, prefixes).tell` yields
a sort for each class, reference and instruction, which says how both sides agree or differ. A sort that begins with
"differs" has no explanation. If a difference is explained, or a result not compared, the report must agree with the plain
judge of trials/link. run.py uses this module.
"""
import importlib.util
import pathlib
import re
import typing

PATH = pathlib.Path(__file__).resolve().parent.parent / "link" / "judge.py"
spec = importlib.util.spec_from_file_location("link_judge", PATH)
judge = importlib.util.module_from_spec(spec)
spec.loader.exec_module(judge)

ERRORS = {"NoClass": "NoClassDefFoundError", "Format": "ClassFormatError", "Circular": "ClassCircularityError",
          "Incompatible": "IncompatibleClassChangeError", "IllegalAccess": "IllegalAccessError",
          "NoField": "NoSuchFieldError", "NoMethod": "NoSuchMethodError", "Instantiation": "InstantiationError"}
# The messages of the machine that name the class at fault.
FAULTS = [re.compile(text) for text in (
    r"failed to access class (\S+) from class", r"cannot access its super(?:class|interface) (\S+) \(",
    r"Found (?:class|interface) (\S+), but", r"has interface (\S+) as super class", r"can not implement (\S+), because",
    r"tried to access (?:\S+ )*field (\S+)\.[^.\s]+ \(",
    r"tried to access (?:\S+ )*method '(?:\S+ )?([^\s(]+)\.[^.(]+\(")]
# The messages for errors of instructions. They name the class of the reference (OF_FIELD, OF_CLASS) or the class that declares
# the method (OF_METHOD).
OF_FIELD = re.compile(
    r"(?:Expected (?:non-)?static|Update to (?:non-)?static final) field (\S+)\.[^.\s]+(?: attempted .*)?")
OF_METHOD = re.compile(r"Expect(?:ed|ing) (?:(?:non-)?static|instance not static) method '\S+ ([^\s(]+)\.[^.(]+\(.*")
OF_CLASS = re.compile(r"(\S+?)(?:: method '.*' not found)?")
FORMAT = "error 2 Format "
FINAL = "cannot inherit from final class"
ADDED = "a method that the machine itself adds below interfaces with defaults"
LINKS, NOT_ASKED = "links", "not asked"


class Part(typing.NamedTuple):
    """What the report says about a class.

    `answers` has references and answers by index, `errors` the errors of instructions by method and offset, and `faulty` the
    methods with code faults.
    """
    state: str
    answers: dict
    errors: dict
    faulty: set


class Found(typing.NamedTuple):
    """What the machine finds in a class.

    `outcomes` has the results of references by index. `instructions` has opcode, index and result by method and offset.
    """
    state: str
    outcomes: dict
    instructions: dict


def read_report(lines):
    """Returns the Part of each class of a report."""
    classes, part = {}, None
    for line in lines[lines.index("[parts]") + 1 if "[parts]" in lines else 0:]:
        if line == "[circular]":
            break
        if found := re.fullmatch(r"part (.*): (loaded|error .*)", line):
            part = classes[found[1]] = Part(found[2], {}, {}, set())
        elif found := re.fullmatch(r"  #(\d+) (.*) -> (.*)", line):
            part.answers[int(found[1])] = found[2], found[3]
        elif found := re.fullmatch(r"  link (\d+) (\d+) (error .*)", line):
            part.errors[int(found[1]), int(found[2])] = found[3]
        elif found := re.fullmatch(r"  code S\d+ (\d+) \d+", line):
            part.faulty.add(int(found[1]))
    return classes


def read_resolved(lines):
    """Returns for each tree what the machine finds in each class."""
    trees, classes, now = {}, {}, None
    for line in lines:
        if line.startswith("tree "):
            classes = trees.setdefault(line[5:], {})
        elif line.startswith("class "):
            name, state = line[6:].split(": ", 1)
            now = classes[name] = Found(state, {}, {})
        elif line.startswith("  #"):
            index, outcome = line[3:].split(" ", 1)
            now.outcomes[int(index)] = outcome
        else:
            opcode, index, places, outcome = re.fullmatch(r"  (\d+) #(\d+) at (\S+): (.*)", line).groups()
            for place in places.split(","):
                method, offset = place.split(":")
                now.instructions[int(method), int(offset)] = int(opcode), int(index), outcome
    return trees


def broken(outcome):
    """Returns the error of an outcome, and the class at fault or None if the message does not name it."""
    _, error, message = outcome.split(" ", 2)
    if error in ("NoClassDefFoundError", "ClassNotFoundException", "ClassCircularityError"):
        return "NoClassDefFoundError" if error.startswith("ClassNot") else error, inner(message.replace(".", "/"))
    found = next((found for found in (pattern.search(message) for pattern in FAULTS) if found), None)
    return error, found[1].replace(".", "/") if found else None


def points_at(message, named, home):
    """Returns whether the message of an instruction's error names the class that the report implies."""
    for pattern, wanted in ((OF_FIELD, named), (OF_METHOD, home), (OF_CLASS, named)):
        if found := pattern.fullmatch(message):
            return found[1].replace(".", "/") == wanted
    return False


def inner(name):
    """Returns the class that a name means, or the innermost element class of an array."""
    element = name.lstrip("[")
    return element[1:-1] if name.startswith("[") and element.startswith("L") else element


def named_in(reference):
    """Returns the class or array that a reference names."""
    return reference.split(" ", 1)[1].split(".", 1)[0]


def home_of(answer):
    """Returns the class that an answer To finds, or the class that declares the member it finds."""
    return answer[3:].split(".", 1)[0]


def key_of(reference):
    """Returns the name and the descriptor of the member that a reference names."""
    name, descriptor = reference.split(".", 1)[1].split(":", 1)
    return name.encode(), descriptor.encode()


class Comparison:
    def __init__(self, files, prefixes):
        self.files, self.prefixes, self.made, self.ruled, self.unlinked = files, prefixes, None, None, set()

    def world(self):
        """Returns the judge's view of the tree. Only differences need it."""
        if self.made is None:
            self.made = judge.World(self.files, tuple(prefix.encode() for prefix in self.prefixes))
            self.names = {judge.shown(name): name for name in self.made.records}
        return self.made

    def raw(self, name):
        self.world()
        return self.names.get(name, name.encode())

    def outside(self, name):
        return name is not None and self.world().outside(self.raw(name))

    def judged(self, name):
        """Returns what the judge says about a class."""
        if self.ruled is None:
            self.ruled = read_report(self.world().parts())
        return self.ruled.get(name, Part("", {}, {}, set()))

    def declares(self, home, reference):
        """Returns whether a class declares the member that a reference names, or the reference names no member."""
        record = self.world().records[home]
        return "." not in reference or any(member[:2] == key_of(reference) for member in record.fields + record.methods)

    def possible(self, user, element):
        """Returns all possible errors of loading and naming a class: its own and those of its transitive supertypes."""
        world, found = self.world(), set()
        for name in [element, *world.above(element)]:
            record = world.records.get(name)
            if record is None:
                found |= set() if world.outside(name) else {("NoClass", name)}
                continue
            found |= {("Circular", name)} if world.circular(name) else set()
            for at, parent in enumerate(record.supers()):
                if parent in world.records:
                    found |= set() if world.sees(name, parent) else {("IllegalAccess", parent)}
                    wanted = record.parent is None or at > 0
                    found |= set() if world.records[parent].interface() == wanted else {("Incompatible", parent)}
        if element in world.records and not world.sees(user, element):
            found.add(("IllegalAccess", element))
        return {(ERRORS[error], judge.shown(name)) for error, name in found}

    def of_loading(self, user, named, answer, outcome):
        """Returns how the machine's error of loading or naming a class agrees with the report, why it differs, or None."""
        error, fault = broken(outcome)
        if answer.startswith("error "):
            _, _, ours, at = answer.split(" ", 3)
            if ERRORS[ours] == error and (fault is None or fault == at):
                return f"agrees: {ours}"
            possible = self.possible(self.raw(user), self.raw(inner(named)))
            if (error, fault) in possible and (ERRORS[ours], at) in possible:
                return "explained: another of several faults of loading"
        if FINAL in outcome:
            return "explained: final superclass, not looked at"
        if "loader constraint" in outcome:
            return "explained: loader constraint, not looked at"
        if self.outside(fault):
            return f"explained: {error} at a class outside"
        start, world = self.raw(inner(named)), self.world()
        if any(name in world.records and world.records[name].faults for name in [start, *world.above(start)]):
            return "not compared: below a class with a format fault"
        return None

    def of_class(self, name, state, theirs):
        if state.startswith(FORMAT):
            return "not compared: class with a format fault"
        if theirs.startswith("loaded but "):
            return f"not compared: class that {theirs.split(' ')[3]} keeps from being linked"
        if theirs == "loaded":
            return "agrees: loaded" if state == "loaded" else "differs: not loaded"
        return self.of_loading(name, name, state, theirs) or f"differs: {theirs.split(' ')[1]} of loading"

    def of_reference(self, user, reference, answer, outcome):
        named = named_in(reference)
        if answer.startswith(FORMAT):
            return "not compared: class with a format fault"
        if answer.startswith("Outside "):
            if not outcome.startswith("To "):
                return f"outside: {outcome.split(' ')[1]}"
            home = self.raw(inner(home_of(outcome)))
            if home not in self.world().given:
                return "outside: found"
            return f"outside: found as {ADDED}" if not self.declares(home, reference) else "differs: found in the tree"
        if answer == outcome:
            return "agrees: To"
        why = None if outcome.startswith("To ") else self.of_loading(user, named, answer, outcome)
        if why is None and "." in reference:
            found = self.found_elsewhere if outcome.startswith("To ") else self.refused
            why = found(user, named, reference, answer, outcome)
        return why or f"differs: {answer.split(' ')[0]} and {outcome.split(' ')[0]}"

    def refused(self, user, _named, reference, answer, outcome):
        """Returns why the machine refuses a member that the report finds, or None."""
        if answer.startswith("To java/lang/Object.") and "tried to access protected" in outcome:
            if self.world().records[self.raw(user)].interface():
                return "explained: an interface is no subclass of java/lang/Object to the machine"
        if outcome.startswith("undeclared error AbstractMethodError ") and ".clone:()Ljava/lang/Object;" in reference:
            return "not compared: the machine doesn't tell which interface declares an abstract clone"
        return None

    def found_elsewhere(self, _user, named, reference, answer, outcome):
        """Returns why the machine finds a member in another class, or None."""
        home, start, world = self.raw(home_of(outcome)), self.raw(named), self.world()
        if world.outside(home) and any(world.outside(name) for name in world.above(start)):
            return "explained: found in a class outside, which look-up passes over"
        if not answer.startswith("To ") or reference.startswith("field "):
            return None
        key = key_of(reference)
        ours = self.raw(home_of(answer))
        search = world.method if reference.startswith("method ") else world.interface_method
        among = [one for one in world.above(start) if one in world.records and world.records[one].interface()
                 and any(method[:2] == key and not method[2] & (judge.PRIVATE | judge.STATIC)
                         for method in world.records[one].methods)]
        if ours not in among or search(start, key)[0] != ours:
            return None
        if home in among:
            return "explained: another of several superinterfaces"
        return f"explained: {ADDED}" if home in world.records and not self.declares(home, reference) else None

    def of_instruction(self, user, kind, reference, answer, outcome, error, theirs):
        """Returns how the report and the machine agree about an instruction, which links or has an error."""
        if theirs == NOT_ASKED:
            return "not compared: the machine finds nothing of the tree by its reference"
        if theirs == LINKS and kind == "invokeinterface" and self.of_private(user, reference, answer):
            return "explained: version 17 invokes private methods by invokeinterface"
        if error == theirs:
            return "agrees: links"
        if theirs == LINKS or error == LINKS:
            sort = self.of_one_side(user, kind, reference, answer, theirs)
        else:
            sort = self.of_both_sides(named_in(reference), answer, outcome, error, theirs)
        both = re.sub(r"error (?:\d+ )?(\S+) .*", r"\1", error), re.sub(r"error (\S+) .*", r"\1", theirs)
        return sort or f"differs: {kind}, {' and '.join(both)}"

    @staticmethod
    def of_both_sides(named, answer, outcome, error, theirs):
        """Returns how an instruction's errors on both sides agree or why they differ, or None."""
        _, _, ours, fault = error.split(" ", 3)
        newer = theirs.startswith("links but ")
        _, name, message = theirs.removeprefix("links but ").split(" ", 2)
        if fault != (named if ours == "NoMethod" else home_of(answer)):
            return "differs: class at fault"
        if ERRORS[ours] != name or not points_at(message, named, home_of(outcome)):
            return None
        if newer and "attempted from a different method" in message:
            return "explained: version 17 looks at the method of a store from class files of version 53 on"
        return None if newer else f"agrees: {ours}"

    def of_one_side(self, user, kind, reference, answer, theirs):
        """Returns why an instruction links on one side only, or None."""
        if theirs == LINKS:
            return None
        if "loader constraint" in theirs:
            return "explained: loader constraint, not looked at"
        if home_of(answer) in self.unlinked:
            return "not compared: a class that the machine can't link"
        if kind != "invokespecial":
            return None
        if theirs.startswith("error AbstractMethodError "):
            return "explained: invokespecial of an abstract method, an error of running"
        direct = [self.raw(user), *self.world().records[self.raw(user)].interfaces]
        if "direct superinterface of" in theirs and self.raw(named_in(reference)) not in direct:
            return "explained: invokespecial of an interface that is no direct superinterface, an error of verifying"
        return None

    def of_private(self, user, reference, answer):
        """Returns whether a class refers to its own private method."""
        if home_of(answer) != user:
            return False
        methods = self.world().records[self.raw(user)].methods
        return any(method[:2] == key_of(reference) and method[2] & judge.PRIVATE for method in methods)

    def checked(self, sort, name, agrees):
        """Returns a sort. If the machine does not confirm the report, the judge must agree with it."""
        told = sort.startswith(("agrees", "differs")) or sort == "outside: found"
        return sort if told or agrees(self.judged(name)) else f"differs: from the judge ({sort})"

    def tell(self, ours, theirs):
        """Yields a sort and the results of both sides for each class, reference and instruction."""
        self.unlinked = {name for name, found in theirs.items() if found.state.startswith("loaded but ")}
        for name in sorted(ours.keys() | theirs.keys()):
            if name not in ours or name not in theirs:
                yield "differs: class of one side alone", name
                continue
            part, found = ours[name], theirs[name]
            sort = self.of_class(name, part.state, found.state)
            checked = self.checked(sort, name, lambda judged: judged.state == part.state)
            yield "class " + checked, f"{name}: {part.state} | {found.state}"
            for told, line in self.references(name, part, found, sort):
                yield "reference " + told, line
            for told, line in self.instructions(name, part, found):
                yield "instruction " + told, line

    def references(self, name, part, found, sort):
        for index in sorted(part.answers.keys() | found.outcomes.keys()):
            reference, answer = part.answers.get(index, ("", "missing"))
            outcome = found.outcomes.get(index, "missing")
            line = f"{name} #{index} {reference} -> {answer} | {outcome}"
            if part.state == found.state == "loaded" and "missing" not in (answer, outcome):
                told = self.of_reference(name, reference, answer, outcome)
                yield self.checked(told, name, lambda judged: judged.answers.get(index) == (reference, answer)), line
            elif part.state == "loaded" and outcome == "missing" and not sort.startswith("differs"):
                yield "not compared: the machine can't load or link its class", line
            elif part.state != "loaded" and answer == "NotLoaded" and outcome == "missing":
                yield "agrees: NotLoaded", line
            elif not sort.startswith("not compared"):
                yield "differs: of one side alone", line

    def instructions(self, name, part, found):
        if part.state == "loaded" and found.state != "loaded":
            yield from self.unasked(name, part)
            return
        for place in sorted(part.errors.keys() | found.instructions.keys()):
            error = part.errors.get(place, LINKS)
            opcode, index, theirs = found.instructions.get(place, (0, 0, "missing"))
            reference, answer = part.answers.get(index, ("", "missing"))
            kind = judge.INSTRUCTIONS.get(opcode, "no instruction")
            line = f"{name} {place[0]}:{place[1]} {kind} {reference} -> {error} | {theirs}"
            if answer.startswith("To ") and place[0] not in part.faulty:
                told = self.of_instruction(name, kind, reference, answer, found.outcomes[index], error, theirs)
                yield self.checked(told, name, lambda judged: judged.errors.get(place, LINKS) == error), line
            elif error != LINKS:
                yield "differs: nothing links there", line

    def unasked(self, name, part):
        """Yields the errors of instructions in a class that only the report loads."""
        for place, error in part.errors.items():
            told = self.checked("not compared: the machine can't load or link its class", name,
                                lambda judged: judged.errors.get(place) == error)
            yield told, f"{name} {place[0]}:{place[1]} -> {error}"
        for place in self.judged(name).errors.keys() - part.errors.keys():
            yield "differs: from the judge", f"{name} {place[0]}:{place[1]}"
