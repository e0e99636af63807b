"""A plain judge of methods without a body: calls of them on an object of a class select an ABSTRACT method, or none.

It is written from JVMS SE 8, 5.4.5 and 6.5, invokevirtual and invokeinterface. A World is that of trials/link/judge.py. A key is
the name and the descriptor of a method. The owner of a method is the class or interface that declares it.

without_body(world, name) returns the owner and the key of each line of a class, and line(name, owner, key) returns the text.
abstract_methods(world, name) returns the methods that can lack a body. selected(world, name, owner, key) returns what a call of
one selects, and has_body(world, name, owner, key) whether this is a body. lines_match(world, name) compares lines and calls.
"""
import pathlib
import sys

sys.path.insert(0, str(pathlib.Path(__file__).resolve().parent.parent))
import common

links = common.load("link/judge.py")
ABSTRACT, INTERFACE, STATIC = links.ABSTRACT, links.INTERFACE, links.STATIC


def is_judged(world, name):
    """Returns whether a class may have lines: it loads and can have objects, and none of its supertypes is outside."""
    return (world.load(name) == links.OK and not world.records[name].flags & (ABSTRACT | INTERFACE)
            and not any(map(world.outside, world.above(name))))


def classes_of(world, name):
    """Returns a class and its superclasses, the nearest first."""
    return [name, *world.superclasses(name)]


def interfaces_of(world, name):
    return [one for one in world.above(name) if world.records[one].interface()]


def is_declared(world, owner, key, passed_over):
    """Returns whether a class declares a method with this key that has none of the flags `passed_over`."""
    return any(method[:2] == key and not method[2] & passed_over for method in world.records[owner].methods)


def is_abstract(world, owner, key):
    """Returns whether a class declares an ABSTRACT method with this key that instructions can call: not `<clinit>` (2.9)."""
    return bool((world.overridable(owner, key) or 0) & ABSTRACT) and key[0] != b"<clinit>"


def overrides(world, lower, owner, key):
    """Returns whether the method of a class overrides that of a superclass, other than through a third method (5.4.5)."""
    flags = world.overridable(owner, key)
    if flags is None or world.overridable(lower, key) is None:
        return False
    return bool(flags & (links.PUBLIC | links.PROTECTED)) or links.package(lower) == links.package(owner)


def bodies_in(world, interfaces, key):
    """Returns the interfaces of the maximally-specific methods that are not ABSTRACT (5.4.3.3)."""
    found = [one for one in interfaces if world.overridable(one, key) is not None]
    maximal = [one for one in found if not any(one in world.above(other) for other in found if other != one)]
    return [one for one in maximal if not is_abstract(world, one, key)]


# ---- lines

def in_classes(world, classes, key):
    """Returns the classes whose ABSTRACT method is not overridden by a class before them."""
    return [owner for at, owner in enumerate(classes) if is_abstract(world, owner, key)
            and not any(overrides(world, lower, owner, key) for lower in classes[:at])]


def in_interfaces(world, classes, interfaces, key):
    """Returns the interfaces that declare an ABSTRACT method, if no class declares it and not exactly one default method is left."""
    if any(is_declared(world, one, key, STATIC) for one in classes) or len(bodies_in(world, interfaces, key)) == 1:
        return []
    return [one for one in interfaces if is_abstract(world, one, key)]


def without_body(world, name):
    """Returns the lines of a class in order: the methods of classes, and for each key that of the interface with the least name."""
    if not is_judged(world, name):
        return []
    classes, interfaces = classes_of(world, name), interfaces_of(world, name)
    found = []
    for key in {method[:2] for owner in classes + interfaces for method in world.records[owner].methods}:
        owners = in_classes(world, classes, key) + sorted(in_interfaces(world, classes, interfaces, key))[:1]
        found += [(owner, key) for owner in owners]
    return sorted(found, key=lambda method: (method[1], method[0]))


def line(name, owner, key):
    return f"{links.shown(name)}: no body for {links.shown(owner)}{links.member(key)}"


# ---- calls

def abstract_keys(world, owner):
    """Returns the keys of the ABSTRACT methods that a class declares."""
    return [method[:2] for method in world.records[owner].methods if is_abstract(world, owner, method[:2])]


def abstract_methods(world, name):
    """Returns the owner and the key of each ABSTRACT method of a class and its supertypes."""
    return sorted((owner, key) for owner in [name, *world.above(name)] for key in abstract_keys(world, owner))


def selected(world, name, owner, key, passed_over=STATIC):
    """Returns the owner of the method that a call of an owner's method on an object of a class selects, or None.

    A call of an interface's method passes over the methods of classes that have one of the flags `passed_over`.
    """
    classes = classes_of(world, name)
    if world.records[owner].interface():
        bodies = bodies_in(world, interfaces_of(world, name), key)
        declaring = [one for one in classes if is_declared(world, one, key, passed_over)]
        return declaring[0] if declaring else bodies[0] if len(bodies) == 1 else None
    # Downwards from the owner: the method of each class that overrides one of these overrides the owner's.
    overriding = [owner]
    for lower in reversed(classes[:classes.index(owner)]):
        if any(overrides(world, lower, one, key) for one in overriding):
            overriding.append(lower)
    return overriding[-1]


def has_body(world, name, owner, key):
    home = selected(world, name, owner, key)
    return home is not None and not is_abstract(world, home, key)


def lines_match(world, name):
    """Returns whether the lines of a class are the ABSTRACT methods that calls select, and one for each key if they select none."""
    lines = without_body(world, name)
    if not is_judged(world, name):
        return not lines
    homes = {(selected(world, name, owner, key), key) for owner, key in abstract_methods(world, name)
             if not has_body(world, name, owner, key)}
    interfaces = interfaces_of(world, name)
    return {(None if owner in interfaces else owner, key) for owner, key in lines} == homes and len(lines) == len(homes)
