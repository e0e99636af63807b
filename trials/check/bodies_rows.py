#!/usr/bin/env python3
"""Compares the lines for methods without a body with those of small worlds, written by hand from the rule.

Usage: bodies_rows.py. It needs only Python. Near each world with lines are worlds that are almost equal and have none.
"""
import pathlib
import sys

sys.dont_write_bytecode = True
sys.path.insert(0, str(pathlib.Path(__file__).resolve().parent.parent))
import common

bodies, writer = common.load("check/bodies.py"), common.load("link/worlds.py")
links = bodies.links

STANDARD, OBJECT = (b"java/", b"javax/"), links.OBJECT
LIST, ABSTRACT_LIST = b"java/util/List", b"java/util/AbstractList"
A, B, C, I, J, K, L = b"A", b"B", b"C", b"I", b"J", b"K", b"L"
P_A, P_B, P_C, Q_B, Q_C = b"p/A", b"p/B", b"p/C", b"q/B", b"q/C"
PUBLIC, PRIVATE, PROTECTED, PACKAGE, STATIC, BRIDGE, ABSTRACT = 1, 2, 4, 0, 9, 0x1041, 0x400
OF_OBJECT, OF_STRING, INT, LONG = b"(Ljava/lang/Object;)V", b"(Ljava/lang/String;)V", b"()I", b"()J"


def m(flags=PUBLIC, descriptor=b"()V", name=b"m"):
    return flags, name, descriptor


def abstract_m(flags=PUBLIC, descriptor=b"()V", name=b"m"):
    return flags | ABSTRACT, name, descriptor


def made(name, *methods, extends=OBJECT, implements=(), flags=0x21, references=(), major=52):
    """Returns the file of a class, by default a PUBLIC one. An <init> calls that of java/lang/Object, as a virtual machine requires."""
    codes = {at: [(42,), (183, (10, OBJECT, b"<init>", b"()V"))] for at, method in enumerate(methods) if method[1] == b"<init>"}
    return writer.class_file(name, flags, extends, implements, [], methods, references, major, codes)


def abstract(name, *methods, extends=OBJECT, implements=()):
    return made(name, *methods, extends=extends, implements=implements, flags=0x421)


def interface(name, *methods, extends=(), flags=0x601):
    return made(name, *methods, implements=extends, flags=flags)


def files(*classes):
    """Returns files by their paths, in this order of the paths."""
    return {b"%03d.class" % at: data for at, data in enumerate(classes)}


# What a world shows, its files, and its lines.
ROWS = [
    # Methods of classes.
    ("a class's own method", files(made(C, abstract_m())), ["C: no body for C.m:()V"]),
    ("with a body", files(made(C, m())), []),
    ("of an ABSTRACT class", files(abstract(C, abstract_m())), []),
    ("of an interface", files(interface(C, abstract_m())), []),
    ("of a superclass", files(abstract(A, abstract_m()), made(C, extends=A)), ["C: no body for A.m:()V"]),
    ("overridden", files(abstract(A, abstract_m()), made(C, m(), extends=A)), []),
    ("overridden by a less accessible method", files(abstract(A, abstract_m()), made(C, m(PACKAGE), extends=A)), []),
    ("another descriptor", files(abstract(A, abstract_m()), made(C, m(descriptor=b"(I)V"), extends=A)), ["C: no body for A.m:()V"]),
    ("another name", files(abstract(A, abstract_m()), made(C, m(name=b"n"), extends=A)), ["C: no body for A.m:()V"]),
    ("an ABSTRACT class between", files(abstract(A, abstract_m()), abstract(B, extends=A), made(C, extends=B)), ["C: no body for A.m:()V"]),
    ("which has the body", files(abstract(A, abstract_m()), abstract(B, m(), extends=A), made(C, extends=B)), []),
    ("a class between that is not ABSTRACT", files(abstract(A, abstract_m()), made(B, extends=A), made(C, extends=B)),
     ["B: no body for A.m:()V", "C: no body for A.m:()V"]),
    ("overridden below it", files(abstract(A, abstract_m()), made(B, extends=A), made(C, m(), extends=B)), ["B: no body for A.m:()V"]),
    ("ABSTRACT again", files(made(A, m()), abstract(B, abstract_m(), extends=A), made(C, extends=B)), ["C: no body for B.m:()V"]),
    ("ABSTRACT again, and overridden", files(made(A, m()), abstract(B, abstract_m(), extends=A), made(C, m(), extends=B)), []),
    ("ABSTRACT twice", files(abstract(A, abstract_m()), abstract(B, abstract_m(), extends=A), made(C, extends=B)), ["C: no body for B.m:()V"]),
    ("ABSTRACT twice, and overridden", files(abstract(A, abstract_m()), abstract(B, abstract_m(), extends=A), made(C, m(), extends=B)), []),

    # Package-private methods.
    ("another package", files(abstract(P_A, abstract_m(PACKAGE)), made(Q_C, m(), extends=P_A)), ["q/C: no body for p/A.m:()V"]),
    ("the same package", files(abstract(P_A, abstract_m(PACKAGE)), made(P_C, m(), extends=P_A)), []),
    ("PROTECTED", files(abstract(P_A, abstract_m(PROTECTED)), made(Q_C, m(), extends=P_A)), []),
    ("a package in a package", files(abstract(b"p/r/A", abstract_m(PACKAGE)), made(P_C, m(), extends=b"p/r/A")), ["p/C: no body for p/r/A.m:()V"]),
    ("no package", files(abstract(A, abstract_m(PACKAGE)), made(P_C, m(), extends=A)), ["p/C: no body for A.m:()V"]),
    ("no package, twice", files(abstract(A, abstract_m(PACKAGE)), made(C, m(), extends=A)), []),
    ("overridden beyond another package",
     files(abstract(P_A, abstract_m(PACKAGE)), abstract(Q_B, m(), extends=P_A), made(P_C, m(), extends=Q_B)), []),
    ("not overridden beyond another package",
     files(abstract(P_A, abstract_m(PACKAGE)), abstract(Q_B, m(), extends=P_A), made(P_C, extends=Q_B)), ["p/C: no body for p/A.m:()V"]),
    ("overridden between", files(abstract(P_A, abstract_m(PACKAGE)), abstract(P_B, m(), extends=P_A), made(Q_C, extends=P_B)), []),
    ("overridden through a third method",
     files(abstract(P_A, abstract_m(PACKAGE)), abstract(P_B, abstract_m(), extends=P_A), made(Q_C, m(), extends=P_B)), []),
    ("the third method is not overridden",
     files(abstract(P_A, abstract_m(PACKAGE)), abstract(P_B, abstract_m(), extends=P_A), made(Q_C, extends=P_B)), ["q/C: no body for p/B.m:()V"]),
    ("the third method is package-private",
     files(abstract(P_A, abstract_m(PACKAGE)), abstract(P_B, abstract_m(PACKAGE), extends=P_A), made(Q_C, m(), extends=P_B)),
     ["q/C: no body for p/B.m:()V"]),
    ("a package-private method that overrides a PUBLIC one",
     files(abstract(A, abstract_m()), abstract(P_B, abstract_m(PACKAGE), extends=A), made(Q_C, m(), extends=P_B)), ["q/C: no body for p/B.m:()V"]),
    ("overridden in its package",
     files(abstract(A, abstract_m()), abstract(P_B, abstract_m(PACKAGE), extends=A), made(P_C, m(), extends=P_B)), []),
    ("two methods, the farther with the least name",
     files(abstract(P_A, abstract_m(PACKAGE)), abstract(Q_B, abstract_m(), extends=P_A), made(Q_C, extends=Q_B)),
     ["q/C: no body for p/A.m:()V", "q/C: no body for q/B.m:()V"]),
    ("two methods, the nearer with the least name",
     files(abstract(Q_B, abstract_m(PACKAGE)), abstract(P_A, abstract_m(), extends=Q_B), made(P_C, extends=P_A)),
     ["p/C: no body for p/A.m:()V", "p/C: no body for q/B.m:()V"]),
    ("two methods, one overridden",
     files(abstract(P_A, abstract_m(PACKAGE)), abstract(Q_B, abstract_m(), extends=P_A), made(Q_C, m(), extends=Q_B)),
     ["q/C: no body for p/A.m:()V"]),

    # PRIVATE and STATIC methods, <init> and bridges.
    ("PRIVATE does not override", files(abstract(A, abstract_m()), made(C, m(PRIVATE), extends=A)), ["C: no body for A.m:()V"]),
    ("STATIC does not override", files(abstract(A, abstract_m()), made(C, m(STATIC), extends=A)), ["C: no body for A.m:()V"]),
    ("PRIVATE below the body", files(abstract(A, abstract_m()), abstract(B, m(), extends=A), made(C, m(PRIVATE), extends=B)), []),
    ("STATIC below the body", files(abstract(A, abstract_m()), abstract(B, m(), extends=A), made(C, m(STATIC), extends=B)), []),
    ("PRIVATE and STATIC of superclasses", files(made(A, m(PRIVATE)), made(B, m(STATIC), extends=A), made(C, extends=B)), []),
    ("a name like that of <init>", files(abstract(A, abstract_m(name=b"init")), made(C, extends=A)), ["C: no body for A.init:()V"]),
    ("<init>", files(abstract(A, m(name=b"<init>")), made(C, extends=A)), []),
    ("an ABSTRACT <init> is a format fault", files(abstract(A, abstract_m(name=b"<init>")), made(C, extends=A)), []),
    ("an ABSTRACT <clinit>", files(abstract(A, abstract_m(PACKAGE, name=b"<clinit>")), made(C, extends=A)), []),
    ("<init> of an interface", files(interface(I, m(name=b"<init>")), made(C, implements=[I])), []),
    ("no bridge", files(abstract(A, abstract_m(descriptor=OF_OBJECT)), made(C, m(descriptor=OF_STRING), extends=A)),
     ["C: no body for A.m:(Ljava/lang/Object;)V"]),
    ("a bridge", files(abstract(A, abstract_m(descriptor=OF_OBJECT)), made(C, m(descriptor=OF_STRING), m(BRIDGE, OF_OBJECT), extends=A)), []),

    # Methods of interfaces.
    ("of an interface", files(interface(I, abstract_m()), made(C, implements=[I])), ["C: no body for I.m:()V"]),
    ("implemented", files(interface(I, abstract_m()), made(C, m(), implements=[I])), []),
    ("of an ABSTRACT class", files(interface(I, abstract_m()), abstract(C, implements=[I])), []),
    ("a method that is not PUBLIC", files(interface(I, abstract_m()), made(C, m(PROTECTED), implements=[I])), []),
    ("a PRIVATE method", files(interface(I, abstract_m()), made(C, m(PRIVATE), implements=[I])), []),
    ("a STATIC method", files(interface(I, abstract_m()), made(C, m(STATIC), implements=[I])), ["C: no body for I.m:()V"]),
    ("a superclass's method", files(interface(I, abstract_m()), made(B, m()), made(C, extends=B, implements=[I])), []),
    ("a superclass's method in another package", files(interface(I, abstract_m()), made(Q_B, m(PACKAGE)), made(P_C, extends=Q_B, implements=[I])), []),
    ("a superclass's PRIVATE method", files(interface(I, abstract_m()), made(B, m(PRIVATE)), made(C, extends=B, implements=[I])), []),
    ("a superclass's STATIC method", files(interface(I, abstract_m()), made(B, m(STATIC)), made(C, extends=B, implements=[I])),
     ["C: no body for I.m:()V"]),
    ("a method above a STATIC one", files(interface(I, abstract_m()), made(A, m()), made(B, m(STATIC), extends=A), made(C, extends=B, implements=[I])),
     []),
    ("of a superclass's interface", files(interface(I, abstract_m()), abstract(B, implements=[I]), made(C, extends=B)), ["C: no body for I.m:()V"]),
    ("implemented below the superclass", files(interface(I, abstract_m()), abstract(B, implements=[I]), made(C, m(), extends=B)), []),
    ("of a superinterface", files(interface(I, abstract_m()), interface(J, extends=[I]), made(C, implements=[J])), ["C: no body for I.m:()V"]),
    ("of two interfaces", files(interface(I, abstract_m()), interface(J, abstract_m()), made(C, implements=[J, I])), ["C: no body for I.m:()V"]),
    ("of a superinterface with the least name",
     files(interface(A, abstract_m()), interface(K, abstract_m(), extends=[A]), made(C, implements=[K])), ["C: no body for A.m:()V"]),
    ("of a superclass and an interface with the least name",
     files(interface(A, abstract_m()), abstract(B, abstract_m()), made(C, extends=B, implements=[A])), ["C: no body for B.m:()V"]),

    # Default methods.
    ("a STATIC method of a subinterface", files(interface(I, abstract_m()), interface(J, m(STATIC), extends=[I]), made(C, implements=[J])),
     ["C: no body for I.m:()V"]),
    ("a PRIVATE method of a subinterface", files(interface(I, abstract_m()), interface(J, m(PRIVATE), extends=[I]), made(C, implements=[J])),
     ["C: no body for I.m:()V"]),
    ("a default method of a subinterface", files(interface(I, abstract_m()), interface(J, m(), extends=[I]), made(C, implements=[J])), []),
    ("a default method of another interface", files(interface(I, abstract_m()), interface(J, m()), made(C, implements=[I, J])), []),
    ("a default method of a superclass's interface",
     files(interface(I, abstract_m()), interface(J, m()), made(B, implements=[J]), made(C, extends=B, implements=[I])), []),
    ("a default method, and an ABSTRACT one of a superclass",
     files(abstract(A, abstract_m()), interface(J, m()), made(C, extends=A, implements=[J])), ["C: no body for A.m:()V"]),
    ("overridden in the class", files(abstract(A, abstract_m()), interface(J, m()), made(C, m(), extends=A, implements=[J])), []),
    ("a default method, and a STATIC one of the class", files(interface(I, abstract_m()), interface(J, m()), made(C, m(STATIC), implements=[I, J])), []),
    ("a default method, and a PRIVATE one of the class", files(interface(I, abstract_m()), interface(J, m()), made(C, m(PRIVATE), implements=[I, J])), []),
    ("a superclass's default method, and a PRIVATE method",
     files(interface(I, abstract_m()), interface(J, m(), extends=[I]), made(B, implements=[J]), made(C, m(PRIVATE), extends=B)), []),
    ("a default method, and a STATIC one of a superclass, whose superclass has no body",
     files(interface(I, abstract_m(), m(name=b"n")), interface(J, m()), made(A, implements=[I]), abstract(B, m(STATIC), extends=A),
           made(C, extends=B, implements=[J])), ["A: no body for I.m:()V"]),
    ("two default methods, and an ABSTRACT one", files(interface(I, m()), interface(J, m()), interface(K, abstract_m()), made(C, implements=[I, J, K])),
     ["C: no body for K.m:()V"]),
    ("two default methods", files(interface(I, m()), interface(J, m()), made(C, implements=[I, J])), []),
    ("the class has the body", files(interface(I, m()), interface(J, m()), interface(K, abstract_m()), made(C, m(), implements=[I, J, K])), []),
    ("one default method is that of a subinterface",
     files(interface(I, m()), interface(J, m(), extends=[I]), interface(K, abstract_m()), made(C, implements=[I, J, K])), []),
    ("two default methods below an ABSTRACT one",
     files(interface(A, abstract_m()), interface(I, m(), extends=[A]), interface(J, m(), extends=[A]), made(C, implements=[I, J])),
     ["C: no body for A.m:()V"]),
    ("a default method below two",
     files(interface(A, abstract_m()), interface(I, m(), extends=[A]), interface(J, m(), extends=[A]), interface(L, m(), extends=[I, J]),
           made(C, implements=[I, J, L])), []),
    ("ABSTRACT again in a subinterface", files(interface(I, m()), interface(J, abstract_m(), extends=[I]), made(C, implements=[J])),
     ["C: no body for J.m:()V"]),
    ("both interfaces are direct", files(interface(I, m()), interface(J, abstract_m(), extends=[I]), made(C, implements=[I, J])),
     ["C: no body for J.m:()V"]),
    ("the class above is not ABSTRACT",
     files(interface(I, m()), interface(J, abstract_m(), extends=[I]), made(B, implements=[I]), made(C, extends=B, implements=[J])),
     ["C: no body for J.m:()V"]),
    ("only the default method", files(interface(I, m()), interface(J, abstract_m(), extends=[I]), made(C, implements=[I])), []),
    ("the class above has the body",
     files(interface(I, m()), interface(J, abstract_m(), extends=[I]), made(B, m()), made(C, extends=B, implements=[J])), []),
    ("a default method again",
     files(interface(I, m()), interface(J, abstract_m(), extends=[I]), interface(K, m(), extends=[J]), made(C, implements=[K])), []),
    ("a default method in a diamond",
     files(interface(I, abstract_m()), interface(J, m(), extends=[I]), interface(K, extends=[I]), made(C, implements=[J, K])), []),
    ("an ABSTRACT method in a diamond",
     files(interface(I, m()), interface(J, abstract_m(), extends=[I]), interface(K, extends=[I]), made(C, implements=[J, K])),
     ["C: no body for J.m:()V"]),

    # Methods of java/lang/Object.
    ("a method that it lacks", files(interface(I, abstract_m(name=b"hashCode", descriptor=LONG)), made(C, implements=[I])),
     ["C: no body for I.hashCode:()J"]),
    ("its method", files(interface(I, abstract_m(name=b"hashCode", descriptor=INT)), made(C, implements=[I])), []),
    ("its PROTECTED method", files(interface(I, abstract_m(name=b"finalize")), made(C, implements=[I])), []),
    ("its method, ABSTRACT again", files(abstract(A, abstract_m(name=b"hashCode", descriptor=INT)), made(C, extends=A)),
     ["C: no body for A.hashCode:()I"]),
    ("a file has it", files(made(OBJECT, extends=None), interface(I, abstract_m(name=b"finalize")), made(C, implements=[I])),
     ["C: no body for I.finalize:()V"]),
    ("a file has it with the method",
     files(made(OBJECT, m(name=b"finalize"), extends=None), interface(I, abstract_m(name=b"finalize")), made(C, implements=[I])), []),
    ("it has the ABSTRACT method", files(made(OBJECT, abstract_m(), extends=None), made(C)),
     ["C: no body for java/lang/Object.m:()V", "java/lang/Object: no body for java/lang/Object.m:()V"]),

    # Supertypes that are outside, or whose files are shadowed, or that do not load.
    ("a name that is outside", files(interface(I, abstract_m(descriptor=OF_STRING)), made(C, implements=[I], references=[(7, LIST)])),
     ["C: no body for I.m:(Ljava/lang/String;)V"]),
    ("an outside superclass", files(interface(I, abstract_m()), made(C, extends=ABSTRACT_LIST, implements=[I])), []),
    ("an outside superinterface", files(interface(I, abstract_m(), extends=[LIST]), made(C, implements=[I])), []),
    ("an outside superinterface of a superclass", files(abstract(A, abstract_m(), implements=[LIST]), abstract(B, extends=A), made(C, extends=B)), []),
    ("a file has the superinterface", files(interface(LIST, abstract_m()), made(C, implements=[LIST])), ["C: no body for java/util/List.m:()V"]),
    ("a shadowed body", files(interface(I, abstract_m()), made(C, implements=[I]), made(C, m(), implements=[I])), ["C: no body for I.m:()V"]),
    ("a shadowed class without the body", files(interface(I, abstract_m()), made(C, m(), implements=[I]), made(C, implements=[I])), []),
    ("a shadowed interface", files(interface(I), interface(I, abstract_m()), made(C, implements=[I])), []),
    ("an accessible interface", files(interface(b"p/I", abstract_m(), flags=0x600), made(P_C, implements=[b"p/I"])), ["p/C: no body for p/I.m:()V"]),
    ("an inaccessible interface", files(interface(b"p/I", abstract_m(), flags=0x600), made(Q_C, implements=[b"p/I"])), []),
    ("a missing interface", files(interface(I, abstract_m()), made(C, implements=[I, J])), []),
    ("a missing superclass of the superclass", files(abstract(A, abstract_m(), extends=B), made(C, extends=A)), []),
    ("a format fault", files(interface(I, abstract_m()), made(C, m(PUBLIC | PRIVATE, name=b"n"), implements=[I])), []),
    ("a format fault of the interface", files(interface(I, abstract_m(), m(PACKAGE, name=b"n")), made(C, implements=[I])), []),
    ("circular", files(made(A, abstract_m(), extends=B), made(B, extends=A), made(C, extends=A)), []),

    # The order of lines, and their texts.
    ("the order of names and descriptors",
     files(interface(I, abstract_m(name=b"n"), abstract_m(descriptor=INT), abstract_m(descriptor=b"(I)V"), abstract_m(name=b"m!"), abstract_m()),
           made(C, implements=[I])),
     ["C: no body for I.m:()I", "C: no body for I.m:()V", "C: no body for I.m:(I)V", "C: no body for I.m!:()V", "C: no body for I.n:()V"]),
    ("classes of several lines",
     files(abstract(A, abstract_m(name=b"o"), abstract_m()), interface(I, abstract_m(name=b"n"), abstract_m()), made(C, extends=A, implements=[I])),
     ["C: no body for A.m:()V", "C: no body for I.n:()V", "C: no body for A.o:()V"]),
    ("the order of classes", files(made(b"b", abstract_m()), made(b"a/b", abstract_m()), made(b"a", abstract_m()), made(b"a1", abstract_m())),
     ["a: no body for a.m:()V", "a/b: no body for a/b.m:()V", "a1: no body for a1.m:()V", "b: no body for b.m:()V"]),
    ("names that are not ASCII", files(made(b"\xc3\xa9", abstract_m(name=b"\xc3\xa8"))), ["\\u00e9: no body for \\u00e9.\\u00e8:()V"]),
    ("version 51", files(made(C, abstract_m(), major=51)), ["C: no body for C.m:()V"]),
]


def lines_of(world):
    """Returns the lines of a world."""
    return [bodies.line(name, *one) for name in sorted(world.given) for one in bodies.without_body(world, name)]


def missed():
    """Yields the rows with other lines than wanted, and those with a class whose lines and calls do not match."""
    for about, classes, wanted in ROWS:
        world = links.World(list(classes.items()), STANDARD)
        unmatched = [name for name in world.given if not bodies.lines_match(world, name)]
        if lines_of(world) != wanted or unmatched:
            yield about, wanted, lines_of(world), unmatched


def main():
    found = list(missed())
    for about, wanted, lines, unmatched in found:
        print(f"{about}: wanted {wanted}, found {lines}, lines and calls differ in {unmatched}")
    print(f"{len(ROWS)} rows, {len(ROWS) - len(found)} agree")
    sys.exit(1 if found else 0)


if __name__ == "__main__":
    main()
