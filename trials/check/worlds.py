"""Makes random worlds as folders.

Their classes are those of trials/link/worlds.py, or classes that mostly load (classes.py). Half of the worlds have odd names.
In half of them some files are changed, truncated or faulty. Some classes are in several files.

make_world(rng) returns bytes by path and the outside prefixes. None instead of bytes is a symbolic link.
"""
import re

import classes
import common
import judge

links = common.load("link/worlds.py")

FOLDERS = [b"", b"", b"", b"p/", b"a/", b"a-/", b"a.b/", b"a/a/", b"x.class/", b" /", b"\\/", "\u00e9/".encode(), b"p/q/r/s/"]
STEMS = [b"A", b"B", b"C", b"D", b"E", b"a", b"b", b"", b"-", b" ", b"\\", b"\\x5c", b"\n", b"\x01", b"\x7f", b"~", b"x: y",
         "\u00e9".encode(), "\U0001f600".encode(), b"A.class", b"#1"]
PASSED_OVER = [b"A.CLASS", b"A.class.txt", b"Aclass", b"class", b"A", b"\xff.txt", b".class~"]
LINKS = [b"link.class", b"a/link.class", b"folder", b"p/folder.class", b"link\xff.class"]
NO_WORDS = [b"\xff.class", b"a/\x80A.class", b"a-/\xc0\x80.class", b"p/\xed\xa0\xbd/A.class", b"B\xff/none", b"x.class/\xff/\xff.class"]

# Parts of names that are escaped in reports, or whose escaped text sorts differently.
ODD = [b"\xc3\xa9", b"\xed\xa0\xbd\xed\xb8\x80", b"\xed\xa0\xbd", b"\xc0\x80", b"\\", b"\\u00e9", b" ", b"a b", b"\x01", b"\x7f",
       b"\n", b"\xef\xbf\xbf", b"\xdf\xbf", b"~", b"-", b"-x", b")", b"a:b", b"#1", b"\xe2\x82\xac", b"A\xc0\x80", b"AA"]
NAMED = [b"A", b"B", b"C", b"D", b"X", b"T", b"Y", b"Z", b"p", b"q", b"r", b"org", b"m", b"n", b"x", b"y"]
# Prefixes are arguments, so they are UTF-8 without a zero byte. A run takes up to 64 of them.
WORDS = [odd for odd in ODD if b"\xed" not in odd and b"\xc0" not in odd]
EVERYTHING = [*WORDS, *(b"%c" % letter for letter in b"ABCDETXYZjnopqr")]
PREFIXES = [None] * 8 + [[b"java/"], [b"org/", b"java/"], [b"j"], [b"X", b"p/", b"X"], [b"p/A"], [b"nothing/"]]
PLAIN = links.class_file(b"A", 0x21, links.OBJECT, [], [], [], [])


def odd_names(rng):
    keys = rng.sample(NAMED, rng.randrange(1, 7))
    return dict(zip(keys, rng.sample(ODD, len(keys))))


def renamed(data, table):
    """Returns the class with other parts of names, also in descriptors."""
    words = table | {b"L" + old: b"L" + new for old, new in table.items()}
    change = lambda text: re.sub(rb"\w+", lambda found: words.get(found[0], found[0]), text)
    head, constants, rest = classes.by_parts(data)
    return head + b"".join(common.utf8(change(piece[3:])) if piece[0] == 1 else piece for piece in constants.values()) + rest


def harmed(rng, data):
    chance = rng.random()
    if chance < 0.12:
        return classes.unreadable(rng, data)
    if chance < 0.22:
        return classes.changed(rng, data)
    if chance < 0.34:
        return classes.with_code(rng, data)
    if chance < 0.44:
        return classes.code_class(rng, rng.choice(links.NAMES))
    return classes.wild_class(rng, rng.choice(links.NAMES)) if chance < 0.50 else data


def new_path(rng, files):
    while True:
        path = rng.choice(FOLDERS) + rng.choice(STEMS) + b".class"
        if path not in files:
            return path


def prefixes_of(rng, table):
    own = [word for word in table.values() if word in WORDS]
    return [rng.choice(own)] if own and rng.random() < 0.2 else rng.choice(PREFIXES)


def bad_references(report, name):
    """Returns the indexes of the references to members of a class that do not resolve."""
    return [index for index, tag, text, key in report.loaded[name].references
            if tag != judge.CLASS and report.world.resolve(name, tag, text, key)[0] == "error"]


def bad_instructions(report, name, bad):
    """Returns the instructions that do not link, and those that name one of these references."""
    unlinked = {(use.method, use.offset) for use, _ in report.world.unlinked(name)}
    return [(method, offset, opcode) for method, offset, opcode, index in report.loaded[name].uses
            if index in bad or (method, offset) in unlinked]


def without_bad(report, path, data):
    """Returns the class of a file with numbers in the place of bad references, and nops in that of bad instructions."""
    name = report.names.get(path)
    if name not in report.loaded or any(other < path for other, same in report.names.items() if same == name):
        return data
    bad = bad_references(report, name)
    head, constants, rest = classes.by_parts(classes.without(data, bad_instructions(report, name, bad)))
    return head + b"".join(b"\3" + piece[1:] if index in bad else piece for index, piece in constants.items()) + rest


def mended(rng, files):
    """Returns a world that is not wrong: without bad references and instructions, or without the files that have them.

    Missing names are outside.
    """
    while True:
        report = judge.Report(files, EVERYTHING)
        wrong = [path for path in sorted(files) if path not in report.names or report.is_wrong(report.names[path])]
        if not wrong:
            return files
        path = rng.choice(wrong)
        data = without_bad(report, path, files[path])
        if data == files.pop(path):
            continue
        files[path] = data


def with_one_more(rng, files):
    """Adds a file to a world. The file may be the only one that makes the world wrong, or be shadowed."""
    names = sorted(set(judge.Report(files, EVERYTHING).names.values()))
    name = rng.choice([*names, *[b"One"] * (len(names) + 1)])
    with_code, with_one = classes.code_class(rng, name), classes.one_instruction(rng, name)
    others = [classes.unreadable(rng, PLAIN), classes.wild_class(rng, name)]
    files[new_path(rng, files)] = rng.choice([*others, *[with_code] * 2, *[with_one] * 4])
    return files


def make_classes(rng):
    """Returns the bytes of files, and the parts of names that were changed in them."""
    found = classes.dense_classes(rng) if rng.random() < 0.5 else [data for _, data in links.make_world(rng)]
    table = odd_names(rng) if rng.random() < 0.5 else {}
    found = [renamed(data, table) for data in found]
    found = [classes.put(data, 4, b"\0\7") if data[7] == 51 and rng.random() < 0.2 else data for data in found]
    if rng.random() < 0.5:
        found = [harmed(rng, data) for data in found]
    found += [rng.choice(found) for _ in classes.some(rng, 2)]
    return found if rng.random() < 0.99 else [], table


def make_world(rng):
    files, (found, table) = {}, make_classes(rng)
    for data in found:
        files[new_path(rng, files)] = data
    if rng.random() < 0.15:
        files = mended(rng, files)
        return with_one_more(rng, files) if rng.random() < 0.5 else files, EVERYTHING
    for names, value, chance in ((PASSED_OVER, PLAIN, 0.15), (LINKS, None, 0.15), (NO_WORDS, PLAIN, 0.03)):
        if rng.random() < chance:
            files[rng.choice(names)] = value
    return files, prefixes_of(rng, table)
