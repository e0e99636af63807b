#!/usr/bin/env python3
"""Compares docs/BELIEVE.md with the definitions that the public clauses of each crate use.

Usage: run.py [list]. With `list` it prints the files, each with its number of definitions.

It reads the clauses of each `pub fn` and the ghost members that callers see, except those of the inner crates. It follows
the names through the imports of src/ and specs/. Then it checks three rules:

- A public clause of some crate reaches each definition of specs/ outside specs/inside/, and no definition inside.
- docs/BELIEVE.md lists for each crate exactly the files of specs/ with a definition that is reached.
- Only one crate uses an inner crate, and it re-exports none of its items. No `pub use` of that crate leads to one, and no
  text there that a caller sees names one.

Status 1: a rule is broken.
"""
import re
import sys
from pathlib import Path

TOP = Path(__file__).resolve().parents[2]
USE = re.compile(r"^\s*(?:ghost )?use (Rattle\.[\w.+]+?)(?:\.\{([^}]*)\}| as (\w+))?;?\s*$", re.M)
DEFINITION = re.compile(r"^(?:abbrev pub|unfoldable pub|pub record|pub data|abbrev|unfoldable|pub|record|data) (?!mod |use )(\S+)")
WORD = re.compile(r"(?<![\w'.-])([^\W\d][\w'-]*)(?:\.([^\W\d][\w'-]*))?|(◌[^◌\s]+◌)")
# Each inner crate with the only crate that uses it, which re-exports none of its items: their clauses are not public.
INNER = {"jc_numbered": "jc_resolve"}
SEEN_BY_CALLERS = ("Value", "next_gives", "remaining", "from_gives", "answers", "asked", "failures", "written", "bound", "ended", "left")
PUBLIC_USE = re.compile(r"^\s*pub (?:use|extern crate) ([^;]*);", re.M)
ANY_USE = re.compile(r"^\s*(?:pub(?:\([^)]*\))? )?(?:use|extern crate) ([^;]*);", re.M)


def module_of(path):
    crate, *rest = path.relative_to(TOP / "crates").with_suffix("").parts
    return ".".join(["Rattle", crate, *rest])


def imports(text):
    """Returns a map from each name to its module and its name there, and from each alias to its module."""
    names = {}
    for module, items, alias in USE.findall(text):
        if alias:
            names[alias] = (module, None)
        elif not items:
            names[module.rsplit(".", 1)[1]] = (module, None)
        for item in items.split(","):
            if item.strip():
                name, _, new = item.strip().partition(" as ")
                names[new.strip() or name.strip()] = (module, name.strip())
    return names


def definitions(text):
    """Returns the definitions of a file by name, each with its text. A constructor leads to its data type."""
    found, owner, name = {}, {}, None
    for line in unindented(text.split("\n")):
        start = DEFINITION.match(line)
        if start:
            name = start.group(1)
            found[name] = ""
            is_data = line.startswith(("pub data", "data"))
        elif line.startswith(("use ", "pub use", "--", "infix")):
            name = None if line.startswith("use ") else name
        elif name and is_data and re.match(r"  (\w+) :", line):
            owner[re.match(r"  (\w+) :", line).group(1)] = name
        if name:
            found[name] += line.split(" -- ")[0] + "\n"
    return found, owner


def unindented(lines):
    """Returns the lines without the indentation of blocks of mutual definitions."""
    inside = False
    for line in lines:
        inside = line == "mutual" or inside and (not line or line.startswith("  "))
        yield line[2:] if inside and line != "mutual" else line


class Specs:
    def __init__(self):
        self.files = {}
        for path in sorted(TOP.glob("crates/*/specs/**/*.antt")):
            text = path.read_text()
            if path.name != "Lib.antt":
                self.files[module_of(path)] = (path, imports(text), *definitions(text))

    def home(self, module):
        """Returns a module, or the module of another crate that is re-exported under this name, or None."""
        if module in self.files:
            return module
        last = module.split(".specs.", 1)[-1]
        return next((other for other in self.files if other.split(".specs.", 1)[1] == last), None)

    def find(self, names, word, member):
        if word not in names:
            return None
        module, name = names[word]
        home = self.home(module)
        if home is None:
            return None
        name = name or member
        _, _, found, owner = self.files[home]
        name = owner.get(name, name)
        return (home, name) if name in found else None

    def reach(self, roots):
        reached, queue = set(roots), list(roots)
        while queue:
            module, name = queue.pop()
            _, names, found, owner = self.files[module]
            # (a `do` block joins its steps by the operator)
            joined = [("◌>>=◌", "", "")] if "←" in found[name] else []
            for word, member, operator in WORD.findall(found[name]) + joined:
                word = owner.get(word, word)
                if f"◌{word}◌" in names or f"◌{word}◌" in found:
                    word = f"◌{word}◌"
                own = (module, word) if word in found else None
                target = own or self.find(names, word, member)
                if target and target not in reached:
                    reached.add(target)
                    queue.append(target)
        return reached


def public_clauses(text):
    """Returns the headers of the functions that a caller sees, with their clauses, and the ghost members."""
    lines = text.split("\n")
    for at, line in enumerate(lines):
        if re.match(r"\s*pub (const )?fn ", line) or re.match(r"\s+fn ", line) and in_trait(lines, at):
            yield header(lines, at)
        elif re.match(r"\s*ghost (%s)\b" % "|".join(SEEN_BY_CALLERS), line) and is_public(text, lines, at):
            yield line


def header(lines, at):
    """Returns the signature and the clauses of the function that begins here."""
    text, depth = "", 0
    for line in lines[at:]:
        bare = line.strip()
        clause = re.match(r"(requires|ensures|→|×|⊎|\()", bare)
        text += line + "\n"
        if depth == 0 and (bare in ("{", "{}") or bare.endswith((";", "{")) and not clause):
            break
        depth += bare.count("{") - bare.count("}")
    return text


def is_public(text, lines, at):
    """Returns whether a ghost member is in a public trait, or in an `impl` of a public type of this file."""
    for line in reversed(lines[:at]):
        if line.startswith(("pub trait", "trait")):
            return line.startswith("pub")
        if line.startswith("impl"):
            owner = re.sub(r"<.*", "", line.split(" for ")[-1]).strip(" {").lstrip("&")
            return re.search(r"^pub (struct|enum) %s\b" % re.escape(owner), text, re.M) is not None
    return False


def in_trait(lines, at):
    for line in reversed(lines[:at]):
        if re.match(r"(pub )?(trait|impl|struct|enum)\b|(pub(\(crate\))? )?fn ", line):
            return line.startswith("pub trait")
    return False


def roots(specs):
    """Returns the definitions that the public clauses use, by crate."""
    found = {}
    for path in sorted(TOP.glob("crates/*/src/**/*.rt")):
        crate = path.relative_to(TOP / "crates").parts[0]
        if crate in INNER:
            continue
        text = path.read_text()
        names = imports(text)
        for clause in public_clauses(text):
            for word, member, operator in WORD.findall(clause):
                target = specs.find(names, word, member)
                if target:
                    found.setdefault(crate, set()).add(target)
    return found


def users_of(crate):
    """Returns the crates of crates.txt that use a library."""
    rows = (line.split("#")[0].partition(":") for line in (TOP / "crates.txt").read_text().splitlines())
    return [head.split()[0] for head, _, libraries in rows if crate in libraries.split()]


def leaves(tree, front=()):
    """Yields the paths of a tree of imports, each with its local name."""
    head, brace, inside = tree.strip().partition("{")
    if brace:
        for part in parts(inside.removesuffix("}")):
            yield from leaves(part, front + steps(head))
    elif head:
        path, _, new = head.partition(" as ")
        path = front + steps(path)
        path = path[:-1] if path[-1] == "self" else path
        yield path, new.strip() or path[-1]


def steps(path):
    return tuple(step.strip() for step in path.split("::") if step.strip())


def parts(text):
    """Splits a text at the commas outside braces."""
    depth, found = 0, [""]
    for letter in text:
        depth += {"{": 1, "}": -1}.get(letter, 0)
        if letter == "," and depth == 0:
            found.append("")
        else:
            found[-1] += letter
    return found


def sources_of(crate):
    """Returns the sources of a crate without comments, by path."""
    return {path: re.sub(r"//.*", "", path.read_text()) for path in sorted(TOP.glob(f"crates/{crate}/src/**/*.rt"))}


def items_of(crate):
    """Returns the names that an import with a star may bring in from a crate."""
    found = set()
    for text in sources_of(crate).values():
        found |= set(re.findall(r"^pub (?:const )?(?:fn|struct|enum|trait|type|const|static|mod) (\w+)", text, re.M))
        found |= {name for tree in PUBLIC_USE.findall(text) for _, name in leaves(tree)}
    return found


def names_for(inner, sources):
    """Returns the names that these sources use for an inner crate and for its items."""
    trees = [tree for text in sources.values() for tree in ANY_USE.findall(text)]
    imports, names, before = [leaf for tree in trees for leaf in leaves(tree)], {inner}, None
    while names != before:
        before = set(names)
        for path, name in imports:
            if not names.isdisjoint(path):
                names |= items_of(inner) if name == "*" else {name}
    return names


def seen_by_callers(text):
    """Returns the lines of Rust that a caller sees: public items and fields, and trait implementations of public types."""
    lines = text.split("\n")
    for at, line in enumerate(lines):
        meets = meets_trait(text, lines, at)
        if re.match(r"\s*pub (const )?fn ", line) or re.match(r"\s+fn ", line) and (meets or in_trait(lines, at)):
            yield re.split(r"\n\s*(?:requires|ensures)\b", header(lines, at))[0]
        elif line.startswith("pub enum"):
            yield "\n".join(lines[at : lines.index("}", at)])
        elif re.match(r"\s*pub (?!use |ghost )", line) or re.match(r"\s+type ", line) and meets:
            yield line
        elif re.match(r"impl\b.* for ", line) and is_public(text, lines, at + 1):
            yield line


def meets_trait(text, lines, at):
    """Returns whether the line is in an `impl` of a trait for a public type of this file."""
    block = next((line for line in reversed(lines[:at]) if re.match(r"[^\s}]", line)), "")
    return re.match(r"impl\b.* for ", block) is not None and is_public(text, lines, at)


def passed_on():
    """Yields the places where another crate could reach the items of an inner crate."""
    for inner, above in INNER.items():
        if users_of(inner) != [above]:
            yield f"crates.txt: {inner} is for {above} alone, and is used by: {' '.join(users_of(inner))}"
        sources = sources_of(above)
        names = names_for(inner, sources)
        for path, text in sources.items():
            public = [path for tree in PUBLIC_USE.findall(text) for path, _ in leaves(tree)]
            shown = ["pub use " + "::".join(path) for path in public if not names.isdisjoint(path)]
            shown += [line for line in seen_by_callers(text) if not names.isdisjoint(re.findall(r"\w+", line))]
            for line in shown:
                yield f"{path.relative_to(TOP)}: passes {inner} on: {' '.join(line.split())}"


def listed():
    """Returns the files of specs/ that docs/BELIEVE.md names, by crate."""
    text = (TOP / "docs/BELIEVE.md").read_text()
    return set(re.findall(r"`(crates/\w+/specs/[\w/]+\.antt)`", text))


def main():
    specs = Specs()
    reached = specs.reach(set().union(*roots(specs).values()))
    files = {str(specs.files[module][0].relative_to(TOP)) for module, _ in reached}
    wrong = 0
    for module, (path, _, found, _) in specs.files.items():
        inside = ".inside" in module
        for name in found:
            if ((module, name) in reached) == inside:
                print(f"{path.relative_to(TOP)}: {name} is {'reached by' if inside else 'reached by no'} public clause")
                wrong += 1
    for fault in passed_on():
        print(fault)
        wrong += 1
    for name in sorted(files ^ listed()):
        print(f"{name}: {'not ' if name in files else ''}listed in docs/BELIEVE.md")
        wrong += 1
    if "list" in sys.argv[1:]:
        for name in sorted(files):
            count = sum(1 for module, _ in reached if str(specs.files[module][0].relative_to(TOP)) == name)
            print(f"{name}: {count}")
    total = sum(len(found) for _, _, found, _ in specs.files.values())
    print(f"{total} definitions, {len(reached)} of them reached by public clauses, in {len(files)} files; {wrong} wrong")
    sys.exit(1 if wrong else 0)


if __name__ == "__main__":
    main()
