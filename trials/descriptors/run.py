#!/usr/bin/env python3
"""Compares how jc_base and a plain recogniser (grammar.py) judge descriptors and signatures.

The trial compiles the sources of trials/sources and collects each descriptor and signature that javap prints. It tries the
text itself, and the text with one byte dropped, doubled or changed at every place. It compares the answers of the program
jc_asked with those of the recogniser.

Usage: run.py [--seed N]. It builds the program by `rt run`, and needs javac 9 to 19 and javap.
"""
import argparse
import collections
import os
import pathlib
import random
import re
import subprocess
import sys

sys.dont_write_bytecode = True
sys.path.insert(0, str(pathlib.Path(__file__).resolve().parent.parent))
import common
import grammar

DESCRIPTOR = re.compile(r"^ +descriptor: (\S+)$", re.MULTILINE)
SIGNATURE = re.compile(r"^( *)Signature: #\d+ +// (\S+)$", re.MULTILINE)

# The byte by which the program distinguishes the kinds.
LETTERS = {"field": b"f", "method": b"m", "class": b"C", "method-signature": b"M", "field-signature": b"F"}

# Bytes of the grammar, and other bytes of texts.
BYTES = b"BCDFIJLSTVZ()[]<>:;/.*+-^aA0_$\x00\x7f\x80\xc3\xed\xff"


def collect(work):
    environment = dict(os.environ, LC_ALL="C.UTF-8")
    found = set()
    common.compile_all(work, common.WITHOUT_MADE, random.Random(1))
    for folder in sorted(work.glob("classes*")):
        classes = sorted(folder.rglob("*.class"))
        told = subprocess.run(["javap", "-v", "-s", "-p", *classes], env=environment, capture_output=True, check=True)
        text = told.stdout.decode("utf-8")
        for descriptor in DESCRIPTOR.findall(text):
            found.add(("method" if descriptor.startswith("(") else "field", descriptor.encode("utf-8")))
        for indent, signature in SIGNATURE.findall(text):
            if not indent:
                kind = "class"
            elif "(" in signature:
                kind = "method-signature"
            else:
                kind = "field-signature"
            found.add((kind, signature.encode("utf-8")))
    return sorted(found)


def changes(text, rng):
    for at in range(len(text)):
        yield text[:at] + text[at + 1:]
        yield text[:at + 1] + text[at:]
        for other in rng.sample(BYTES, 4):
            yield text[:at] + bytes([other]) + text[at + 1:]


def main():
    parser = argparse.ArgumentParser()
    parser.add_argument("--seed", type=int, default=1)
    rng = random.Random(parser.parse_args().seed)
    common.build()
    with common.Workplace() as work:
        real = collect(work)
    trials = [(kind, text) for kind, text in real]
    for kind, text in real:
        trials += [(kind, changed) for changed in changes(text, rng)]
        trials += [(other, text) for other in grammar.KINDS if other != kind]
    answers = common.ask("texts", [LETTERS[kind] + text for kind, text in trials])
    differences, accepted = 0, collections.Counter()
    for (kind, text), answer in zip(trials, answers):
        wanted = "yes" if grammar.is_text(kind, text) else "no"
        accepted[answer] += 1
        if answer != wanted:
            differences += 1
            print(f"{kind} {text!r}: {answer}, and the recogniser says {wanted}")
    refused = [text for kind, text in real if not grammar.is_text(kind, text)]
    kinds = collections.Counter(kind for kind, _ in real)
    print(f"real texts {len(real)} ({', '.join(f'{kind} {count}' for kind, count in sorted(kinds.items()))}), refused of them {len(refused)}")
    print(f"texts judged {len(trials)}, accepted {accepted['yes']}")
    print(f"differences {differences}")
    sys.exit(1 if differences or refused else 0)


if __name__ == "__main__":
    main()
