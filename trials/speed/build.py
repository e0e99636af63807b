#!/usr/bin/env python3
"""Runs `./jclink --build` from nothing, and prints the minutes until each crate is proved.

Usage: build.py [--aside | --in-turn]. It runs in a clone of this repository, so uncommitted files do not count. Some kits keep
proofs in a folder rattle-kept beside the kit. The trial ends if there is such a folder. Move it away first.
"""
import argparse
import os
import pathlib
import re
import shutil
import subprocess
import sys
import time

sys.dont_write_bytecode = True
sys.path.insert(0, str(pathlib.Path(__file__).resolve().parent.parent))
import common


def main():
    parser = argparse.ArgumentParser()
    way = parser.add_mutually_exclusive_group()
    way.add_argument("--aside", action="append_const", dest="options", const="--aside")
    way.add_argument("--in-turn", action="append_const", dest="options", const="--in-turn")
    options = parser.parse_args().options or []
    kept = pathlib.Path(shutil.which("rt")).resolve().parents[2] / "rattle-kept"
    if kept.exists():
        sys.exit(f"{kept} has earlier proofs")
    with common.Workplace() as work:
        subprocess.run(["git", "clone", "--quiet", "--local", common.TOP, work / "jclink"], check=True)
        began = time.time()
        done = subprocess.run([work / "jclink" / "jclink", "--build", *options], stderr=subprocess.PIPE, text=True)
        clock, used = time.time() - began, os.times()
    for crate, seconds in re.findall(r"^(\w+), \d+ of \d+, (\d+) s$", done.stderr, re.M):
        print(f"{crate}: {int(seconds) / 60:.1f}")
    spent = used.children_user + used.children_system
    print(f"{spent / 60:.1f} processor minutes, {clock / 60:.1f} by the clock, status {done.returncode}")
    return done.returncode


if __name__ == "__main__":
    sys.exit(main())
