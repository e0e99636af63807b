#!/usr/bin/env python3
"""Runs `rt ci` from nothing, and prints its processor minutes by kind and by crate.

It runs in a clone of this repository, so uncommitted files do not count. The trial reads the processor time of each process
four times a second, and the last value counts. The arguments and the folder of a process say what it does. The rest is the
difference between the whole time and the sum: `rt` itself, linking and running.

    trials/speed/gate.py [--lanes N] [--keep FILE] [--resume]

With --resume it continues a run that was stopped on this machine. What that run proved is not proved again, so the minutes
of both runs add up to those of one.
"""
import argparse
import collections
import os
import re
import subprocess
import sys
import tempfile
import time
from pathlib import Path

TOP = Path(__file__).resolve().parents[2]
TICKS = os.sysconf("SC_CLK_TCK")
PROGRAMS = ("jclink", "jc_rows")
KINDS = ("proofs", "tests", "programs", "mutants")
# Some kits reuse earlier proofs, unless this option is given.
FROM_NOTHING = [word for word in ("--anew",) if word in subprocess.run(["rt", "help"], capture_output=True, text=True).stdout]


def processes():
    """Returns for each process its parent, its start time and its seconds of a processor, from /proc."""
    found = {}
    for name in os.listdir("/proc"):
        if name.isdigit():
            try:
                text = Path("/proc", name, "stat").read_text()
            except OSError:
                continue
            words = text[text.rindex(")") + 2 :].split()
            found[int(name)] = int(words[1]), int(words[19]), (int(words[11]) + int(words[12])) / TICKS
    return found


def below(root, found):
    """Yields the descendants of a process."""
    children = collections.defaultdict(list)
    for pid, (parent, _, _) in found.items():
        children[parent].append(pid)
    left = list(children[root])
    while left:
        pid = left.pop()
        yield pid
        left += children[pid]


def work_of(pid):
    """Returns what a process does, as kind and crate, or None if it proves and compiles nothing."""
    try:
        words = Path("/proc", str(pid), "cmdline").read_bytes().decode(errors="replace").split("\0")
        folder = os.readlink(f"/proc/{pid}/cwd")
    except OSError:
        return None
    if not words[0].endswith("/rattle") or "--crate-name" not in words:
        return None
    crate = words[words.index("--crate-name") + 1]
    if re.search(r"/rt-edit-[^/]*$", folder):
        return "mutants", crate
    if "--test" in words:
        return "tests", crate
    return ("tests" if crate == "jc_rows" else "programs" if crate in PROGRAMS else "proofs"), crate


def watch(ran):
    """Watches the descendants of a process until it ends, and returns their seconds by kind and crate."""
    seconds, works = {}, {}
    while ran.poll() is None:
        found = processes()
        for pid in below(ran.pid, found):
            key = pid, found[pid][1]
            works[key] = works.get(key) or work_of(pid)
            seconds[key] = found[pid][2]
        time.sleep(0.25)
    told = collections.Counter()
    for key, work in works.items():
        if work:
            told[work] += seconds[key]
    return told


def run(lanes, keep, is_resumed):
    with tempfile.TemporaryDirectory() as room:
        subprocess.run(["git", "clone", "--quiet", "--local", TOP, f"{room}/jclink"], check=True)
        began = time.time()
        words = ["rt", "ci", *([] if is_resumed else FROM_NOTHING)]
        with open(keep, "wb") if keep else tempfile.TemporaryFile() as log:
            how = {"cwd": f"{room}/jclink", "stdin": subprocess.DEVNULL, "stdout": log, "stderr": subprocess.STDOUT}
            ran = subprocess.Popen(words, env={**os.environ, "RT_JOBS": str(lanes)}, **how)
            told = watch(ran)
        used = os.times()
    return ran.returncode, told, used.children_user + used.children_system, time.time() - began


def main():
    words = argparse.ArgumentParser(description=__doc__.split("\n")[0])
    words.add_argument("--lanes", type=int, default=2)
    words.add_argument("--keep", help="a file for the output of the gate")
    words.add_argument("--resume", action="store_true", help="continue a run that was stopped")
    words = words.parse_args()
    status, told, whole, clock = run(words.lanes, words.keep, words.resume)
    for kind in KINDS:
        crates = {crate: seconds for (of, crate), seconds in told.items() if of == kind}
        each = ", ".join(f"{crate} {seconds / 60:.1f}" for crate, seconds in sorted(crates.items(), key=lambda it: -it[1]))
        print(f"{kind}: {sum(crates.values()) / 60:.1f} ({each})")
    print(f"the rest: {(whole - sum(told.values())) / 60:.1f}")
    unit = told["proofs", "jc_base"]
    print(f"{whole / 60:.1f} processor minutes, {clock / 60:.0f} by the clock, status {status}")
    print(f"{whole / unit:.1f} times the proofs of jc_base" if unit else "jc_base was not proved in this run")
    return status


if __name__ == "__main__":
    sys.exit(main())
