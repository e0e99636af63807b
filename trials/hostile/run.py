#!/usr/bin/env python3
"""Measures the time and memory that the built program needs for hostile class files, and compares them with limits.

    run.py [KIND ..] [--seconds N]

A KIND is a function of classes.py; without one, all kinds run. `jclink check` checks the files of each kind, and
`jclink check --errors` those of the kinds that concern errors of inheritance. Then
`jclink session` adds them one by one and prints its report.

The trial does not measure how texts are written, which may be long: one has 364 gigabytes. So `check` writes to a device
that accepts nothing. Of a session's output the trial reads at most a gigabyte; a session that prints more must have status 3.

The limits are 30 seconds of a processor, and 50 MB plus 40 bytes for each byte of the files. The trial stops a run after N
seconds, 120 by default.

Status 1: a limit is exceeded, or a run has a wrong status.
"""
import argparse
import os
import pathlib
import resource
import subprocess
import sys
import tempfile

sys.dont_write_bytecode = True
sys.path.insert(0, str(pathlib.Path(__file__).resolve().parent.parent))
import classes
import common

SECONDS, BASE, EACH = 30, 50_000_000, 40
# The greatest number of bytes that are read of a session's output.
READ = 1 << 30
# The greatest memory of a run, so that the machine does not end other processes.
ROOM = 12 << 30
# A session stores the reach of each class. In a chain, that is half the square of its length. Shorter chains have own kinds.
NO_SESSION = {"references_below_a_chain", "references_to_the_first_of_a_chain", "members_below_a_chain", "methods_of_a_chain",
              "methods_below_a_chain", "abstract_methods_of_a_chain", "no_body_in_a_chain", "interfaces_below_a_chain"}
# The kinds that the search for errors of inheritance and methods without a body is for. Only `check --errors` makes it.
INHERITANCE = {"methods_of_a_chain", "methods_below_a_chain", "below_one_final_class", "abstract_methods_of_a_chain",
               "no_body_in_a_chain", "interfaces_below_a_chain"}


def read_from(pipe):
    """Reads to the end or up to READ bytes, and closes the pipe. Returns whether it stopped at READ bytes."""
    left = READ
    while left > 0 and (read := os.read(pipe.fileno(), 1 << 20)):
        left -= len(read)
    pipe.close()
    return left <= 0


def measured(words, lines, folder, most):
    """Returns seconds of a processor, bytes of memory, the status, and whether more output followed."""
    def limited():
        resource.setrlimit(resource.RLIMIT_CPU, (most, most))
        resource.setrlimit(resource.RLIMIT_AS, (ROOM, ROOM))
    with tempfile.TemporaryFile() as source, open("/dev/full", "wb") as full:
        source.write(lines)
        source.seek(0)
        sink = subprocess.PIPE if lines else full
        ran = subprocess.Popen([common.JCLINK, *words], cwd=folder, stdin=source, stdout=sink, stderr=subprocess.DEVNULL, preexec_fn=limited)
        is_cut = bool(lines) and read_from(ran.stdout)
        _, status, used = os.wait4(ran.pid, 0)
        ran.returncode = os.waitstatus_to_exitcode(status)
    return used.ru_utime + used.ru_stime, used.ru_maxrss * 1024, ran.returncode, is_cut


def told(name, files, size, words, lines, wanted, folder, most):
    seconds, room, status, is_cut = measured(words, lines, folder, most)
    wanted = (3,) if is_cut else wanted
    limit = BASE + EACH * size
    right = status in wanted and seconds <= SECONDS and room <= limit
    how = "" if right else f" status {status}," if status not in wanted else ""
    print(f"| {name} | `{' '.join(words[:-1] or words)}` | {files:,} | {size:,} | {seconds:.2f} | {room / 1e6:.0f} | {limit / 1e6:.0f} |{how}{'' if right else ' over'}", flush=True)
    return right


def tried(kind, most):
    files = kind()
    size = sum(map(len, files.values()))
    with tempfile.TemporaryDirectory() as room:
        for path, data in files.items():
            pathlib.Path(room, path).write_bytes(data)
        lines = b"".join(b"add %s\n" % path.encode() for path in sorted(files)) + b"report\nend\n"
        right = told(kind.__name__, len(files), size, ["check", "."], b"", (3,), room, most)
        if kind.__name__ in INHERITANCE:
            right &= told(kind.__name__, len(files), size, ["check", "--errors", "."], b"", (0, 3), room, most)
        if kind.__name__ not in NO_SESSION:
            right &= told(kind.__name__, len(files), size, ["session"], lines, (0, 1), room, most)
    return right


def main():
    words = argparse.ArgumentParser()
    words.add_argument("kinds", nargs="*", choices=[[], *(kind.__name__ for kind in classes.KINDS)])
    words.add_argument("--seconds", type=int, default=120)
    words = words.parse_args()
    print("| kind | command | files | bytes | seconds | MB | most MB |\n|---|---|---|---|---|---|---|")
    kinds = [kind for kind in classes.KINDS if not words.kinds or kind.__name__ in words.kinds]
    over = sum(not tried(kind, words.seconds) for kind in kinds)
    print(f"{len(kinds)} kinds, {over} over a limit" if over else f"{len(kinds)} kinds, each within its limits")
    sys.exit(1 if over else 0)


if __name__ == "__main__":
    main()
