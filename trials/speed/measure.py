"""Measures jc_asked: the processor time of N passes over frames in memory, less that of a run without a pass."""
import os
import subprocess
import sys

import common

RUNS = 9


def processor_seconds(frames, word, rounds):
    """Returns the processor time of the program over a file of frames, and the number that it prints."""
    with open(frames, "rb") as text:
        process = subprocess.Popen([*common.ANSWERS, word, str(rounds)], stdin=text, stdout=subprocess.PIPE)
        line = process.stdout.read()
        _, status, usage = os.wait4(process.pid, 0)
        process.returncode = os.waitstatus_to_exitcode(status)
    if process.returncode != 0:
        sys.exit("the program failed")
    return usage.ru_utime + usage.ru_stime, int(line)


def round_seconds(frames, word, rounds):
    """Returns the processor time of one pass over each file of frames. The files are measured in turn."""
    spent = {(path, count): [] for path, full in zip(frames, rounds) for count in (0, full)}
    for _ in range(RUNS):
        for path, count in spent:
            spent[path, count].append(processor_seconds(path, word, count)[0])
    return [(min(spent[path, full]) - min(spent[path, 0])) / full for path, full in zip(frames, rounds)]


def write_frames(work, name, files):
    path = work / name
    path.write_bytes(common.framed(files))
    return path


def doubled_rows(work, makes, counts, word, rounds):
    """Yields a row for each kind of file and each count.

    A row is name, count, bytes, the number that jc_asked prints, the seconds of a pass, and their ratio to the seconds of the
    count before. `rounds` has the number of passes for each count.
    """
    for make in makes:
        files = [make(count) for count in counts]
        frames = [write_frames(work, f"{make.__name__}{count}", [file]) for count, file in zip(counts, files)]
        found = [processor_seconds(path, word, 1)[1] for path in frames]
        before = None
        for count, file, number, seconds in zip(counts, files, found, round_seconds(frames, word, rounds)):
            yield make.__name__, count, len(file), number, seconds, f"{seconds / before:.2f}" if before else ""
            before = seconds
