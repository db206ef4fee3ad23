#!/usr/bin/env python3
"""Instructions and allocations of one lookup of each session from an empty cache, and instructions of a warm one over it, as valgrind's
callgrind counts them.

    python3 bench/allocations.py [--program PROGRAM] SESSION..

PROGRAM is the built dns_measure. What one lookup takes is taken off what some take, so that reading the session doesn't
count. Unlike seconds the counts are the same on each run.
"""
import argparse
import os
import re
import subprocess
import sys
import tempfile

import passes

LOOKUPS = 21
FUNCTION = re.compile(r"c?fn=\((\d+)\)(?: (.*))?")


def counted(program, session, word, lookups, file):
    """Instructions of a run, and how often it called each function of another."""
    words = ["valgrind", "--tool=callgrind", f"--callgrind-out-file={file}", program, word, str(lookups)]
    with open(session, "rb") as text:
        ended = subprocess.run(words, stdin=text, stdout=subprocess.DEVNULL, stderr=subprocess.DEVNULL, check=False)
    if ended.returncode != 0:
        sys.exit(f"{' '.join(words[3:])} < {session}: status {ended.returncode}")
    names, calls, called, total = {}, {}, None, 0
    with open(file, encoding="utf-8") as lines:
        for line in lines:
            found = FUNCTION.match(line)
            if found and found.group(2):
                names[found.group(1)] = found.group(2).strip()
            if line.startswith("cfn="):
                called = found.group(1)
            elif line.startswith("calls="):
                calls[called] = calls.get(called, 0) + int(line[len("calls="):].split()[0])
            elif line.startswith("totals:"):
                total = int(line.split()[1])
    return total, {names[number]: count for number, count in calls.items()}


def one_of(program, session, word):
    """Instructions of one lookup, and how often it allocates and lets an allocation grow."""
    with tempfile.TemporaryDirectory() as folder:
        one, few = (counted(program, session, word, count, os.path.join(folder, str(count))) for count in (1, LOOKUPS))
    more = [(few[1].get(name, 0) - one[1].get(name, 0)) / (LOOKUPS - 1) for name in ("rattle_alloc", "rattle_realloc")]
    return (few[0] - one[0]) / (LOOKUPS - 1), *more


def main():
    words = argparse.ArgumentParser()
    words.add_argument("--program", default=passes.PROGRAM, help="the built program dns_measure")
    words.add_argument("sessions", nargs="+")
    asked = words.parse_args()
    program = passes.checked(asked.program)
    print(f"{'session':16}{'instructions':>14}{'allocations':>13}{'grown':>7}{'warm':>14}{'to cold':>9}")
    for session in asked.sessions:
        cold, allocations, grown = one_of(program, session, "anew")
        warm, *_ = one_of(program, session, "lookup")
        name = os.path.basename(session).removesuffix(".session")
        print(f"{name:16}{cold:14.0f}{allocations:13.1f}{grown:7.1f}{warm:14.0f}{warm / cold:9.3f}")


main()
