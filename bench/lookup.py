#!/usr/bin/env python3
"""Microseconds of processor time that one lookup of a session takes, over an upstream that answers from memory: a cold one, from an empty cache, and a
warm one, whose sets are served from what the one before it kept.

    python3 bench/lookup.py [PROGRAM] [SESSION..]

PROGRAM is the built dns_measure. Without sessions there are two: nine sets under three links each, and one set under a chain of six links.
The best of nine runs of some passes is taken off the best of nine of twice as many, so that reading the session doesn't count, nor the one
lookup that fills the cache. A cold lookup makes its cache, and lets go what the one before it kept.
"""
import argparse
import os

import passes
from passes import TOP, TURNS, Timing, processor_seconds

PASSES = 5000
SESSIONS = [os.path.join(TOP, "examples", "both13.session"), os.path.join(TOP, "rows", "walk-by-ds.session")]


def measured(program, session):
    """Seconds of a cold lookup and of a warm one, and the answers and faults of one."""
    with open(session, "rb") as file:
        text = file.read()
    cold = Timing([program, "anew"], text, ("answers", "faults"), PASSES, processor_seconds)
    warm = Timing([program, "lookup"], text, ("answers", "faults"), PASSES, processor_seconds)
    for _ in range(TURNS):
        cold.turn()
        warm.turn()
    return cold.seconds(), warm.seconds(), cold.counts


def main():
    words = argparse.ArgumentParser()
    words.add_argument("program", nargs="?", default=passes.PROGRAM, help="the built program dns_measure")
    words.add_argument("session", nargs="*", default=SESSIONS)
    asked = words.parse_args()
    program = passes.checked(asked.program)
    for session in asked.session:
        cold, warm, (answers, faults) = measured(program, session)
        print(f"{os.path.basename(session)}: {cold * 1e6:.1f} microseconds a cold lookup, {warm * 1e6:.1f} a warm one, "
              f"{warm / cold:.2f} of it; one gives {answers} answers and {faults} faults")


if __name__ == "__main__":
    main()
