#!/usr/bin/env python3
"""Bytes a second of messages over a connection in memory, and requests a second over sockets of this machine.

    python3 bench/connections.py [PROGRAM [EXCHANGES]]

PROGRAM is the built dns_trial, EXCHANGES the built dns_exchange_trial. A hundred messages of 510 bytes, each behind its length, are read off a link in memory or written
to one. Beside them stands copying: the same link is read plainly, a frame a read, and each frame is copied into a vector of its own. Making the
link is taken off. What counts is processor time: the best of nine runs of some passes is taken off the best of nine of twice as many.

A request of 12 bytes is sent and answered by an exchange, beside plain sockets that carry as many bytes. What counts is the best of nine runs,
of which the start is less than a hundredth: by the clock, and the processor time of both sides.
"""
import argparse
import os
import sys

import passes
from passes import TOP, TURNS, Timing, counts_of

PROGRAM, EXCHANGES = (os.path.join(TOP, "crates", name, "out", name) for name in ("dns_trial", "dns_exchange_trial"))
IN_MEMORY = ("made", "read", "copied", "written")
OVER_SOCKETS = ("asked", "plain")
LINKS = 5_000
MESSAGES = 100
REQUESTS = 50_000
FRAME = 512


def answered(path, work):
    """Seconds by the clock and of a processor that one run of requests takes, each of which is to be answered."""
    before = passes.processor_seconds()
    taken, counts = counts_of([path, work, str(REQUESTS)], b"", ("done",))
    if counts != (REQUESTS,):
        sys.exit(f"{work}: {counts[0]} of {REQUESTS} were answered")
    return taken, passes.processor_seconds() - before


def main():
    words = argparse.ArgumentParser()
    words.add_argument("program", nargs="?", default=PROGRAM, help="the built program dns_trial")
    words.add_argument("exchanges", nargs="?", default=EXCHANGES, help="the built program dns_exchange_trial")
    given = words.parse_args()
    path, exchanges = (os.path.abspath(program) for program in (given.program, given.exchanges))
    for program in (path, exchanges):
        if not os.access(program, os.X_OK):
            sys.exit(f"no program at {program}: `rt run` in its crate builds it")
    timings = {work: Timing([path, work], b"", ("done",), LINKS, passes.processor_seconds) for work in IN_MEMORY}
    runs = {work: [] for work in OVER_SOCKETS}
    for _ in range(TURNS):
        for timing in timings.values():
            timing.turn()
        for work in OVER_SOCKETS:
            runs[work].append(answered(exchanges, work))
    seconds = {work: timing.seconds() for work, timing in timings.items()}
    for work, taken_off in (("read", seconds["made"]), ("copied", seconds["made"]), ("written", 0)):
        alone = (seconds[work] - taken_off) / MESSAGES
        print(f"{work:>8}: {alone * 1e9:.0f} ns a message, {FRAME / alone / 1e6:.0f} MB/s")
    for work in OVER_SOCKETS:
        taken, processor = (min(figures) / REQUESTS for figures in zip(*runs[work]))
        print(f"{work:>8}: {1 / taken:.0f} requests/s, {processor * 1e6:.1f} µs of a processor each")


main()
