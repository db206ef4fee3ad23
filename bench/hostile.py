#!/usr/bin/env python3
"""Seconds a byte that decoding alone takes, of plain compressed messages and of four hostile kinds.

    python3 bench/hostile.py [PROGRAM]

PROGRAM is the built dns_measure. Each kind is as many bytes of frames. The best of nine runs of some passes is taken off
the best of nine of twice as many, so that the program's start and its reading don't count; the kinds run by turns. A
hostile kind has a limit: so many times the plain kind's seconds a byte. The status is 1 where one is over it.
"""
import argparse
import sys

import passes
from messages import bare_pointers, chained, long_named, plain, smallest
from passes import TURNS

PLAIN_MESSAGES = 2_000
PASSES = 20
LIMITS = {plain: 1, chained: 15, long_named: 15, bare_pointers: 15, smallest: 15}


def main():
    words = argparse.ArgumentParser()
    words.add_argument("program", nargs="?", default=passes.PROGRAM, help="the built program dns_measure")
    path = passes.checked(words.parse_args().program)
    wanted = sum(len(plain(number)) for number in range(PLAIN_MESSAGES))
    rows = {}
    for kind in LIMITS:
        count = PLAIN_MESSAGES if kind is plain else max(1, wanted // len(kind(0)))
        messages = [kind(number) for number in range(count)]
        timing = passes.decoding(path, b"".join(map(passes.frame, messages)), PASSES)
        rows[kind] = (timing, count, sum(map(len, messages)))
    for _ in range(TURNS):
        for timing, _, _ in rows.values():
            timing.turn()
    plain_pace = rows[plain][0].seconds() / rows[plain][2]
    print(f"{'kind':16}{'messages':>9}{'bytes':>9}{'ns a byte':>11}{'messages/s':>12}{'times':>8}{'limit':>7}")
    is_over = False
    for kind, (timing, count, total) in rows.items():
        pace = timing.seconds() / total
        times = pace / plain_pace
        over = times > LIMITS[kind]
        print(f"{kind.__name__:16}{count:9}{total:9}{pace * 1e9:11.2f}{count / timing.seconds():12.0f}{times:8.1f}"
              f"{LIMITS[kind]:7}{' over' if over else ''}")
        is_over |= over
    print("times: seconds a byte, to those of the plain kind")
    sys.exit(1 if is_over else 0)


main()
