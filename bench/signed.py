#!/usr/bin/env python3
"""How often a second the signed bytes of a set of 1 and of 13 records are made.

    python3 bench/signed.py [PROGRAM]

PROGRAM is the built dns_measure; the records are addresses of one name. The best of nine runs of some passes is taken off the best of nine of twice as many. The
status is 1 where a set is made less often than is wanted.
"""
import argparse
import sys

import passes
from passes import TURNS, Timing

# how often a second trust-dns-proto 0.22 was seen to make them
WANTED = {1: 743_000, 13: 48_000}
PASSES = {1: 4_000_000, 13: 600_000}


def main():
    words = argparse.ArgumentParser()
    words.add_argument("program", nargs="?", default=passes.PROGRAM, help="the built program dns_measure")
    path = passes.checked(words.parse_args().program)
    is_under = False
    print(f"{'records':>8}{'times a second':>16}{'wanted':>9}")
    for records, wanted in WANTED.items():
        timing = Timing([path, "signed", str(records)], b"", ("bytes",), PASSES[records])
        # an RRSIG's head of 18 bytes and its signer of 14; for each record its owner of 14, ten bytes, and an address of 4
        assert timing.counts == (18 + 14 + records * (14 + 10 + 4),)
        for _ in range(TURNS):
            timing.turn()
        pace = 1 / timing.seconds()
        print(f"{records:8}{pace:16.0f}{wanted:9}{' under' if pace < wanted else ''}")
        is_under |= pace < wanted
    sys.exit(1 if is_under else 0)


main()
