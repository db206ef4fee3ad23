#!/usr/bin/env python3
"""Messages a second that `dns_measure decode` decodes, beside other decoders over the same frames.

    python3 bench/compare_decode.py --frames FILE PROGRAM PEER..

FILE holds messages, each after its length in two bytes. A peer is a program that takes `FILE PASSES` and writes, among
other words, `seconds S`: those of its fastest pass. All run by turns, nine times. Of PROGRAM the best run of so many
passes is taken off the best run of twice as many, so that its start and its reading don't count. Its figure is a mean
over its passes, and a peer's that of its fastest pass.
"""
import argparse
import re
import subprocess
import sys

import passes
from passes import TURNS

PASSES = 100
SECONDS = re.compile(rb"\bseconds ([0-9.]+)")


def peer_seconds(path, file, count):
    """Seconds of a peer's fastest pass in one run."""
    ended = subprocess.run([path, file, str(count)], stdout=subprocess.PIPE, check=False)
    found = SECONDS.search(ended.stdout)
    if ended.returncode != 0 or not found:
        sys.exit(f"{path}: status {ended.returncode}, {ended.stdout[:200]!r}")
    return float(found.group(1))


def main():
    words = argparse.ArgumentParser()
    words.add_argument("--frames", required=True, help="the file of frames")
    words.add_argument("--passes", type=int, default=PASSES)
    words.add_argument("program", help="the built program dns_measure")
    words.add_argument("peers", nargs="+", help="programs that take FILE PASSES")
    asked = words.parse_args()
    with open(asked.frames, "rb") as file:
        frames = file.read()
    own = passes.decoding(passes.checked(asked.program), frames, asked.passes)
    decoded, refused, records = own.counts
    count = decoded + refused
    print(f"{count} messages, {len(frames) / count - 2:.0f} bytes in the mean: dns_measure decodes {decoded} with {records} records, and "
          f"refuses {refused}")
    best = {peer: float("inf") for peer in asked.peers}
    for _ in range(TURNS):
        own.turn()
        for peer in best:
            best[peer] = min(best[peer], peer_seconds(peer, asked.frames, asked.passes))
    fastest = min(best.values())
    print(f"{'program':24}{'messages/s':>12}{'to the fastest peer':>22}")
    for name, taken in [("dns_measure", own.seconds()), *best.items()]:
        print(f"{name.rsplit('/', 1)[-1]:24}{count / taken:12.0f}{fastest / taken:22.2f}")


main()
