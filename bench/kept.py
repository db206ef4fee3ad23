#!/usr/bin/env python3
"""What a store of kept denials (RFC 8198) answers and learns a second, at 1,000 and at 65,536 records, and how many bytes a record takes.

    python3 bench/kept.py [--turns NUMBER] [PROGRAM]

PROGRAM is the built dns_kept_trial. The records are those of one zone, NSEC or NSEC3 without iterations, and all stand in a full store. The questions are
for 4,096 names all over the zone: of hits each lies between two owners and is denied by NXDomain, and of misses each is an owner that has the type.
In half-dead stores every other record is dead, so that by NSEC3 only some of the questions are denied. What is learned are three records a response, each in
place of one that is kept; making the responses is taken off. Times are those of the processor: the best run of some passes is taken off the best of twice as many. The
bytes of a record are those of a run with so many beyond those of a run with one, without the hash that the trial itself keeps of an NSEC3 record.

The status is 1 where fewer than 200,000 hits a second are answered from 65,536 NSEC records, or where a question or a record that is learned takes more than three times as
long there as at 1,000.
"""
import argparse
import os
import re
import subprocess
import sys
import time

from passes import TOP, TURNS, done_of

PROGRAM = os.path.join(TOP, "crates", "dns_kept_trial", "out", "dns_kept_trial")
SIZES = (1_000, 65_536)
# which records there are, and how many questions are asked of the smaller and of the greater store
SHAPES = {"NSEC": (0, (200_000, 200_000)), "NSEC, half dead": (2, (200_000, 200_000)),
          "NSEC3": (1, (400, 20)), "NSEC3, half dead": (3, (400, 20))}
# how many responses of three records are learned
RESPONSES = (4_000, 100)
RECORDS = 3
# what the trial keeps of an NSEC3 record
HASH_BYTES = 20
# how many responses are made while memory is looked at
MADE = "100000"
LEAST_HITS = 200_000
MOST_TIMES = 3


class Measured:
    """The best runs so far of so many times and of twice as many."""

    def __init__(self, path, work, size, times, shape):
        self.words = [path, work, str(size)]
        self.shape = str(shape)
        self.times = times
        self.best = [float("inf"), float("inf")]

    def turn(self):
        for place, times in enumerate((self.times, 2 * self.times)):
            _, seconds, _ = done_of([*self.words, str(times), self.shape])
            self.best[place] = min(self.best[place], seconds)

    def seconds(self):
        """Of one time, without start and filling."""
        return (self.best[1] - self.best[0]) / self.times


def asked(path, turns):
    """Prints what questions take, and says whether it is more than is wanted."""
    rows = {(name, work): [Measured(path, work, size, times, shape) for size, times in zip(SIZES, all_times)]
            for name, (shape, all_times) in SHAPES.items() for work in ("hits", "misses")}
    for _ in range(turns):
        for row in rows.values():
            for one in row:
                one.turn()
    is_over = False
    print(f"{'':20}{'':12}" + "".join(f"{f'{size:,}':>18}" for size in SIZES) + f"{'times':>8}")
    for (name, work), row in rows.items():
        small, large = (one.seconds() for one in row)
        print(f"{name:20}{work:12}" + "".join(f"{1 / taken:14,.0f} a s" for taken in (small, large)) + f"{large / small:8.1f}")
        is_over |= large > MOST_TIMES * small or name == "NSEC" and work == "hits" and large * LEAST_HITS > 1
    return is_over


def learned(path, turns):
    """Prints what learning takes, and says whether it is more than is wanted."""
    is_over = False
    for name in ("NSEC", "NSEC3"):
        shape = SHAPES[name][0]
        rows = [[Measured(path, work, size, times, shape) for work in ("learn", "made")]
                for size, times in zip(SIZES, RESPONSES)]
        for _ in range(turns):
            for row in rows:
                for one in row:
                    one.turn()
        small, large = (row[0].seconds() - row[1].seconds() for row in rows)
        print(f"{name:20}{'learned':12}" + "".join(f"{RECORDS / taken:14,.0f} a s" for taken in (small, large)) + f"{large / small:8.1f}")
        is_over |= large > MOST_TIMES * small
    return is_over


def resident(words):
    """The greatest resident bytes of a run, as the system tells them while it goes on."""
    most = 0
    with subprocess.Popen(words, stdout=subprocess.DEVNULL) as child:
        while child.poll() is None:
            with open(f"/proc/{child.pid}/status", encoding="ascii") as status:
                found = re.search(r"VmHWM:\s+(\d+) kB", status.read())
            most = max(most, int(found[1]) * 1024 if found else 0)
            time.sleep(0.002)
    return most


def room(path):
    """Prints how many bytes a record takes."""
    for name, own in (("NSEC", 0), ("NSEC3", HASH_BYTES)):
        one, *many = (resident([path, "made", str(size), MADE, str(SHAPES[name][0])]) for size in (1, *SIZES))
        for size, taken in zip(SIZES, many):
            print(f"{name}: {(taken - one) / size - own:.0f} bytes a record at {size:,}")


def main():
    words = argparse.ArgumentParser()
    words.add_argument("--turns", type=int, default=TURNS, help="of how many runs the best counts")
    words.add_argument("program", nargs="?", default=PROGRAM, help="the built program dns_kept_trial")
    given = words.parse_args()
    path = os.path.abspath(given.program)
    if not os.access(path, os.X_OK):
        sys.exit(f"no program at {path}: `rt run` in crates/dns_kept_trial builds it")
    is_over = asked(path, given.turns)
    is_over |= learned(path, given.turns)
    room(path)
    sys.exit(1 if is_over else 0)


main()
