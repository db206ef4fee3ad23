#!/usr/bin/env python3
"""What a verdict on NSEC or NSEC3 records costs by an index of them, beside one by their list.

    python3 bench/indexes.py [--count] [PROGRAM]

PROGRAM is the built dns_measure. Each row takes messages with so many records in the authority section, and asks of them by turns: for a verdict
by their list, for one by an index that is made for it, and, where it says covering, which record covers the question's name, by the list
and by an index that was made before. What gathering the records takes is taken off both verdicts. Times are those of the processor, the best of
nine runs of some passes off the best of nine of twice as many; `--count` takes instructions, as valgrind's callgrind counts them, which
are the same on each run. The status is 1 where an index takes more than its row allows.
"""
import argparse
import hashlib
import re
import subprocess
import sys
import tempfile

import passes
import sessions
from messages import pointer
from passes import TURNS, Timing, processor_seconds

A, SOA, NSEC, NSEC3 = 1, 6, 47, 50
# a name of 127 labels, and how many those of its ends have that next names point to
DEEP = [b"b"] * 127
FEWEST = 97
ALPHABET = "0123456789abcdefghijklmnopqrstuv"


def session(zone, replies):
    """A session that asks for the zone, whose replies are these: names and messages."""
    lines = (f"reply {b'.'.join(labels).decode()}. A {octets.hex()}\n" for labels, octets in replies)
    return "".join(("dns-session 1\nmoment 0\nalgorithms\n", f"query {zone} SOA\n", *lines, "end\n")).encode()


def denial(labels, records):
    """A name error for the name, with these records."""
    asked = sessions.question(sessions.name(*labels), A)
    octets = bytearray(sessions.message(asked, [], records))
    octets[3] |= 3
    return labels, bytes(octets)


def few_nsecs():
    """Name errors with 2 to 8 NSEC records, of which the last covers the name and the first the wildcard."""
    replies = []
    for count in range(2, 9):
        owners = [[b"example"], *([b"n%d" % number, b"example"] for number in range(count - 1))]
        nexts = [*owners[1:], owners[0]]
        records = [sessions.record(sessions.name(*owner), NSEC, sessions.name(*following) + b"\0\1\x40")
                   for owner, following in zip(owners, nexts)]
        replies += [denial([b"zz%d" % number, b"example"], records) for number in range(4)]
    return session("example.", replies)


def deep_nsecs(count):
    """A name error with so many NSEC records of one owner. The first has a next name of 127 labels, and those of the others are pointers into it."""
    asked = [b"q", b"a"]
    owner = pointer(12 + 2)
    at = 12 + len(sessions.question(sessions.name(*asked), A)) + len(sessions.record(owner, NSEC, b""))
    nexts = [sessions.name(*DEEP), *(pointer(at + 2 * labels) for labels in range(1, len(DEEP) - FEWEST))]
    rdatas = [following + bytes([0, 1, types]) for types in range(1, 256) for following in (nexts if types == 1 else nexts[1:])]
    return session(".", [denial(asked, [sessions.record(owner, NSEC, rdata) for rdata in rdatas[:count]])])


def digest(labels, iterations):
    """The hash of a name without salt (RFC 5155, 5)."""
    one = hashlib.sha1(sessions.name(*labels)).digest()
    for _ in range(iterations):
        one = hashlib.sha1(one).digest()
    return one


def in_digits(one):
    number = int.from_bytes(one, "big")
    return "".join(ALPHABET[number >> 5 * place & 31] for place in range(31, -1, -1)).encode()


def nsec3s(count, labels, iterations):
    """A name error with so many NSEC3 records of the root's zone, of which one matches the root."""
    apex = digest([], iterations)
    owners = sorted([hashlib.sha1(number.to_bytes(4, "big")).digest() for number in range(count - 1)] + [apex])
    front = b"\1\0" + iterations.to_bytes(2, "big") + b"\0\x14"
    records = [sessions.record(sessions.name(in_digits(owner)), NSEC3, front + owners[(place + 1) % count])
               for place, owner in enumerate(owners)]
    # the apex last, so that each comparison that finds nothing is made in full
    records.sort(key=lambda one: one[1:33] == in_digits(apex))
    return denial(labels, records)


def few_nsec3s():
    """Name errors with 2 to 8 NSEC3 records without iterations."""
    return session(".", [nsec3s(count, [b"n%d" % number, b"example"], 0) for count in range(2, 9) for number in range(4)])


def many_nsec3s(iterations):
    return session(".", [nsec3s(900, DEEP, iterations)])


# a row: what it is called, its session, how many passes, whether it asks for the covering record alone, and how many times the list's time is allowed
ROWS = (
    ("2 to 8 NSEC records", few_nsecs(), 400, False, 2),
    ("2 to 8 NSEC3 records", few_nsec3s(), 200, False, 2),
    ("covering: 3,800 NSEC records", deep_nsecs(3_800), 40, True, 0.01),
    ("3,800 NSEC records, next names of 127 labels", deep_nsecs(3_800), 20, False, 8),
    ("900 NSEC3 records, 127 labels", many_nsec3s(0), 40, False, 0.6),
    ("the same with 100 iterations", many_nsec3s(100), 20, False, 1),
)
# how much more often an index is asked that was made before
SEARCHES = 40_000


def timing(program, text, judging, count):
    return Timing([program, "denials", judging], text, ("asked", "found"), count, processor_seconds)


def verdicts(program, text, count):
    """Seconds of a pass of verdicts by list and by index."""
    by_list, by_index, bare = (timing(program, text, judging, count) for judging in ("listed", "indexed", "gathered"))
    for _ in range(TURNS):
        for one in (by_list, by_index, bare):
            one.turn()
    if by_list.counts != by_index.counts or by_list.counts[1] == 0:
        sys.exit(f"list and index don't agree, or prove nothing: {by_list.counts}, {by_index.counts}")
    return by_list.seconds() - bare.seconds(), by_index.seconds() - bare.seconds()


def coverings(program, text, count):
    """Seconds of a pass of covering by list and by index."""
    by_list, by_index = timing(program, text, "in-list", count), timing(program, text, "in-index", count * SEARCHES)
    for _ in range(TURNS):
        by_list.turn()
        by_index.turn()
    if by_list.counts != by_index.counts or by_list.counts[1] == 0:
        sys.exit(f"list and index don't agree, or none covers: {by_list.counts}, {by_index.counts}")
    return by_list.seconds(), by_index.seconds()


def instructions(program, text, judging, most=3):
    """Instructions of a pass."""
    taken = []
    with tempfile.TemporaryDirectory() as folder:
        for count in (1, most):
            words = ["valgrind", "--tool=callgrind", f"--callgrind-out-file={folder}/out", program, "denials", judging, str(count)]
            ended = subprocess.run(words, input=text, capture_output=True, check=True)
            taken.append(int(re.search(rb"Collected : (\d+)", ended.stderr)[1]))
    return (taken[1] - taken[0]) / (most - 1)


def counted(program, text, is_covering):
    """Instructions of a pass by list and by index."""
    if is_covering:
        return instructions(program, text, "in-list"), instructions(program, text, "in-index", 1_000)
    bare = instructions(program, text, "gathered")
    return instructions(program, text, "listed") - bare, instructions(program, text, "indexed") - bare


def timed(program, text, is_covering, count):
    """Microseconds of a pass by list and by index."""
    return [seconds * 1e6 for seconds in (coverings if is_covering else verdicts)(program, text, count)]


def main():
    words = argparse.ArgumentParser()
    words.add_argument("--count", action="store_true", help="by instructions")
    words.add_argument("program", nargs="?", default=passes.PROGRAM, help="the built program dns_measure")
    asked = words.parse_args()
    program = passes.checked(asked.program)
    is_over = False
    for what, text, count, is_covering, most in ROWS:
        by_list, by_index = counted(program, text, is_covering) if asked.count else timed(program, text, is_covering, count)
        print(f"{what:48}{by_list:14.2f} and {by_index:14.2f} {'instructions' if asked.count else 'microseconds'} a pass, "
              f"{by_index / by_list:8.4f} times; at most {most}", flush=True)
        is_over |= by_index > most * by_list
    return 1 if is_over else 0


if __name__ == "__main__":
    sys.exit(main())
