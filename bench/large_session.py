#!/usr/bin/env python3
"""Seconds of the program over sessions of 1 to 16 MiB, beside those of bytes.fromhex over the same hexadecimal.

    python3 bench/large_session.py [PROGRAM]

Three kinds of lines fill a session: `accept`, `reply` with messages of 30,000 bytes, and `reply` with messages of 300.
"""
import random
import re
import time

import sessions
from sessions import DNSKEY, NS, RUNS

MIB = 1_048_576
SIZES = (1, 2, 4, 8, 16)
MOST_RATIO = 2.2
MOST_FACTOR = 10
LARGE_MESSAGE = 30_000
SMALL_MESSAGE = 300
LEAST_MESSAGE = 100
# MB of text a second
LEAST_RATE = {"accept": 200, "small": 150}
A = 1

draw = random.Random(1)


def accept_lines(room):
    """Lines as algorithm 13 has them: a key and a signature of 64 bytes each, and the signed bytes of one A record."""
    keys = [draw.randbytes(64).hex() for _ in range(16)]
    count = 0
    while True:
        owner = sessions.name(b"host-%d" % count, b"example")
        head = bytes.fromhex("00010d0200000e10000007d0000003840005") + sessions.name(b"example")
        signed = head + sessions.record(owner, A, draw.randbytes(4))
        line = f"accept 13 {draw.choice(keys)} {signed.hex()} {draw.randbytes(64).hex()}\n"
        if len(line) > room:
            return
        room -= len(line)
        count += 1
        yield line


def long_message(owner, most):
    """A response of at most so many bytes: NS, A and DNSKEY records in turn, no pointers."""
    shapes = ((NS, lambda: sessions.name(draw.randbytes(12).hex().encode(), b"example")),
              (A, lambda: draw.randbytes(4)),
              (DNSKEY, lambda: bytes.fromhex("0100030d") + draw.randbytes(64)))
    answers = []
    room = most - 12 - len(sessions.question(owner, NS))
    while True:
        kind, rdata = shapes[len(answers) % len(shapes)]
        record = sessions.record(owner, kind, rdata())
        if len(record) > room:
            return sessions.message(sessions.question(owner, NS), answers)
        room -= len(record)
        answers.append(record)


def reply_lines(room, size):
    """Lines for one query name each, with messages of about so many bytes; the last is as long as there is room."""
    count = 0
    while True:
        label = "zone-%d" % count
        words = f"reply {label}.example. NS "
        most = min(size, (room - len(words) - 1) // 2)
        if most < LEAST_MESSAGE:
            return
        line = words + long_message(sessions.name(label.encode(), b"example"), most).hex() + "\n"
        room -= len(line)
        count += 1
        yield line


def of_size(kind, mib):
    room = mib * MIB - len(sessions.session())
    if kind == "accept":
        return sessions.session(accepts=accept_lines(room))
    return sessions.session(replies=reply_lines(room, SMALL_MESSAGE if kind == "small" else LARGE_MESSAGE))


def from_hex(text):
    """Python's own time over all octets of the session, as one word."""
    lines = re.findall(r"^(?:accept \d+|reply \S+ \S+) (.*)$", text.decode(), re.M)
    word = "".join(lines).replace(" ", "")
    best = float("inf")
    for _ in range(RUNS):
        start = time.perf_counter()
        bytes.fromhex(word)
        best = min(best, time.perf_counter() - start)
    return best


def verdict(value, most):
    return f"{value:.2f} {'ok' if value <= most else 'over'} (wanted: at most {most})"


def main():
    path = sessions.program()
    for kind in ("accept", "reply", "small"):
        before = ratio = rate = None
        print(f"{'kind':8}{'MiB':>4}{'seconds':>10}{'MB/s':>8}{'ratio':>8}{'fromhex':>10}{'times':>8}", flush=True)
        for mib in SIZES:
            text = of_size(kind, mib)
            taken = sessions.seconds(path, text)
            python = from_hex(text)
            ratio = taken / before if before else None
            shown = f"{ratio:.2f}" if ratio else "-"
            rate = len(text) / 1e6 / taken
            print(f"{kind:8}{mib:4}{taken:10.4f}{rate:8.1f}{shown:>8}{python:10.4f}{taken / python:8.1f}", flush=True)
            before = taken
        print(f"{kind}: {SIZES[-1]} MiB to {SIZES[-2]} MiB: {verdict(ratio, MOST_RATIO)}")
        print(f"{kind}: {SIZES[-1]} MiB to bytes.fromhex: {verdict(taken / python, MOST_FACTOR)}")
        if kind in LEAST_RATE:
            print(f"{kind}: {rate:.0f} MB a second {'ok' if rate >= LEAST_RATE[kind] else 'under'} (wanted: at least {LEAST_RATE[kind]})")
        print(flush=True)


main()
