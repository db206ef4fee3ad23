#!/usr/bin/env python3
"""Messages and bytes a second that the program decodes: plain compressed messages, and three hostile kinds.

    python3 bench/decode.py [PROGRAM]

Each kind is one session of replies that are read and never asked for. The time of the stored session alone is
taken off, so that what is left is reading the lines and decoding the messages. A hostile kind has a limit: so many
times the plain kind's seconds a byte. The status is 1 where one is over it. A decoder that followed each pointer of a
row anew, in place of knowing where the row ends, would answer the same and is refused here alone.
"""
import sys

import sessions
from messages import bare_pointers, chained, long_named, plain

PLAIN_MESSAGES = 5_000


def reply(number, message):
    return f"reply asked-{number}.example. A {message.hex()}\n"


KINDS = {plain: 1, chained: 30, long_named: 5, bare_pointers: 2}


def main():
    path = sessions.program()
    start = sessions.seconds(path, sessions.session())
    print(f"start of the program, taken off below: {start:.4f} s")
    print(f"{'kind':16}{'messages':>9}{'bytes':>9}{'seconds':>10}{'messages/s':>12}{'bytes/s':>13}{'times':>8}{'limit':>7}")
    wanted = plain_pace = None
    is_over = False
    for kind, most in KINDS.items():
        size = len(kind(0))
        # the hostile kinds are as many bytes as the plain one
        count = PLAIN_MESSAGES if wanted is None else max(1, wanted // size)
        messages = [kind(number) for number in range(count)]
        total = sum(map(len, messages))
        text = sessions.session(replies=[reply(*numbered) for numbered in enumerate(messages)])
        taken = max(sessions.seconds(path, text) - start, 1e-9)
        pace = taken / total
        wanted = wanted or total
        plain_pace = plain_pace or pace
        times = pace / plain_pace
        print(f"{kind.__name__:16}{count:9}{total:9}{taken:10.4f}{count / taken:12.0f}{total / taken:13.0f}{times:8.1f}"
              f"{most:7}{' over' if times > most else ''}", flush=True)
        is_over |= times > most
    print("times: seconds a byte, to those of the plain kind")
    sys.exit(1 if is_over else 0)


main()
