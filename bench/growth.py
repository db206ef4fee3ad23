#!/usr/bin/env python3
"""How the cost of sessions grows that were made as attacks.

    python3 bench/growth.py [PROGRAM]

PROGRAM is the built dns_check. Three tables:

- processor seconds of a whole run for each byte of sessions with a hundred signatures and 301 keys of one tag, beside those of a session of forty
  keys, the best of thirty runs; and instructions, as valgrind's callgrind counts them, less those of a run without a session;
- processor seconds of sessions of 8 and 16 MiB whose replies are asked for one after another: names that are chains of pointers, largest replies, and
  signatures by the thousand; the best of three runs, by turns;
- the memory that a cache keeps of a largest set, by how much more a lookup takes for each reply of DS records, which are kept, than for one of as many
  addresses, which aren't.

The status is 1 where a byte takes more than three times as many seconds, or twice the size more than 2.2 times as long.
"""
import os
import re
import subprocess
import sys
import tempfile

import messages
import sessions
from dearest import A, DNSKEY, DS, KEY, LONG, ROOT, RRSIG, RUNS, filled, reply, seconds, signature
from sessions import END, HEAD, MOST_INPUT, TOP

sys.path.insert(0, os.path.join(TOP, "rows"))
import attacks  # noqa: E402
import generate  # noqa: E402

MOST_TIMES, MOST_RATIO = 3, 2.2
SHORT_RUNS = 30
SIZES = (MOST_INPUT // 2, MOST_INPUT)
# replies with a largest set, and records in each
REPLIES, RECORDS = (20, 60), 4_000
CACHED = 65_536
ASKED = sessions.question(ROOT, DNSKEY)


def instructions(path, text):
    with tempfile.TemporaryDirectory() as folder:
        words = ["valgrind", "--tool=callgrind", f"--callgrind-out-file={folder}/out", path, "validate"]
        ended = subprocess.run(words, input=text, capture_output=True, check=False)
    return int(re.search(rb"Collected : (\d+)", ended.stderr)[1])


def in_turn(count, reply_of):
    """A session with so many signatures that aren't accepted, each of which asks for the root's keys, and gets the next reply."""
    sets, lines = [], []
    for number in range(count):
        owner = sessions.name(b"n%d" % (number // 8))
        if number % 8 == 0:
            sets.append(sessions.record(owner, A, bytes.fromhex("c0000201")))
        sets.append(sessions.record(owner, RRSIG, signature(A, 1, number % 8)))
        lines.append(reply([], DNSKEY, reply_of(number)))
    top = sessions.message(sessions.question(sessions.name(b"n0"), A), sets)
    head = HEAD.replace("dns-session 1", "dns-session 2")
    return "".join((head, "query n0 A\n", reply([b"n0"], A, top), *lines, END)).encode()


def pointers(_):
    return messages.chained(0)


def largest(number):
    """The anchored key, and as many DS sets below a long name as fit."""
    def last(place, pointer):
        return sessions.record(b"\3" + b"%03x" % place + pointer, DS, number.to_bytes(2, "big") + b"\x0d\2")

    return filled(ASKED, [sessions.record(ROOT, DNSKEY, KEY)], last)


def signatures(number):
    """The anchored key, and as many signatures over it as fit, none of them accepted."""
    front = signature(DNSKEY, 0, 0)[:-2]
    signed = [sessions.record(ROOT, RRSIG, front + number.to_bytes(2, "big") + place.to_bytes(2, "big")) for place in range(1_900)]
    return sessions.message(ASKED, [sessions.record(ROOT, DNSKEY, KEY), *signed])


def of_size(kind, size):
    """As many replies as there is room for."""
    one, two = (len(in_turn(count, kind)) for count in (8, 16))
    return in_turn((size - one) * 8 // (two - one) + 8, kind)


def one_set(kind):
    """Replies with one set under a long name, unlike each other."""
    def of(number):
        def last(place, pointer):
            return sessions.record(pointer, kind, number.to_bytes(1, "big") + place.to_bytes(3, "big")) if place <= RECORDS else bytes(65_535)

        return filled(ASKED, [], last)

    return of


def memory(path, text):
    """The greatest resident bytes of a run."""
    with tempfile.TemporaryFile() as given:
        given.write(text)
        given.seek(0)
        with subprocess.Popen([path, "validate"], stdin=given, stdout=subprocess.DEVNULL) as child:
            _, status, usage = os.wait4(child.pid, 0)
            child.returncode = os.waitstatus_to_exitcode(status)
    if child.returncode:
        sys.exit(f"status {child.returncode}")
    return usage.ru_maxrss * 1024


def best_of(path, texts, runs):
    """The least processor seconds of runs of each text, by turns."""
    best = dict.fromkeys(texts, float("inf"))
    for _ in range(runs):
        for row, text in texts.items():
            best[row] = min(best[row], seconds(path, text)[0])
    return best


def by_byte(path):
    texts = {"forty keys": generate.forty_keys()[0], "a hundred signatures, 301 keys": attacks.hundred_signatures_and_301_keys()[0],
             "a key set of 301 keys": attacks.key_set_of_301_keys()[0],
             "the same below 301 DS records": attacks.key_set_of_301_keys_below_their_ds_records()[0]}
    start, best = instructions(path, b""), best_of(path, texts, SHORT_RUNS)
    paces = {name: best[name] / len(text) for name, text in texts.items()}
    for name, text in texts.items():
        counted = (instructions(path, text) - start) / len(text)
        print(f"{name:32}{len(text):8,} bytes{paces[name] * 1e9:6.0f} ns a byte{paces[name] / paces['forty keys']:6.2f} times"
              f"{counted:8.0f} instructions a byte", flush=True)
    return max(paces.values()) > MOST_TIMES * paces["forty keys"]


def by_size(path):
    texts = {(kind.__name__, size): of_size(kind, size) for kind in (pointers, largest, signatures) for size in SIZES}
    best, is_over = best_of(path, texts, RUNS), False
    for kind in dict.fromkeys(kind for kind, _ in texts):
        small, large = (best[kind, size] for size in SIZES)
        print(f"{kind:12}{small:8.2f} s{large:8.2f} s{large / small:6.2f} times", flush=True)
        is_over |= large > MOST_RATIO * small
    return is_over


def by_memory(path):
    grown = []
    for kind in (DS, A):
        few, many = (memory(path, in_turn(count, one_set(kind))) for count in REPLIES)
        grown.append((many - few) / (REPLIES[1] - REPLIES[0]))
    kept = grown[0] - grown[1]
    print(f"a set of {RECORDS + 1:,} DS records of a name of {len(LONG)} bytes: {grown[0]:,.0f} bytes a reply, of addresses {grown[1]:,.0f}")
    print(f"so {kept:,.0f} bytes are kept, {CACHED:,} times {kept * CACHED / 1e9:.0f} GB")


def main():
    path = sessions.program()
    by_memory(path)
    is_over = by_byte(path)
    return 1 if by_size(path) or is_over else 0


if __name__ == "__main__":
    sys.exit(main())
