#!/usr/bin/env python3
"""Growth of an audit of chains and of trails, on a stack of 8 MiB: processor seconds, megabytes a second, and the most memory.

    python3 bench/audit.py [PROGRAM]

PROGRAM is the built dns_check. A chain has 1,000 anchored keys, the set of them, and sets of one address that its members signed; the
chains of one message stand beside each other, one for each of its sets. A trail comes of a lookup that makes as many sends as are said,
each of which gets the root's key beside some other sets. Session and report are one input; the seconds are those of the whole run.
"""
import argparse
import os
import resource
import subprocess
import sys
import tempfile

import sessions
from sessions import DNSKEY, END, HEAD, MOST_INPUT, PROGRAM, RRSIG

A, RUNS, STACK = 1, 3, 8192 * 1024
SIGNATURES, KEYS = 8, 1_000
LINKS = (1_000, 10_000, 30_000)
SETS = (100, 1_000)
# sends, and sets of each reply
TRAILS = ((128, 100), (1_024, 1), (1_024, 10), (1_024, 100))
ADDRESS = bytes.fromhex("c0000201")
ROOT = sessions.name()
KEY = bytes.fromhex("0101030daabb")
TIMES = bytes.fromhex("00000e10000007d000000384")


def key(number):
    return bytes.fromhex("0101030d") + number.to_bytes(4, "big")


def key_tag(rdata):
    """RFC 4034, appendix B."""
    total = sum(byte << 8 if place % 2 == 0 else byte for place, byte in enumerate(rdata))
    return (total + (total >> 16)) & 0xFFFF


def signed(number, rdata):
    """An `accept` line and a link of the address set with this number, signed by a key of the root's."""
    owner = sessions.name(b"n%d" % number)
    front = A.to_bytes(2, "big") + bytes([13, 1]) + TIMES + key_tag(rdata).to_bytes(2, "big") + ROOT
    signature = b"\xc0" + number.to_bytes(4, "big")
    over = front + sessions.record(owner, A, ADDRESS)
    accept = f"accept 13 {rdata[4:].hex()} {over.hex()} {signature.hex()}\n"
    return accept, f"{rdata.hex()} {(front + signature).hex()} {ADDRESS.hex()}\n"


def audited(anchors, accepts, lines):
    """A session with a report behind it."""
    head = "dns-session 1\nmoment 1000\nalgorithms 13\n"
    return "".join((head, *anchors, *accepts, "query . NS\n", END, "dns-report 1\ncode 0\ndenial none\n", *lines, END)).encode()


def long_chain(links):
    """One chain of so many signed links behind a key set of many keys."""
    keys = [key(number) for number in range(KEYS)]
    made = [signed(number, keys[number % KEYS]) for number in range(links)]
    shown = [f"anchored . IN {one.hex()}\n" for one in keys]
    whole = "keyset . IN " + " ".join(f"{place} {one.hex()}" for place, one in enumerate(keys)) + "\n"
    steps = [f"signed n{number}. IN A {KEYS} {rest}" for number, (_, rest) in enumerate(made)]
    lines = [f"chain answer {KEYS + 1 + links}\n", *shown, whole, *steps]
    return audited([f"anchor . 13 {one[4:].hex()}\n" for one in keys], [accept for accept, _ in made], lines)


def many_chains(sets):
    """A chain of three links for each set of one message."""
    made = [signed(number, KEY) for number in range(sets)]
    front = ["chain answer 3\n", f"anchored . IN {KEY.hex()}\n", f"keyset . IN 0 {KEY.hex()}\n"]
    lines = [line for number, (_, rest) in enumerate(made) for line in (*front, f"signed n{number}. IN A 1 {rest}")]
    return audited(["anchor . 13 aabb\n"], [accept for accept, _ in made], lines)


def trail_session(sends, sets):
    """Sets with eight signatures that aren't accepted, each of which asks for the root's keys."""
    tops = []
    for number in range(sends // SIGNATURES):
        owner = sessions.name(b"n%d" % number)
        tops.append(sessions.record(owner, A, ADDRESS))
        for place in range(SIGNATURES):
            front = A.to_bytes(2, "big") + bytes([13, 1]) + bytes.fromhex("00000e10000007d000000384aec9")
            tops.append(sessions.record(owner, RRSIG, front + ROOT + bytes([0xD0, place])))
    top = sessions.message(sessions.question(sessions.name(b"n0"), A), tops)
    others = [sessions.record(sessions.name(b"m%d" % number), A, ADDRESS) for number in range(sets - 1)]
    keys = sessions.message(sessions.question(ROOT, DNSKEY), [sessions.record(ROOT, DNSKEY, KEY)], additionals=others)
    return f"{HEAD}query n0. A\nreply n0. A {top.hex()}\nreply . DNSKEY {keys.hex()}\n{END}".encode()


def small_stack():
    resource.setrlimit(resource.RLIMIT_STACK, (STACK, STACK))


def run(path, words, text):
    """Processor seconds of the best of some runs, the most MiB of one, and what each wrote."""
    best, most, wrote = float("inf"), 0, b""
    for _ in range(RUNS):
        with tempfile.TemporaryFile() as source, tempfile.TemporaryFile() as sink:
            source.write(text)
            source.seek(0)
            child = subprocess.Popen([path, *words], stdin=source, stdout=sink, preexec_fn=small_stack)
            _, status, usage = os.wait4(child.pid, 0)
            child.returncode = os.waitstatus_to_exitcode(status)
            best, most = min(best, usage.ru_utime + usage.ru_stime), max(most, usage.ru_maxrss)
            sink.seek(0)
            wrote = sink.read()
        if child.returncode != 0:
            sys.exit(f"{' '.join(words)}: status {child.returncode}, {wrote[:200]!r}")
    return best, most / 1024, wrote


def audit(path, text, what):
    """A line for the audit of an input all of which holds."""
    assert len(text) <= MOST_INPUT
    taken, most, wrote = run(path, ["audit"], text)
    if b" no\n" in wrote or not wrote:
        sys.exit(f"{what}: {wrote[:200]!r}")
    print(f"{what} {len(text) / 1e6:8.2f} MB {taken:8.3f} s {len(text) / 1e6 / taken:8.1f} MB/s {most:8.1f} MiB", flush=True)


def main():
    words = argparse.ArgumentParser()
    words.add_argument("program", nargs="?", default=PROGRAM, help="the built program dns_check")
    path = os.path.abspath(words.parse_args().program)
    if not os.access(path, os.X_OK):
        sys.exit(f"no program at {path}: `rt run` in crates/dns_check builds it")
    for links in LINKS:
        audit(path, long_chain(links), f"{links:8,} signed links        ")
    for sets in SETS:
        audit(path, many_chains(sets), f"{sets:8,} chains of a message ")
    for sends, sets in TRAILS:
        session = trail_session(sends, sets)
        _, _, report = run(path, ["validate", "trail"], session)
        audit(path, session + report, f"{sends:8,} sends, {sets:4} sets each")


main()
