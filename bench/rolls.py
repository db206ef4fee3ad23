#!/usr/bin/env python3
"""Seconds that `dns_check roll` takes over texts of sightings, by the kind of the key set and by the size of the text; and what a sighting costs after many.

    python3 bench/rolls.py [PROGRAM [TRIAL]]

PROGRAM is the built dns_check, TRIAL the built dns_trial. `few` has sightings of four keys and one good signature, `crowd` sightings of 3,000 keys of one tag with eight
signatures that aren't good. Each kind is measured over a thousand sightings, or as many as fit, and over 16 MiB: best of nine runs, less
the time of a text without a sighting. A text of 16 MiB has no million of them, so `dns_trial roll` hands the library as many of the first kind: what counts is the
processor time of 100,000 more after a thousand and after a million, the best of nine runs each. Wanted are 100,000 of the first kind a second, as many after many as
after few, and 40 MB a second."""
import os
import struct
import subprocess
import sys
import time

from passes import counts_of, processor_seconds
from sessions import DNSKEY, IN, MOST_INPUT, RRSIG, RUNS, message, program, question, record

ROOT, ALGORITHM, TTL, INCEPTION, EXPIRATION = b"\0", 13, 3600, 0, 2**31 - 1
SIGNATURE = bytes.fromhex("c0de")
STRANGERS = 3_000
FEW, MANY, MORE = 1_000, 1_000_000, 100_000
HOUR = 3_600
TRIAL = os.path.join(os.path.dirname(os.path.realpath(__file__)), "..", "crates", "dns_trial", "out", "dns_trial")


def key(public):
    return bytes.fromhex("0101030d") + public


def tag_of(rdata):
    """RFC 4034, appendix B."""
    total = sum(byte << 8 if place % 2 == 0 else byte for place, byte in enumerate(rdata))
    return (total + (total >> 16)) & 0xFFFF


OWN = key(bytes.fromhex("aabb"))
# RFC 4034, 3.1, up to the signature
FRONT = struct.pack(">HBBIIIH", DNSKEY, ALGORITHM, 0, TTL, EXPIRATION, INCEPTION, tag_of(OWN)) + ROOT


def accept_line(rdatas):
    """RFC 4034, 3.1.8.1."""
    signed = FRONT + b"".join(record(ROOT, DNSKEY, rdata) for rdata in sorted(rdatas))
    return f"accept {ALGORITHM} {OWN[4:].hex()} {signed.hex()} {SIGNATURE.hex()}\n"


def shown(rdatas, signatures):
    records = [*(record(ROOT, DNSKEY, rdata) for rdata in rdatas), *(record(ROOT, RRSIG, FRONT + one) for one in signatures)]
    return message(question(ROOT, DNSKEY), records).hex()


def few():
    """A key that is trusted and three others, signed by the first."""
    keys = [OWN, *(key(bytes([number, number])) for number in (1, 2, 3))]
    return accept_line(keys), shown(keys, [SIGNATURE])


def crowd():
    """The trusted key behind those of strangers, which have its tag, and signatures that nobody accepts."""
    strangers = [key(struct.pack(">HH", number, 0xAABB - number)) for number in range(1, STRANGERS + 1)]
    return "", shown([*strangers, OWN], [bytes([number]) for number in range(8)])


def text(accept, octets, count):
    """Sightings an hour apart, so that the signature counts for each."""
    lines = (f"sight {HOUR * number} {octets}\n" for number in range(count))
    return "".join((f"dns-roll 1\nzone .\nalgorithms {ALGORITHM}\nkey {OWN.hex()}\n", accept, *lines, "end\n")).encode()


def seconds(path, given):
    best = float("inf")
    for _ in range(RUNS):
        start = time.perf_counter()
        ended = subprocess.run([path, "roll"], input=given, stdout=subprocess.PIPE, check=False)
        best = min(best, time.perf_counter() - start)
        if ended.returncode or f"trusted {OWN.hex()}\n".encode() not in ended.stdout:
            sys.exit(f"status {ended.returncode} and {ended.stdout[:80]!r}")
    return best


def processor_time(path, count):
    """Of so many sightings by the library alone."""
    best = float("inf")
    for _ in range(RUNS):
        taken, counts = counts_of([path, "roll", str(count)], b"", ("done",), processor_seconds)
        if counts != (count,):
            sys.exit(f"dns_trial roll {count}: {counts[0]} were accepted")
        best = min(best, taken)
    return best


def by_library(path):
    print(f"{'after':>18}{'sightings/s':>13}")
    for before in (FEW, MANY):
        took = processor_time(path, before + MORE) - processor_time(path, before)
        print(f"{before:18}{MORE / took:13.0f}")


def main():
    trial = os.path.abspath(sys.argv.pop(2) if len(sys.argv) > 2 else TRIAL)
    path = program()
    idle = seconds(path, text("", "", 0))
    print(f"{'kind':8}{'sightings':>10}{'bytes':>12}{'seconds':>9}{'sightings/s':>13}{'MB/s':>7}")
    for kind in (few, crowd):
        accept, octets = kind()
        most = (MOST_INPUT - 2_000) // (len(octets) + len("sight 9999999999 \n"))
        for count in (min(FEW, most // 10), most):
            given = text(accept, octets, count)
            took = seconds(path, given) - idle
            print(f"{kind.__name__:8}{count:10}{len(given):12}{took:9.3f}{count / took:13.0f}{len(given) / took / 1e6:7.1f}")
    if not os.access(trial, os.X_OK):
        sys.exit(f"no program at {trial}: `rt run` in crates/dns_trial builds it")
    by_library(trial)


main()
