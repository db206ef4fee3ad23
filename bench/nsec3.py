#!/usr/bin/env python3
"""What the dearest verdict on NSEC3 records costs, beside the hashes that it is made of.

    python3 bench/nsec3.py [PROGRAM]

PROGRAM is the built dns_measure. A name of 127 labels is denied in the root's zone by 1,000 records of 500 iterations, none of which matches a
name below the root, so that each of its ancestors is hashed, and the wildcard. The salt has 12 bytes: each round is over 32 bytes. A verdict's time is that of a
session with many such replies less that of the same session asked of another zone, which its first row refuses; the best of nine runs of each. Beside it stands
what `openssl speed` says of as many digests of 32 bytes.
"""
import argparse
import hashlib
import re
import struct
import subprocess
import sys
import time

PROGRAM = "crates/dns_measure/out/dns_measure"
LABELS, ITERATIONS, RECORDS, REPLIES, TURNS = 127, 500, 1000, 20, 9
SALT = bytes(range(12))
ALPHABET = "0123456789abcdefghijklmnopqrstuv"


def wire(labels):
    return b"".join(bytes([len(label)]) + label for label in labels) + b"\0"


def hashed(labels):
    digest = hashlib.sha1(wire(labels) + SALT).digest()
    for _ in range(ITERATIONS):
        digest = hashlib.sha1(digest + SALT).digest()
    return digest


def text(digest):
    number = int.from_bytes(digest, "big")
    return "".join(ALPHABET[number >> 5 * place & 31] for place in range(31, -1, -1)).encode()


def record(owner, following, types):
    rdata = struct.pack("!BBHB", 1, 0, ITERATIONS, len(SALT)) + SALT + bytes([len(following)]) + following + types
    return wire([text(owner)]) + struct.pack("!HHIH", 50, 1, 3600, len(rdata)) + rdata


def message(name):
    apex = hashed([])
    owners = sorted([hashlib.sha1(struct.pack("!I", number)).digest() for number in range(RECORDS - 1)] + [apex])
    records = [
        record(owner, owners[(place + 1) % RECORDS], b"\0\x01\x22" if owner == apex else b"\0\x01\x40") for place, owner in enumerate(owners)
    ]
    # the apex last, so that each comparison that finds nothing is made in full
    records.sort(key=lambda one: one[1:33] == text(apex))
    return struct.pack("!HHHHHH", 0, 0x8403, 1, 0, RECORDS, 0) + wire(name) + struct.pack("!HH", 1, 1) + b"".join(records)


def session(zone, name, reply):
    asked = ".".join(label.decode() for label in name) + "."
    line = f"reply {asked} A {reply.hex()}\n"
    return (f"dns-session 1\nmoment 0\nalgorithms\nquery {zone} SOA\n" + line * REPLIES + "end\n").encode()


def best(program, text):
    times, written = [], b""
    for _ in range(TURNS):
        start = time.perf_counter()
        written = subprocess.run([program, "verdicts"], input=text, stdout=subprocess.PIPE, check=True).stdout
        times.append(time.perf_counter() - start)
    return min(times), written


def digests_a_second():
    """Of 32 bytes, as openssl says."""
    told = subprocess.run(["openssl", "speed", "-seconds", "1", "-bytes", "32", "sha1"], capture_output=True, text=True, check=True).stdout
    return float(re.search(r"^sha1\s+([\d.]+)k", told, re.M).group(1)) * 1000 / 32


def main():
    words = argparse.ArgumentParser()
    words.add_argument("program", nargs="?", default=PROGRAM, help="the built program dns_measure")
    program = words.parse_args().program
    name = [b"a"] * LABELS
    reply = message(name)
    judged, written = best(program, session(".", name, reply))
    if written != b"Secure\n" * REPLIES:
        sys.exit(f"unlooked-for verdicts: {written[:80]}")
    refused, written = best(program, session("b.", name, reply))
    assert written == b"Bogus\n" * REPLIES
    # the name, its ancestors with the root, and the wildcard; but the wildcard's label isn't the next closer name's
    digests = (LABELS + 2) * (ITERATIONS + 1)
    verdict = (judged - refused) / REPLIES
    bare = digests / digests_a_second()
    print(f"a verdict of {digests:,} digests: {verdict * 1000:.1f} ms; as many by openssl: {bare * 1000:.1f} ms; {verdict / bare:.1f} times")


main()
