#!/usr/bin/env python3
"""Writes `examples/until-2040.session`: an address in a zone two below the root, with signatures that count from 2026 to 2040.

    python3 tools/recording/until_2040.py > examples/until-2040.session

Zones, keys and signatures are made here, by python3-cryptography; each run makes other keys. The root has an RSA key (algorithm 8), `example.` one
of P-256 (13) and `lab.example.` one of P-384 (14), so that `dns_check verify` computes each kind of signature. The session has
no `accept` line."""
import calendar
import os
import sys

from cryptography.hazmat.primitives import hashes
from cryptography.hazmat.primitives.asymmetric import ec, padding, rsa, utils

sys.dont_write_bytecode = True
HERE = os.path.dirname(os.path.realpath(__file__))
sys.path[:0] = [HERE, f"{HERE}/../../rows"]
import texts  # noqa: E402
from texts import A, DNSKEY, DS, TTL, Record, number, wire  # noqa: E402
from scene import ds_of  # noqa: E402

INCEPTION, EXPIRATION = calendar.timegm((2026, 1, 1, 0, 0, 0)), calendar.timegm((2040, 1, 1, 0, 0, 0))
MOMENT = calendar.timegm((2026, 2, 1, 0, 0, 0))
# the curve, the digest and the bytes of a coordinate (RFC 6605, 1 and 4)
ECDSA = {13: (ec.SECP256R1, hashes.SHA256, 32), 14: (ec.SECP384R1, hashes.SHA384, 48)}
# a zone key that is an entry point, protocol 3
ENTRY = bytes.fromhex("010103")
ROOT, EXAMPLE, LAB = [], [b"example"], [b"lab", b"example"]
HOST = [b"www", *LAB]


class Zone:
    """A zone with one key, by which it signs."""

    def __init__(self, name, algorithm):
        self.name, self.algorithm = name, algorithm
        if algorithm == 8:
            self.secret = rsa.generate_private_key(public_exponent=65537, key_size=2048)
            modulus = self.secret.public_key().public_numbers().n
            public = b"\3\1\0\1" + modulus.to_bytes(256, "big")
        else:
            curve, _, size = ECDSA[algorithm]
            self.secret = ec.generate_private_key(curve())
            point = self.secret.public_key().public_numbers()
            public = point.x.to_bytes(size, "big") + point.y.to_bytes(size, "big")
        self.public, self.key = public, ENTRY + number(algorithm, 1) + public

    def signature(self, octets):
        """RFC 3110, 3; RFC 6605, 4."""
        if self.algorithm == 8:
            return self.secret.sign(octets, padding.PKCS1v15(), hashes.SHA256())
        _, digest, size = ECDSA[self.algorithm]
        r, s = utils.decode_dss_signature(self.secret.sign(octets, ec.ECDSA(digest())))
        return r.to_bytes(size, "big") + s.to_bytes(size, "big")


class Recorded:
    """What the session says so far."""

    def __init__(self):
        self.replies = []

    def says(self, zone, owner, kind, rdata):
        """A reply of one record with the zone's signature (RFC 4034, 3.1 and 3.1.8.1)."""
        front = (number(kind, 2) + number(zone.algorithm, 1) + number(len(owner), 1) + number(TTL, 4) + number(EXPIRATION, 4)
                 + number(INCEPTION, 4) + number(texts.key_tag(zone.key), 2) + wire(zone.name))
        record = Record(owner, kind, rdata)
        signed = front + record.wire()
        signature = zone.signature(signed)
        answers = [record, Record(owner, texts.RRSIG, front + signature)]
        self.replies.append(texts.reply(owner, kind, texts.message(owner, kind, answers, is_packed=True)))


def session():
    root, example, lab = Zone(ROOT, 8), Zone(EXAMPLE, 13), Zone(LAB, 14)
    recorded = Recorded()
    recorded.says(lab, HOST, A, bytes([192, 0, 2, 1]))
    for zone, above in ((lab, example), (example, root)):
        recorded.says(zone, zone.name, DNSKEY, zone.key)
        recorded.says(above, zone.name, DS, ds_of(zone.name, zone.key))
    recorded.says(root, ROOT, DNSKEY, root.key)
    lines = ["dns-session 1", f"moment {MOMENT}", "algorithms 8 13 14", f"anchor . 8 {root.public.hex()}",
             f"query {texts.shown(HOST)} A", *recorded.replies, "end"]
    return "".join(line + "\n" for line in lines)


if __name__ == "__main__":
    sys.stdout.write(session())
