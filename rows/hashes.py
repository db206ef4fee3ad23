"""What NSEC3 records say of a denial, of an expansion or of a delegation, for `model.py`: RFC 5155; RFC 9276, 3.2.

Names are tuples of labels, the leaf first. A record is its owner, its hash and the next one, how names are hashed, and its types,
RRSIG aside."""
import functools
import hashlib
from collections import namedtuple

import denial
from denial import CNAME, DNAME, DS, NAME_ERROR, NO, NO_ERROR, NS, PLAIN, RRSIG, SOA, denies_type, is_cut, is_same, types_in
from reading import folded, is_above, wire

NSEC3, SHA_1, OPT_OUT = 50, 1, 1
DIGITS = b"0123456789abcdefghijklmnopqrstuv"
SECURE, INSECURE, BOGUS = "secure", "insecure", "bogus"
# how many iterations are judged, and how many count at all
SOFT, HARD = 100, 500
Hashed = namedtuple("Hashed", "owner hash following algorithm flags iterations salt types")


@functools.lru_cache(maxsize=4_096)
def rounds(octets, salt, iterations):
    """RFC 5155, 5."""
    for _ in range(iterations + 1):
        octets = hashlib.sha1(octets + salt).digest()
    return octets


def hash_of(name, salt, iterations):
    return rounds(wire(folded(name)), salt, iterations)


def in_digits(octets):
    """RFC 4648, 7, without padding."""
    bits = int.from_bytes(octets, "big")
    return bytes(DIGITS[bits >> shift & 31] for shift in range(len(octets) * 8 - 5, -1, -5))


def out_of_digits(label):
    """The 20 octets that a label is; None where it is none of these."""
    digits = [DIGITS.find(bytes([octet])) for octet in label.lower()]
    if len(digits) != 32 or -1 in digits:
        return None
    bits = 0
    for digit in digits:
        bits = bits * 32 + digit
    return bits.to_bytes(20, "big")


def nsec3_of(record):
    """RFC 5155, 3.2; None where the record can't be read so."""
    octets = record.rdata
    if record.kind != NSEC3 or len(octets) < 6 or len(octets) < 6 + octets[4]:
        return None
    salt, rest = octets[5:5 + octets[4]], octets[5 + octets[4]:]
    if len(rest) < 1 + rest[0]:
        return None
    types = types_in(rest[1 + rest[0]:]) - {RRSIG, denial.NSEC}
    iterations = int.from_bytes(octets[2:4], "big")
    return Hashed(record.owner, out_of_digits(record.owner[0]) if record.owner else None, rest[1:1 + rest[0]], octets[0], octets[1],
                  iterations, salt, types)


def counts(record):
    return record.algorithm == SHA_1 and record.flags in (0, OPT_OUT) and record.hash is not None and len(record.following) == 20


class Zone:
    """Records of one zone that count, and are all hashed alike."""

    def __init__(self, apex, records):
        self.apex, self.records = apex, records
        self.salt, self.iterations = records[0].salt, records[0].iterations

    def hashed(self, name):
        return hash_of(name, self.salt, self.iterations)

    def at(self, name):
        """The first record of the name."""
        return next((one for one in self.records if one.hash == self.hashed(name)), None)

    def covering(self, name):
        """Of the records between whose hashes the name's lies the one whose hash is the last before it, going round."""
        those = [one for one in self.records if goes_round(one.hash, self.hashed(name)) < goes_round(one.hash, one.following, True)
                 and one.hash != self.hashed(name)]
        return min(those, key=lambda one: goes_round(one.hash, self.hashed(name)), default=None)

    def encloser(self, name):
        """The longest ancestor that a record stands for, unless the zone ends there (RFC 5155, 8.3)."""
        for cut in range(1, len(name) + 1):
            one = self.at(name[cut:]) if is_above(self.apex, name[cut:]) else None
            if one:
                return None if is_cut(one) or DNAME in one.types else name[cut:]
        return None

    def closer(self, name):
        """What covers the name with one label more than the closest encloser."""
        above = self.encloser(name)
        return None if above is None else self.covering(name[len(name) - len(above) - 1:])


def goes_round(start, end, is_whole=False):
    """How far it is from a hash to another; from a hash to itself once round, where that is asked for."""
    far = (int.from_bytes(end, "big") - int.from_bytes(start, "big")) % 2**160
    return 2**160 if is_whole and far == 0 else far


def zone_of(apex, records):
    """None where a record is of another zone, where none counts, or where two are hashed in different ways."""
    if not all(is_same(one.owner[1:], apex) for one in records):
        return None
    those = [one for one in records if counts(one)]
    return Zone(apex, those) if len({(one.salt, one.iterations) for one in those}) == 1 else None


def verdict(name, kind, apex, code, answered, records):
    """What the records of a zone prove of a response; `answered` says what of."""
    zone = zone_of(apex, records) if is_above(apex, name) and not (kind == DS and is_same(apex, name)) else None
    if not zone or zone.iterations > HARD:
        return BOGUS
    if zone.iterations > SOFT:
        return INSECURE
    if code not in (NO_ERROR, NAME_ERROR) or answered == PLAIN or (code == NAME_ERROR and answered != NO):
        return BOGUS
    own = zone.at(name)
    if own:
        return SECURE if answered == NO and code == NO_ERROR and denies_type(own, kind) else BOGUS
    if answered not in (NO, PLAIN):
        is_closest = len(apex) <= answered < len(name) and zone.covering(name[len(name) - answered - 1:])
        return SECURE if is_closest else BOGUS
    above, closer = zone.encloser(name), zone.closer(name)
    if above is None or not closer:
        return BOGUS
    wildcard = (b"*", *above)
    if code == NAME_ERROR:
        over = zone.covering(wildcard)
        return BOGUS if not over else INSECURE if OPT_OUT in (closer.flags, over.flags) else SECURE
    if kind == DS and closer.flags == OPT_OUT:
        return SECURE
    at_wildcard = [one for one in zone.records if one.hash == zone.hashed(wildcard)]
    return SECURE if any(not {kind, CNAME, NS, DNAME} & one.types for one in at_wildcard) else BOGUS


def is_unsigned(child, records):
    """Whether the records show that a child's zone isn't signed, or that opt-out may hide that it isn't (RFC 5155, 8.9)."""
    apex = records[0].owner[1:] if records else None
    zone = zone_of(apex, records) if records and is_above(apex, child) and not is_same(apex, child) else None
    own = zone and zone.at(child)
    if own:
        return NS in own.types and not {DS, SOA} & own.types
    closer = zone and zone.closer(child)
    return bool(closer) and closer.flags == OPT_OUT
