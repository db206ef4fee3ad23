"""What the words `roll` have to write, from the rules alone (RFC 5011, 2) and never from the crates: for `model.py`.

Who is trusted is said over the whole list of sightings, as the rules say it, and nothing is kept from one sighting to the next."""
import functools
import re
from collections import namedtuple

import reading
from reading import Fault, dnskey_of, folded, num_labels, rrsig_of
from signing import serial_at_or_before, signed_bytes

DNSKEY, RRSIG, IN, MOST_SIGNATURES = 48, 46, 1, 8
ZONE_KEY, REVOKED, ENTRY_POINT = 0x0100, 0x0080, 0x0001
# seconds
HOLD_DOWN = 2_592_000
OCTETS = r"(?:-|(?:[0-9a-fA-F]{2})+)"
# the lines in their order: the form, and how often it stands
FORMS = (("dns-roll 1", 1), (r"zone \S+", 1), (r"algorithms(?: \d+)*", 1), (f"key {OCTETS}", None),
         (rf"accept \d+ {OCTETS} {OCTETS} {OCTETS}", None), (rf"sight (\d+) {OCTETS}", None), ("end", 1))
Text = namedtuple("Text", "zone algorithms keys accepts sights")
# the records that count by their keys, without the flag REVOKE and with it
Sighting = namedtuple("Sighting", "moment set plain revoked")
KeySet = namedtuple("KeySet", "owner kind records signatures")


def bad_line(lines):
    """The number of the first line that can't stand at its place, or 0. A moment below the one before can't stand."""
    place, last = 0, 0
    for form, count in FORMS:
        found = re.fullmatch(form, lines[place]) if place < len(lines) - 1 else None
        while found and not (found.groups() and int(found[1]) < last):
            last, place = int(found[1]) if found.groups() else last, place + 1
            found = re.fullmatch(form, lines[place]) if count is None and place < len(lines) - 1 else None
            if count:
                break
        else:
            if count:
                return place + 1
    return 0 if lines[place:] == [""] else place + 1


def text_in(lines):
    words = [line.split(" ") for line in lines]
    rest = {word: [line[1:] for line in words if line[0] == word] for word in ("zone", "algorithms", "key", "accept", "sight")}
    return Text(zone=reading.name_in(rest["zone"][0][0]), algorithms=set(map(int, rest["algorithms"][0])) - {1},
                keys=[reading.octets_in(key) for key, in rest["key"]],
                accepts={(int(line[0]), *map(reading.octets_in, line[1:])) for line in rest["accept"] if line[0] != "1"},
                sights=[(int(moment), reading.octets_in(octets)) for moment, octets in rest["sight"]])


def counted(record):
    """The key that a record shows, if it counts: flags, then algorithm and public key."""
    key = dnskey_of(record)
    return (key.flags, (key.algorithm, key.key)) if key and key.flags & ZONE_KEY and key.flags & ENTRY_POINT else None


def as_record(rdata):
    return reading.Record((), DNSKEY, IN, 0, rdata)


def shown_by(zone, moment, octets):
    """The key set of the zone that a message shows, or None."""
    try:
        answers = reading.message_in(octets).sections[0]
    except Fault:
        return None
    own = [record for record in answers if record.klass == IN and folded(record.owner) == folded(zone)]
    keys = [record for record in own if record.kind == DNSKEY]
    if not keys:
        return None
    signatures = [record for record in own if record.kind == RRSIG and rrsig_of(record) and rrsig_of(record).covered == DNSKEY]
    forms = {}, {}
    for record in keys:
        if found := counted(record):
            forms[bool(found[0] & REVOKED)].setdefault(found[1], []).append(record)
    return Sighting(moment, KeySet(zone, DNSKEY, keys, signatures), *forms)


def question_of(zone, sighting, signature, record):
    """What a verifier is asked of a signature and a key of the set, whatever the key's flag REVOKE (RFC 4035, 5.3); None where another test
    fails."""
    sig, key, now = rrsig_of(signature), dnskey_of(record), sighting.moment % 2**32
    fits = (folded(sig.signer) == folded(zone) and sig.labels <= num_labels(zone)
            and serial_at_or_before(sig.inception, now) and serial_at_or_before(now, sig.expiration)
            and (key.algorithm, key.tag, key.protocol) == (sig.algorithm, sig.tag, 3))
    return (key.algorithm, key.key, signed_bytes(sighting.set, sig), sig.signature) if fits else None


def questions_of(zone, sighting):
    """All of them that may matter: each of the first eight signatures with each key that counts, in both forms."""
    asked = (question_of(zone, sighting, signature, record) for signature in sighting.set.signatures[:MOST_SIGNATURES]
             for record in sighting.set.records if counted(record))
    return [one for one in dict.fromkeys(asked) if one]


class Roll:
    """Who is trusted after the first `n` sightings of a text."""

    def __init__(self, text):
        self.text, self.given = text, {key[1] for key in map(counted, map(as_record, text.keys)) if key}
        self.sightings = [one for one in (shown_by(text.zone, *sight) for sight in text.sights) if one]

    def is_good(self, sighting, signature, record):
        """By a key, whatever its flag REVOKE."""
        asked = question_of(self.text.zone, sighting, signature, record)
        return asked is not None and asked[0] in self.text.algorithms and asked in self.text.accepts

    @functools.cache
    def ttl(self, n):
        """The original ttl by which sighting n is accepted, or None."""
        one = self.sightings[n]
        members = [record for key, records in one.plain.items() if self.is_trusted(n, key) for record in records]
        for signature in one.set.signatures[:MOST_SIGNATURES]:
            if any(self.is_good(one, signature, record) for record in members):
                return rrsig_of(signature).ttl
        return None

    @functools.cache
    def revokes(self, n, key):
        one = self.sightings[n]
        signs = any(self.is_good(one, signature, form) for signature in one.set.signatures[:MOST_SIGNATURES] for form in one.revoked.get(key, ()))
        return signs and (self.is_trusted(n, key) or self.ttl(n) is not None)

    def shows(self, n, key):
        return key in self.sightings[n].plain

    @functools.cache
    def is_trusted(self, n, key):
        if any(self.revokes(m, key) for m in range(n)):
            return False
        if key in self.given:
            return True
        accepted = [m for m in range(n) if self.ttl(m) is not None]
        for at, first in enumerate(accepted):
            if at and self.shows(accepted[at - 1], key):
                continue
            due = self.sightings[first].moment + max(HOLD_DOWN, self.ttl(first))
            for last in accepted[at:]:
                if not self.shows(last, key):
                    break
                if self.sightings[last].moment >= due:
                    return True
        return False

    def lines(self):
        """Given keys first, then by the first sighting that holds the key; the flag REVOKE is cleared."""
        told, count = set(), len(self.sightings)
        for record in [*map(as_record, self.text.keys), *(record for one in self.sightings for record in one.set.records)]:
            key = counted(record)
            if key and key[1] not in told:
                told.add(key[1])
                if self.is_trusted(count, key[1]):
                    yield f"trusted {record.rdata[:1].hex()}{record.rdata[1] & 0x7F:02x}{record.rdata[2:].hex()}\n"


def written(text):
    """What is written, and the status."""
    lines = text.decode("latin-1").split("\n")
    bad = bad_line(lines)
    if bad:
        return f"bad line {bad}\n".encode(), 3
    return "".join(Roll(text_in(lines)).lines()).encode(), 0
