"""Cases of small zones with their true NSEC3 records, with opt-out or without, for `tools/zones`, and what is wrong with a
verdict on one (RFC 5155)."""
import collections
import hashlib
import random

from small_zones import (DNAME, DS, NAME_ERROR, NO_ERROR, NS, RRSIG, STAR, Case, above, ancestors, bitmap, folded, in_any_case,
                         label_count, random_query, random_zone, record, wire)

NSEC3 = 50
QUERIES, SUBSETS = 12, 6
VERDICTS = ("Secure", "Insecure", "Bogus")
KINDS = ("name errors", "answers without data", "expansions")
ALPHABET = b"0123456789abcdefghijklmnopqrstuv"

# a record by its hashes, its flags, its types and its algorithm, and its first label as it is written
Nsec3 = collections.namedtuple("Nsec3", "owner following flags types algorithm label")


# ---- hashes

class Hashing:
    """How the names of a zone are hashed (RFC 5155, 5)."""

    def __init__(self, draw):
        self.salt = bytes(draw.randrange(256) for _ in range(draw.choice([0, 1, 4, 12])))
        self.iterations = draw.randrange(6)
        self.known = {}

    def of(self, name):
        if name not in self.known:
            digest = hashlib.sha1(wire(name) + self.salt).digest()
            for _ in range(self.iterations):
                digest = hashlib.sha1(digest + self.salt).digest()
            self.known[name] = digest
        return self.known[name]


def base32hex(digest):
    number = int.from_bytes(digest, "big")
    return bytes(ALPHABET[number >> shift & 31] for shift in range(155, -1, -5))


def lies_between(first, last, other):
    """Whether a hash comes strictly between two others in hash order, going round."""
    return first < other < last if first < last else other > first or other < last


# ---- records

def is_light(zone, name):
    """Whether a name exists, and each owner at or below it is a delegation without DS (RFC 5155, 7.1)."""
    return zone.exists(name) and all(types == {NS} and owner != zone.apex for owner, types in zone.sets.items() if above(name, owner))


def types_at(zone, name):
    """The types that a record lists: those of the name, and RRSIG where one of them is signed (RFC 5155, 7.1)."""
    types = zone.sets.get(name, set())
    signed = types - {NS} if name != zone.apex else types
    return types | ({RRSIG} if signed else set())


def nsec3s_of(draw, zone):
    """The records of a zone. With opt-out some light names have none, and any record may have the flag."""
    opt_out = draw.random() < 0.6
    left_out = {name for name in zone.existing if opt_out and is_light(zone, name) and draw.random() < 0.7}
    hashes = {zone.hashing.of(name): name for name in zone.existing - left_out}
    row = sorted(hashes)
    records = []
    for first, last in zip(row, row[1:] + row[:1]):
        needed = any(lies_between(first, last, zone.hashing.of(name)) for name in left_out)
        flag = int(needed or opt_out and draw.random() < 0.4)
        records.append(Nsec3(first, last, flag, types_at(zone, hashes[first]), 1, base32hex(first)))
    return records


def telling(zone, records, name):
    """The records that match or cover a name, one above it or the wildcard below one of these."""
    told = [zone.hashing.of(other) for upper in ancestors(name) if above(zone.apex, upper) for other in (upper, (STAR,) + upper)]
    for one in records:
        if any(one.owner == hashed or lies_between(one.owner, one.following, hashed) for hashed in told):
            yield one


def shown(draw, records):
    """The records in any order, some twice, and at times one that is to be ignored."""
    records = draw.sample(records, len(records))
    if records and draw.random() < 0.1:
        records.append(draw.choice(records))
    if draw.random() < 0.1:
        owner = draw.randbytes(20)
        lie = Nsec3(owner, draw.randbytes(20), 0, {NS}, 1, base32hex(owner))
        lie = lie._replace(algorithm=2) if draw.random() < 0.5 else lie._replace(flags=draw.choice([2, 3, 128]))
        records.insert(draw.randint(0, len(records)), lie)
    return [one._replace(label=one.label.upper() if draw.random() < 0.2 else one.label) for one in records]


# ---- cases

def random_cases(draw, zone, records, name, rtype):
    count = label_count(name)
    low = folded(name)
    truth = zone.lookup(low, rtype) if zone.holds(low, rtype) else "elsewhere"
    code = NAME_ERROR if truth == "no such name" else NO_ERROR
    yield Case(name, rtype, code, None, shown(draw, records), True)
    if count:
        # a signature with as many labels as the name has shows no expansion
        encloser = len(zone.closest_encloser(low)) if truth != "elsewhere" else 0
        labels = encloser if encloser < count and draw.random() < 0.7 else draw.randrange(count)
        yield Case(name, rtype, NO_ERROR, labels, shown(draw, records), True)
    some = list(telling(zone, records, low))
    for _ in range(SUBSETS):
        answered = draw.choice([None, None, None, "plain", *([draw.randrange(count)] if count else [])])
        kept = [one for one in (some if draw.random() < 0.7 else records) if draw.random() < 0.8]
        yield Case(name, rtype, draw.choice([code, NO_ERROR, NAME_ERROR, draw.randrange(16)]), answered, shown(draw, kept), False)


def cases_of(seed):
    """A zone and its cases."""
    draw = random.Random(f"nsec3 {seed}")
    zone, labels = random_zone(draw)
    zone.hashing = Hashing(draw)
    records = nsec3s_of(draw, zone)
    cases = []
    for _ in range(QUERIES):
        name, rtype = random_query(draw, zone, labels)
        cases += random_cases(draw, zone, records, in_any_case(draw, name), rtype)
    return zone, cases


# ---- what is wrong with a verdict

def counting(case):
    """The records that aren't to be ignored (RFC 5155, 8.1 and 8.2)."""
    return [one for one in case.records if one.algorithm == 1 and one.flags < 2]


def is_opted_out(zone, case, name):
    """Whether a record with the flag covers a name of the zone or one above it."""
    uppers = [zone.hashing.of(upper) for upper in ancestors(name) if above(zone.apex, upper)]
    return any(one.flags == 1 and lies_between(one.owner, one.following, hashed) for one in counting(case) for hashed in uppers)


def is_ds_by_opt_out(zone, case):
    """Whether a DS is denied by opt-out alone: a record with the flag covers the name below the longest that is matched (RFC 5155, 8.6)."""
    name = folded(case.name)
    owners = {one.owner for one in counting(case)}
    if case.rtype != DS or case.code != NO_ERROR or zone.hashing.of(name) in owners:
        return False
    for upper, closer in zip(ancestors(name)[1:], ancestors(name)):
        if above(zone.apex, upper) and zone.hashing.of(upper) in owners:
            hashed = zone.hashing.of(closer)
            return any(one.flags == 1 and lies_between(one.owner, one.following, hashed) for one in counting(case))
    return False


def is_missing(zone, case, name):
    """Whether a name doesn't exist, or is light and opted out."""
    return not zone.exists(name) or is_light(zone, name) and is_opted_out(zone, case, name)


def hides(zone, case):
    """What a Secure verdict says that isn't so in the zone, or None."""
    name = folded(case.name)
    if case.answered == "plain":
        return "an answer that needs no denial"
    if not zone.holds(name, case.rtype):
        return "a query that the zone doesn't hold"
    if case.answered is not None:
        passed = [upper for upper in ancestors(name) if len(upper) > case.answered or upper == name]
        passed += [(STAR,) + upper for upper in passed]
        return None if all(is_missing(zone, case, upper) for upper in passed) else "an expansion past a name that exists"
    if case.code not in (NO_ERROR, NAME_ERROR):
        return "a code that denies nothing"
    if case.code == NAME_ERROR and zone.exists(name):
        return "a name error of a name that exists"
    if is_ds_by_opt_out(zone, case):
        return "a DS that is there, denied by opt-out" if DS in zone.sets.get(name, ()) else None
    truth, cut = zone.cut_or_kind(name, case.rtype)
    if truth == "referral" and case.code == NO_ERROR and is_light(zone, cut) and is_opted_out(zone, case, cut):
        return None
    return f"{truth}, denied" if truth in ("data", "referral") else None


def owed(zone, case):
    """What a case with all records of a zone without opt-out is, where they are owed a Secure verdict; else None. Each name error
    is owed one, each answer without data, and each expansion whose name no DNAME is above."""
    name = folded(case.name)
    if not case.whole or not zone.holds(name, case.rtype) or any(one.flags == 1 for one in counting(case)):
        return None
    truth = zone.lookup(name, case.rtype)
    if case.answered is not None:
        missing = not zone.exists(name) and truth in ("data", "no data", "no such name")
        ended = any(DNAME in zone.sets.get(upper, ()) for upper in ancestors(name)[1:])
        return "expansions" if missing and not ended and case.answered == len(zone.closest_encloser(name)) else None
    if truth == "no such name":
        return "name errors" if case.code == NAME_ERROR else None
    return "answers without data" if truth == "no data" and case.code == NO_ERROR else None


def wrong(zone, case, verdict):
    """What is wrong with a verdict, or None."""
    if verdict == "Secure":
        why = hides(zone, case)
        return f"Secure: {why}" if why else None
    due = owed(zone, case)
    if due:
        return f"{verdict} with all records: {due}"
    by_opt_out = case.code == NAME_ERROR and case.answered is None and any(one.flags == 1 for one in counting(case))
    return "Insecure without opt-out" if verdict == "Insecure" and not by_opt_out else None


# ---- messages

def told(zone, case):
    """The records of a case: owner, type and rdata (RFC 5155, 3.2)."""
    salt = zone.hashing.salt
    for one in case.records:
        head = bytes([one.algorithm, one.flags]) + zone.hashing.iterations.to_bytes(2, "big") + bytes([len(salt)]) + salt
        yield (one.label,) + zone.apex, NSEC3, head + bytes([len(one.following)]) + one.following + bitmap(one.types)


def denials(zone, case):
    """The same, as they stand in a message."""
    return [record(*one) for one in told(zone, case)]
