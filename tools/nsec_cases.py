"""Cases of small zones with their true NSEC records, for `tools/zones`, and what is wrong with a verdict on one."""
import random

from small_zones import (DNAME, NAME_ERROR, NO_ERROR, NSEC, RRSIG, STAR, Case, ancestors, bitmap, folded, in_any_case,
                         label_count, place, random_query, random_zone, record, wire)

# how many queries a zone is asked, and how many subsets of its records each is judged by
QUERIES, SUBSETS = 12, 6
VERDICTS = ("Secure", "Bogus")
KINDS = ("name errors", "answers without data", "expansions")


def nsecs_of(zone):
    """The NSEC records of a zone: owner, next owner and types (RFC 4034, 4.1)."""
    owners = sorted(zone.sets, key=place)
    return [(owner, following, zone.sets[owner]) for owner, following in zip(owners, owners[1:] + owners[:1])]


def telling(zone, name):
    """The records that speak of a name, of those above it and of the wildcards below these."""
    places = [place(other) for upper in ancestors(name) for other in (upper, (STAR,) + upper)]
    for owner, following, types in nsecs_of(zone):
        first, last = place(owner), place(following)
        if any(first <= other and (other < last or last <= first) for other in places):
            yield owner, following, types


def shown(draw, records):
    """The records in any order, some twice, in letters of either case."""
    records = draw.sample(records, len(records))
    if records and draw.random() < 0.1:
        records.append(draw.choice(records))
    return [(in_any_case(draw, owner), in_any_case(draw, following), types) for owner, following, types in records]


def random_cases(draw, zone, name, rtype):
    count = label_count(name)
    low = folded(name)
    truth = zone.lookup(low, rtype) if zone.holds(low, rtype) else "elsewhere"
    code = NAME_ERROR if truth == "no such name" else NO_ERROR
    nsecs = nsecs_of(zone)
    yield Case(name, rtype, code, None, shown(draw, nsecs), True)
    if count:
        # a signature with as many labels as the name has shows no expansion
        encloser = len(zone.closest_encloser(low)) if truth != "elsewhere" else 0
        labels = encloser if encloser < count and draw.random() < 0.7 else draw.randrange(count)
        yield Case(name, rtype, NO_ERROR, labels, shown(draw, nsecs), True)
    some = list(telling(zone, low))
    for _ in range(SUBSETS):
        answered = draw.choice([None, None, None, "plain", *([draw.randrange(count)] if count else [])])
        records = some if draw.random() < 0.7 else nsecs
        records = [one for one in records if draw.random() < 0.7]
        yield Case(name, rtype, draw.choice([code, NO_ERROR, NAME_ERROR, draw.randrange(16)]), answered, shown(draw, records), False)


def cases_of(seed):
    """A zone and its cases."""
    draw = random.Random(seed)
    zone, labels = random_zone(draw)
    cases = []
    for _ in range(QUERIES):
        name, rtype = random_query(draw, zone, labels)
        cases += random_cases(draw, zone, in_any_case(draw, name), rtype)
    return zone, cases


# ---- what is wrong with a verdict

def hides(zone, case):
    """What a Secure verdict says that isn't so in the zone, or None."""
    name = folded(case.name)
    if case.answered == "plain":
        return "an answer that needs no denial"
    if not zone.holds(name, case.rtype):
        return "a query that the zone doesn't hold"
    if case.answered is not None:
        passed = [upper for upper in ancestors(name) if len(upper) > case.answered or upper == name]
        passed += [(STAR,) + upper for upper in passed]
        return "an expansion past a name that exists" if any(map(zone.exists, passed)) else None
    if case.code not in (NO_ERROR, NAME_ERROR):
        return "a code that denies nothing"
    if case.code == NAME_ERROR and zone.exists(name):
        return "a name error of a name that exists"
    truth = zone.lookup(name, case.rtype)
    return f"{truth}, denied" if truth in ("data", "referral") else None


def owed(zone, case):
    """What a case with all records is, where they are owed a Secure verdict; else None."""
    name = folded(case.name)
    if not case.whole or not zone.holds(name, case.rtype):
        return None
    if case.answered is not None:
        missing = not zone.exists(name) and zone.lookup(name, case.rtype) in ("data", "no data", "no such name")
        ended = any(DNAME in zone.sets.get(upper, ()) for upper in ancestors(name)[1:])
        return "expansions" if missing and not ended and case.answered == len(zone.closest_encloser(name)) else None
    truth = zone.lookup(name, case.rtype)
    if truth == "no such name":
        return "name errors" if case.code == NAME_ERROR else None
    wildcard = (STAR,) + zone.closest_encloser(name)
    if truth == "no data" and case.code == NO_ERROR and (zone.exists(name) or wildcard in zone.sets):
        return "answers without data"
    return None


def wrong(zone, case, verdict):
    """What is wrong with a verdict, or None."""
    if verdict == "Secure":
        why = hides(zone, case)
        return f"Secure: {why}" if why else None
    due = owed(zone, case)
    return f"Bogus with all records: {due}" if due else None


def told(_zone, case):
    """The records of a case: owner, type and rdata (RFC 4034, 4.1)."""
    for owner, following, types in case.records:
        yield owner, NSEC, wire(following) + bitmap(types | {RRSIG, NSEC})


def denials(zone, case):
    """The same, as they stand in a message."""
    return [record(*one) for one in told(zone, case)]
