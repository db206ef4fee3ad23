"""What the words `deny` have to write, from the rules alone (RFC 8198, 5.1 to 5.4) and never from the crates: for `model.py`.

All records are kept in a list, and each question goes over the whole list."""
from collections import namedtuple

import answers
import denial
import hashes
import reading
from denial import DS, NAME_ERROR, NO, NO_ERROR, NSEC, RRSIG, is_same
from hashes import NSEC3, SHA_1
from reading import OPT, folded
from report import SIGNED, adjusted_ttl

MOST_KEPT, LAST_MOMENT, LONGEST_TTL = 65_536, 2**64 - 1, 2**32 - 1
# what isn't data of a zone
NEVER_DENIED = {OPT, RRSIG, NSEC, NSEC3, *range(128, 256)}
# `way` is how the owner is hashed, None of NSEC
Kept = namedtuple("Kept", "zone record way expires")


def parts_of(text):
    """The session, and the questions behind it."""
    session, end, rest = text.partition(b"\nend\n")
    words = [line.split(" ") for line in rest.decode("latin-1").split("\n")]
    return session + end, [(reading.name_in(line[1]), reading.type_in(line[2])) for line in words if line[0] == "then"]


def item_of(record):
    """The record as NSEC, or as NSEC3 by SHA-1 without flags, and how its owner is hashed; None where it can't be read so."""
    if record.kind == NSEC3:
        nsec3 = hashes.nsec3_of(record)
        return (nsec3, (nsec3.iterations, nsec3.salt)) if nsec3 and (nsec3.algorithm, nsec3.flags) == (SHA_1, 0) else None
    nsec = denial.nsec_of(record)
    return (nsec, None) if nsec else None


def taken(step, moment):
    """The records that an answer gives, in the order of its authority section: of a set, the signature that decided names the zone."""
    sets = {id(record): rrset for rrset in step.sets if rrset.section == "authority" for record in rrset.records}
    for record in step.message.sections[1]:
        rrset, item = sets.get(id(record)), item_of(record)
        if rrset and item and rrset.mark == SIGNED:
            expires = min(moment + adjusted_ttl(rrset, moment), LAST_MOMENT)
            yield Kept(answers.decider_of(rrset).signer, *item, expires)


def kept_of(step, moment):
    """Of those of one place the last, where it stands, and of all of them the last ones."""
    places = {}
    for kept in taken(step, moment):
        place = folded(kept.zone), folded(kept.record.owner), kept.way
        places.pop(place, None)
        places[place] = kept
    return list(places.values())[-MOST_KEPT:]


def is_shown(name, kind, zone, code, group):
    """Whether a response with this code and no answer is proved by these records alone."""
    records = [kept.record for kept in group]
    if group[0].way is None:
        return denial.is_denied(name, kind, zone, code, NO, records)
    return hashes.verdict(name, kind, zone, code, NO, records) == hashes.SECURE


def made(live, name, kind, moment):
    """The code and the ttl by which live records deny a question, or None."""
    if kind in NEVER_DENIED:
        return None
    above = [name[cut:] for cut in range(1 if kind == DS else 0, len(name) + 1)]
    zone = next((apex for apex in above if any(is_same(kept.zone, apex) for kept in live)), None)
    own = [kept for kept in live if zone is not None and is_same(kept.zone, zone)]
    ways = [None, *dict.fromkeys(kept.way for kept in own if kept.way)]
    for group in filter(None, ([kept for kept in own if kept.way == way] for way in ways)):
        for code in (NAME_ERROR, NO_ERROR):
            if is_shown(name, kind, zone, code, group):
                return code, min(LONGEST_TTL, min(kept.expires for kept in group) - moment)
    return None


def lines(step, questions, moment):
    """A line for each question, by the records of an answer."""
    live = [kept for kept in kept_of(step, moment) if moment < kept.expires]
    for name, kind in questions:
        denied = made(live, name, kind, moment)
        yield f"{reading.shown(name)} {reading.type_word(kind)} " + (f"denied {denied[0]} {denied[1]}" if denied else "unknown")
