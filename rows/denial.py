"""What NSEC records say of a denial or of an expansion, for `model.py`: RFC 4034, 4; RFC 4035, 5.4; RFC 6840, 4.1.

Names are tuples of labels, the leaf first. A record is its owner, its next name and its types, NSEC and RRSIG aside."""
from collections import namedtuple

import reading
from reading import folded, is_above

NS, CNAME, SOA, DNAME, DS, RRSIG, NSEC = 2, 5, 6, 39, 43, 46, 47
NO_ERROR, NAME_ERROR = 0, 3
# `answered`: there is no answer, a plain one, or a number of labels: one that was expanded from a wildcard
NO, PLAIN = "no", "plain"
Nsec = namedtuple("Nsec", "owner following types")


def types_in(bitmap):
    """RFC 4034, 4.1.2."""
    types, place = set(), 0
    while place < len(bitmap):
        window, length = bitmap[place:place + 2]
        for at, octet in enumerate(bitmap[place + 2:place + 2 + length]):
            types |= {window * 256 + at * 8 + bit for bit in range(8) if octet & 0x80 >> bit}
        place += 2 + length
    return types


def nsec_of(record):
    """RFC 4034, 4.1; None where the record can't be read so."""
    if record.kind != NSEC or not record.rdata:
        return None
    reader = reading.Reader(record.rdata)
    following = reader.name()
    return Nsec(record.owner, following, types_in(record.rdata[reader.place:]) - {NSEC, RRSIG})


def place(name):
    """What orders names (RFC 4034, 6.1)."""
    return tuple(reversed(folded(name)))


def is_same(first, second):
    return folded(first) == folded(second)


def is_cut(nsec):
    return NS in nsec.types and SOA not in nsec.types


def covers(nsec, name):
    """The name stands after the owner and before the next one, or after the last owner of the zone."""
    is_last = place(nsec.following) <= place(nsec.owner) and is_above(nsec.following, name)
    return place(nsec.owner) < place(name) and (place(name) < place(nsec.following) or is_last)


def covering(records, name):
    """The record with the nearest owner, unless that owner is above the name and leads on: by NS without SOA, or by DNAME."""
    those = [nsec for nsec in records if covers(nsec, name)]
    nearest = max(those, key=lambda nsec: place(nsec.owner), default=None)
    leads_on = nearest and is_above(nearest.owner, name) and (is_cut(nearest) or DNAME in nearest.types)
    return None if leads_on else nearest


def common(first, second):
    """The longest name above both."""
    return next(first[cut:] for cut in range(len(first) + 1) if is_above(first[cut:], second))


def denies_type(nsec, kind):
    """A record of the name itself denies the type, for which it has to speak: a cut for DS alone, an apex not for DS."""
    speaks = not (is_cut(nsec) and kind != DS) and not (kind == DS and SOA in nsec.types)
    return speaks and not {kind, CNAME} & nsec.types


def is_denied(name, kind, zone, code, answered, records):
    """Whether the records of a zone prove the denial; `answered` says what of."""
    holds = is_above(zone, name) and not (kind == DS and is_same(zone, name))
    if code not in (NO_ERROR, NAME_ERROR) or not holds or answered == PLAIN:
        return False
    own = next((nsec for nsec in records if is_same(nsec.owner, name)), None)
    if own:
        return answered == NO and code == NO_ERROR and denies_type(own, kind)
    by = covering(records, name)
    if not by:
        return False
    if is_above(name, by.following):
        return answered == NO and code == NO_ERROR
    encloser = max(common(name, by.owner), common(name, by.following), key=len)
    wildcard = (b"*", *encloser)
    if answered != NO:
        return code == NO_ERROR and len(encloser) == answered
    if code == NAME_ERROR:
        return covering(records, wildcard) is not None
    return any(is_same(nsec.owner, wildcard) and not {kind, CNAME, NS, DNAME} & nsec.types for nsec in records)
