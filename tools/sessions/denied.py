"""Random sessions that deny: a small random zone below an anchored key answers by its own NSEC or NSEC3 records, with opt-out or
without, and each set is signed. What is wrong with an outcome is found from the zone.

A session is of one of these: no answer; an answer from a wildcard; records of a zone that a delegation without DS leads to, where
the question for its DS set is answered by NSEC3 records."""
import os
import sys
from collections import namedtuple

sys.path.insert(0, os.path.join(os.path.dirname(os.path.realpath(__file__)), ".."))
import nsec3_cases  # noqa: E402
import nsec_cases  # noqa: E402
from drawn import DS, IN, NS, RRSIG, Draw, Record, Turn, count_of, low, message, number, random_fields, type_word, wire  # noqa: E402
from making import Session  # noqa: E402
from small_zones import DNAME, NO_ERROR, Case, above, ancestors, folded  # noqa: E402

A = 1
# a session's text; its zone, how that denies, and the case that is put to it; whether the case is a delegation's
Denied = namedtuple("Denied", "text zone kind case is_delegation")


class DenyingSession(Session):
    """A session whose last reply denies by the records of a zone, signed by the zone's key."""

    def __init__(self, draw):
        super().__init__(draw, Turn())
        self.moment = draw.randrange(2**33)

    def says(self, name, kind, answers):
        """The same reply each time, since each denying set asks anew."""
        super().says(name, kind, answers)
        del self.replies[-1][1:]

    def depth_lines(self):
        return []

    def zone_key(self, apex):
        """The key of the zone, which is anchored or has a DS set in an anchored zone above it."""
        if not apex or self.draw.is_one_of(3):
            return self.anchored_keys(apex, True)
        upper = apex[self.draw.randint(1, len(apex)):]
        return self.zone_below(upper, self.anchored_keys(upper, True), apex, True)

    def expanded(self, owner, records, zone, key, labels):
        """A signature of so many labels: it signed the wildcard below its name with so many (RFC 4035, 5.3.2)."""
        kind, ttl, said = records[0].kind, self.draw.choice([0, 3600]), self.draw.octets(40)
        signed = owner if labels >= count_of(owner) else [b"*", *owner[len(owner) - labels:]]
        front = number(kind, 2) + number(key.algorithm, 1) + number(labels, 1) + number(ttl, 4)
        front += self.times(False) + number(key.tag(), 2)
        each = wire(low(signed)) + number(kind, 2) + number(IN, 2) + number(ttl, 4)
        rdatas = sorted({record.canonical() for record in records})
        octets = front + wire(low(zone)) + b"".join(each + number(len(rdata), 2) + rdata for rdata in rdatas)
        self.accept(octets, key, said)
        return Record(owner, RRSIG, [front, self.draw.any_case(zone), said], 3600)

    def authority(self, told, zone, key):
        """The sets of these records, each with its signature."""
        sets = {}
        for owner, kind, rdata in told:
            sets.setdefault((folded(owner), kind), []).append(Record([*owner], kind, [rdata], 3600))
        return [record for records in sets.values() for record in self.signed(low(records[0].owner), records, zone, key)]

    def tells(self, name, kind, code, sections):
        octets = message(self.draw, [(self.draw.any_case(name), kind)], sections, code)
        self.replies.append([f"reply {self.draw.shown(name)} {type_word(kind)} {self.draw.hexadecimal(octets)}"])

    def denies(self, zone, kind, case):
        """The reply to the query of a case, with its answer if there is one."""
        apex, name = [*zone.apex], [*case.name]
        key, answers = self.zone_key(apex), []
        if case.answered is not None:
            fields = {Record([], case.rtype, one, 0).rdata(): one for one in [random_fields(self.draw, case.rtype)]}
            answers = [Record(name, case.rtype, one, 3600) for one in fields.values()]
            labels = count_of(name) if case.answered == "plain" else case.answered
            answers.append(self.expanded(name, answers, apex, key, labels))
        self.tells(name, case.rtype, case.code, [answers, self.authority(kind.told(zone, case), apex, key), []])
        return self.text(name, case.rtype)

    def leads_to(self, zone, kind, case):
        """An unsigned set at a delegation or below it, and the denial of the delegation's DS set."""
        cut = [*case.name]
        name = self.draw.name_below(cut, 0, 2, longest=240)
        self.tells(name, A, NO_ERROR, [[Record(name, A, [b"\1\2\3\4"], 60)], [], []])
        for upper in (name[at:] for at in range(len(name) - len(cut) + 1)):
            found = [Record(upper, NS, [upper], 60)] if len(upper) == len(cut) else []
            self.tells(upper, NS, NO_ERROR, [found, [], []])
        key = self.zone_key([*zone.apex])
        self.tells(cut, DS, case.code, [[], self.authority(kind.told(zone, case), [*zone.apex], key), []])
        return self.text(name, A)


def delegation_case(draw, zone, records):
    """A delegation, or a name that may be none, with all records of its zone or some."""
    names = [owner for owner, types in zone.sets.items() if NS in types and owner != zone.apex]
    names += [name for name in zone.existing if name != zone.apex]
    if not names:
        return None
    cut = draw.choice(sorted(names))
    is_whole = draw.is_one_of(2)
    kept = records if is_whole else [one for one in records if draw.random() < 0.8]
    return Case(cut, DS, NO_ERROR, None, nsec3_cases.shown(draw, kept), is_whole)


def made(seed, place):
    """The session of a number: a query of a zone, or a delegation of one that denies by NSEC3."""
    draw = Draw(f"denied {seed} {place}")
    kind = draw.choice([nsec_cases, nsec3_cases, nsec3_cases])
    zone, cases = kind.cases_of(draw.randrange(2**32))
    session = DenyingSession(draw)
    if kind is nsec3_cases and draw.is_one_of(3):
        case = delegation_case(draw, zone, nsec3_cases.nsec3s_of(draw, zone))
        if case:
            return Denied(session.leads_to(zone, kind, case), zone, kind, case, True)
    case = draw.choice(cases)
    return Denied(session.denies(zone, kind, case), zone, kind, case, False)


# ---- what is wrong with an outcome

def verdict_of(ended):
    """The verdict that the program came to, where it judged the denial."""
    status, wrote = ended
    text = wrote.decode("latin-1")
    if status == 0:
        return "Secure" if text.split("\n")[2] in ("denial absent secure", "denial expanded secure") else None
    return {"fault nsec bogus\n": "Bogus", "fault nsec insecure\n": "Insecure"}.get(text)


def wrong_with_mark(denied, ended):
    """What is wrong with the mark of the unsigned set below a delegation. It can't be Insecure where the delegation has a DS set,
    and is so where it has none and all records are there."""
    zone, cut = denied.zone, folded(denied.case.name)
    is_insecure = ended[0] == 0 and b" insecure " in ended[1]
    types = zone.sets.get(cut, set())
    if is_insecure and (DS in types or types and NS not in types):
        return "Insecure below a delegation with a DS set, or below none"
    if is_insecure and DS not in types and not zone.exists(cut):
        return "Insecure below a name that isn't there"
    ends = any(DNAME in zone.sets.get(upper, ()) or NS in zone.sets.get(upper, ()) and upper != zone.apex
               for upper in ancestors(cut)[1:] if above(zone.apex, upper))
    is_due = denied.case.whole and types == {NS} and not ends
    return "not Insecure, and all records of the delegation are there" if is_due and not is_insecure else None


def wrong_with(denied, ended):
    if denied.is_delegation:
        return wrong_with_mark(denied, ended)
    verdict = verdict_of(ended)
    if verdict is None or verdict == "Bogus" and not denied.case.records:
        return None
    return denied.kind.wrong(denied.zone, denied.case, verdict)


def counted(denied, ended):
    """The words under which a session is counted."""
    how = "NSEC" if denied.kind is nsec_cases else "NSEC3"
    if how == "NSEC3" and any(one.flags == 1 for one in denied.case.records):
        how += " with opt-out"
    asked = "a delegation" if denied.is_delegation else "no answer" if denied.case.answered is None else "an answer"
    text = ended[1].decode("latin-1").split("\n")
    said = text[2] if ended[0] == 0 else text[0]
    if denied.is_delegation and ended[0] == 0:
        said = "the set is Insecure" if b" insecure " in ended[1] else "the set is Bogus"
    return f"{how}, {asked}: {said}"
