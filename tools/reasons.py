"""What a report's trail says of why a set isn't Secure, in words, for `tools/show` and `tools/picture`. Where `explain` wrote it, its cause comes first.

A report doesn't hold the time at which it was judged, nor why a reply is missing. The session has both: where they are given, signatures that had ended
are named, and so is what came in place of a reply."""
import denial
import hashes
import reading
from answers import is_set
from model import DIGESTS, Lookup, serial_at_or_before
from presentation import by_tag, code_text, ds_text, key_roles, name_text, set_text, signature_of, time_text
from reading import dnskey_of, ds_of, folded, is_above

DS, DNSKEY, NS, NSEC, NSEC3, NAME_ERROR = 43, 48, 2, 47, 50, 3
ANSWERED = ("none", "absent", "expanded")
# what the causes of `explain` say
CAUSES = {
    "rrsigs-not-present": "it has no signature that could be tried",
    "net": "a query that it needs failed",
    "rrsigs-unverified": "no signature proves it",
    "dnskey-not-found": "no key of it is a trust anchor that signs it",
    "ds-records-but-no-dnskey": "no key that a DS record of the zone matches signs it",
    "ds-record-should-exist": "neither a DS record of its zone nor its absence is shown",
    "ds-response-insecure": "its zone is shown to have no DS record",
    "unknown-key-algorithm": "no DS record of its zone is of an algorithm and a digest type that are supported",
}
REFUSED = {"deep": "a query would have been too deep", "many": "there had been as many queries as may be"}
FAULTS = {"timeout": "the server didn't answer in time", "io": "the connection failed", "busy": "the server was busy"}
DAY, HOUR = 86_400, 3_600


# ---- what a session adds

def told_faults(report, session):
    """Notes at each step what the session has in place of a whole reply, where all its lines for the question say the same."""
    for step in report.steps or [] if session else []:
        lines = [line for question, line in session.replies if question == (folded(step.name), step.kind)]
        faults = {fault_of(line) for line in lines} or {"the session has no reply to it"}
        step.fault = faults.pop() if len(faults) == 1 else None


def fault_of(line):
    """Why a line of a session is no whole reply, or None."""
    word, rest = line
    if word == "fault":
        return FAULTS[rest]
    try:
        return "the reply was truncated" if reading.message_in(reading.octets_in(rest)).is_truncated else None
    except reading.Fault as fault:
        kind, offset = fault.args
        return f"the reply is no message: {kind} at byte {offset}"


def span_text(seconds):
    """How long something is, in days, hours or seconds."""
    for unit, word in ((DAY, "day"), (HOUR, "hour"), (1, "second")):
        if seconds >= unit:
            return f"{seconds // unit} {word}{'' if seconds // unit == 1 else 's'}"
    return "no time"


# ---- sets


def made_asks(asks):
    return [ask for ask in asks if ask not in REFUSED]


def key_set_of(step, zone):
    """The set of keys of a zone in the answer to an ask, or None."""
    return next((entry for entry in step.sets if is_set(entry, zone, DNSKEY)), None)


def decider_of(step, entry):
    """The signature that decided, or None."""
    return None if entry.place is None else step.signatures_of(entry)[entry.place]


def zone_of(steps, step, entry):
    """The zone that a set is of: the signer of its first signature, or what the search for its zone found, or None."""
    if entry.kind == DNSKEY:
        return entry.owner
    signatures = [decider_of(step, entry), *step.signatures_of(entry)]
    signers = [sig.signer for sig in map(signature_of, filter(None, signatures)) if sig and is_above(sig.signer, entry.owner)]
    return signers[0] if signers else searched_zone(steps, entry.asks)


def searched_zone(steps, asks):
    """The zone that a search found: its last ask is for the zone's DS set, or for its NS records."""
    made = made_asks(asks)
    if not made:
        return None
    last = steps[made[-1]]
    return last.name if last.kind == DS or has_servers(last) else None


def has_servers(step):
    """NS records at the name of an ask, in whatever section: the name is that of a zone."""
    return not step.is_empty and any(one.record.kind == NS and folded(one.record.owner) == folded(step.name) for one in step.told)


def is_answered(step):
    return step.ending[0] in ANSWERED


def reasons(steps, step, entry, moment=None):
    """Why a set has its mark; nothing where it is Secure by the rules."""
    if entry.origin != "table":
        yield "kept from an earlier lookup" if entry.origin == "cache" else f"as in step {entry.origin.removeprefix('repeat-')}"
    if entry.mark == "secure":
        return
    if entry.cause and (entry.mark != "insecure" or not made_asks(entry.asks)):
        yield CAUSES[entry.cause]
    yield from (REFUSED[ask] for ask in dict.fromkeys(entry.asks) if ask in REFUSED)
    if entry.mark == "insecure":
        yield from insecure_reasons(steps, entry)
        return
    signatures = step.signatures_of(entry)
    if not signatures:
        yield "it has no signature"
    faults = [signature_fault(steps, step, entry, signature, moment) for signature in signatures]
    yield from dict.fromkeys(faults)
    yield from dict.fromkeys(f"the query {fault}" for fault in (asked_fault(steps[ask]) for ask in made_asks(entry.asks)) if fault)


def insecure_reasons(steps, entry):
    """By the last ask that was made: no DS record of a zone counts, or the keys of its signer are Insecure."""
    made = made_asks(entry.asks)
    if not made:
        return
    last = steps[made[-1]]
    zone = name_text(last.name)
    if last.kind == DNSKEY:
        yield f"the keys of {zone} are Insecure"
    elif any(one.record.kind == DS for one in last.told if one.section == "answer"):
        yield f"no DS record of {zone} has an algorithm and a digest type that are supported"
    else:
        yield f"{zone} has no DS record, and the zone above says so"


def asked_fault(step):
    """Why a query has no answer to judge by, or None."""
    asked = f"for {set_text(step.name, step.kind)}"
    why = f": {step.fault}" if step.fault else ""
    if step.code is None:
        return f"{asked} got no reply{why}"
    if step.ending[0] == "failed":
        return f"{asked} isn't judged"
    if step.code in reading.FAILURES and step.ending[0] == "denied":
        return f"{asked} was answered with {code_text(step.code)}"
    if step.ending[0] == "denied":
        reason = why or f": {denial_fault(step)}"
        return f"{asked} has no answer, and its denial is {step.ending[1].capitalize()}{reason}"
    if step.ending[0] == "foreign":
        return f"{asked} got a record of another class: {' '.join(step.ending[1:])}"
    return None


# ---- denials

def denial_fault(step):
    """What the Secure NSEC or NSEC3 records of a reply don't show. Some cases have no words of their own."""
    sets = [entry for entry in step.sets if entry.section == "authority" and entry.kind in (NSEC, NSEC3) and entry.mark == "secure"]
    kinds = {entry.kind for entry in sets}
    signers = {folded(sig.signer) for sig in (signature_of(decider_of(step, entry)) for entry in sets) if sig}
    if not sets:
        return "no Secure NSEC or NSEC3 record is in the reply"
    if len(kinds) > 1 or len(signers) > 1:
        return "NSEC and NSEC3 records stand beside each other" if len(kinds) > 1 else "records of several zones stand beside each other"
    records = [record for entry in sets for record in step.records_of(entry)]
    zone = signers.pop()
    if not is_above(zone, step.name):
        return f"the records are those of {name_text(zone)}, which the name isn't in"
    return hashed_fault(step, zone, records) if kinds == {NSEC3} else plain_fault(step, records)


def plain_fault(step, records):
    those = [one for one in map(denial.nsec_of, records) if one]
    if any(denial.is_same(one.owner, step.name) for one in those):
        return f"the NSEC record of {name_text(step.name)} doesn't deny the type"
    by = denial.covering(those, step.name)
    if by is None:
        return f"no NSEC record covers {name_text(step.name)}"
    encloser = max(denial.common(step.name, by.owner), denial.common(step.name, by.following), key=len)
    wildcard = (b"*", *encloser)
    is_shown = denial.covering(those, wildcard) if step.code == NAME_ERROR else any(denial.is_same(one.owner, wildcard) for one in those)
    verb = "covers" if step.code == NAME_ERROR else "is that of"
    return "the records don't show what they have to" if is_shown else f"no NSEC record {verb} the wildcard {name_text(wildcard)}"


def hashed_fault(step, apex, records):
    zone = hashes.zone_of(apex, [one for one in map(hashes.nsec3_of, records) if one])
    if zone is None:
        return "no NSEC3 record counts, or they are hashed differently"
    if zone.iterations > hashes.SOFT:
        return f"names are hashed {zone.iterations} times more, which is over {hashes.SOFT if zone.iterations <= hashes.HARD else hashes.HARD}"
    if zone.at(step.name):
        return f"the NSEC3 record of {name_text(step.name)} doesn't deny the type"
    above = zone.encloser(step.name)
    if above is None:
        return f"no NSEC3 record stands for a name above {name_text(step.name)}, or one there leads to another zone"
    closer = step.name[len(step.name) - len(above) - 1:]
    by = zone.covering(closer)
    if by is None:
        return f"no NSEC3 record covers {name_text(closer)}"
    wildcard = (b"*", *above)
    if step.code != NAME_ERROR:
        is_there = any(one.hash == zone.hashed(wildcard) for one in zone.records)
        return "the records don't show what they have to" if is_there else f"no NSEC3 record is that of the wildcard {name_text(wildcard)}"
    over = zone.covering(wildcard)
    if over is None:
        return f"no NSEC3 record covers the wildcard {name_text(wildcard)}"
    if hashes.OPT_OUT in (by.flags, over.flags):
        return f"an NSEC3 record that covers {name_text(closer if by.flags else wildcard)} has the flag Opt-Out"
    return "the records don't show what they have to"


# ---- signatures

def signature_fault(steps, step, entry, record, moment):
    """Why a signature didn't prove its set, as far as the report tells."""
    sig = signature_of(record)
    if sig is None:
        return "a signature can't be read"
    by = f"the signature by {by_tag(sig.tag, sig.algorithm)} of {name_text(sig.signer)}"
    if not is_above(sig.signer, entry.owner):
        return f"{by} names a signer that isn't above the set"
    if moment is not None and not serial_at_or_before(moment % 2**32, sig.expiration):
        return f"{by} ended at {time_text(sig.expiration)}, {span_text((moment - sig.expiration) % 2**32)} before"
    if moment is not None and not serial_at_or_before(sig.inception, moment % 2**32):
        return f"{by} begins at {time_text(sig.inception)}, {span_text((sig.inception - moment) % 2**32)} later"
    return key_fault(steps, step, entry, sig, by) or f"{by} {' or '.join(doubts(entry, moment))}"


def doubts(entry, moment):
    """What may be wrong with a signature that nothing in the report speaks against."""
    yield "isn't accepted"
    if moment is None:
        yield "isn't of its time"
    if entry.kind == DNSKEY:
        yield "is by a key that is neither anchored nor matched by a DS record"


def key_fault(steps, step, entry, sig, by):
    """What is wrong with the keys that a signature stands on, or None."""
    asked = [steps[ask] for ask in made_asks(entry.asks) if folded(steps[ask].name) == folded(sig.signer)]
    if entry.kind == DNSKEY:
        ds_set = next((one for made in asked for one in made.sets if one.kind == DS), None)
        if ds_set and ds_set.mark != "secure":
            return f"the DS set of {name_text(sig.signer)} is {ds_set.mark.capitalize()}"
        keys, mark = step.records_of(entry), "secure"
        unmatched = [fault for made in asked for fault in ds_faults(made, entry.owner, keys)] if ds_set else []
        if unmatched:
            return "; ".join(dict.fromkeys(unmatched))
    else:
        if not asked:
            return f"{by} wasn't tried"
        found = key_set_of(asked[-1], sig.signer)
        if found is None or not is_answered(asked[-1]):
            return f"{name_text(sig.signer)} has no keys to judge by"
        keys, mark = asked[-1].records_of(found), found.mark
    if mark != "secure":
        return f"the keys of {name_text(sig.signer)} are {mark.capitalize()}"
    fitting = [key for key in map(dnskey_of, keys) if key and (key.tag, key.algorithm) == (sig.tag, sig.algorithm)]
    if not fitting:
        return f"{by} is by none of the zone's keys"
    roles = [role for key in fitting for role in key_roles(key) if role != "SEP"]
    return f"{by} is by a key that may sign nothing: {', '.join(dict.fromkeys(roles))}" if len(roles) >= len(fitting) else None


def ds_faults(step, owner, keys):
    """Which DS records match no key, where none matches one."""
    records = [one.record for one in step.told if one.section == "answer" and one.record.kind == DS and ds_of(one.record)]
    matches = [any(ds_of(ds).digest_type in DIGESTS and Lookup.matches(owner, key, ds) for key in keys) for ds in records]
    if any(matches):
        return
    for ds in records:
        tagged = [key for key in map(dnskey_of, keys) if key and (key.tag, key.algorithm) == (ds_of(ds).tag, ds_of(ds).algorithm)]
        yield f"the {ds_text(ds)} {'has another digest than the key of that tag' if tagged else 'has no key of that tag'}"
