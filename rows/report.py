"""The texts of what `model.py` finds: links, records, steps, the fault line and the report, as docs/FORMATS.md has them."""
import reading
from reading import rrsig_of, shown, type_word

SECTIONS = ("answer", "authority", "additional")
# the marks of sets
SIGNED, INSECURE, BOGUS = "secure", "insecure", "bogus"


# ---- links

def anchored_link(rrset, key):
    return f"anchored {shown(rrset.owner)} IN {key.rdata.hex()}"


def matched_link(rrset, key, place, ds):
    return f"matched {shown(rrset.owner)} IN {key.rdata.hex()} {place} {ds.rdata.hex()}"


def with_key_set(rrset, chain, links):
    """The chain, a link for each key of the set, and the set, which names them."""
    named = [f"{len(chain) + place} {rdata}" for place, rdata in enumerate(rrset.rdatas())]
    return [*chain, *links, " ".join([f"keyset {shown(rrset.owner)} IN", *named])]


def signed_link(rrset, signature, place, key):
    shows = f"{place} {key.rdata.hex()} {signature.rdata.hex()}"
    return " ".join([f"signed {shown(rrset.owner)} IN {type_word(rrset.kind)} {shows}", *rrset.rdatas()])


# ---- texts

def adjusted_ttl(rrset, moment):
    """RFC 4035, 5.3.3."""
    sig = rrsig_of(rrset.signatures[rrset.place])
    return min(rrset.records[0].ttl, sig.ttl, (sig.expiration - moment) % 2**32)


def record_line(section, record, sets, moment):
    ttl, mark = record.ttl, "indeterminate"
    for rrset in sets:
        decided = rrset.place is not None and record is rrset.signatures[rrset.place]
        if decided or any(record is one for one in rrset.records):
            mark = rrset.mark
            ttl = adjusted_ttl(rrset, moment) if mark == SIGNED and rrset.place is not None else ttl
    return f"{told_words(section, record)} {ttl} {mark} {record.rdata.hex() or '-'}"


def told_words(section, record):
    return f"{section} {shown(record.owner)} {reading.class_word(record.klass)} {type_word(record.kind)}"


def step_lines(step):
    yield f"step {step.depth} {step.purpose} {shown(step.name)} {type_word(step.kind)}"
    if not step.message:
        yield "got fault"
    else:
        yield f"got {step.message.code}{' empty' if step.message.is_empty else ''}"
        for section, records in zip(SECTIONS, step.message.sections):
            for record in records:
                yield f"told {told_words(section, record)} {record.ttl} {record.rdata.hex() or '-'}"
    for rrset in step.sets:
        place = "-" if rrset.place is None else rrset.place
        origin = "table" if rrset.repeats is None else f"repeat-{rrset.repeats}"
        words = (rrset.section, shown(rrset.owner), type_word(rrset.kind), rrset.mark, origin, place, *rrset.asks)
        yield " ".join(["set", *map(str, words)])
    yield " ".join(["ending", step.ending, *map(str, step.excuse)])


def fault_line(step):
    """What is written in place of a report, or None."""
    if not step.message:
        return f"fault {step.fault}"
    if step.ending.startswith("foreign"):
        return "fault class" + step.ending.removeprefix("foreign")
    return f"fault nsec {step.ending.removeprefix('denied ')}" if step.ending.startswith("denied") else None


def lines(lookup, with_trail):
    top, moment = lookup.top, lookup.session.moment
    denial = "none" if top.ending.startswith("denied") else top.ending
    yield from ("dns-report 1", f"code {top.message.code}", f"denial {denial}")
    for section, records in zip(SECTIONS, top.message.sections):
        sets = [rrset for rrset in top.sets if rrset.section == section]
        yield from (record_line(section, record, sets, moment) for record in records)
    for rrset in top.sets:
        if rrset.chain:
            yield from (f"chain {rrset.section} {len(rrset.chain)}", *rrset.chain)
    if with_trail:
        yield f"trail {len(lookup.steps)}"
        for step in lookup.steps:
            yield from step_lines(step)
    yield "end"


def explained(lookup):
    """The report with its trail, of an answer that was refused too, the line of its error, and a line for each set with its cause; for an
    error without an answer its line alone."""
    fault = fault_line(lookup.top)
    if not lookup.top.message or lookup.top.ending.startswith("foreign"):
        yield fault
        return
    yield from lines(lookup, True)
    yield from [fault] if fault else []
    for step in lookup.steps:
        for rrset in step.sets:
            yield f"why {step.number} {rrset.section} {shown(rrset.owner)} {type_word(rrset.kind)} {rrset.why()}"
