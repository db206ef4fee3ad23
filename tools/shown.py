"""A report as a person reads DNS, as text and as a value for JSON: what `tools/show` writes."""
from presentation import (code_text, ds_text, key_roles, key_text, name_text, rdata_text, record_text, set_text, signature_of,
                          time_text)
from reading import FAILURES, class_word, dnskey_of, num_labels, type_word
from reasons import decider_of, denial_fault, has_servers, reasons
from reports import DNSKEY, MARKS, SECTIONS, Anchored, KeySet, Matched, Signed

MARK_WIDTH = max(map(len, MARKS)) + 2


# ---- words

def denial_text(denial):
    if denial[0] == "none":
        return "nothing is denied"
    absent, expanded = "there is no such name, or no data of the type at it", "the answer is made from a wildcard"
    return f"{absent if denial[0] == 'absent' else expanded}: this is {denial[1].capitalize()}"


def fault_text(fault):
    """The line of an error behind the report of the answer inside it."""
    return f"the answer is refused: {fault}"


def ending_text(step):
    ending = step.ending
    why = f": {denial_fault(step)}" if ending[0] == "denied" and step.code not in FAILURES else ""
    if ending == ["seen"]:
        return "has NS records, and so is the zone" if has_servers(step) else "has no NS records"
    return {"none": "ended with an answer", "failed": "ended without an answer",
            "absent": "ended with a denial: no such name, or no data of the type at it",
            "expanded": "ended with an answer from a wildcard, which is denied to be there by itself",
            "denied": "ended without an answer and without a denial that holds",
            "foreign": "ended by a record of another class"}[ending[0]] + (f" ({' '.join(ending[1:])})" if ending[1:] else "") + why


def heard_text(step):
    fault = f"; {step.fault}" if step.fault else ""
    if step.code is None:
        return f"no reply came{fault}"
    count = f"{len(step.told)} record{'' if len(step.told) == 1 else 's'}"
    return f"{code_text(step.code)}{', no records of the name and type' if step.is_empty else ''}, {count}{fault}"


def ask_text(step):
    purpose = ", for the zone" if step.purpose == "ns" else ""
    return f"{set_text(step.name, step.kind)}{purpose}  (step {step.number}, depth {step.depth})"


def entry_text(steps, step, entry, moment):
    decider = decider_of(step, entry)
    sig = decider and signature_of(decider)
    by = f", by signature {entry.place}, of key {sig.tag}, until {time_text(sig.expiration)}" if sig else ""
    why = "; ".join(reasons(steps, step, entry, moment))
    what = f"{set_text(entry.owner, entry.kind)} in the {entry.section} section"
    return f"{what}: {entry.mark.capitalize()}{by}{': ' if why else ''}{why}"


def link_text(link):
    """A link as a sentence: which key, by tag and algorithm, signed what, until when."""
    if isinstance(link, Anchored):
        return f"{key_text(link.key)} of {name_text(link.key.owner)} is a trust anchor"
    if isinstance(link, Matched):
        return f"{ds_text(link.ds)} of {name_text(link.key.owner)}, signed in link {link.place}, matches {key_text(link.key)}"
    if isinstance(link, KeySet):
        shown = ", ".join(f"{key_text(key)} by link {place}" for place, key in link.keys)
        return f"the DNSKEY set of {name_text(link.owner)} is shown key by key: {shown}"
    sig = signature_of(link.signature)
    keys = f" ({', '.join(map(key_text, link.records))})" if link.kind == DNSKEY and all(map(dnskey_of, link.records)) else ""
    wildcard = name_text((b"*", *link.owner[len(link.owner) - sig.labels:]))
    made = f", as {wildcard}," if num_labels(link.owner) > sig.labels else ""
    by = f"{key_text(link.key)} of {name_text(link.key.owner)}, shown by link {link.place}"
    return f"{by}, signed the {type_word(link.kind)} set of {name_text(link.owner)}{keys}{made} until {time_text(sig.expiration)}"


def chain_title(chain):
    last = chain.links[-1] if chain.links else None
    is_set = isinstance(last, (KeySet, Signed))
    what = f" of {set_text(last.owner, last.kind if isinstance(last, Signed) else DNSKEY)}" if is_set else ""
    return f"Chain{what} in the {chain.section} section"


# ---- the text

def text_of(report, moment):
    return "".join(line + "\n" for line in text_lines(report, moment))


def text_lines(report, moment):
    yield f"{code_text(report.code)}; {fault_text(report.fault) if report.fault else denial_text(report.denial)}"
    for section in SECTIONS:
        placed = [one for one in report.records if one.section == section]
        yield from ["", f"{section.capitalize()} section"] if placed else []
        yield from (f"  {one.mark:{MARK_WIDTH}}{record_text(one.record)}" for one in placed)
    for chain in report.chains:
        yield from ("", chain_title(chain))
        yield from (f"{number:4}  {capital(link_text(link))}." for number, link in enumerate(chain.links))
    if report.steps is not None:
        count = len(report.steps)
        yield from ("", f"Trail of {count} {'query' if count == 1 else 'queries'}")
        yield from tree(report.steps, moment)


def capital(text):
    return text[:1].upper() + text[1:]


def tree(steps, moment):
    """Each query with what came, its sets, and below these the queries that they stand on. The session's comes first."""
    seen = set()
    for last in range(len(steps) - 1, -1, -1):
        waiting = [] if last in seen else [(1, last)]
        while waiting:
            level, item = waiting.pop()
            if isinstance(item, str):
                yield "  " * level + item
            elif item in seen:
                yield "  " * level + f"step {item}, as above"
            else:
                seen.add(item)
                items = list(step_items(steps, steps[item], moment))
                waiting.extend((level + deeper, inner) for deeper, inner in reversed(items))


def step_items(steps, step, moment):
    """The lines of a step and, by number, the steps below it, each with how much deeper it stands."""
    yield 0, ask_text(step)
    yield 1, heard_text(step)
    for entry in step.sets:
        yield 1, entry_text(steps, step, entry, moment)
        yield from ((2, ask) for ask in entry.asks if isinstance(ask, int))
    if step.code is not None:
        yield 1, ending_text(step)
    yield from ((2, ask) if isinstance(ask, int) else (2, f"a query that wasn't made: {ask}") for ask in step.asks)


# ---- the JSON value

def value_of(report, moment):
    return {"code": report.code, "code_name": code_text(report.code), "denial": denial_value(report.denial), "fault": report.fault,
            "records": [placed_value(one) for one in report.records],
            "chains": [{"section": chain.section, "links": list(map(link_value, chain.links))} for chain in report.chains],
            "trail": None if report.steps is None else [step_value(report.steps, step, moment) for step in report.steps]}


def denial_value(denial):
    return {"kind": denial[0], "mark": denial[1] if len(denial) > 1 else None}


def placed_value(one):
    marked = {} if one.mark is None else {"mark": one.mark}
    return {"section": one.section, **marked, **record_value(one.record)}


def record_value(record):
    ttl = {} if record.ttl is None else {"ttl": record.ttl}
    return {"owner": name_text(record.owner), "class": class_word(record.klass), "type": type_word(record.kind), **ttl,
            "rdata": rdata_text(record), "octets": record.rdata.hex()}


def key_value(record):
    key = dnskey_of(record)
    return {**record_value(record), "tag": key.tag, "algorithm": key.algorithm, "roles": key_roles(key)}


def link_value(link):
    words = capital(link_text(link)) + "."
    if isinstance(link, Anchored):
        return {"link": "anchored", "words": words, "key": key_value(link.key)}
    if isinstance(link, Matched):
        return {"link": "matched", "words": words, "key": key_value(link.key), "by": link.place, "ds": record_value(link.ds)}
    if isinstance(link, KeySet):
        return {"link": "keyset", "words": words, "keys": [{"by": place, **key_value(key)} for place, key in link.keys]}
    sig = signature_of(link.signature)
    return {"link": "signed", "words": words, "key": key_value(link.key), "by": link.place,
            "signature": {**record_value(link.signature), "inception": sig.inception, "expiration": sig.expiration},
            "records": list(map(record_value, link.records))}


def step_value(steps, step, moment):
    heard = None if step.code is None else {"code": step.code, "code_name": code_text(step.code), "empty": step.is_empty}
    return {"step": step.number, "depth": step.depth, "purpose": step.purpose, "name": name_text(step.name),
            "type": type_word(step.kind), "heard": heard, "told": list(map(placed_value, step.told)),
            "sets": [entry_value(steps, step, entry, moment) for entry in step.sets], "ending": step.ending, "asks": step.asks}


def entry_value(steps, step, entry, moment):
    return {"section": entry.section, "owner": name_text(entry.owner), "type": type_word(entry.kind), "mark": entry.mark,
            "origin": entry.origin, "signature": entry.place, "asks": entry.asks, "cause": entry.cause,
            "why": list(reasons(steps, step, entry, moment))}
