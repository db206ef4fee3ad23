"""Reads a report, as docs/FORMATS.md has it, for `tools/show` and `tools/picture`.

`report_in` takes the bytes of a report. Where they are none it raises `BadLine` of `report_lines.py`: the number of the first
line that can't stand at its place, and why."""
from dataclasses import dataclass, field
from typing import Optional, Union

import presentation
import reading
from reading import Record, folded, shown, type_word
from report_lines import Line, Lines

SECTIONS = ("answer", "authority", "additional")
MARKS = ("secure", "insecure", "bogus", "indeterminate")
DS, RRSIG, DNSKEY, IN = 43, 46, 48, 1
MOST_STEPS = 1024
# the words of causes, as docs/FORMATS.md has them
CAUSES = ("none", "rrsigs-not-present", "net", "rrsigs-unverified", "dnskey-not-found", "ds-records-but-no-dnskey", "ds-record-should-exist",
          "ds-response-insecure", "unknown-key-algorithm")


class NoReport(Exception):
    """What `dns_check` writes in place of a report: a line that says why there is none."""


# ---- what a report holds

@dataclass
class Placed:
    """A record of a section; `mark` is None in a trail."""
    section: str
    record: Record
    mark: Optional[str] = None


@dataclass
class Anchored:
    """A link: the key is a trust anchor."""
    key: Record


@dataclass
class Matched:
    """A link: the DS record, of the set that link `place` signed, has the digest of the key."""
    key: Record
    place: int
    ds: Record


@dataclass
class KeySet:
    """A link: each key of a set, with the number of the link that shows it."""
    owner: tuple
    keys: list


@dataclass
class Signed:
    """A link: the key that link `place` shows signed the records."""
    owner: tuple
    kind: int
    place: int
    key: Record
    signature: Record
    records: list


Link = Union[Anchored, Matched, KeySet, Signed]


@dataclass
class Chain:
    section: str
    links: list


@dataclass
class Entry:
    """What a step says of a set. An ask is the number of its step, or `deep` or `many` where it wasn't made; `cause` is the word of `explain`."""
    section: str
    owner: tuple
    kind: int
    mark: str
    origin: str
    place: Optional[int]
    asks: list
    cause: Optional[str] = None


@dataclass
class Step:
    """A query. `code` is None where a fault came in place of a reply; `ending` holds the words of its ending, and `fault` what a session says of the
    reply or its absence."""
    number: int
    depth: int
    purpose: str
    name: tuple
    kind: int
    code: Optional[int] = None
    is_empty: bool = False
    told: list = field(default_factory=list)
    sets: list = field(default_factory=list)
    ending: list = field(default_factory=list)
    asks: list = field(default_factory=list)
    fault: Optional[str] = None

    def records_of(self, entry):
        return [one.record for one in self.told if one.section == entry.section and one.record.kind == entry.kind
                and folded(one.record.owner) == folded(entry.owner)]

    def signatures_of(self, entry):
        """Those that cover the set, in its section."""
        return [one.record for one in self.told if one.section == entry.section and one.record.kind == RRSIG
                and folded(one.record.owner) == folded(entry.owner) and covered_by(one.record) == entry.kind]


@dataclass
class Report:
    """`steps` is None where the report has no trail, and `fault` the line of an error that stands behind it."""
    code: int
    denial: list
    records: list
    chains: list
    steps: Optional[list]
    fault: Optional[str] = None


def covered_by(record):
    """The type that a signature covers; it stands first, also where the rest can't be read."""
    return int.from_bytes(record.rdata[:2], "big") if len(record.rdata) >= 2 else None


# ---- parts of a report

def report_in(octets):
    lines = Lines(octets)
    if lines.first_word() == "fault":
        raise NoReport(lines.lines[0].decode("latin-1"))
    line = lines.take("dns-report")
    line.one_of("version", ("1",))
    line.end()
    line = lines.take("code")
    code = line.number_below("code", 4096)
    line.end()
    line = lines.take("denial")
    denial = denial_of(line, ("none", "absent", "expanded"))
    line.end()
    records, chains, steps = [], [], None
    while lines.first_word() in SECTIONS:
        records.append(placed(lines, lines.first_word(), is_marked=True))
    while lines.first_word() == "chain":
        chains.append(chain_of(lines))
    if lines.first_word() == "trail":
        steps = trail_of(lines)
    lines.take("end").end()
    fault = explained(lines, steps) if steps is not None and lines.first_word() in ("fault", "why") else None
    lines.end()
    return Report(code, denial, records, chains, steps, fault)


def explained(lines, steps):
    """What `explain` writes behind a report: the line of an error, which is given back, and a line for each set of its trail."""
    fault = None
    if lines.first_word() == "fault":
        line = lines.take("fault")
        fault = " ".join(line.words)
        while line.has_more():
            line.word("fault")
        line.end()
    for step in steps:
        for entry in step.sets:
            entry.cause = cause_of(lines.take("why"), step, entry)
    return fault


def cause_of(line, step, entry):
    """The cause of a set, whose line has its place."""
    number, section, owner, kind = line.number_below("step", MOST_STEPS), line.one_of("section", SECTIONS), line.name(), line.kind()
    if (number, section, folded(owner), kind) != (step.number, entry.section, folded(entry.owner), entry.kind):
        raise line.bad("it is no line of the trail's next set")
    cause = line.one_of("cause", CAUSES)
    line.end()
    return None if cause == "none" else cause


def denial_of(line, choices):
    word = line.one_of("denial", choices)
    return [word] if word == "none" else [word, line.one_of("mark", MARKS)]


def placed(lines, first, is_marked):
    """The record of a line of a report, or of a line `told`."""
    line = lines.take(first)
    section = first if is_marked else line.one_of("section", SECTIONS)
    owner, klass, kind, ttl = line.name(), line.klass(), line.kind(), line.number_below("ttl", 2**32)
    mark = line.one_of("mark", MARKS) if is_marked else None
    record = Record(owner, kind, klass, ttl, line.octets("rdata"))
    line.end()
    return Placed(section, record, mark)


def chain_of(lines):
    line = lines.take("chain")
    section, count = line.one_of("section", SECTIONS), line.number_below("count", 2**64)
    line.end()
    links = []
    while len(links) < count:
        links.append(link_of(lines, len(links)))
    return Chain(section, links)


def link_of(lines, number):
    first = lines.first_word()
    line = lines.take("anchored", "matched", "keyset", "signed")
    owner, klass = line.name(), line.klass()
    if first == "anchored":
        link = Anchored(link_record(line, owner, klass, DNSKEY))
    elif first == "matched":
        key = link_record(line, owner, klass, DNSKEY)
        link = Matched(key, line.number_below("link", number), link_record(line, owner, klass, DS))
    elif first == "keyset":
        link = KeySet(owner, [])
        while line.has_more() or not link.keys:
            link.keys.append((line.number_below("link", number), link_record(line, owner, klass, DNSKEY)))
    else:
        link = signed_of(line, owner, klass, number)
    line.end()
    return link


def signed_of(line, owner, klass, number):
    kind, place = line.kind(), line.number_below("link", number)
    key_octets, signature = line.octets("key"), Record(owner, RRSIG, klass, None, line.octets("signature"))
    if presentation.signature_of(signature) is None:
        raise line.bad("the signature is no rdata of an RRSIG record")
    signer = presentation.signature_of(signature).signer
    key = checked_record(line, Record(signer, DNSKEY, klass, None, key_octets))
    records = []
    while line.has_more() or not records:
        records.append(Record(owner, kind, klass, None, line.octets("rdata")))
    return Signed(owner, kind, place, key, signature, records)


def link_record(line, owner, klass, kind):
    return checked_record(line, Record(owner, kind, klass, None, line.octets("rdata")))


def checked_record(line, record):
    if (reading.dnskey_of(record) or reading.ds_of(record)) is None:
        raise line.bad(f"{record.rdata.hex()[:40]!r} is no rdata of a {type_word(record.kind)} record")
    return record


def trail_of(lines):
    line = lines.take("trail")
    count = line.number_below("count", MOST_STEPS + 1)
    line.end()
    steps = []
    while len(steps) < count:
        steps.append(step_of(lines, len(steps)))
    return steps


def step_of(lines, number):
    line = lines.take("step")
    step = Step(number, line.number_below("depth", 256), line.one_of("purpose", ("judged", "ns")), line.name(), line.kind())
    line.end()
    line = lines.take("got")
    if line.words != ["fault"]:
        step.code = line.number_below("code", 4096)
        step.is_empty = line.has_more() and line.one_of("word", ("empty",)) == "empty"
        line.end()
    while step.code is not None and lines.first_word() == "told":
        step.told.append(placed(lines, "told", is_marked=False))
    while lines.first_word() == "set":
        step.sets.append(entry_of(lines, step))
    line = lines.take("ending")
    step.ending = ending_of(line)
    step.asks = asks_of(line, number)
    return step


def entry_of(lines, step):
    line = lines.take("set")
    section, owner, kind, mark = line.one_of("section", SECTIONS), line.name(), line.kind(), line.one_of("mark", MARKS)
    origin, place = line.word("origin"), None
    if origin.startswith("repeat-"):
        Line(line.number, [origin.removeprefix("repeat-")]).number_below("step", step.number)
    elif origin not in ("table", "cache"):
        raise line.bad(f"{origin[:40]!r} is no origin")
    if line.has_more() and line.words[line.next] == "-":
        line.word("place")
    else:
        place = line.number_below("place", 65536)
    entry = Entry(section, owner, kind, mark, origin, place, asks_of(line, step.number))
    if not step.records_of(entry):
        raise line.bad("no record of the set is told")
    signatures = step.signatures_of(entry)
    if place is not None and (place >= len(signatures) or not presentation.signature_of(signatures[place])):
        raise line.bad(f"the set has no signature {place}, or none that can be read")
    return entry


def ending_of(line):
    word = line.word("ending")
    if word in ("none", "failed", "seen"):
        return [word]
    if word in ("absent", "expanded", "denied"):
        return [word, line.one_of("mark", MARKS)]
    if word == "foreign":
        return [word, shown(line.name()), reading.class_word(line.klass()), type_word(line.kind())]
    raise line.bad(f"{word[:40]!r} is no ending")


def asks_of(line, number):
    asks = []
    while line.has_more():
        is_made = line.words[line.next] not in ("deep", "many")
        asks.append(line.number_below("step", number) if is_made else line.word("ask"))
    return asks
