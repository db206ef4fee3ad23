"""What `tools/picture` draws of a report: zones with their keys, DS records and sets, and the arrows between these.

A report with a trail tells of every set that was judged; without one, the chains and the records tell of what they hold."""
from dataclasses import dataclass, field

from model import DIGESTS, Lookup
from presentation import (algorithm_text, digest_text, key_roles, name_text, rdata_text, record_text, set_text, signature_of,
                          time_text)
from reading import dnskey_of, ds_of, folded, is_above, type_word
from reasons import asked_fault, decider_of, reasons, zone_of
from reports import DNSKEY, DS, RRSIG, Anchored, KeySet, Signed, covered_by

NSEC, NSEC3 = 47, 50
# a key by which the zone is entered, another key, and what these sign
ENTRY, KEY, SET = range(3)
# so many sets that are alike have one node
ALIKE = 3
WORST = ("bogus", "indeterminate", "insecure", "secure")


@dataclass
class Fact:
    """A set that was judged, with its signatures and the one that decided. `zone` is None where nothing tells it."""
    zone: tuple
    owner: tuple
    kind: int
    mark: str
    records: list
    signatures: list
    decider: object = None
    why: list = field(default_factory=list)
    depth: int = 0


@dataclass
class Node:
    """A box of a zone: `row` is one of the three above, and `tip` what is read where the box is pointed at."""
    row: int
    lines: list
    mark: str
    is_anchor: bool = False
    tip: str = ""


@dataclass
class Zone:
    """`name` is None for what is of no known zone."""
    name: tuple
    nodes: list = field(default_factory=list)
    mark: str = "indeterminate"


@dataclass
class Arrow:
    """From a node to a node or a whole zone."""
    start: Node
    end: object
    mark: str
    tip: str


# ---- facts

def facts_of(report, moment):
    """Each set once. What an ask deeper than another says of the same set is a line of the other's."""
    facts = trail_facts(report, moment) if report.steps else [*chain_facts(report), *record_facts(report)]
    kept = {}
    for fact in sorted(facts, key=lambda fact: fact.depth):
        alike = kept.setdefault((folded(fact.owner), fact.kind, frozenset(record.rdata for record in fact.records)), [])
        known = next((one for one in alike if one.mark == fact.mark or one.depth < fact.depth), None)
        if known is None:
            alike.append(fact)
        elif known.mark != fact.mark and f"{fact.mark.capitalize()} by a deeper ask" not in known.why:
            known.why.append(f"{fact.mark.capitalize()} by a deeper ask")
    return [fact for alike in kept.values() for fact in alike]


def trail_facts(report, moment):
    for step in report.steps:
        for entry in step.sets:
            why = list(reasons(report.steps, step, entry, moment))
            yield Fact(zone_of(report.steps, step, entry), entry.owner, entry.kind, entry.mark, step.records_of(entry),
                       step.signatures_of(entry), decider_of(step, entry), why, step.depth)


def chain_facts(report):
    for link in (link for chain in report.chains for link in chain.links):
        if isinstance(link, KeySet):
            yield Fact(link.owner, link.owner, DNSKEY, "secure", [key for _, key in link.keys], [])
        elif isinstance(link, Signed):
            yield Fact(link.key.owner, link.owner, link.kind, "secure", link.records, [link.signature], link.signature)


def record_facts(report):
    """The sets of the report, as its records are grouped."""
    sets = {}
    for one in report.records:
        if one.record.kind != RRSIG:
            sets.setdefault((one.section, folded(one.record.owner), one.record.kind), []).append(one)
    for (section, owner, kind), placed in sets.items():
        signatures = [one.record for one in report.records if one.record.kind == RRSIG and one.section == section
                      and folded(one.record.owner) == owner and covered_by(one.record) == kind]
        signers = [sig.signer for sig in map(signature_of, signatures) if sig and is_above(sig.signer, owner)]
        records = [one.record for one in placed]
        yield Fact(signers[0] if signers else None, records[0].owner, kind, placed[0].mark, records, signatures)


def anchored_keys(report):
    """Those that the links say and, in a trail, the keys by which a key set is Secure without an ask."""
    links = [link for chain in report.chains for link in chain.links if isinstance(link, Anchored)]
    keys = {(folded(link.key.owner), link.key.rdata) for link in links}
    for step in report.steps or []:
        for entry in step.sets:
            if entry.kind == DNSKEY and entry.mark == "secure" and entry.origin == "table" and not entry.asks:
                decider = decider_of(step, entry)
                deciding = [key for key in step.records_of(entry) if decider is None or may_have_made(decider, key)]
                # of several keys with one tag the trail doesn't tell which it was
                keys |= {(folded(entry.owner), key.rdata) for key in deciding if decider is None or len(deciding) == 1}
    return keys


def makers_in(report):
    """The rdata of the key that made a signature, as the links say it."""
    links = [link for chain in report.chains for link in chain.links if isinstance(link, Signed)]
    return {(folded(link.owner), link.signature.rdata): link.key.rdata for link in links}


def may_have_made(signature, key_record):
    """By tag and algorithm."""
    sig, key = signature_of(signature), dnskey_of(key_record)
    return bool(sig and key and (sig.tag, sig.algorithm) == (key.tag, key.algorithm))


# ---- the graph

class Graph:
    """The zones from the root down, the arrows, and in words the asks that have no answer to judge by."""

    def __init__(self, report, moment):
        self.facts, self.arrows, self.zones = facts_of(report, moment), [], {}
        self.anchored, self.makers = anchored_keys(report), makers_in(report)
        self.keys, self.records = {}, {}
        for fact in self.facts:
            self.zone(fact.zone)
        for fact in self.facts:
            if fact.kind == DNSKEY:
                self.add_keys(fact)
        for fact in self.facts:
            if fact.kind == DS:
                self.add_ds(fact)
        self.add_sets([fact for fact in self.facts if fact.kind not in (DNSKEY, DS)])
        self.add_denials(report)
        self.failed = list(dict.fromkeys(f"The query {asked_fault(step)}." for step in report.steps or [] if asked_fault(step)))
        self.mark_zones()

    def zone(self, name):
        return self.zones.setdefault(None if name is None else folded(name), Zone(name))

    def maker_of(self, signature, keys):
        """The key that made a signature: the one that a link names, else the first that has its tag and algorithm."""
        rdata = self.makers.get((folded(signature.owner), signature.rdata))
        return next((key for key in keys if (key.rdata == rdata if rdata else may_have_made(signature, key))), None)

    def add_keys(self, fact):
        signatures = [signature for signature in fact.signatures if signature is fact.decider or fact.mark == "bogus"]
        makers = [self.maker_of(signature, fact.records) for signature in signatures]
        for key in fact.records:
            signing = next((signature for signature, maker in zip(signatures, makers) if maker is key), None)
            is_anchor = (folded(fact.owner), key.rdata) in self.anchored
            lines = [*key_lines(key), *(["trust anchor"] if is_anchor else []), fact.mark.capitalize()]
            node = Node(ENTRY if signing or is_anchor else KEY, lines, fact.mark, is_anchor, record_text(key))
            if signing and fact.mark == "secure":
                node.lines.append(f"signs the keys until {day(signing)}")
            node.lines += fact.why if signing or (not any(makers) and key is fact.records[0]) else []
            self.zone(fact.owner).nodes.append(node)
            self.keys.setdefault(folded(fact.owner), []).append((key, node, fact.mark))
        nodes = [node for _, node, _ in self.keys[folded(fact.owner)][-len(fact.records):]]
        signers = [node for node, key in zip(nodes, fact.records) if any(key is maker for maker in makers)]
        for signer in signers[:1]:
            self.arrows += [Arrow(signer, node, fact.mark, "signs the key set") for node in nodes if node is not signer]

    def add_ds(self, fact):
        for record in fact.records:
            ds = ds_of(record)
            lines = [*ds_lines(ds), f"of {name_text(fact.owner)}", *mark_lines(fact)]
            node = Node(SET, lines, fact.mark, tip=record_text(record))
            self.zone(fact.zone).nodes.append(node)
            self.add_signatures(fact, node)
            keys = self.keys.get(folded(fact.owner), [])
            matched = [(key, mark) for record_of_key, key, mark in keys if ds and covers(fact.owner, record_of_key, record)]
            for key, mark in matched:
                key.row = ENTRY
                self.arrows.append(Arrow(node, key, worse(fact.mark, mark), "has the digest of the key"))
            if not matched:
                mark = "insecure" if fact.mark == "secure" else fact.mark
                self.arrows.append(Arrow(node, self.zone(fact.owner), mark, "matches no key"))

    def add_sets(self, facts):
        """Sets of one zone that differ in their owners alone have one node, where there are many."""
        alike = {}
        for fact in facts:
            by = tuple((sig.signer, sig.tag) for sig in map(signature_of, fact.signatures) if sig)
            key = (self.zone(fact.zone).name, fact.kind, fact.mark, by, tuple(fact.why))
            alike.setdefault(key, []).append(fact)
        for group in alike.values():
            for some in [group] if len(group) > ALIKE else [[fact] for fact in group]:
                first = some[0]
                names = [set_text(fact.owner, fact.kind) for fact in some]
                more = [f"and {len(names) - 2} more {type_word(first.kind)} sets"] if len(names) > 2 else []
                lines = [*names[:2], *more]
                lines += [f"up to {rdata_text(record)}" for record in first.records if first.kind == NSEC and len(names) == 1]
                tip = "\n".join(record_text(record) for fact in some for record in fact.records)
                node = Node(SET, [*lines, *mark_lines(first)], first.mark, tip=tip)
                self.zone(first.zone).nodes.append(node)
                self.records.update({place_of(record): node for fact in some for record in fact.records})
                self.add_signatures(first, node)

    def add_signatures(self, fact, node):
        """An arrow for the signature that decided; all of them for a set that is Bogus."""
        for signature in fact.signatures:
            if signature is not fact.decider and fact.mark != "bogus":
                continue
            signer = signature_of(signature)
            keys = self.keys.get(folded(signer.signer), []) if signer else []
            maker = self.maker_of(signature, [key for key, _, _ in keys])
            found = next((one for key, one, _ in keys if key is maker), None)
            if found:
                self.arrows.append(Arrow(found, node, fact.mark, f"signed until {day(signature)}"))

    def add_denials(self, report):
        """The NSEC records by which a zone has no DS record lead to that zone."""
        for step in report.steps or []:
            if step.kind != DS or step.ending[0] != "absent":
                continue
            for entry in step.sets:
                for record in step.records_of(entry) if entry.kind in (NSEC, NSEC3) else []:
                    node = self.records.get(place_of(record))
                    if node and folded(step.name) in self.zones:
                        self.arrows.append(Arrow(node, self.zone(step.name), "insecure", "there is no DS record"))

    def mark_zones(self):
        """A zone has the mark of its keys, or else of its sets."""
        for zone in self.zones.values():
            marks = [node.mark for node in zone.nodes if node.row != SET] or [node.mark for node in zone.nodes]
            zone.mark = worse(*marks) if marks else "indeterminate"

    def levels(self):
        """The zones by how many of the others are above them. What is of no known zone comes last, but for DS records: those lead
        to a zone, and come first."""
        known = sorted((name for name in self.zones if name is not None), key=lambda name: (len(name), name))
        levels = {}
        for name in known:
            above = sum(other != name and is_above(other, name) for other in known)
            levels.setdefault(above, []).append(self.zones[name])
        rows = [levels[above] for above in sorted(levels)]
        if None in self.zones:
            rows.insert(0 if any(fact.kind == DS and fact.zone is None for fact in self.facts) else len(rows), [self.zones[None]])
        return rows


def key_lines(record):
    key = dnskey_of(record)
    if key is None:
        return ["DNSKEY", "can't be read"]
    roles = ["key-signing key" if role == "SEP" else role for role in key_roles(key)]
    return [f"DNSKEY {key.tag}", algorithm_text(key.algorithm), *roles]


def ds_lines(ds):
    return [f"DS {ds.tag}", f"{algorithm_text(ds.algorithm)}, {digest_text(ds.digest_type)}"] if ds else ["DS", "can't be read"]


def mark_lines(fact):
    until = [f"signed until {day(fact.decider)}"] if fact.decider and fact.mark == "secure" else []
    return [fact.mark.capitalize(), *until, *fact.why]


def day(signature):
    return time_text(signature_of(signature).expiration).removesuffix(" UTC").removesuffix(" 00:00:00")


def place_of(record):
    return folded(record.owner), record.kind, record.rdata


def worse(*marks):
    return min(marks, key=WORST.index)


def covers(owner, key, ds):
    """The DS record has tag, algorithm and digest of the key (RFC 4034, 5.1.4)."""
    return ds_of(ds).digest_type in DIGESTS and Lookup.matches(owner, key, ds)
