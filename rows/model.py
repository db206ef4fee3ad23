#!/usr/bin/env python3
"""A second lookup, written from the tables of marks and never from the crates: what `dns_check` has to write for a session.

    python3 rows/model.py SESSION          the report or the fault line
    python3 rows/model.py SESSION trail    with the trail
    python3 rows/model.py TEXT roll        the trusted keys after a text of sightings
    python3 rows/model.py TEXT deny        which questions behind a session the records of its answer deny
    python3 rows/model.py SESSION explain  with the trail, and why each set isn't Secure
    python3 rows/model.py                  compares the rows and the examples that are looked up, also with the number of asks that the
                                           README of the examples says, and names those that differ"""
import glob
import hashlib
import os
import sys
from collections import namedtuple

import answers
import denying
import hashes
import reading
import report
import rolling
from answers import is_set, secure_nsecs
from reading import dnskey_of, ds_of, folded, is_above, num_labels, rrsig_in, rrsig_of, shown, type_word
from report import BOGUS, INSECURE, SECTIONS, SIGNED, anchored_link, matched_link, signed_link, with_key_set
from signing import serial_at_or_before, signed_bytes

FOLDER = os.path.dirname(os.path.realpath(__file__))
NS, SOA, DS, RRSIG, NSEC, DNSKEY, NSEC3, IN = 2, 6, 43, 46, 47, 48, 50, 1
MOST_SIGNATURES, MOST_SENDS, MOST_DEPTH, MOST_OF_A_TAG, MOST_KEPT = 8, 1024, 255, 2, 65_536
JUDGED_BELOW = (DNSKEY, DS, NSEC, NSEC3, SOA)
DIGESTS = {1: hashlib.sha1, 2: hashlib.sha256, 4: hashlib.sha384}
ZONE_KEY, REVOKED = 0x0100, 0x0080
# what is known of a zone by the ask for its DS set: the mark that its sets can have, that set's chain and its records that count, and why
# it isn't signed
Zone = namedtuple("Zone", "mark chain records cause", defaults=((), (), None))
# no time comes after it
LAST_MOMENT = 2**64 - 1


class Set:
    """The records of one owner and type in a section, their signatures, and what is found of them."""

    def __init__(self, section, first):
        self.section, self.owner, self.kind = section, first.owner, first.kind
        self.records, self.signatures = [], []
        self.mark, self.place, self.asks, self.chain, self.repeats = BOGUS, None, [], None, None
        self.cause = "dnskey-not-found" if self.kind == DNSKEY else "rrsigs-not-present"

    def secure(self, place, chain):
        self.mark, self.place, self.chain = SIGNED, place, chain

    def insecure(self, place=None):
        self.mark, self.place = INSECURE, place

    def repeat(self, number, kept):
        """As the step of this number found it."""
        self.mark, self.place, self.chain, self.repeats, self.cause = kept.mark, kept.place, kept.chain, number, kept.cause

    def why(self):
        """Why it isn't Secure, where no signature decided that."""
        return "none" if self.mark == SIGNED or self.place is not None else self.cause

    def tried(self, asked):
        """A signature whose keys were asked for didn't prove it. The first query that failed stays the cause."""
        if self.cause != "net":
            self.cause = "rrsigs-unverified" if asked else "net"

    def rdatas(self):
        return [record.rdata.hex() or "-" for record in self.records]

    def key(self):
        """By what a cache knows it, beside the question: its records and signatures, but for their ttls."""
        return tuple(tuple((*record[:3], record.rdata) for record in records) for records in (self.records, self.signatures))


class Step:
    """An ask: what was heard, the sets of it that are judged, and how it ended, by which asks."""

    def __init__(self, depth, purpose, name, kind):
        self.depth, self.purpose, self.name, self.kind = depth, purpose, name, kind
        self.message, self.fault, self.sets, self.ending, self.excuse = None, "timeout", [], "failed", []

    def is_question(self, name, kind):
        return self.kind == kind and folded(self.name) == folded(name)

    def has_failed(self):
        """It has no answer; where NS records alone are looked for, nothing came."""
        return self.message is None or (self.purpose == "judged" and not is_answered(self))


def sets_of(message):
    """RRSIG records are no sets. A signature is of the set whose owner and type it covers, in its section."""
    made = []
    for section, records in zip(SECTIONS, message.sections):
        sets = {}
        for record in records:
            if record.kind != RRSIG:
                sets.setdefault((folded(record.owner), record.kind), Set(section, record)).records.append(record)
        for record in records:
            sig = rrsig_of(record)
            if sig and (folded(record.owner), sig.covered) in sets:
                sets[folded(record.owner), sig.covered].signatures.append(record)
        made.extend(sets.values())
    return made


def first_of_each(records, tag_of):
    """The first two records of each tag."""
    seen, kept = [], []
    for record in records:
        if seen.count(tag_of(record)) < MOST_OF_A_TAG:
            kept.append(record)
        seen.append(tag_of(record))
    return kept


def digest_covers(owner, key, ds):
    """RFC 4034, 5.1.4: over the owner in lower case and the key's rdata."""
    return DIGESTS[ds.digest_type](reading.wire(folded(owner)) + key.rdata).digest() == ds.digest


class Lookup:
    """One lookup over a session, with the steps in the order in which they end."""

    def __init__(self, session):
        self.session, self.steps, self.sends, self.taken, self.kept = session, [], 0, {}, {}
        # how often a verifier is asked
        self.questions = 0
        self.top = self.ask(0, "judged", *session.query)

    # ---- asks

    def reply(self, question):
        """In turn each ask takes the next line of its question, and the last one stays."""
        lines = [line for asked, line in self.session.replies if asked == question]
        turn = self.taken.get(question, 0) if self.session.by_turn else 0
        self.taken[question] = turn + 1
        return lines[min(turn, len(lines) - 1)] if lines else ("fault", "timeout")

    def ask(self, depth, purpose, name, kind):
        step = Step(depth, purpose, name, kind)
        self.sends += 1
        heard = reading.heard(self.reply((folded(name), kind)))
        if isinstance(heard, str):
            step.fault = heard
        else:
            step.message, step.ending = heard, "seen"
            if purpose == "judged":
                self.judge(step)
        step.number = len(self.steps)
        self.steps.append(step)
        self.keep(step)
        return step

    def made(self, asks, *what):
        """The step of an ask, which is named, or None where there were as many sends as may be."""
        if self.sends >= MOST_SENDS:
            asks.append("many")
            return None
        asked = self.ask(*what)
        asks.append(asked.number)
        return asked

    def nested(self, step, asks, name, kind):
        """The step of a judged ask, which is one deeper, or None where it was refused or has no answer."""
        if step.depth + 1 > min(self.session.depth, MOST_DEPTH):
            asks.append("deep")
            return None
        asked = self.made(asks, step.depth + 1, "judged", name, kind)
        return asked if asked and is_answered(asked) else None

    def judge(self, step):
        for section in step.message.sections:
            for record in section:
                if record.klass != IN:
                    step.ending = f"foreign {shown(record.owner)} {reading.class_word(record.klass)} {type_word(record.kind)}"
                    return
        for rrset in sets_of(step.message):
            if step.depth == 0 or rrset.kind in JUDGED_BELOW:
                step.sets.append(rrset)
                if self.is_served(step, rrset):
                    continue
                if rrset.kind == DNSKEY:
                    self.mark_keys(step, rrset)
                else:
                    self.mark_set(step, rrset)
        step.ending = answers.ending(step, lambda start: self.is_insecure(step, step.excuse, start))

    # ---- what was kept

    def is_served(self, step, rrset):
        """A set that an earlier step kept for the same question has its mark (RFC 4035, 4.5). The chain of a Secure one is tested, but for
        that of a key set that was asked for: it was accepted before."""
        place = folded(step.name), step.kind, rrset.key()
        number, kept = self.kept.get(place, (None, None))
        # an entry expires at the greatest moment at the latest
        if kept is None or self.session.moment == LAST_MOMENT:
            return False
        # what was used last stays longest
        self.kept[place] = self.kept.pop(place)
        rrset.repeat(number, kept)
        is_asked = rrset.kind == step.kind == DNSKEY and rrset.section == "answer" and folded(rrset.owner) == folded(step.name)
        self.questions += len(signatures_in(rrset.chain)) if rrset.mark == SIGNED and not is_asked else 0
        return True

    def keep(self, step):
        """What an ended step found is kept, unless an ask failed, or what was found by a signature holds for no second more."""
        for rrset in step.sets:
            found = rrset.mark == SIGNED or rrset.place is not None
            lasts = rrset.records[0].ttl > 0 and all(self.seconds_left(sig) for sig in signatures_in(rrset.chain or [])) if found else True
            failed = any(ask in ("deep", "many") or self.steps[ask].has_failed() for ask in rrset.asks)
            if rrset.repeats is None and lasts and (found or not failed):
                place = folded(step.name), step.kind, rrset.key()
                self.kept.pop(place, None)
                self.kept[place] = (step.number, rrset)
                if len(self.kept) > MOST_KEPT:
                    del self.kept[next(iter(self.kept))]

    def seconds_left(self, sig):
        """No longer than the signature holds, nor than its own ttl (RFC 4035, 5.3.3)."""
        return min(sig.ttl, (sig.expiration - self.session.moment) % 2**32)

    # ---- signatures

    def may_be_good(self, rrset, sig, key_record):
        """The signature fits set and key, its time is now, and the key may sign (RFC 4035, 5.3)."""
        key, now = dnskey_of(key_record), self.session.moment % 2**32
        return (key is not None and is_above(sig.signer, rrset.owner) and sig.labels <= num_labels(rrset.owner)
                and serial_at_or_before(sig.inception, now) and serial_at_or_before(now, sig.expiration)
                and folded(key_record.owner) == folded(sig.signer) and (key.algorithm, key.tag) == (sig.algorithm, sig.tag)
                and key.flags & ZONE_KEY and not key.flags & REVOKED and key.protocol == 3
                and key.algorithm in self.session.algorithms)

    def is_good(self, rrset, signature, key_record):
        """And the verifier, which is asked last, accepts it."""
        sig, key = rrsig_of(signature), dnskey_of(key_record)
        if not self.may_be_good(rrset, sig, key_record):
            return False
        self.questions += 1
        return (key.algorithm, key.key, signed_bytes(rrset, sig), sig.signature) in self.session.accepts

    def mark_set(self, step, rrset):
        """A set that isn't DNSKEY is Secure by the first signature that a Secure key of its signer made, else Insecure by the first
        whose signer has Insecure keys. Without a signature its zone decides, but for a DS set."""
        if not rrset.signatures:
            start = rrset.owner[1:] if rrset.kind == NSEC3 else rrset.owner
            if rrset.kind != DS:
                zone = self.searched(step, rrset.asks, start)
                rrset.cause = zone.cause or rrset.cause
                if zone.mark == INSECURE:
                    rrset.insecure()
        for place, signature in enumerate(rrset.signatures[:MOST_SIGNATURES]):
            signer = rrsig_of(signature).signer
            itself = folded(signer) == folded(rrset.owner)
            if not is_above(signer, rrset.owner) or (rrset.kind == DS and itself) or step.is_question(signer, DNSKEY):
                continue
            asked = self.nested(step, rrset.asks, signer, DNSKEY)
            rrset.tried(asked)
            keys = asked and may_sign(rrset, signature) and next((one for one in asked.sets if is_set(one, signer, DNSKEY)), None)
            counted = counted_keys(keys) if keys else []
            may_prove = counted if keys and keys.mark == SIGNED else []
            key = next((key for key in may_prove if self.is_good(rrset, signature, key)), None)
            if key:
                rrset.secure(place, [*keys.chain, signed_link(rrset, signature, len(keys.chain) - 1, key)])
                return
            if keys and keys.mark == INSECURE and counted and rrset.mark == BOGUS:
                rrset.insecure(place)

    # ---- key sets

    def is_anchored(self, rrset, record):
        key = dnskey_of(record)
        return key is not None and (folded(rrset.owner), key.algorithm, key.key) in self.session.anchors

    def first_signed(self, rrset, is_trusted):
        """The first signature of a key set that is good by one of its trusted keys: its place, itself and the first such key. Of
        keys with one rdata the first is tried."""
        trusted = {}
        for key in filter(is_trusted, rrset.records):
            trusted.setdefault(key.rdata, key)
        for place, signature in enumerate(rrset.signatures[:MOST_SIGNATURES]):
            for key in trusted.values():
                if self.is_good(rrset, signature, key):
                    return place, signature, key
        return None

    def mark_keys(self, step, rrset):
        """The rows of key sets, in their order."""
        def is_anchored(key):
            return self.is_anchored(rrset, key)

        by = self.first_signed(rrset, is_anchored)
        if by:
            place, signature, key = by
            rrset.secure(place, [anchored_link(rrset, key), signed_link(rrset, signature, 0, key)])
        elif all(map(is_anchored, rrset.records)):
            rrset.secure(None, with_key_set(rrset, [], [anchored_link(rrset, key) for key in rrset.records]))
        elif rrset.owner:
            self.mark_by_ds(step, rrset, is_anchored)

    def mark_by_ds(self, step, rrset, is_anchored):
        zone = self.zone(step, rrset.asks, rrset.owner)
        rrset.cause = zone.cause or "ds-records-but-no-dnskey"
        if zone.mark == INSECURE:
            rrset.insecure()
        if zone.mark != SIGNED:
            return
        last = len(zone.chain) - 1

        def ds_of_key(key):
            return next((ds for ds in zone.records if self.matches(rrset.owner, key, ds)), None)

        # no signature was good by an anchored key
        by = self.first_signed(rrset, lambda key: not is_anchored(key) and ds_of_key(key))
        if by:
            place, signature, key = by
            matched = matched_link(rrset, key, last, ds_of_key(key))
            rrset.secure(place, [*zone.chain, matched, signed_link(rrset, signature, last + 1, key)])
        elif all(is_anchored(key) or ds_of_key(key) for key in rrset.records):
            def trusted_link(key):
                return anchored_link(rrset, key) if is_anchored(key) else matched_link(rrset, key, last, ds_of_key(key))

            rrset.secure(None, with_key_set(rrset, zone.chain, [trusted_link(key) for key in rrset.records]))

    # ---- zones

    def zone(self, step, asks, name):
        """By a Secure DS set of the zone, in the answer section, it is signed, or Insecure where no readable record is supported. An
        answer without a DS set tells of an Insecure zone by a Secure NSEC of the delegation, by Secure NSEC3 records, and by a set that
        is Insecure at the zone or above it."""
        asked = self.nested(step, asks, name, DS)
        if not asked:
            return Zone(BOGUS, cause="net")
        ds_set = next((one for one in asked.sets if is_set(one, name, DS)), None)
        if not ds_set:
            is_cut = any(answers.is_unsigned_cut(nsec, name) for nsec in secure_nsecs(asked))
            is_cut = is_cut or hashes.is_unsigned(name, answers.secure_nsec3s(asked))
            is_excused = any(one.mark == INSECURE and is_above(one.owner, name) for one in asked.sets)
            is_shown = is_cut or is_excused
            return Zone(INSECURE, cause="ds-response-insecure") if is_shown else Zone(BOGUS, cause="ds-record-should-exist")
        readable = list(filter(ds_of, ds_set.records))
        if ds_set.mark != SIGNED or not readable:
            return Zone(BOGUS, cause="ds-record-should-exist")
        supported = [record for record in readable if self.is_supported(ds_of(record))]
        counted = first_of_each(supported, lambda record: (ds_of(record).algorithm, ds_of(record).tag))
        return Zone(SIGNED, ds_set.chain, counted) if counted else Zone(INSECURE, cause="unknown-key-algorithm")

    def is_insecure(self, step, asks, start):
        return self.searched(step, asks, start).mark == INSECURE

    def searched(self, step, asks, start):
        """The search for a zone: from name to parent NS records are asked for, as deep as the step is, and the name that has some
        is the zone. That there are no records leads on, whatever comes with it; a fault ends the search, and so does the root."""
        for name in (start[cut:] for cut in range(len(start))):
            asked = self.made(asks, step.depth, "ns", name, NS)
            if not asked or not asked.message:
                return Zone(BOGUS, cause="net")
            if not asked.message.is_empty and has_ns(asked.message, name):
                return self.zone(step, asks, name)
        return Zone(BOGUS, cause="ds-record-should-exist")

    def is_supported(self, ds):
        return ds is not None and ds.algorithm in self.session.algorithms and ds.digest_type in DIGESTS

    @staticmethod
    def matches(owner, record, ds_record):
        key, ds = dnskey_of(record), ds_of(ds_record)
        return key is not None and (key.algorithm, key.tag) == (ds.algorithm, ds.tag) and digest_covers(owner, record, ds)


def has_ns(message, name):
    """In whatever section, of whatever class."""
    return any(record.kind == NS and folded(record.owner) == folded(name) for section in message.sections for record in section)


def may_sign(rrset, signature):
    """NSEC and NSEC3 are never expanded, and an NSEC3 stands right below its zone (RFC 4035, 5.3.4; RFC 5155, 3)."""
    sig = rrsig_of(signature)
    is_whole = rrset.kind not in (NSEC, NSEC3) or num_labels(rrset.owner) == sig.labels
    return is_whole and (rrset.kind != NSEC3 or folded(rrset.owner[1:]) == folded(sig.signer))


def is_answered(step):
    return step.ending.startswith(("none", "absent", "expanded"))


def signatures_in(chain):
    """Those of its signed links."""
    return [rrsig_in(bytes.fromhex(link.split(" ")[6])) for link in chain if link.startswith("signed ")]


def counted_keys(keys):
    return first_of_each(filter(dnskey_of, keys.records), lambda key: dnskey_of(key).tag)


def written(session, words=(b"validate",)):
    """What is written for a session that is in its grammar, and the status; of a text of sightings whatever it is."""
    if words[0] == b"roll":
        return rolling.written(session)
    session, questions = denying.parts_of(session) if words[0] == b"deny" else (session, ())
    lookup = Lookup(reading.session_in(session))
    fault = report.fault_line(lookup.top)
    if words[0] == b"explain":
        lines = report.explained(lookup)
    elif words[0] == b"deny":
        lines = [fault] if fault else denying.lines(lookup.top, questions, lookup.session.moment)
    else:
        lines = [fault] if fault else report.lines(lookup, b"trail" in words)
    return "".join(line + "\n" for line in lines).encode("latin-1"), 1 if fault else 0


# ---- the command

def read(path, absent):
    if not os.path.isfile(path):
        return absent
    with open(path, "rb") as file:
        return file.read()


def stored_rows():
    """The rows and examples with files that are looked up or rolled, and the reports with a trail: place, words, session, output and status."""
    for path in sorted(glob.glob(f"{FOLDER}/*.session") + glob.glob(f"{FOLDER}/../examples/*.session")):
        place = path.removesuffix(".session")
        words, status = read(f"{place}.words", b"validate\n").split(b"\n")[:-1], int(read(f"{place}.status", b"0"))
        if (words[:1] in ([b"validate"], [b"explain"], [b"deny"]) and status in (0, 1)) or words == [b"roll"]:
            yield place, words, read(path, b""), read(f"{place}.out", b""), status
        if os.path.isfile(f"{place}.trail"):
            yield place, [b"validate", b"trail"], read(path, b""), read(f"{place}.trail", b""), 0


def miscounted():
    """The examples that don't have as many asks as their README says."""
    for line in read(f"{FOLDER}/../examples/README.md", b"").decode().split("\n"):
        if line.startswith("| `") and ".session` |" in line:
            name, asks = line.split("`")[1], line.split("|")[-2].strip()
            made = len(Lookup(reading.session_in(read(f"{FOLDER}/../examples/{name}", b""))).steps)
            if asks != str(made):
                yield f"examples/{name}: {made} asks, and the README says {asks}"


def main(words):
    if words:
        first = words[1].encode() if words[1:] in (["explain"], ["roll"], ["deny"]) else b"validate"
        named = [first, *(word.encode() for word in words[1:])]
        text, status = written(read(words[0], b""), named)
        sys.stdout.buffer.write(text)
        return status
    wrong, count = 0, 0
    for line in miscounted():
        wrong += 1
        print(line)
    for place, named, session, out, status in stored_rows():
        count += 1
        if written(session, named) != (out, status):
            wrong += 1
            print(os.path.relpath(place, f"{FOLDER}/.."))
    print(f"{count - wrong} of {count} rows as the model has them")
    return 1 if wrong else 0


if __name__ == "__main__":
    sys.exit(main(sys.argv[1:]))
