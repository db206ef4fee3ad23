"""Checks the chains of a report by its session, link by link, and whether a session is one that has to end with a Secure set.

    python3 tools/sessions/chains.py SESSION REPORT    prints what is wrong with the report's marks and chains

Both are found from the texts, by the rules of RFC 4033 to 4035 and 5011 and nothing else. A set is Secure by a chain that leads
from the session's anchors to it, each link by earlier ones. `is_valid` follows the replies from the query to an anchored key."""
import hashlib
import os
import sys
from collections import Counter, namedtuple

sys.path.insert(0, os.path.join(os.path.dirname(os.path.realpath(__file__)), "..", "..", "rows"))
import reading  # noqa: E402
from reading import Record, dnskey_of, ds_of, folded, is_above, name_in, num_labels, rrsig_of  # noqa: E402

DS, RRSIG, NSEC, DNSKEY, NSEC3, OPT, IN = 43, 46, 47, 48, 50, 41, 1
SECTIONS = ("answer", "authority", "additional")
DIGESTS = {1: "sha1", 2: "sha256", 4: "sha384"}
ZONE, REVOKE, PROTOCOL = 0x0100, 0x0080, 3
OF_A_TAG, DEEPEST = 2, 255
# records of one owner and type, and the signature of theirs that counts, if one does
Signed = namedtuple("Signed", "owner kind records signature")


# ---- signatures, keys and DS records

def is_timely(sig, moment):
    """RFC 4034, 3.1.5; numbers of 32 bits are compared as RFC 1982, 3.2 says."""
    return (moment - sig.inception) % 2**32 < 2**31 and (sig.expiration - moment) % 2**32 < 2**31


def signed_octets(signed, sig):
    """RFC 4034, 3.1.8.1; 4035, 5.3.2: the owner of what a wildcard gave is that wildcard."""
    owner = folded(signed.owner)
    owner = owner if num_labels(owner) <= sig.labels else (b"*", *owner[len(owner) - sig.labels:])
    front = reading.wire(owner) + b"".join(n.to_bytes(size, "big") for n, size in ((signed.kind, 2), (IN, 2), (sig.ttl, 4)))
    rdatas = sorted(set(map(reading.canonical_rdata, signed.records)))
    return sig.front + b"".join(front + len(rdata).to_bytes(2, "big") + rdata for rdata in rdatas)


def is_good(session, signed, key_record):
    """RFC 4035, 5.3: the signature of the set is good by this key."""
    sig, key = rrsig_of(signed.signature), dnskey_of(key_record)
    if sig is None or key is None or sig.covered != signed.kind or folded(signed.signature.owner) != folded(signed.owner):
        return False
    is_usable = key.flags & ZONE and not key.flags & REVOKE and key.protocol == PROTOCOL and key.algorithm in session.algorithms
    is_by_key = folded(key_record.owner) == folded(sig.signer) and (key.algorithm, key.tag) == (sig.algorithm, sig.tag)
    return bool(is_usable and is_by_key and is_above(sig.signer, signed.owner) and sig.labels <= num_labels(signed.owner)
                and is_timely(sig, session.moment)
                and (key.algorithm, key.key, signed_octets(signed, sig), sig.signature) in session.accepts)


def is_anchored(session, record):
    key = dnskey_of(record)
    return key is not None and (folded(record.owner), key.algorithm, key.key) in session.anchors


def is_supported(session, record):
    ds = ds_of(record)
    return ds is not None and ds.algorithm in session.algorithms and ds.digest_type in DIGESTS


def matches(session, key_record, ds_record):
    """RFC 4034, 5.1.4 and 5.2."""
    key, ds = dnskey_of(key_record), ds_of(ds_record)
    if key is None or not is_supported(session, ds_record) or folded(ds_record.owner) != folded(key_record.owner):
        return False
    covered = reading.wire(folded(key_record.owner)) + key_record.rdata
    digest = hashlib.new(DIGESTS[ds.digest_type], covered).digest()
    return (key.algorithm, key.tag, digest) == (ds.algorithm, ds.tag, ds.digest)


def first_of(records, group):
    """The first two of each group."""
    met, first = Counter(), []
    for record in records:
        met[group(record)] += 1
        if met[group(record)] <= OF_A_TAG:
            first.append(record)
    return first


# ---- valid sessions

def straight(session, name, kind, turn):
    """The set that the reply holds and nothing else, under no error code, with one signature of as many labels as its owner has;
    a wholly anchored key set may have none. None where the reply is another."""
    lines = [line for asked, line in session.replies if asked == (folded(name), kind)]
    message = reading.heard(lines[min(turn, len(lines) - 1)]) if lines else "timeout"
    if isinstance(message, str) or message.is_empty or message.code or message.sections[1] or message.sections[2]:
        return None
    answers = message.sections[0]
    records = [record for record in answers if record.kind == kind]
    signatures = [record for record in answers if record.kind == RRSIG]
    if any(record.klass != IN or folded(record.owner) != folded(name) for record in answers) or not records:
        return None
    if len(records) + len(signatures) < len(answers) or len({record.rdata for record in records}) < len(records):
        return None
    if not signatures and kind == DNSKEY and all(is_anchored(session, record) for record in records):
        return Signed(records[0].owner, kind, records, None)
    sig = rrsig_of(signatures[0]) if len(signatures) == 1 else None
    is_whole = sig is not None and sig.covered == kind and sig.labels == num_labels(name)
    return Signed(records[0].owner, kind, records, signatures[0]) if is_whole else None


def is_ended(session, keys):
    """All keys are anchored, or an anchored one signed them."""
    trusted = [key for key in keys.records if is_anchored(session, key)]
    return len(trusted) == len(keys.records) or any(is_good(session, keys, key) for key in trusted)


def is_shown(session, keys, ds_set):
    """A DS record that counts matches a key that signed the key set."""
    supported = [record for record in ds_set.records if is_supported(session, record)]
    counted = first_of(supported, lambda record: (ds_of(record).algorithm, ds_of(record).tag))
    return any(is_good(session, keys, key) and matches(session, key, ds) for ds in counted for key in keys.records)


def is_valid(session):
    """The replies lead from the query to an anchored key: from a set to its signer's keys, from these to their DS set."""
    name, kind = session.query
    if kind in (RRSIG, NSEC, NSEC3, OPT) or 128 <= kind <= 255:
        return False
    left, turns, below = min(session.depth, DEEPEST), Counter(), None
    while True:
        turn = turns[folded(name), kind] if session.by_turn else 0
        turns[folded(name), kind] += 1
        found = straight(session, name, kind, turn)
        if found is None:
            return False
        if kind == DNSKEY:
            counted = first_of(filter(dnskey_of, found.records), lambda key: dnskey_of(key).tag)
            if below and not any(is_good(session, below, key) for key in counted):
                return False
            if is_ended(session, found):
                return True
            after = name, DS
        else:
            if below and not is_shown(session, below, found):
                return False
            signer = rrsig_of(found.signature).signer
            if not is_above(signer, name) or (kind == DS and len(signer) == len(name)):
                return False
            after = signer, DNSKEY
        if not left or (kind == DNSKEY and not name):
            return False
        left, below, (name, kind) = left - 1, found, after


# ---- chains

def records_of(owner, kind, words):
    return [Record(name_in(owner), kind, IN, 0, reading.octets_in(word)) for word in words]


def is_member(key, keys):
    return folded(key.owner) == folded(keys.owner) and key.rdata in [record.rdata for record in keys.records]


class Chain:
    """The links that hold so far: each with its word and the set, or the key, that it shows."""

    def __init__(self, session):
        self.session, self.links = session, []

    def earlier(self, word):
        """The link of that number, which has to be an earlier one."""
        number = int(word)
        return self.links[number] if number < len(self.links) else ("none", None)

    def shows_key(self, word, key):
        """An earlier link shows this very key."""
        said, shown = self.earlier(word)
        return said in ("anchored", "matched") and folded(shown.owner) == folded(key.owner) and shown.rdata == key.rdata

    def add(self, line):
        """What is wrong with the next link, or None."""
        word, owner, klass, *rest = line.split(" ")
        if klass != "IN":
            return f"a link of class {klass}"
        adds = {"anchored": self.add_anchored, "matched": self.add_matched, "keyset": self.add_keys, "signed": self.add_signed}
        return adds[word](owner, rest)

    def add_anchored(self, owner, rest):
        key = records_of(owner, DNSKEY, rest)[0]
        self.links.append(("anchored", key))
        return None if is_anchored(self.session, key) else "a key that isn't anchored"

    def add_matched(self, owner, rest):
        word, signed = self.earlier(rest[1])
        key, ds = records_of(owner, DNSKEY, rest[:1])[0], records_of(owner, DS, rest[2:])[0]
        self.links.append(("matched", key))
        if word != "signed" or signed.kind != DS or ds.rdata not in [record.rdata for record in signed.records]:
            return "a DS record that no link shows"
        is_same = folded(signed.owner) == folded(key.owner)
        return None if is_same and matches(self.session, key, ds) else "a DS record that doesn't match"

    def add_keys(self, owner, rest):
        keys = records_of(owner, DNSKEY, rest[1::2])
        are_shown = all(self.shows_key(word, key) for word, key in zip(rest[::2], keys))
        self.links.append(("keyset", Signed(name_in(owner), DNSKEY, keys, None)))
        return None if keys and len(keys) * 2 == len(rest) and are_shown else "a key set with a key that no link shows"

    def add_signed(self, owner, rest):
        kind = reading.type_in(rest[0])
        signature = records_of(owner, RRSIG, rest[3:4])[0]
        signed = Signed(name_in(owner), kind, records_of(owner, kind, rest[4:]), signature)
        sig = rrsig_of(signature)
        if sig is None or kind == RRSIG or not signed.records:
            return "nothing that can be signed"
        key = Record(sig.signer, DNSKEY, IN, 0, reading.octets_in(rest[2]))
        if not self.has_key(rest[1], signed, key):
            return "a key that its link doesn't show"
        self.links.append(("signed", signed))
        below = len(signed.owner) - len(sig.signer)
        if kind in (NSEC, NSEC3) and sig.labels != num_labels(signed.owner) or kind == NSEC3 and below != 1:
            return "a signature of a denial that was expanded"
        if kind == DS and below == 0:
            return "a DS set that its own zone signed"
        return None if is_good(self.session, signed, key) else "a signature that isn't good"

    def has_key(self, word, signed, key):
        """A key set has the key: for a key set that is itself, and an earlier link shows the key."""
        if signed.kind == DNSKEY:
            return self.shows_key(word, key) and is_member(key, signed)
        said, keys = self.earlier(word)
        return said in ("keyset", "signed") and keys.kind == DNSKEY and is_member(key, keys)


def sets_of(lines):
    """The Secure sets of a report, by section, owner and type, with their rdatas in order; its Secure signatures, with the set
    that each covers; and the sets with two marks."""
    sets, signatures = {}, []
    for line in lines:
        section, owner, _, kind, _, mark, rdata = line.split(" ")
        place = section, folded(name_in(owner)), reading.type_in(kind)
        if kind == "RRSIG" and mark == "secure":
            sig = rrsig_of(records_of(owner, RRSIG, [rdata])[0])
            signatures.append(((*place[:2], sig and sig.covered), rdata))
        elif kind != "RRSIG":
            sets.setdefault(place, []).append((mark, rdata))
    marks = {place: {mark for mark, _ in told} for place, told in sets.items()}
    mixed = [place for place in sets if len(marks[place]) > 1]
    return {place: [rdata for _, rdata in told] for place, told in sets.items() if "secure" in marks[place]}, signatures, mixed


def chains_of(lines):
    """The section and the links of each chain of a report."""
    for at, line in enumerate(lines):
        if line.startswith("chain "):
            _, section, count = line.split(" ")
            yield section, lines[at + 1:at + 1 + int(count)]


def wrong_in(session, report):
    """What is wrong with the marks and chains of a report, or None."""
    lines = report.decode("latin-1").split("\n")
    secure, signatures, mixed = sets_of(line for line in lines if line.startswith(SECTIONS))
    if mixed:
        return "a set with two marks"
    ended = []
    for section, links in chains_of(lines):
        chain = Chain(session)
        for line in links:
            wrong = chain.add(line)
            if wrong:
                return f"{wrong}: {line}"
        word, shown = chain.links[-1] if chain.links else ("none", None)
        if word not in ("keyset", "signed"):
            return "a chain that ends at no set"
        ended.append(((section, folded(shown.owner), shown.kind), shown))
    told = {place: [record.rdata.hex() or "-" for record in shown.records] for place, shown in ended}
    if len(ended) != len(told) or told != secure:
        return "Secure sets that aren't those of the chains"
    decided = {(place, shown.signature.rdata.hex()) for place, shown in ended if shown.signature}
    return None if decided.issuperset(signatures) else "a Secure signature that decided nothing"


def is_secure(session, report):
    """Each record of the queried set is there, and Secure."""
    name, kind = session.query
    secure, _, mixed = sets_of(line for line in report.decode("latin-1").split("\n") if line.startswith(SECTIONS))
    return not mixed and ("answer", folded(name), kind) in secure


def main(words):
    if len(words) != 2:
        print(__doc__)
        return 2
    texts = []
    for path in words:
        with open(path, "rb") as file:
            texts.append(file.read())
    wrong = wrong_in(reading.session_in(texts[0]), texts[1])
    print(wrong or "each chain holds")
    return 1 if wrong else 0


if __name__ == "__main__":
    sys.exit(main(sys.argv[1:]))
