"""Sessions, names and messages as the standards and docs/FORMATS.md have them, for `model.py`.

Names are tuples of labels, the leaf first. A session is taken to be in its grammar. Bytes may be no message, and then their first
fault is told. `heard` is what a client hands on of a reply: a message, or the words of a fault."""
import functools
from collections import namedtuple

WORDS = {1: "A", 2: "NS", 5: "CNAME", 6: "SOA", 12: "PTR", 15: "MX", 16: "TXT", 17: "RP", 18: "AFSDB", 21: "RT", 26: "PX",
         28: "AAAA", 33: "SRV", 35: "NAPTR", 36: "KX", 39: "DNAME", 41: "OPT", 43: "DS", 46: "RRSIG", 47: "NSEC", 48: "DNSKEY",
         50: "NSEC3", 51: "NSEC3PARAM", 251: "IXFR", 252: "AXFR", 255: "ANY"}
CLASSES = {1: "IN", 3: "CH", 4: "HS", 254: "NONE", 255: "ANY"}
# an rdata's fields: so many bytes, N a name, s a string with its length, b a bitmap, r the rest
SHAPES = {1: [4], 28: [16], 2: "N", 5: "N", 12: "N", 39: "N", 6: ["N", "N", 20], 15: [2, "N"], 18: [2, "N"], 21: [2, "N"],
          36: [2, "N"], 17: "NN", 26: [2, "N", "N"], 33: [6, "N"], 35: [4, "s", "s", "s", "N"], 43: [4, "r"], 46: [18, "N", "r"],
          47: "Nb", 48: [4, "r"], 50: [4, "s", "s", "b"]}
# types whose names are lower-cased in canonical form (RFC 4034, 6.2; RFC 6840, 5.1)
LOWERED = {2, 5, 12, 39, 6, 15, 18, 21, 36, 17, 26, 33, 35}
SHAPED_CLASSES = {1, 254, 255}
SOA, OPT, ANY = 6, 41, 255
TRUNCATED = 0x0200
# codes of a failure, and those of a reply that may say that there are no records
FAILURES, OF_NO_RECORDS = {1, 2, *range(4, 11), *range(16, 24)}, {0, 3}
FAULTS = {"timeout": "timeout", "io": "io Other", "busy": "busy"}

Record = namedtuple("Record", "owner kind klass ttl rdata")
# `is_empty` where the client says that there are no records, and hands on no answers
Message = namedtuple("Message", "code is_truncated questions sections is_empty", defaults=(False,))
Session = namedtuple("Session", "by_turn moment depth algorithms anchors accepts query replies")


class Fault(Exception):
    """Why bytes are no message: the kind and the offset."""


# ---- names

def folded(name):
    return tuple(label.lower() for label in name)


def is_above(upper, name):
    """At or above it, letters in either case."""
    return len(upper) <= len(name) and folded(name[len(name) - len(upper):]) == folded(upper)


def num_labels(name):
    """A leading `*` isn't counted (RFC 4034, 3.1.3)."""
    return len(name) - (name[:1] == (b"*",))


def wire(name):
    return b"".join(bytes([len(label)]) + label for label in name) + b"\0"


def shown(name):
    """RFC 1035, 5.1."""
    def letter(byte):
        if chr(byte) in ".\\":
            return "\\" + chr(byte)
        return chr(byte) if 0x21 <= byte <= 0x7E else f"\\{byte:03}"
    return "".join("".join(map(letter, label)) + "." for label in name) or "."


def name_in(word):
    if word == ".":
        return ()
    labels, label, place = [], b"", 0
    while place < len(word):
        size = 1
        if word[place] == "\\":
            size = 4 if word[place + 1].isdigit() else 2
            label += bytes([int(word[place + 1:place + 4]) if size == 4 else ord(word[place + 1])])
        elif word[place] == ".":
            labels.append(label)
            label = b""
        else:
            label += word[place].encode()
        place += size
    return tuple([*labels, label] if label else labels)


# ---- words

def type_word(kind):
    return WORDS.get(kind, f"TYPE{kind}")


def class_word(klass):
    return CLASSES.get(klass, f"CLASS{klass}")


def type_in(word):
    return {text: kind for kind, text in WORDS.items()}.get(word) or int(word.removeprefix("TYPE"))


def octets_in(word):
    return b"" if word == "-" else bytes.fromhex(word)


# ---- messages

class Reader:
    """Reads a message from left to right; `place` is where the next field begins."""

    def __init__(self, octets, place=0):
        self.octets, self.place = octets, place

    def take(self, size):
        if self.place + size > len(self.octets):
            raise Fault("Short", self.place)
        self.place += size
        return self.octets[self.place - size:self.place]

    def number(self, size):
        return int.from_bytes(self.take(size), "big")

    def name(self):
        """RFC 1035, 4.1.4. A pointer leads before the run of labels that it ends."""
        labels, size, at, run, after = [], 1, self.place, self.place, None
        while True:
            if at >= len(self.octets):
                raise Fault("Short", at)
            length = self.octets[at]
            if length in range(1, 64):
                label = self.octets[at + 1:at + 1 + length]
                if len(label) < length:
                    raise Fault("Short", at)
                size += 1 + length
                if size > 255:
                    raise Fault("BadName", at)
                labels.append(label)
                at += 1 + length
            elif length == 0:
                self.place = after or at + 1
                return tuple(labels)
            elif length < 192:
                raise Fault("BadName", at)
            else:
                if at + 2 > len(self.octets):
                    raise Fault("Short", at)
                target = int.from_bytes(self.octets[at:at + 2], "big") & 0x3FFF
                if target >= run:
                    raise Fault("BadName", at)
                after, at, run = after or at + 2, target, target

    def bitmap(self, end):
        """RFC 4034, 4.1.2: windows with rising numbers."""
        start, last = self.place, -1
        while self.place < end:
            window, length = self.number(1), self.number(1)
            if window <= last or length not in range(1, 33):
                raise Fault("BadRdata", start)
            self.take(length)
            last = window
        return self.octets[start:self.place]

    def field(self, field, end):
        if field == "N":
            return wire(self.name())
        if field == "s":
            length = self.take(1)
            return length + self.take(length[0])
        if field == "b":
            return self.bitmap(end)
        return self.take(end - self.place if field == "r" else field)

    def rdata(self, kind, klass, size):
        """An rdata without pointers. Every fault inside it is one of its first byte."""
        start = self.place
        whole = self.take(size)
        if not whole or klass not in SHAPED_CLASSES or kind not in SHAPES:
            return whole
        try:
            inside = Reader(self.octets[:start + size], start)
            plain = b"".join([inside.field(field, start + size) for field in SHAPES[kind]])
        except Fault as fault:
            raise Fault("BadRdata", start) from fault
        if inside.place != start + size or len(plain) > 65_535:
            raise Fault("BadRdata", start)
        return plain


def message_in(octets):
    """The code, the questions and the sections, without the OPT record, whose upper bits of the code count (RFC 6891, 6.1.3)."""
    reader = Reader(octets)
    reader.take(2)
    flags = reader.number(2)
    asked, *counts = [reader.number(2) for _ in range(4)]
    questions = []
    for _ in range(asked):
        questions.append((reader.name(), reader.number(2)))
        reader.take(2)
    sections, upper = [], None
    for place, count in enumerate(counts):
        sections.append([])
        for _ in range(count):
            start = reader.place
            owner = reader.name()
            kind = reader.number(2)
            if kind == OPT and (place != 2 or owner or upper is not None):
                raise Fault("BadOpt", start)
            klass, ttl, size = reader.number(2), reader.number(4), reader.number(2)
            rdata = reader.rdata(kind, klass, size)
            if kind == OPT:
                upper = ttl >> 24
            else:
                sections[place].append(Record(owner, kind, klass, ttl, rdata))
    if reader.place < len(octets):
        raise Fault("Trailing", reader.place)
    return Message((upper or 0) << 4 | flags & 15, bool(flags & TRUNCATED), questions, sections)


# ---- what a client hands on

def is_answered(message, name, kind):
    """The message holds what was asked for: for any type a record at the name, for a SOA one at or above it, else any answer, or a
    record of the type at the name."""
    records = [record for section in message.sections for record in section]
    at_name = [record for record in records if folded(record.owner) == folded(name)]
    if kind == ANY:
        return bool(at_name)
    if kind == SOA:
        return any(record.kind == SOA and is_above(record.owner, name) for record in records)
    return bool(message.sections[0]) or any(record.kind == kind for record in at_name)


def handed_on(message):
    """RFC 2308, 2: a failure is its code; without what was asked for there are no records, and authorities alone are handed on."""
    if message.code in FAILURES:
        return f"code {message.code}"
    has_records = message.is_truncated or any(is_answered(message, *asked) for asked in message.questions)
    if has_records or message.code not in OF_NO_RECORDS:
        return message
    return message._replace(sections=[[], message.sections[1], []], is_empty=True)


@functools.cache
def heard(line):
    """What a session's line of the upstream gives. A line that serves many asks is read once."""
    word, rest = line
    if word == "fault":
        return FAULTS[rest]
    try:
        message = message_in(octets_in(rest))
    except Fault as fault:
        return "proto {} {}".format(*fault.args)
    return handed_on(message) if word == "empty" else message


# ---- views of rdatas

Rrsig = namedtuple("Rrsig", "covered algorithm labels ttl expiration inception tag signer signature front")
Dnskey = namedtuple("Dnskey", "flags protocol algorithm key tag")
Ds = namedtuple("Ds", "tag algorithm digest_type digest")


def rrsig_of(record):
    """RFC 4034, 3.1; None where the record can't be read so. `front` is all but the signature, the signer lower-cased."""
    return rrsig_in(record.rdata) if record.kind == 46 and record.rdata else None


def rrsig_in(rdata):
    """The same of rdata that can be read so."""
    reader = Reader(rdata)
    sizes = (2, 1, 1, 4, 4, 4, 2)
    numbers = [reader.number(size) for size in sizes]
    signer = reader.name()
    front = rdata[:18] + wire(folded(signer))
    return Rrsig(*numbers, signer, rdata[reader.place:], front)


def dnskey_of(record):
    """RFC 4034, 2.1, with the key tag of appendix B."""
    rdata = record.rdata
    if record.kind != 48 or len(rdata) < 4:
        return None
    total = sum(byte << 8 if place % 2 == 0 else byte for place, byte in enumerate(rdata))
    return Dnskey(int.from_bytes(rdata[:2], "big"), rdata[2], rdata[3], rdata[4:], (total + (total >> 16)) & 0xFFFF)


def ds_of(record):
    """RFC 4034, 5.1."""
    rdata = record.rdata
    if record.kind != 43 or len(rdata) < 4:
        return None
    return Ds(int.from_bytes(rdata[:2], "big"), rdata[2], rdata[3], rdata[4:])


def canonical_rdata(record):
    """RFC 4034, 6.2: names inside in lower case, for the types that the table says."""
    if record.kind not in LOWERED or not record.rdata:
        return record.rdata
    reader, end = Reader(record.rdata), len(record.rdata)
    try:
        fields = [wire(folded(reader.name())) if field == "N" else reader.field(field, end) for field in SHAPES[record.kind]]
    except Fault:
        return record.rdata
    return b"".join(fields) if reader.place == end else record.rdata


# ---- sessions

def session_in(text):
    """A session that is in its grammar. A reply is its question and its line."""
    lines = [line.split(" ") for line in text.decode("latin-1").split("\n")]
    first = {line[0]: line[1:] for line in reversed(lines)}
    accepts = {(int(line[1]), *map(octets_in, line[2:])) for line in lines if line[0] == "accept" and line[1] != "1"}
    anchors = {(folded(name_in(line[1])), int(line[2]), octets_in(line[3])) for line in lines if line[0] == "anchor"}
    replies = [((folded(name_in(line[1])), type_in(line[2])), (line[0], line[3]))
               for line in lines if line[0] in ("reply", "empty", "fault")]
    name, kind = first["query"]
    return Session(
        by_turn=first["dns-session"] == ["2"], moment=int(first["moment"][0]), depth=int(first.get("depth", ["26"])[0]),
        algorithms=set(map(int, first["algorithms"])) - {1}, anchors=anchors, accepts=accepts,
        query=(name_in(name), type_in(kind)), replies=replies)
