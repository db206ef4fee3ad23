"""What random sessions are made of: names, records, messages, signatures' keys. Nothing here is shared with the crates.

Names are lists of labels, the leaf first. A rule has its RFC beside it."""
import hashlib
import random

NS, RRSIG, DS, DNSKEY, OPT, IN, CH = 2, 46, 43, 48, 41, 1, 3
# the fields of an rdata: so many octets, n a name that is signed in lower case, s a text with its length, r any octets
SHAPES = {1: [4], 28: [16], 2: "n", 5: "n", 12: "n", 39: "n", 6: ["n", "n", 20], 15: [2, "n"], 18: [2, "n"], 21: [2, "n"],
          36: [2, "n"], 17: "nn", 26: [2, "n", "n"], 33: [6, "n"], 35: [4, "s", "s", "s", "n"], 16: "s", 51: [5, "r"]}
WORDS = {1: "A", 2: "NS", 5: "CNAME", 6: "SOA", 12: "PTR", 15: "MX", 16: "TXT", 17: "RP", 18: "AFSDB", 21: "RT", 26: "PX",
         28: "AAAA", 33: "SRV", 35: "NAPTR", 36: "KX", 39: "DNAME", 41: "OPT", 43: "DS", 46: "RRSIG", 47: "NSEC", 48: "DNSKEY",
         50: "NSEC3", 51: "NSEC3PARAM", 251: "IXFR", 252: "AXFR", 255: "ANY"}
DIGESTS = {1: hashlib.sha1, 2: hashlib.sha256, 4: hashlib.sha384}
STRANGE = [b"*", b"a.b", b"\\", b" ", b"\0", b"\xff", b"@", b"[", b"{", b"`", b"Z" * 63]
ZONE, SECURE_ENTRY, REVOKE, ZONE_PROTOCOL = 0x0100, 0x0001, 0x0080, 3


def type_word(kind):
    return WORDS.get(kind, f"TYPE{kind}")


def number(value, size):
    return value.to_bytes(size, "big")


# ---- names, as lists of labels with the leaf first

def low(name):
    return [bytes(byte + 32 if 65 <= byte <= 90 else byte for byte in label) for label in name]


def wire(name):
    return b"".join(number(len(label), 1) + label for label in name) + b"\0"


def count_of(name):
    """The labels, a leading `*` aside (RFC 4034, 3.1.3)."""
    return len(name) - (name[:1] == [b"*"])


class Draw(random.Random):
    """What is drawn by a seed."""

    def is_one_of(self, times):
        return self.random() * times < 1

    def octets(self, most=24):
        return self.randbytes(self.randint(0, most))

    def label(self):
        kind = self.random()
        if kind < 0.8:
            return bytes(self.choices(b"abcdefghijklmnopqrstuvwxyz0123456789-_", k=self.randint(1, 4)))
        return self.choice([*STRANGE, self.randbytes(self.randint(1, 9))])

    def name_below(self, zone, least, most, longest=150):
        """A name with so many labels more, which are short ones where it would have more octets than the longest."""
        for _ in range(self.randint(least, most)):
            longer = [self.label(), *zone]
            zone = longer if len(wire(longer)) <= longest else [b"x", *zone]
        return zone

    def any_case(self, name):
        if self.is_one_of(2):
            return name
        return [bytes(byte ^ 32 if 65 <= byte & 223 <= 90 and self.random() < 0.3 else byte for byte in label) for label in name]

    def hexadecimal(self, octets):
        text = octets.hex() or "-"
        return text.upper() if self.is_one_of(4) else text

    def shown(self, name):
        """As a word of a session (RFC 1035, 5.1). The last dot may be left away."""
        def letter(byte):
            if not 0x21 <= byte <= 0x7E or (chr(byte) not in ".\\" and not 48 <= byte <= 57 and self.is_one_of(60)):
                return f"\\{byte:03}"
            return "\\" + chr(byte) if chr(byte) in ".\\" else chr(byte)
        text = "".join("".join(map(letter, label)) + "." for label in name) or "."
        return text[:-1] if name and self.is_one_of(5) else text


class Turn:
    """Where a session is made, nothing of it is turned, or that one thing which comes at the chosen place."""

    def __init__(self, chosen=None):
        self.chosen, self.met = chosen, []

    def __call__(self, what):
        self.met.append(what)
        return len(self.met) - 1 == self.chosen


# ---- records

class Record:
    """An rdata is a list of fields, octets or names (RFC 1035, 3.3)."""

    def __init__(self, owner, kind, fields, ttl, klass=IN):
        self.owner, self.kind, self.fields, self.ttl, self.klass = owner, kind, fields, ttl, klass

    def rdata(self, written=wire):
        return b"".join(written(field) if isinstance(field, list) else field for field in self.fields)

    def canonical(self):
        return self.rdata(lambda name: wire(low(name)))


def random_fields(draw, kind):
    if draw.is_one_of(60):
        return []
    fields = []
    for field in SHAPES.get(kind, "r"):
        if field == "n":
            fields.append(draw.any_case(draw.name_below([], 0, 4)))
        elif field == "s":
            text = draw.octets(9)
            fields.append(number(len(text), 1) + text)
        else:
            fields.append(draw.octets() if field == "r" else draw.randbytes(field))
    return fields


class Writer:
    """Writes a message; names may be packed (RFC 1035, 4.1.4)."""

    def __init__(self, draw):
        self.draw, self.octets, self.places, self.is_packed = draw, bytearray(), {}, draw.is_one_of(2)

    def name(self, name):
        for cut in range(len(name)):
            rest = tuple(name[cut:])
            if self.is_packed and rest in self.places and not self.draw.is_one_of(9):
                self.octets += number(0xC000 | self.places[rest], 2)
                return
            if len(self.octets) < 0x4000:
                self.places.setdefault(rest, len(self.octets))
            self.octets += number(len(name[cut]), 1) + name[cut]
        self.octets += b"\0"

    def record(self, record):
        self.name(record.owner)
        self.octets += number(record.kind, 2) + number(record.klass, 2) + number(record.ttl, 4) + b"\0\0"
        start = len(self.octets)
        for field in record.fields:
            if isinstance(field, list):
                self.name(field)
            else:
                self.octets += field
        self.octets[start - 2:start] = number(len(self.octets) - start, 2)


def message(draw, questions, sections, code):
    """A reply with random flags, and an OPT record at times (RFC 1035, 4.1; RFC 6891, 6.1)."""
    writer = Writer(draw)
    has_opt = draw.is_one_of(3)
    counts = len(questions), *map(len, sections[:2]), len(sections[2]) + has_opt
    flags = draw.randrange(2**12) << 4 if draw.is_one_of(2) else 0x8400
    writer.octets += draw.randbytes(2) + number(flags | code, 2) + b"".join(number(count, 2) for count in counts)
    for name, kind in questions:
        writer.name(name)
        writer.octets += number(kind, 2) + number(IN, 2)
    for record in (record for section in sections for record in section):
        writer.record(record)
    if has_opt:
        option = number(draw.randrange(2**16), 2) + number(3, 2) + b"abc" if draw.is_one_of(2) else b""
        writer.octets += b"\0" + number(OPT, 2) + draw.randbytes(2) + b"\0" + draw.randbytes(3) + number(len(option), 2) + option
    return bytes(writer.octets)


# ---- keys

class Key:
    """RFC 4034, 2.1."""

    def __init__(self, flags, protocol, algorithm, public):
        self.flags, self.protocol, self.algorithm, self.public = flags, protocol, algorithm, public

    def rdata(self):
        return number(self.flags, 2) + number(self.protocol, 1) + number(self.algorithm, 1) + self.public

    def tag(self):
        """RFC 4034, appendix B."""
        rdata = self.rdata() + b"\0"
        total = sum(int.from_bytes(rdata[at:at + 2], "big") for at in range(0, len(rdata) - 1, 2))
        return (total + (total >> 16)) & 0xFFFF

    def with_tag(self, tag):
        """Another key with this tag; None where none is found."""
        even = self.public[:len(self.public) & ~1]
        start = self.with_public(even + b"\0\0").tag()
        # the tag rises with the last two octets, but for a carry
        others = (self.with_public(even + number((tag - start + carry) % 2**16, 2)) for carry in (0, 1, -1))
        return next((key for key in others if key.tag() == tag), None)

    def with_public(self, public):
        return Key(self.flags, self.protocol, self.algorithm, public)


def digest_of(owner, key, digest_type):
    """RFC 4034, 5.1.4."""
    return DIGESTS[digest_type](wire(low(owner)) + key.rdata()).digest()
