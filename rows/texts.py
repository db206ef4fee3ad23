"""Sessions and the reports that are expected of them, made from the rules of the standards and never from the program.

The reports here are of one zone, the root, whose keys are anchored or signed by an anchored one, and whose signatures the
session's `accept` lines accept or don't. Names are lists of labels, the leaf first."""
MOMENT, INCEPTION, EXPIRATION, TTL = 1000, 900, 2000, 3600
A, NS, MX, DS, RRSIG, NSEC, DNSKEY, OPAQUE, IN = 1, 2, 15, 43, 46, 47, 48, 65280, 1
WORDS = {A: "A", NS: "NS", MX: "MX", DS: "DS", RRSIG: "RRSIG", DNSKEY: "DNSKEY", 255: "ANY"}
ALGORITHM = 13
SIGNATURE = bytes.fromhex("c0de")
# the key of the stored session: flags of a zone key, protocol 3, algorithm 13
KEY = bytes.fromhex("0101030daabb")


def number(value, size):
    return value.to_bytes(size, "big")


def wire(name):
    """RFC 1035, 3.1."""
    return b"".join(number(len(label), 1) + label for label in name) + b"\0"


def folded(name):
    return [label.lower() for label in name]


def pointed(name, at, places):
    """The name at this place of a message, with a pointer where its last labels stand before, in the same case (RFC 1035, 4.1.4)."""
    octets = b""
    for cut, label in enumerate(name):
        rest = tuple(name[cut:])
        if rest in places:
            return octets + number(0xC000 | places[rest], 2)
        places[rest] = at + len(octets)
        octets += number(len(label), 1) + label
    return octets + b"\0"


def shown(name):
    """RFC 1035, 5.1. A byte that isn't printable is told by its number; no label here has a dot or a backslash."""
    return "".join("".join(map(letter, label)) + "." for label in name) or "."


def letter(byte):
    return chr(byte) if 0x21 <= byte <= 0x7E else f"\\{byte:03}"


def type_word(kind):
    return WORDS.get(kind, f"TYPE{kind}")


def key_of(octets):
    return KEY[:4] + octets


def key_tag(rdata):
    """RFC 4034, appendix B."""
    total = sum(byte << 8 if place % 2 == 0 else byte for place, byte in enumerate(rdata))
    return (total + (total >> 16 & 0xFFFF)) & 0xFFFF


class Record:
    def __init__(self, owner, kind, rdata, klass=IN):
        self.owner, self.kind, self.rdata, self.klass = owner, kind, rdata, klass

    def wire(self, written=wire):
        """RFC 1035, 4.1.3."""
        fixed = number(self.kind, 2) + number(self.klass, 2) + number(TTL, 4)
        return written(self.owner) + fixed + number(len(self.rdata), 2) + self.rdata

    def line(self, section, ttl, mark):
        return f"{section} {shown(self.owner)} IN {type_word(self.kind)} {ttl} {mark} {self.rdata.hex()}"


def message(name, kind, answers, additionals=(), authorities=(), is_packed=False, code=0):
    """A reply with one question (RFC 1035, 4.1). Owners are spelled out, or packed."""
    octets, places = bytearray.fromhex(f"0000840{code}"), {}
    octets += b"".join(number(count, 2) for count in (1, len(answers), len(authorities), len(additionals)))

    def written(owner):
        return pointed(owner, len(octets), places) if is_packed else wire(owner)

    octets += written(name) + number(kind, 2) + number(IN, 2)
    for record in (*answers, *authorities, *additionals):
        octets += record.wire(written)
    return bytes(octets)


class Signed:
    """Records of one owner and type with a signature of a zone by a key (RFC 4034, 3.1). Fewer labels are those of a wildcard."""

    def __init__(self, records, key, signature=SIGNATURE, signer=(), labels=None):
        self.records, self.key, self.signature, self.signer = records, key, signature, signer
        first = records[0]
        self.owner, self.kind = first.owner, first.kind
        if labels is None:
            labels = len(first.owner) - (first.owner[:1] == [b"*"])
        times = number(TTL, 4) + number(EXPIRATION, 4) + number(INCEPTION, 4)
        self.front = number(first.kind, 2) + number(ALGORITHM, 1) + number(labels, 1) + times + number(key_tag(key), 2)

    def rrsig(self):
        return Record(self.owner, RRSIG, self.front + wire(self.signer) + self.signature)

    def section(self):
        return [*self.records, self.rrsig()]

    def accept(self):
        """RFC 4034, 3.1.8.1: the rdatas rise as bytes, each once; owner and signer are in lower case. No rdata here has a name in
        capitals, and no wildcard's signature is accepted."""
        rising = sorted({record.rdata for record in self.records})
        records = b"".join(Record(folded(self.owner), self.kind, rdata).wire() for rdata in rising)
        signed = self.front + wire(folded(self.signer)) + records
        return f"accept {ALGORITHM} {self.key[4:].hex()} {signed.hex()} {self.signature.hex()}"

    def link(self, place):
        """A link by the key that the link at this place shows."""
        rdatas = " ".join(record.rdata.hex() for record in self.records)
        return (f"signed {shown(self.owner)} IN {type_word(self.kind)} {place} {self.key.hex()}"
                f" {self.rrsig().rdata.hex()} {rdatas}")

    def lines(self, section, is_secure):
        """The ttl of a secure set is bounded by the seconds that its signature has left (RFC 4035, 5.3.3)."""
        ttl = min(TTL, EXPIRATION - MOMENT) if is_secure else TTL
        lines = [record.line(section, ttl, "secure" if is_secure else "bogus") for record in self.records]
        return [*lines, self.rrsig().line(section, ttl, "secure" if is_secure else "indeterminate")]


def anchor(key, zone=()):
    return f"anchor {shown(zone)} {ALGORITHM} {key[4:].hex()}"


def anchored(key):
    return f"anchored . IN {key.hex()}"


def key_set(keys):
    """A key set all of whose keys are shown, each by the link at its own place."""
    return "keyset . IN " + " ".join(f"{place} {key.hex()}" for place, key in enumerate(keys))


def chain(links, section="answer"):
    return [f"chain {section} {len(links)}", *links]


def reply(name, kind, octets, word="reply"):
    return f"{word} {shown(name)} {type_word(kind)} {octets.hex() or '-'}"


def keys_reply(keys, signed=None):
    records = signed.section() if signed else [Record([], DNSKEY, key) for key in keys]
    return reply([], DNSKEY, message([], DNSKEY, records))


def session(anchors, accepts, name, kind, replies, version=1, depth=None, algorithms=(ALGORITHM,)):
    depths = [] if depth is None else [f"depth {depth}"]
    head = [f"dns-session {version}", f"moment {MOMENT}", *depths, " ".join(map(str, ("algorithms", *algorithms)))]
    query = f"query {shown(name)} {type_word(kind)}"
    return "".join(line + "\n" for line in (*head, *anchors, *accepts, query, *replies, "end")).encode()


def report(records, chains, trail=()):
    """The report, with a trail where its steps are given: each a list of lines."""
    head = ["dns-report 1", "code 0", "denial none"]
    count = [f"trail {len(trail)}"] if trail else []
    lines = [line for step in trail for line in step]
    return "".join(line + "\n" for line in (*head, *records, *chains, *count, *lines, "end")).encode()


def told(section, records):
    """The lines of what a step heard: records as they were told, without marks."""
    return [f"told {section} {shown(one.owner)} IN {type_word(one.kind)} {TTL} {one.rdata.hex() or '-'}" for one in records]


def judged(section, owner, kind, mark, place, asks=(), origin="table"):
    """The line of a set that a step judged: the place of the signature that decided, and what its asks came to."""
    return " ".join(["set", section, shown(owner), type_word(kind), mark, origin, place, *map(str, asks)])


def step(depth, name, kind, heard, ending, purpose="judged"):
    """The lines of a step: `heard` is what it told and judged, or None for a fault."""
    got = "got fault" if heard is None else "got 0"
    return [f"step {depth} {purpose} {shown(name)} {type_word(kind)}", got, *(heard or []), f"ending {ending}"]


def keys_step(keys, origin="table"):
    """The step of an ask for the root's keys, which are anchored and unsigned."""
    heard = [*told("answer", [Record([], DNSKEY, key) for key in keys]), judged("answer", [], DNSKEY, "secure", "-", origin=origin)]
    return step(1, [], DNSKEY, heard, "none")
