"""Small random zones, what they answer, and queries of them, for `tools/zones`. It shares nothing with the crates."""
import collections

A, NS, CNAME, SOA, MX, TXT, AAAA, DNAME, DS, RRSIG, NSEC, OTHER = 1, 2, 5, 6, 15, 16, 28, 39, 43, 46, 47, 65280
WORDS = {A: "A", NS: "NS", CNAME: "CNAME", SOA: "SOA", MX: "MX", TXT: "TXT", AAAA: "AAAA", DNAME: "DNAME", DS: "DS",
         OTHER: "TYPE65280"}
NO_ERROR, NAME_ERROR = 0, 3
STAR = b"*"
LABELS = [b"a", b"b", b"C", b"z", b"aa", b"a.b", b"_", b"\0", b"\xff", b")", b"+", b"**", b"z" * 63]
APEXES = [(), (b"example",), (b"b", b"a"), (STAR, b"e"), (b"z" * 63, b"\0")]
# a query, the code and answer of a response to it, and the records of denial that it has; `whole` where they are all
Case = collections.namedtuple("Case", "name rtype code answered records whole")


# ---- names, as tuples of labels with the leaf first

def folded(name):
    return tuple(label.lower() for label in name)


def above(upper, name):
    """Whether a name is at or above another; both are folded."""
    return len(upper) <= len(name) and name[len(name) - len(upper):] == upper


def ancestors(name):
    """The name and all above it, the longest first."""
    return [name[at:] for at in range(len(name) + 1)]


def place(name):
    """What orders names (RFC 4034, 6.1)."""
    return tuple(reversed(folded(name)))


def printed(name):
    """A name as a word of a session."""
    text = "".join("".join(chr(byte) if 33 <= byte <= 126 and byte not in b'.\\' else f"\\{byte:03}" for byte in label) + "."
                   for label in name)
    return text or "."


def wire(name):
    return b"".join(bytes([len(label)]) + label for label in name) + b"\0"


def fits(name):
    return len(wire(name)) <= 255


# ---- zones

class Zone:
    """An apex, and the types of each owner, whose names are folded."""

    def __init__(self, apex, sets):
        self.apex = apex
        self.sets = sets
        # those that are owners or above one (RFC 4592, 2.2.2)
        self.existing = {name for owner in sets for name in ancestors(owner) if above(apex, name)}

    def exists(self, name):
        return name in self.existing

    def closest_encloser(self, name):
        return next(upper for upper in ancestors(name) if self.exists(upper))

    def holds(self, name, rtype):
        return above(self.apex, name) and not (rtype == DS and name == self.apex)

    def cut_or_kind(self, name, rtype):
        """How the zone answers for a name that it holds, label by label from the apex down (RFC 1034, 4.3.2): a kind, and
        where that is a referral, the delegation."""
        for size in range(len(self.apex), len(name) + 1):
            node = name[len(name) - size:]
            types = self.sets.get(node, ())
            if NS in types and node != self.apex and not (node == name and rtype == DS):
                return "referral", node
            if DNAME in types and node != name:
                return "data", None
            if not self.exists(node):
                return self.from_wildcard((STAR,) + node[1:], rtype)
        return "data" if rtype in types or CNAME in types else "no data", None

    def from_wildcard(self, wildcard, rtype):
        """How the wildcard below the closest encloser answers, if it exists (RFC 4592, 3.3.1 and 4; RFC 6672, 3.3)."""
        types = self.sets.get(wildcard)
        if types is None:
            return "no data" if self.exists(wildcard) else "no such name", None
        if NS in types and wildcard != self.apex:
            return "referral", wildcard
        return "data" if {rtype, CNAME, DNAME} & types else "no data", None

    def lookup(self, name, rtype):
        """The kind of its answer."""
        return self.cut_or_kind(name, rtype)[0]


def random_name(draw, below, labels, most):
    name = below
    for _ in range(draw.randint(1, most)):
        name = (STAR if draw.random() < 0.25 else draw.choice(labels),) + name
    return name


def random_types(draw):
    kind = draw.random()
    if kind < 0.2:
        return {NS}
    if kind < 0.3:
        return {NS, DS}
    if kind < 0.4:
        return {DNAME} | set(draw.sample([A, TXT], draw.randint(0, 1)))
    if kind < 0.5:
        return {CNAME}
    return set(draw.sample([A, MX, TXT, AAAA, OTHER], draw.randint(1, 3)))


def random_zone(draw):
    """A zone, and the labels that its names are made of."""
    apex = draw.choice(APEXES)
    labels = draw.sample(LABELS, 3)
    sets = {folded(apex): {SOA, NS} | set(draw.sample([A, TXT, DNAME, CNAME, OTHER], 1) if draw.random() < 0.2 else [])}
    for _ in range(draw.choice([0, 1, 2, 3, 4, 5, 6, 8, 12])):
        owner = folded(random_name(draw, apex, labels, 3))
        if fits(owner):
            sets[owner] = random_types(draw)
    # below a delegation lies another zone, and below DNAME nothing
    ends = [owner for owner, types in sets.items() if DNAME in types or NS in types and owner != folded(apex)]
    sets = {owner: types for owner, types in sets.items() if not any(above(end, owner) and end != owner for end in ends)}
    return Zone(folded(apex), sets), labels


# ---- queries

def random_query(draw, zone, labels):
    kind = draw.random()
    name = draw.choice(sorted(zone.sets))
    if kind < 0.25:
        name = draw.choice(ancestors(name))
    elif kind < 0.75:
        name = random_name(draw, name, labels, 2)
    elif kind < 0.8:
        name = random_name(draw, (), labels, 3)
    elif kind < 0.9 and name != zone.apex:
        name = (draw.choice(labels + [STAR]),) + name[1:]
    return (name if fits(name) else zone.apex), draw.choice(list(WORDS))


def in_any_case(draw, name):
    return tuple(label.upper() if draw.random() < 0.2 else label for label in name)


def label_count(name):
    """How many labels there are, a leading `*` aside (RFC 4034, 3.1.3)."""
    return len(name) - (name[:1] == (STAR,))


# ---- messages

def bitmap(types):
    """Types, as RFC 4034, 4.1.2 writes them."""
    windows = collections.defaultdict(bytearray)
    for rtype in sorted(types):
        bits = windows[rtype >> 8]
        bits.extend(bytes((rtype & 255) // 8 + 1 - len(bits)))
        bits[(rtype & 255) // 8] |= 0x80 >> rtype % 8
    return b"".join(bytes([window, len(bits)]) + bits for window, bits in windows.items())


def record(owner, rtype, rdata):
    return wire(owner) + rtype.to_bytes(2, "big") + b"\0\1\0\0\x0e\x10" + len(rdata).to_bytes(2, "big") + rdata


def response(zone, case, records):
    """The response of a case, with these records of denial. An answer is a signature with as many labels as it was made from."""
    answers = b""
    if case.answered is not None:
        count = label_count(case.name) if case.answered == "plain" else case.answered
        answers = record(case.name, RRSIG, case.rtype.to_bytes(2, "big") + bytes([13, count]) + bytes(14) + wire(zone.apex) + b"\1")
    counts = (1, int(case.answered is not None), len(records), 0)
    head = b"\0\0\x84" + bytes([case.code]) + b"".join(count.to_bytes(2, "big") for count in counts)
    return head + wire(case.name) + case.rtype.to_bytes(2, "big") + b"\0\1" + answers + b"".join(records)
