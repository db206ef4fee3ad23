"""Random sessions by a seed: valid ones, which lead from the query to an anchored key, and such in which one thing is turned."""
import sys

import chains
import reading
from drawn import CH, DIGESTS, DNSKEY, DS, IN, NS, REVOKE, RRSIG, SECURE_ENTRY, SHAPES, ZONE, ZONE_PROTOCOL
from drawn import Draw, Key, Record, Turn, count_of, digest_of, low, message, number, random_fields, type_word, wire

# types without a shape, and those for which no session is valid
OTHERS = [0, 13, 52, 99, 127, 256, 257, 32769, 65280, 65535]
NOT_ASKED = [41, 46, 47, 50, 128, 250, 251, 252, 255]
ALGORITHMS = [[13], [8, 13], [5, 7, 8, 10, 13, 14, 15, 16], [0, 255], [1, 253], [2, 3, 12]]
MOMENTS = [0, 1, 1000, 2**31 - 1, 2**31, 2**32 - 1, 2**32, 2**32 + 1000, 2**63, 2**64 - 1]
UNLISTED, LONGEST_WAIT = 250, 2**31 - 1
DEEPEST_ONCE_IN = 500


class Session:
    """A session that is being made: what it has beside its replies, and how many asks it needs after the first."""

    def __init__(self, draw, turn):
        self.draw, self.turn, self.asks = draw, turn, -1
        self.algorithms = list(draw.choice(ALGORITHMS))
        self.moment = draw.choice(MOMENTS) if draw.is_one_of(2) else draw.randrange(2**33)
        self.anchors, self.accepts, self.replies = [], [], []

    def supported(self):
        return self.draw.choice([algorithm for algorithm in self.algorithms if algorithm != 1])

    def key(self, is_usable=True):
        draw = self.draw
        public = draw.randbytes(draw.choice([0, 1, 2, 3, 32, 33, 64, 260])) if draw.is_one_of(3) else draw.randbytes(8)
        if is_usable or draw.is_one_of(2):
            others = draw.randrange(2**16) & ~REVOKE if draw.is_one_of(4) else draw.choice([0, SECURE_ENTRY])
            return Key(ZONE | others, ZONE_PROTOCOL, self.supported(), public)
        return Key(draw.randrange(2**16), draw.choice([3, 3, 0, 255]), draw.randrange(256), public)

    # ---- signatures

    def times(self, is_needed):
        """Inception and expiration, each up to the moment itself (RFC 1982, 3.2)."""
        draw, now = self.draw, self.moment
        after, before = (draw.choice([0, 1, 60, LONGEST_WAIT, draw.randrange(2**31)]) for _ in range(2))
        if is_needed and self.turn("a signature that has ended"):
            after = -draw.choice([1, 60, 2**31 - 1])
        elif is_needed and self.turn("a signature that hasn't begun"):
            before = -draw.choice([1, 60, 2**31 - 1])
        return number((now + after) % 2**32, 4) + number((now - before) % 2**32, 4)

    def accept(self, octets, key, signature):
        self.accepts.append((key.algorithm, key.public, octets, signature))

    def signature(self, owner, records, signer, key, is_needed=True):
        """A signature of the records, which is accepted (RFC 4034, 3.1). Where it is needed, it may be turned."""
        draw, turn, kind = self.draw, self.turn, records[0].kind
        labels, tag, said = count_of(owner), key.tag(), draw.octets(40)
        if is_needed:
            labels -= bool(labels and turn("fewer labels than the owner has"))
            labels += turn("more labels than the owner has")
            tag ^= turn("another tag") << draw.randrange(16)
            signer = draw.name_below(owner, 1, 2) if turn("a signer below the owner") else signer
        ttl = draw.choice([0, 3600, draw.randrange(2**32)])
        covered = kind ^ (is_needed and turn("another type covered"))
        front = number(covered, 2) + number(key.algorithm, 1) + number(labels, 1) + number(ttl, 4)
        front += self.times(is_needed) + number(tag, 2)
        each = wire(low(owner)) + number(kind, 2) + number(IN, 2) + number(ttl, 4)
        rdatas = sorted({record.canonical() for record in records})
        octets = front + wire(low(signer)) + b"".join(each + number(len(rdata), 2) + rdata for rdata in rdatas)
        if not (is_needed and turn("a signature that isn't accepted")):
            by = self.key() if is_needed and turn("a signature by another key") else key
            self.accept(octets, by, said + b"!" * (is_needed and turn("other octets of a signature")))
        return Record(draw.any_case(owner), RRSIG, [front, draw.any_case(signer), said], draw.choice([60, draw.randrange(2**32)]))

    # ---- replies

    def records(self, owner, kind, all_fields):
        draw, ttl = self.draw, self.draw.randrange(2**32)
        ttls = [ttl if draw.is_one_of(2) else draw.randrange(2**17) for _ in all_fields]
        return [Record(draw.any_case(owner), kind, fields, ttl) for fields, ttl in zip(all_fields, ttls)]

    def signed(self, owner, records, signer, key):
        return [*records, self.signature(owner, records, signer, key)]

    def says(self, name, kind, answers):
        """A reply of these records, with the signature anywhere. Others to the same question come later, and are never heard."""
        draw, turn = self.draw, self.turn
        self.asks += 1
        sections = [[record for record in answers if record.kind != RRSIG], [], []]
        for signature in (record for record in answers if record.kind == RRSIG):
            sections[0].insert(draw.randint(0, len(sections[0])), signature)
        self.turn_sections(name, kind, sections)
        questions = [(draw.any_case(name), kind)]
        word = "empty" if draw.is_one_of(9) else "reply"
        if word == "reply" and draw.is_one_of(9):
            questions = [(draw.name_below([], 0, 2), draw.randrange(2**16))] * draw.randrange(3)
        octets = message(draw, questions, sections, draw.randint(1, 15) if turn("a code") else 0)
        line = f"{word} {draw.shown(draw.any_case(name))} {type_word(kind)} "
        if turn("a reply that is missing"):
            return
        if turn("a fault in place of a reply"):
            line, octets = f"fault {draw.shown(name)} {type_word(kind)} {draw.choice(['timeout', 'io', 'busy'])}", None
        elif turn("a message that is cut"):
            octets = octets[:draw.randrange(len(octets))]
        elif turn("one bit of a message"):
            at = draw.randrange(len(octets) * 8)
            octets = octets[:at // 8] + bytes([octets[at // 8] ^ 1 << at % 8]) + octets[at // 8 + 1:]
        self.replies.append([line if octets is None else line + draw.hexadecimal(octets)])
        if draw.is_one_of(6):
            self.replies[-1].append(f"fault {draw.shown(name)} {type_word(kind)} timeout")

    def turn_sections(self, name, kind, sections):
        draw, turn, answers = self.draw, self.turn, sections[0]
        sets, signatures = ([record for record in answers if (record.kind == RRSIG) == is_sig] for is_sig in (False, True))
        other = Record(draw.name_below(name, 0, 1), draw.choice([1, NS, 16]), [b"\1" * 4], 60)
        other.fields = [[b"a"]] if other.kind == NS else other.fields
        if other.kind != kind and turn("a set beside in the answer section"):
            answers.append(other)
        elif turn("a set in another section"):
            sections[draw.randint(1, 2)].append(other)
        elif turn("a record twice"):
            answers.append(draw.choice(sets))
        elif turn("a record of another class"):
            draw.choice(answers).klass = CH
        elif turn("a record of another owner"):
            one = draw.choice(answers)
            one.owner = draw.name_below(one.owner, 1, 1)
        elif signatures and turn("a signature twice"):
            answers.append(signatures[0])
        elif signatures and turn("another signature beside"):
            signature = self.signature(name, sets, low(name), self.key(), is_needed=False)
            answers.insert(draw.randint(0, len(answers)), signature)
        elif signatures and turn("no signature"):
            answers.remove(signatures[0])
        elif len(sets) > 1 and turn("a record less than was signed"):
            answers.remove(draw.choice(sets))
        elif turn("an rdata that wasn't signed"):
            one = draw.choice(sets)
            one.fields = [*one.fields, b"\0"] if kind in (DS, DNSKEY) and one.fields else random_fields(draw, kind)

    # ---- key sets and DS sets

    def key_set(self, needed, count, last_of_tag):
        """The keys that are needed beside others, in any order, and their rdatas, at times with one that can't be read. The last
        needed key is the first or the second with its tag."""
        draw = self.draw
        others = [self.key(is_usable=False) for _ in range(count)]
        child = needed[-1]
        same = 0 if not draw.is_one_of(3) else draw.randint(1, 3)
        others += filter(None, (self.key(is_usable=False).with_tag(child.tag()) for _ in range(same)))
        keys = draw.sample([*needed, *others], len(needed) + len(others))
        alike = [at for at, key in enumerate(keys) if key.tag() == child.tag()]
        place = draw.randint(0, min(1, len(alike) - 1))
        if last_of_tag and len(alike) > 2 and self.turn("the third key of a tag"):
            place = 2
        at = keys.index(child)
        keys[at], keys[alike[place]] = keys[alike[place]], keys[at]
        rdatas = list(dict.fromkeys(key.rdata() for key in keys))
        if draw.is_one_of(8):
            rdatas.insert(draw.randint(0, len(rdatas)), b"")
        return keys, rdatas

    def needed_keys(self, has_child):
        """The key that signs the set, and the one that signs what lies below."""
        own = self.key()
        child = own if self.draw.is_one_of(3) else self.key()
        needed = [own, child] if own is not child else [own]
        for key in needed if has_child else [own]:
            if self.turn("a key that is revoked"):
                key.flags |= REVOKE
            elif self.turn("a key that is none of a zone"):
                key.flags &= ~ZONE
            elif self.turn("a key of another protocol"):
                key.protocol = self.draw.choice([0, 2, 4, 255])
            elif self.turn("a key of an algorithm that isn't listed"):
                key.algorithm = UNLISTED
        return needed

    def count_of_keys(self):
        return 98 if self.draw.is_one_of(150) else self.draw.choice([0, 0, 1, 2, 3])

    def add_anchor(self, zone, key):
        if self.turn("an anchor that is missing"):
            return
        public = key.public + b"\0" * self.turn("an anchor of another key")
        owner = self.draw.name_below(zone, 1, 1) if self.turn("an anchor of another zone") else self.draw.any_case(zone)
        self.anchors.append((owner, key.algorithm ^ self.turn("an anchor of another algorithm"), public))

    def anchored_keys(self, zone, has_child):
        """A key set that ends the walk: an anchored key signed it, or all its keys are anchored and it may be unsigned."""
        draw, needed = self.draw, self.needed_keys(has_child)
        keys, rdatas = self.key_set(needed, self.count_of_keys(), has_child)
        if draw.is_one_of(2):
            records = self.records(zone, DNSKEY, [[rdata] for rdata in rdatas])
            self.add_anchor(zone, needed[0])
            self.says(zone, DNSKEY, self.signed(zone, records, zone, needed[0]))
            return needed[-1]
        for key in keys:
            self.add_anchor(zone, key)
        records = self.records(zone, DNSKEY, [[rdata] for rdata in rdatas if rdata])
        if draw.is_one_of(3):
            records.append(self.signature(zone, records, draw.name_below([], 0, 1) + zone, self.key(False), is_needed=False))
        self.says(zone, DNSKEY, records)
        return needed[-1]

    def zone_below(self, parent, parent_key, zone, has_child):
        """A zone with the DS set of its parent, and its own keys, one of which signs them and has a DS record."""
        draw, needed = self.draw, self.needed_keys(has_child)
        self.delegation(parent, parent_key, zone, needed[0])
        keys, rdatas = self.key_set(needed, self.count_of_keys(), has_child)
        if draw.is_one_of(5) and len(keys) > len(needed):
            beside = next(key for key in keys if key not in needed)
            self.anchors.append((zone, beside.algorithm, beside.public))
        records = self.records(zone, DNSKEY, [[rdata] for rdata in rdatas])
        self.says(zone, DNSKEY, self.signed(zone, records, zone, needed[0]))
        return needed[-1]

    def ds_rdatas(self, zone, key):
        """The DS record of the key, beside others: at most one of its algorithm and tag that is supported stands before it."""
        draw, turn = self.draw, self.turn
        kind = draw.choice(list(DIGESTS))
        digest = digest_of(zone, key, kind)
        front = number(key.tag(), 2) + number(key.algorithm, 1)
        if turn("another digest"):
            digest = digest[:-1] + bytes([digest[-1] ^ 1 << draw.randrange(8)])
        of_key = front + number(0 if turn("a digest type that isn't supported") else kind, 1) + digest
        if turn("a DS record of another tag"):
            of_key = number(key.tag() ^ 1, 2) + of_key[2:]
        alike = [front + number(draw.choice(list(DIGESTS)), 1) + draw.octets(48) for _ in range(draw.choice([0, 0, 1, 2, 4]))]
        place = draw.randint(0, min(1, len(alike)))
        if len(alike) > 1 and turn("the third DS record of a tag"):
            place = 2
        alike.insert(place, of_key)
        made = alike
        for _ in range(draw.choice([0, 0, 1, 3])):
            one = draw.choice([front + number(draw.choice([0, 3, 5, 250]), 1) + draw.octets(48),
                               number(draw.randrange(2**16), 2) + number(draw.randrange(256), 1) + number(2, 1) + digest, b""])
            # one more of the tag and algorithm might count
            if one[:3] != front or one[3] not in DIGESTS:
                made.insert(draw.randint(0, len(made)), one)
        return list(dict.fromkeys(made))

    def delegation(self, parent, parent_key, zone, key):
        records = self.records(zone, DS, [[rdata] if rdata else [] for rdata in self.ds_rdatas(zone, key)])
        signer = zone if self.turn("a DS set signed by its own zone") else parent
        self.says(zone, DS, self.signed(zone, records, signer, parent_key))

    # ---- the whole

    def make(self):
        draw = self.draw
        if draw.is_one_of(DEEPEST_ONCE_IN):
            return self.deepest()
        asked = draw.choice([DNSKEY, DS, None, None, None])
        below = draw.choice([0, 1, 1, 2, 3, 4]) if not draw.is_one_of(8) else draw.randint(0, 15 if asked else 14)
        zone = [] if draw.is_one_of(2) else draw.name_below([], 0, 3)
        below += asked == DS and below == 0
        last = below - (asked == DS)
        key = self.anchored_keys(zone, asked != DNSKEY or last > 0)
        for at in range(1, last + 1):
            child = draw.name_below(zone, 1, 2 if below > 6 else 3)
            key, zone = self.zone_below(zone, key, child, asked != DNSKEY or last > at), child
        name = zone if asked == DNSKEY else draw.name_below(zone, int(asked == DS), 3, longest=240)
        if asked == DS:
            self.delegation(zone, key, name, self.key())
        elif not asked:
            name = [b"*", *zone] if draw.is_one_of(9) and len(wire(zone)) < 254 else name
            return self.text(name, self.answer(zone, key, name))
        return self.text(name, asked)

    def answer(self, zone, key, name):
        """A set of some type, which the zone signed; the answer is that type."""
        draw, kind = self.draw, self.draw.choice([*SHAPES, *OTHERS])
        kind = draw.choice(NOT_ASKED) if self.turn("a type that isn't asked for") else kind
        fields = [random_fields(draw, kind) for _ in range(30 if draw.is_one_of(60) else draw.randint(1, 4))]
        if draw.is_one_of(4):
            # the same in other letters, which is signed once
            fields.append([draw.any_case(one) if isinstance(one, list) else one for one in draw.choice(fields)])
        fields = list({Record([], kind, one, 0).rdata(): one for one in fields}.values())
        self.says(name, kind, self.signed(name, self.records(name, kind, fields), zone, key))
        return kind

    def deepest(self):
        """The longest name has 127 labels, so that a zone at each of them takes 255 asks, which is as deep as they go."""
        zone, key = [], self.anchored_keys([], True)
        for _ in range(127):
            child = [self.draw.choice([b"a", b"B"]), *zone]
            key, zone = self.zone_below(zone, key, child, True), child
        return self.text(zone, self.answer(zone, key, zone))

    def depth_lines(self):
        draw, needed = self.draw, self.asks
        if needed > 0 and self.turn("a depth of one less"):
            return [f"depth {needed - 1}"]
        if needed <= 26 and draw.is_one_of(3):
            return []
        return [f"depth {draw.choice([needed, needed, needed + 1, 255, 256, 65535])}"]

    def other_reply(self):
        """Octets, mostly no message, in reply to a question that isn't asked."""
        draw = self.draw
        return f"reply {draw.shown([*draw.name_below([], 0, 2), b'not', b'asked'])} TYPE65000 {draw.hexadecimal(draw.octets(40))}"

    def text(self, name, kind):
        draw = self.draw
        if self.turn("an algorithm that isn't listed"):
            self.algorithms.remove(draw.choice([one for one in self.algorithms if one != 1]))
        anchors = [f"anchor {draw.shown(owner)} {number} {draw.hexadecimal(public)}" for owner, number, public in self.anchors]
        accepts = [f"accept {algorithm} {' '.join(map(draw.hexadecimal, octets))}" for algorithm, *octets in self.accepts]
        others = [[self.other_reply()] for _ in range(draw.choice([0, 0, 1, 3]))]
        replies = [line for lines in draw.sample([*self.replies, *others], len(self.replies) + len(others)) for line in lines]
        lines = [f"dns-session {draw.randint(1, 2)}", f"moment {self.moment}", *self.depth_lines(),
                 " ".join(map(str, ["algorithms", *draw.sample(self.algorithms, len(self.algorithms))])),
                 *draw.sample(anchors, len(anchors)), *draw.sample(accepts, len(accepts)),
                 f"query {draw.shown(draw.any_case(name))} {type_word(kind)}", *replies, "end"]
        return "".join(line + "\n" for line in lines).encode()


def made(seed, place):
    """A valid session, and one in which one thing is turned so that it is valid no more, with what was turned."""
    turns = Turn()
    valid = Session(Draw(f"{seed} {place}"), turns).make()
    if not chains.is_valid(reading.session_in(valid)):
        sys.exit(f"tools/straight: session {place} of seed {seed} isn't valid\n{valid.decode()}")
    draw = Draw(f"{seed} {place} turned")
    while True:
        what = draw.choice(sorted(set(turns.met)))
        chosen = draw.choice([at for at, met in enumerate(turns.met) if met == what])
        turned = Session(Draw(f"{seed} {place}"), Turn(chosen)).make()
        if not chains.is_valid(reading.session_in(turned)):
            return valid, turned, what
