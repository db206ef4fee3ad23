#!/usr/bin/env python3
"""The large rows: sessions that would be long files, with the outputs that the rules ask for.

    python3 rows/generate.py FOLDER

writes each as FOLDER/NAME.session, NAME.words, NAME.out and NAME.status. `tools/run_rows` runs them without any file."""
import os
import sys

import attacks
import denials
import hashed
import model
import texts
import unsigned
import walk
from scene import Scene, ds_of, finds
from texts import A, ALGORITHM, DNSKEY, KEY, MX, NS, OPAQUE, Record, Signed
from walk import EXAMPLE, KEYS, WWW

# the model goes as deep as a lookup does, some frames an ask
sys.setrecursionlimit(10_000)
MOST_INPUT = 16_777_216
MOST_SENDS = 1024
MOST_MESSAGE = 65_535
MANY = 70_000
ROOT = []
SERVER = texts.wire([b"a"])
ADDRESS = bytes.fromhex("c0000201")
# a name of 255 bytes
LONG = [b"\1" * 63, b"\2" * 63, b"\3" * 63, b"\4" * 61]


def root_servers(key=KEY):
    return Signed([Record(ROOT, NS, SERVER)], key)


def by_one_key(signed, anchors=(KEY,), accepts=(), further=()):
    """A lookup of the first set, in an answer of these and further records, under one anchored key."""
    name, kind = signed[0].owner, signed[0].kind
    answers = [record for one in signed for record in one.section()]
    replies = [texts.reply(name, kind, texts.message(name, kind, answers, further)), texts.keys_reply([KEY])]
    accepts = [*accepts, *(one.accept() for one in signed)]
    return texts.session(map(texts.anchor, anchors), accepts, name, kind, replies)


def chain_by_one_key(signed):
    return texts.chain([texts.anchored(KEY), texts.key_set([KEY]), signed.link(1)])


def stored_report():
    servers = root_servers()
    return texts.report(servers.lines("answer", True), chain_by_one_key(servers))


def forty_keys():
    """A key set of 40 keys, signed by the first, which is anchored; the last signs the answer."""
    keys = [texts.key_of(texts.number(k * k + 1, 2) + bytes(range(k))) for k in range(40)]
    by_first = Signed([Record(ROOT, DNSKEY, key) for key in keys], keys[0])
    servers = root_servers(keys[-1])
    replies = [texts.reply(ROOT, NS, texts.message(ROOT, NS, servers.section())), texts.keys_reply(keys, by_first)]
    session = texts.session([texts.anchor(keys[0])], [by_first.accept(), servers.accept()], ROOT, NS, replies)
    links = [texts.anchored(keys[0]), by_first.link(0), servers.link(1)]
    return session, texts.report(servers.lines("answer", True), texts.chain(links)), 0


def sixty_links():
    """A key set of 58 keys, all anchored: a link for each, one for the set, one for the answer."""
    keys = [texts.key_of(texts.number(k * k + 1, 2)) for k in range(58)]
    servers = root_servers(keys[-1])
    replies = [texts.reply(ROOT, NS, texts.message(ROOT, NS, servers.section())), texts.keys_reply(keys)]
    session = texts.session(map(texts.anchor, keys), [servers.accept()], ROOT, NS, replies)
    links = [*map(texts.anchored, keys), texts.key_set(keys), servers.link(len(keys))]
    return session, texts.report(servers.lines("answer", True), texts.chain(links)), 0


def two_hundred_sets():
    """A message of 200 sets: the answer, and 199 without a signature in the additional section."""
    servers = root_servers()
    further = [Record([b"n%d" % k], A, ADDRESS) for k in range(199)]
    session = by_one_key([servers], further=further)
    lines = [*servers.lines("answer", True), *(one.line("additional", texts.TTL, "bogus") for one in further)]
    return session, texts.report(lines, chain_by_one_key(servers)), 0


def signed_addresses(count):
    return [Signed([Record([b"n%d" % k], A, ADDRESS)], KEY) for k in range(count)]


def hundred_chains():
    """An answer of 100 sets with a chain each."""
    signed = signed_addresses(100)
    lines = [line for one in signed for line in one.lines("answer", True)]
    chains = [line for one in signed for line in chain_by_one_key(one)]
    return by_one_key(signed), texts.report(lines, chains), 0


def audit_of_a_hundred_chains():
    """A hundred chains behind their session."""
    session, report, _ = hundred_chains()
    return session + report, b"".join(b"chain %d yes\n" % place for place in range(report.count(b"\nchain "))), 0, b"audit\n"


def audit_of_a_long_report():
    """A report with 20,000 lines of one kind and another, in which nothing holds, behind its session."""
    many = 20_000
    lines = ["dns-report 1", "code 0", "denial none", *["answer . IN A 0 bogus 0a"] * many, f"chain answer {many}", *["keyset . IN 0 0a 1 -"] * many,
             "trail 1", "step 0 judged . A", "got 0", *["set answer . A bogus table - deep many 0"] * many, "ending none", "end"]
    return by_one_key([root_servers()]) + "".join(one + "\n" for one in lines).encode(), b"chain 0 no\ntrail no\n", 0, b"audit\n"


def asked_of_a_hundred_sets():
    """The questions of as many signed sets, in their order."""
    session, _, _ = hundred_chains()
    lines = [line for line in session.splitlines(True) if line.startswith(b"accept ")]
    bare = b"".join(line for line in session.splitlines(True) if not line.startswith(b"accept "))
    return bare, b"dns-questions 1\n" + b"".join(lines) + b"end\n", 0, b"questions\n"


def explained_hundred_sets():
    """Why none of as many sets is Secure: no signature is accepted."""
    session = asked_of_a_hundred_sets()[0]
    out, status = model.written(session, [b"explain"])
    return session, out, status, b"explain\n"


def more_sends_than_are_made():
    """Each set of the answer asks for the root's keys, and no ask is made past the 1,024th send."""
    signed = signed_addresses(1_050)
    asked = MOST_SENDS - 1
    lines = [line for place, one in enumerate(signed) for line in one.lines("answer", place < asked)]
    chains = [line for one in signed[:asked] for line in chain_by_one_key(one)]
    return by_one_key(signed), texts.report(lines, chains), 0


def name_of_127_labels():
    """A name of 127 labels, whose wire form has 255 bytes, signed with all its labels."""
    signed = Signed([Record([b"a"] * 127, A, ADDRESS)], KEY)
    return by_one_key([signed]), texts.report(signed.lines("answer", True), chain_by_one_key(signed)), 0


def longest_message():
    """A message of 65,535 bytes with one record, whose rdata fills it."""
    front = len(texts.message(ROOT, OPAQUE, [Record(ROOT, OPAQUE, b"")]))
    filling = Record(ROOT, OPAQUE, bytes(place % 251 for place in range(MOST_MESSAGE - front)))
    octets = texts.message(ROOT, OPAQUE, [filling])
    assert len(octets) == MOST_MESSAGE
    session = texts.session([texts.anchor(KEY)], [], ROOT, OPAQUE, [texts.reply(ROOT, OPAQUE, octets)])
    return session, texts.report([filling.line("answer", texts.TTL, "bogus")], []), 0


def thousand_anchors():
    """1,000 anchors, of which the last is the key of the zone."""
    anchors = [texts.key_of(b"\1" + texts.number(k, 2)) for k in range(999)]
    return by_one_key([root_servers()], anchors=[*anchors, KEY]), stored_report(), 0


def of_length(most):
    """The stored session with further lines, so many bytes in all."""
    servers = root_servers()
    room = most - len(by_one_key([servers]))
    accepts = []
    while room:
        # two digits a byte, and an algorithm of one digit or two, so that every room can be filled
        size = min(100_000, room - len("accept 13 -  c0de\n"))
        if 0 < room - size - len("accept 13 -  c0de\n") < 1_000:
            size -= 1_000
        algorithm = "13" if size % 2 == 0 else "8"
        size += size % 2
        accepts.append(f"accept {algorithm} - {'5a' * (size // 2)} c0de")
        room -= len(accepts[-1]) + 1
    session = by_one_key([servers], accepts=accepts)
    assert len(session) == most
    return session


def longest_input():
    """A session of 16 MiB."""
    return of_length(MOST_INPUT), stored_report(), 0


def input_of_a_byte_too_many():
    """A session of 16 MiB and a byte."""
    return of_length(MOST_INPUT + 1), b"input too long\n", 7


def line_of_sixteen_mebibytes():
    """16 MiB of spaces, which are read and are one bad line."""
    return b" " * MOST_INPUT, b"bad line 1\n", 3


def asks_that_are_refused():
    """130 sets beside the answer, each with eight signatures that aren't accepted: every signature asks for the root's keys, until
    1,024 sends are made. The trail says which asks weren't."""
    servers = root_servers()
    owners = [[b"n%d" % k] for k in range(130)]
    refused = [[Signed([Record(owner, A, ADDRESS)], KEY, b"\xd0" + texts.number(k, 1)) for k in range(8)] for owner in owners]
    further = [record for signed in refused for record in (signed[0].records[0], *(one.rrsig() for one in signed))]
    session = by_one_key([servers], further=further)
    lines = servers.lines("answer", True)
    for signed in refused:
        lines.append(signed[0].records[0].line("additional", texts.TTL, "bogus"))
        lines.extend(one.rrsig().line("additional", texts.TTL, "indeterminate") for one in signed)
    nested = MOST_SENDS - 1
    heard = [*texts.told("answer", servers.section()), *texts.told("additional", further)]
    heard.append(texts.judged("answer", ROOT, NS, "secure", "0", [0]))
    for place, owner in enumerate(owners):
        asks = [number if number < nested else "many" for number in range(1 + 8 * place, 9 + 8 * place)]
        heard.append(texts.judged("additional", owner, A, "bogus", "-", asks))
    trail = [texts.keys_step([KEY]), *[texts.keys_step([KEY], "repeat-0")] * (nested - 1), texts.step(0, ROOT, NS, heard, "none")]
    return session, texts.report(lines, chain_by_one_key(servers), trail), 0, b"validate\ntrail\n"


def searches_past_the_last_send():
    """1,050 sets without a signature beside the answer: each asks for the NS records of its owner, which no reply has, until 1,024
    sends are made."""
    servers = root_servers()
    further = [Record([b"n%d" % k], A, ADDRESS) for k in range(1_050)]
    searched = MOST_SENDS - 2
    lines = [*servers.lines("answer", True), *(one.line("additional", texts.TTL, "bogus") for one in further)]
    heard = [*texts.told("answer", servers.section()), *texts.told("additional", further)]
    heard.append(texts.judged("answer", ROOT, NS, "secure", "0", [0]))
    for place, one in enumerate(further):
        heard.append(texts.judged("additional", one.owner, A, "bogus", "-", [place + 1 if place < searched else "many"]))
    plain = [texts.step(0, one.owner, NS, None, "failed", "ns") for one in further[:searched]]
    trail = [texts.keys_step([KEY]), *plain, texts.step(0, ROOT, NS, heard, "none")]
    return by_one_key([servers], further=further), texts.report(lines, chain_by_one_key(servers), trail), 0, b"validate\ntrail\n"


# ---- more than fits in a byte, in 16 bits, or in the room that a type for few might have

def chain_of_three_hundred_links():
    """300 keys of the root, all anchored, of which the last signs a DS set: the link that shows it has the number 301."""
    keys = [texts.key_of(texts.number(1_000 + k, 2)) for k in range(300)]
    scene = Scene(*((ROOT, key) for key in keys))
    scene.says(WWW, A, scene.signed([Record(WWW, A, ADDRESS)], KEYS[0], EXAMPLE))
    scene.has_keys(EXAMPLE, KEYS[:1], KEYS[0])
    scene.delegates(EXAMPLE, [ds_of(EXAMPLE, KEYS[0])], keys[-1])
    scene.says(ROOT, DNSKEY, [Record(ROOT, DNSKEY, key) for key in keys])
    links = [*["anchored ."] * 300, "keyset . " + " ".join(map(str, range(300))), "signed example. DS 300",
             "matched example. 301", "signed example. DNSKEY 302", "signed www.example. A 303"]
    session = scene.session(WWW, A)
    return session, finds(session, ["links " + ", ".join(links)]), 0


def forty_ds_records():
    """Each is supported, and the last two match the two keys, of which the second signs."""
    keys = [texts.key_of(texts.number(1_000 + k, 2)) for k in range(40)]
    session = walk.key_set(keys[-2:], [ds_of(EXAMPLE, key) for key in keys], keys[-1])
    return session, finds(session, [walk.DS_IS_SECURE, walk.IS_SECURE]), 0


def set_of_4500_records():
    """A set of 4,500 records, with its chain."""
    signed = Signed([Record(ROOT, OPAQUE, texts.number(k, 2)) for k in range(4_500)], KEY)
    return by_one_key([signed]), texts.report(signed.lines("answer", True), chain_by_one_key(signed)), 0


def seventy_thousand_lines_of_each_kind():
    """As many trusted keys, accepted signatures and replies beside those of the stored session. Half of the replies are to one
    question."""
    servers = root_servers()
    anchors = [f"anchor . 8 {k:08x}" for k in range(MANY)]
    accepts = [f"accept 8 {k:08x} - c0de" for k in range(MANY)]
    replies = [f"fault n{k}. A busy" if k % 2 else "empty . MX -" for k in range(MANY)]
    replies += [texts.reply(ROOT, NS, texts.message(ROOT, NS, servers.section())), texts.keys_reply([KEY])]
    session = texts.session([*anchors, texts.anchor(KEY)], [*accepts, servers.accept()], ROOT, NS, replies)
    return session, stored_report(), 0


def roll(keys, accepts, sights, trusted):
    """A text of sightings of the root, with the keys that are trusted after it."""
    lines = ["dns-roll 1", "zone .", f"algorithms {ALGORITHM}", *(f"key {key.hex()}" for key in keys), *accepts, *sights, "end"]
    return "".join(one + "\n" for one in lines).encode(), b"".join(b"trusted %s\n" % key.hex().encode() for key in trusted), 0, b"roll\n"


def roll_of_seventy_thousand_lines_of_each_kind():
    """As many keys that are trusted, accepted signatures, and messages that show no key set. All keys stay trusted."""
    keys = [texts.key_of(texts.number(k, 4)) for k in range(MANY)]
    accepts = [f"accept {ALGORITHM} {key[4:].hex()} - c0de" for key in keys]
    return roll(keys, accepts, [f"sight {k} -" for k in range(MANY)], keys)


def revoked_among_three_thousand_keys():
    """A trusted key revokes itself in a set that shows 3,000 others before it, of which one is trusted too: that one alone stays trusted."""
    keys = [texts.key_of(texts.number(k, 4)) for k in range(3_000)]
    revoked = KEY[:1] + bytes([KEY[1] | 0x80]) + KEY[2:]
    signed = Signed([Record(ROOT, DNSKEY, key) for key in (*keys, revoked)], revoked)
    shown = texts.message(ROOT, DNSKEY, signed.section())
    return roll([KEY, keys[0]], [signed.accept()], [f"sight {texts.MOMENT} {shown.hex()}"], [keys[0]])


def deny_four_thousand_names():
    """Behind the session of `deny-two-names` so many names that its records cover, and so many that they don't."""
    with open(os.path.join(os.path.dirname(os.path.realpath(__file__)), "deny-two-names.session"), "rb") as file:
        session = file.read().partition(b"then ")[0]
    told = [(f"m{k}", "denied 3 3600") for k in range(2_000)] + [(f"z{k}", "unknown") for k in range(2_000)]
    asked = "".join(f"then {name}.example. A\n" for name, _ in told) + "end\n"
    return session + asked.encode(), "".join(f"{name}.example. A {what}\n" for name, what in told).encode(), 0, b"deny\n"


def bad_line_behind_seventy_thousand():
    """Its number has five digits."""
    lines = ["dns-session 1", "moment 1", "algorithms", "query . A", *["fault . A busy"] * MANY, "reply . A"]
    return "".join(one + "\n" for one in lines).encode(), b"bad line %d\n" % len(lines), 3


def rdata_of_sixty_thousand_bytes():
    """A record that a signature is over, with its chain."""
    signed = Signed([Record(ROOT, OPAQUE, bytes(place % 251 for place in range(60_000)))], KEY)
    return by_one_key([signed]), texts.report(signed.lines("answer", True), chain_by_one_key(signed)), 0


class LongOpt:
    """An OPT record with an option of 296 bytes (RFC 6891, 6.1.2)."""
    def wire(self, written):
        return written(ROOT) + bytes.fromhex("002904d000008000") + texts.number(300, 2) + bytes.fromhex("000a0128") + b"\7" * 296


def referral_to_two_thousand_servers():
    """It says besides that there are no records, so that an upstream keeps it as that, and hands copies on."""
    scene = Scene()
    scene.further = [LongOpt()]
    servers = [Record(EXAMPLE, NS, b"\2n%d\0" % (k % 10)) for k in range(2_000)]
    glue = [Record([b"n%d" % (k % 10)], A, ADDRESS) for k in range(100)]
    scene.says(WWW, A, authorities=servers, additionals=glue, word="empty")
    return scene.session(WWW, A), b"fault nsec bogus\n", 1


def long_name_of_another_class():
    """A name of 255 bytes, each of which is told by its number, and a record of it of class CH."""
    octets = texts.message(LONG, A, [Record(LONG, A, ADDRESS, klass=3)])
    session = texts.session([], [], LONG, A, [texts.reply(LONG, A, octets)])
    return session, f"fault class {texts.shown(LONG)} CH A\n".encode(), 1


def three_hundred_words():
    """They are no form, and nothing is read."""
    return b"", b"bad words\n", 2, b"validate\n" * 300


def word_of_100_000_letters():
    """It is none either."""
    return b"", b"bad words\n", 2, b"v" * 100_000 + b"\n"


def words_of_more_than_255_bytes():
    """A name of 255 bytes, each of which is told by its number; 300 algorithms; octets of keys, of what is signed, of a signature
    and of messages."""
    owner = LONG
    key = texts.key_of(bytes(k % 251 for k in range(300)))
    signed = Signed([Record(owner, A, ADDRESS)], key, bytes(k % 241 for k in range(300)))
    octets = texts.message(owner, A, signed.section())
    replies = [f"fault {texts.shown(owner)} MX io", texts.reply(owner, MX, octets, "empty"), texts.reply(owner, A, octets),
               texts.keys_reply([key])]
    anchors = [texts.anchor(key, owner), texts.anchor(key)]
    session = texts.session(anchors, [signed.accept()], owner, A, replies, algorithms=(texts.ALGORITHM,) * 300)
    links = [texts.anchored(key), texts.key_set([key]), signed.link(1)]
    return session, texts.report(signed.lines("answer", True), texts.chain(links)), 0


def with_bad_line(line, before=()):
    """A session in which this line isn't in the grammar, behind the header and such lines."""
    lines = ["dns-session 1", *before, line, "end"]
    return "".join(one + "\n" for one in lines).encode(), b"bad line %d\n" % (len(before) + 2), 3


def number_of_300_digits():
    """It is no moment."""
    return with_bad_line("moment " + "1" * 300)


def algorithm_of_300_digits():
    """It is none."""
    return with_bad_line("algorithms " + "1" * 300, ["moment 1"])


def type_of_300_letters():
    """It is none."""
    return with_bad_line("query . " + "A" * 300, ["moment 1", "algorithms"])


def fault_of_300_letters():
    """It is none."""
    return with_bad_line("fault . A " + "b" * 300, ["moment 1", "algorithms", "query . A"])


def line_with_a_word_of_300_letters():
    """No line begins with it."""
    return with_bad_line("r" * 300 + " . A -", ["moment 1", "algorithms", "query . A"])


MADE = (forty_keys, sixty_links, two_hundred_sets, hundred_chains, audit_of_a_hundred_chains, audit_of_a_long_report, asked_of_a_hundred_sets, explained_hundred_sets,
        more_sends_than_are_made, name_of_127_labels,
        longest_message, thousand_anchors, longest_input, input_of_a_byte_too_many, line_of_sixteen_mebibytes,
        asks_that_are_refused, searches_past_the_last_send, walk.four_hundred_copies_of_a_key,
        walk.four_hundred_copies_and_no_other, walk.ds_ask_past_the_last_send, walk.deepest_keys_beside_their_own_ds,
        unsigned.deepest_searches, denials.denial_by_a_thousand_records, hashed.hashed_denial_by_a_thousand_records,
        hashed.unsigned_by_a_thousand_records, chain_of_three_hundred_links, forty_ds_records,
        set_of_4500_records, rdata_of_sixty_thousand_bytes, seventy_thousand_lines_of_each_kind, bad_line_behind_seventy_thousand,
        deny_four_thousand_names, roll_of_seventy_thousand_lines_of_each_kind, revoked_among_three_thousand_keys,
        referral_to_two_thousand_servers, long_name_of_another_class, three_hundred_words, word_of_100_000_letters, words_of_more_than_255_bytes, number_of_300_digits,
        algorithm_of_300_digits, type_of_300_letters, fault_of_300_letters, line_with_a_word_of_300_letters, *attacks.LARGE)


def rows():
    """The rows by name: session, output and status, and the words where they aren't `validate`."""
    return {make.__name__.replace("_", "-"): make for make in MADE}


def main(folder):
    os.makedirs(folder, exist_ok=True)
    for name, make in rows().items():
        session, out, status, words = (*make(), b"validate\n")[:4]
        for end, text in ((".session", session), (".words", words), (".out", out), (".status", b"%d\n" % status)):
            with open(os.path.join(folder, name + end), "wb") as file:
                file.write(text)


if __name__ == "__main__":
    if len(sys.argv) != 2:
        sys.exit(__doc__)
    main(sys.argv[1])
