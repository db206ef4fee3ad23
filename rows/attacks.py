#!/usr/bin/env python3
"""Rows of known attacks, with the number of questions to the verifier that each can cause (docs/ATTACKS.md).

    python3 rows/attacks.py              writes the rows' files beside it; `generate.py` makes the large ones
    python3 rows/attacks.py --check      says whether the files are those
    python3 rows/attacks.py --dearest    compares the dearest row, and those that fill a cache, with rows/model.py, which takes minutes

The keys have two words that add up to `aabb`, so that all have the tag of the root's key; signatures end with their number, and none is accepted
but where a row says so."""
import sys

import model
import texts
from scene import TRAIL, Scene, ds_of, finds, main
from texts import A, DNSKEY, DS, KEY, NS, RRSIG, Record, Signed, key_of, number

ROOT, EXAMPLE = [], [b"example"]
SERVER = texts.wire([b"a"])
MOST_SENDS = 1024
MANY_KEYS, MANY_SIGNATURES = 301, 100
# the sets of a cache, and how many fit in a message
CACHED, SETS_OF_A_MESSAGE = 65_536, 4_000


def keys_of_one_tag(count):
    """The first is the root's."""
    return [KEY, *(key_of(number(0xAABB - at, 2) + number(at, 2)) for at in range(1, count))]


def refused(records, key, count, signer=ROOT):
    """So many signatures over the records, none of them accepted."""
    return [Signed(records, key, b"\xd0" + number(at, 2), signer).rrsig() for at in range(count)]


def found(session, says):
    return session, finds(session, says, TRAIL), 0, b"validate\ntrail\n"


def servers(keys, signatures):
    """The root's name servers under anchored keys, all in the key set."""
    scene = Scene(*((ROOT, key) for key in keys))
    records = [Record(ROOT, NS, SERVER)]
    scene.says(ROOT, NS, records, refused(records, KEY, signatures))
    scene.says(ROOT, DNSKEY, [Record(ROOT, DNSKEY, key) for key in keys])
    return scene.session(ROOT, NS)


def keys_that_sign_themselves(scene, owner, keys, signatures):
    records = [Record(owner, DNSKEY, key) for key in keys]
    scene.says(owner, DNSKEY, records, refused(records, keys[0], signatures, owner))


def key_set(keys, signatures):
    """The root's key set, of which the first key is anchored."""
    scene = Scene()
    keys_that_sign_themselves(scene, ROOT, keys, signatures)
    return scene.session(ROOT, DNSKEY)


def below_ds_records(keys, signatures):
    """The key set of a zone, each of whose keys a DS record matches."""
    scene = Scene()
    keys_that_sign_themselves(scene, EXAMPLE, keys, signatures)
    scene.delegates(EXAMPLE, [ds_of(EXAMPLE, key) for key in keys])
    scene.root()
    return scene.session(EXAMPLE, DNSKEY)


def own_key_sets(sets, signatures):
    """Sets of one address, each of whose signatures gets a key set of its own: two keys and eight signatures in each of three sections. The
    session, and what its answer section has."""
    scene, owners = Scene(), [[b"n%d" % at] for at in range(sets)]
    addresses = [[Record(owner, A, b"\xc0\0\2\1")] for owner in owners]
    answers = [part for one in addresses for part in (one, refused(one, KEY, signatures))]
    scene.says(owners[0], A, *answers)
    for at in range(min(sets * signatures, MOST_SENDS - 1)):
        records = [Record(ROOT, DNSKEY, KEY), Record(ROOT, DNSKEY, key_of(number(at, 2) + b"\xee"))]
        section = [*records, *refused(records, KEY, 8)]
        scene.says(ROOT, DNSKEY, section, authorities=section, additionals=section)
    return scene.session(owners[0], A, version=1 if sets * signatures == 1 else 2), answers


# ---- rows with files

def eight_signatures_and_two_keys():
    """each of eight signatures is tried with each of two keys of its tag: 16 questions"""
    return servers(keys_of_one_tag(2), 8), ["asks 9", "answer . NS bogus", "questions 16"], TRAIL


def nine_signatures_and_three_keys():
    """a ninth signature and a third key of the tag cost nothing"""
    return servers(keys_of_one_tag(3), 9), ["asks 9", "answer . NS bogus", "questions 16"], TRAIL


def nine_signatures_of_a_key_set():
    """a key set's anchored key is tried with eight signatures"""
    return key_set(keys_of_one_tag(3), 9), ["asks 1", "answer . DNSKEY bogus", "questions 8"], TRAIL


def nine_signatures_below_three_ds_records():
    """two keys that DS records match are tried with eight signatures, and the DS set costs a question more"""
    return below_ds_records(keys_of_one_tag(3), 9), ["asks 3", "answer example. DNSKEY bogus", "questions 17"], TRAIL


def key_set_in_three_sections():
    """the dearest ask: a key set in each of three sections, each with eight signatures by the anchored key; 24 questions"""
    return own_key_sets(1, 1)[0], ["asks 2", "answer n0. A bogus", "questions 24"], TRAIL


MADE = (eight_signatures_and_two_keys, nine_signatures_and_three_keys, nine_signatures_of_a_key_set,
        nine_signatures_below_three_ds_records, key_set_in_three_sections)


# ---- large rows

def hundred_signatures_and_301_keys():
    """A set with a hundred signatures, and 301 keys of one tag (CVE-2023-50387)."""
    return found(servers(keys_of_one_tag(MANY_KEYS), MANY_SIGNATURES), ["asks 9", "answer . NS bogus", "questions 16"])


def key_set_of_301_keys():
    """In a key set the one anchored key is tried with eight signatures."""
    return found(key_set(keys_of_one_tag(MANY_KEYS), MANY_SIGNATURES), ["asks 1", "answer . DNSKEY bogus", "questions 8"])


def asked(session, records, keys, count):
    """The questions of a session: each of the first eight signatures of a set with each of some keys of their tag."""
    signed = [Signed(records, KEY, b"\xd0" + number(at, 2)) for at in range(8)]
    lines = [line.replace(f" {KEY[4:].hex()} ", f" {key[4:].hex()} ", 1) for line in (one.accept() for one in signed) for key in keys]
    assert len(lines) == count
    return session, "".join(line + "\n" for line in ("dns-questions 1", *lines, "end")).encode(), 0, b"questions\n"


def asked_of_eight_signatures_and_two_keys():
    """Of nine signatures and three keys of one tag eight and two are asked about."""
    keys = keys_of_one_tag(3)
    return asked(servers(keys, 9), [Record(ROOT, NS, SERVER)], keys[:2], 16)


def asked_of_a_key_set_of_301_keys():
    """What a verifier could be asked: each of eight signatures with each key of its tag."""
    keys = keys_of_one_tag(MANY_KEYS)
    return asked(key_set(keys, MANY_SIGNATURES), [Record(ROOT, DNSKEY, key) for key in keys], keys, 2_408)


def key_set_of_301_keys_below_their_ds_records():
    """With a DS record for each of 301 keys of one tag, two of them are tried; a question more is that of the DS set."""
    session = below_ds_records(keys_of_one_tag(MANY_KEYS), MANY_SIGNATURES)
    return found(session, ["asks 3", "answer example. DNSKEY bogus", "questions 17"])


def most_questions():
    """The most that was found: 128 sets with eight signatures, each of which gets a key set of its own, in three sections."""
    session, answers = own_key_sets(128, 8)
    lines = [record.line("answer", texts.TTL, "indeterminate" if record.kind == RRSIG else "bogus") for part in answers for record in part]
    return session, texts.report(lines, []), 0


def unsigned_ds_sets(first, count):
    """DS sets below the root, each of one record without rdata, under names that count up in four letters."""
    def letters(at):
        return bytes(b"abcdefghijklmnopqrstuvwxyz"[at // 26 ** place % 26] for place in range(4))

    return [Record([letters(at)], DS, b"") for at in range(first, first + count)]


def flood_step(sets):
    """An ask for the root's keys, which gets such sets alone: each is judged, and kept as Bogus."""
    heard = [*texts.told("additional", sets), *(texts.judged("additional", one.owner, DS, "bogus", "-") for one in sets)]
    return texts.step(1, ROOT, DNSKEY, heard, "denied bogus")


def flooded(others):
    """Two addresses that the root signed, and between them eight signatures for each of some sets, whose asks for the root's keys get so many
    other sets to keep. The origin of the key set that is asked for at the end says whether a cache has it still."""
    floods = [unsigned_ds_sets(kept, min(SETS_OF_A_MESSAGE, others - kept)) for kept in range(0, others, SETS_OF_A_MESSAGE)]
    first, last = (Signed([Record([owner], A, b"\xc0\0\2\1")], KEY) for owner in (b"first", b"last"))
    between = [[Record([b"n%d" % at], A, b"\xc0\0\2\1")] for at in range((len(floods) + 7) // 8)]
    signed = [refused(records, KEY, min(8, len(floods) - 8 * at)) for at, records in enumerate(between)]
    answers = [*first.section(), *(record for records, sigs in zip(between, signed) for record in (*records, *sigs)), *last.section()]
    keys = [Record(ROOT, DNSKEY, KEY)]
    replies = [texts.reply([b"first"], A, texts.message([b"first"], A, answers)), texts.reply(ROOT, DNSKEY, texts.message(ROOT, DNSKEY, keys))]
    replies += [texts.reply(ROOT, DNSKEY, texts.message(ROOT, DNSKEY, [], flood)) for flood in floods]
    replies.append(texts.reply(ROOT, DNSKEY, texts.message(ROOT, DNSKEY, keys)))
    session = texts.session([texts.anchor(KEY)], [first.accept(), last.accept()], [b"first"], A, replies, version=2)
    lines, heard, asks = first.lines("answer", True), texts.told("answer", answers), 1
    heard.append(texts.judged("answer", [b"first"], A, "secure", "0", [0]))
    for records, sigs in zip(between, signed):
        lines.append(records[0].line("answer", texts.TTL, "bogus"))
        lines.extend(one.line("answer", texts.TTL, "indeterminate") for one in sigs)
        heard.append(texts.judged("answer", records[0].owner, A, "bogus", "-", range(asks, asks + len(sigs))))
        asks += len(sigs)
    lines += last.lines("answer", True)
    heard.append(texts.judged("answer", [b"last"], A, "secure", "0", [asks]))
    links = [texts.anchored(KEY), texts.key_set([KEY])]
    chains = [line for one in (first, last) for line in texts.chain([*links, one.link(1)])]
    trail = [texts.keys_step([KEY]), *map(flood_step, floods),
             texts.keys_step([KEY], "repeat-0" if others < CACHED else "table"), texts.step(0, [b"first"], A, heard, "none")]
    return session, texts.report(lines, chains, trail), 0, b"validate\ntrail\n"


def sets_that_fill_a_cache():
    """Beside the root's key set a cache has room for 65,535 others, so that it serves again."""
    return flooded(CACHED - 1)


def sets_that_flush_a_cache():
    """One more, and the key set that was kept is gone. It is judged anew, and has the mark that it had; so has what it signs."""
    return flooded(CACHED)


LARGE = (hundred_signatures_and_301_keys, asked_of_eight_signatures_and_two_keys, key_set_of_301_keys, asked_of_a_key_set_of_301_keys,
         key_set_of_301_keys_below_their_ds_records, most_questions, sets_that_fill_a_cache, sets_that_flush_a_cache)


if __name__ == "__main__":
    if sys.argv[1:] == ["--dearest"]:
        sys.setrecursionlimit(10_000)
        dearest, report, _ = most_questions()
        assert finds(dearest, ["asks 1024", "questions 24552"]) == report
        for make in (sets_that_fill_a_cache, sets_that_flush_a_cache):
            session, report, _, words = make()
            assert model.written(session, words.split()) == (report, 0)
    else:
        sys.exit(main(sys.modules[__name__], sys.argv[1:]))
