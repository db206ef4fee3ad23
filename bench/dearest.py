#!/usr/bin/env python3
"""Processor seconds of the program over sessions whose lookups make as many sends as may be made, most of them with replies of 60,000 bytes or
more.

    python3 bench/dearest.py [PROGRAM]        runs each kind three times, by turns
    python3 bench/dearest.py --write FOLDER   writes each kind as FOLDER/KIND.session, and runs none
    python3 bench/dearest.py --count          counts the sends of each kind by rows/model.py, which takes minutes

PROGRAM is the built dns_check. The status is 1 where `questions` or `salted` takes more than 1.5 times as long as `owners`, or `denied` longer.
"""
import os
import subprocess
import sys
import tempfile

import sessions
from sessions import DNSKEY, END, HEAD, MOST_INPUT, MOST_MESSAGE, NS, PROGRAM, RRSIG, TOP

sys.path.insert(0, os.path.join(TOP, "rows"))
import attacks  # noqa: E402
import model  # noqa: E402
import reading  # noqa: E402
from hashes import hash_of, in_digits  # noqa: E402

A, DS, NSEC, NSEC3, OPAQUE, RUNS = 1, 43, 47, 50, 65_280, 3
ADDRESS = bytes.fromhex("c0000201")
ROOT = sessions.name()
KEY = bytes.fromhex("0101030daabb")
# what the kinds that were made as attacks may take, beside the dearest one
MOST_TIMES = {"questions": 1.5, "salted": 1.5, "denied": 1}
# a name of 127 labels, and one of 239 bytes, so that there is room for a label below it
DEEP, LONG = [b"a"] * 127, sessions.name(b"a" * 63, b"b" * 63, b"c" * 63, b"d" * 45)


def filled(asked, answers, last):
    """A message that goes on to its end with records below a long name: the first has it, and the others point to it."""
    at = 12 + len(asked) + sum(map(len, answers))
    assert at < 0x4000
    pointer = (0xC000 | at).to_bytes(2, "big")
    further, room = [sessions.record(LONG, A, b"")], MOST_MESSAGE - at - len(LONG) - 10
    while room >= len(last(len(further), pointer)):
        further.append(last(len(further), pointer))
        room -= len(further[-1])
    return sessions.message(asked, answers, additionals=further)


def reply(labels, kind, octets):
    words = b"".join(label + b"." for label in labels) or b"."
    return f"reply {words.decode()} {reading.type_word(kind)} {octets.hex()}\n"


def searches():
    """Nine sets of a name of 127 labels, none of them signed. Each search asks for the NS records of the name and of all above it,
    and each of these replies has 5,000 NS records of another name, a long one."""
    owner = sessions.name(*DEEP)
    sets = [sessions.record(owner, kind, ADDRESS) for kind in (A, *range(OPAQUE, OPAQUE + 8))]
    lines = [reply(DEEP, A, sessions.message(sessions.question(owner, A), sets))]
    for cut in range(len(DEEP)):
        asked = sessions.question(sessions.name(*DEEP[cut:]), NS)
        octets = filled(asked, [], lambda _, pointer: sessions.record(pointer, NS, b""))
        lines.append(reply(DEEP[cut:], NS, octets))
    return "".join((HEAD, f"query {'a.' * len(DEEP)} A\n", *lines, END)).encode()


def signature(covered, labels, place):
    """By the root's key."""
    front = covered.to_bytes(2, "big") + bytes([13, labels]) + bytes.fromhex("00000e10000007d000000384aec9")
    return front + ROOT + bytes([0xD0, place])


def asking_for_keys(keys, accepts=()):
    """128 sets with eight signatures that aren't accepted, each of which asks for the root's keys, and gets this message."""
    sets = []
    for number in range(128):
        owner = sessions.name(b"n%d" % number)
        sets.append(sessions.record(owner, A, ADDRESS))
        sets.extend(sessions.record(owner, RRSIG, signature(A, 1, place)) for place in range(8))
    top = sessions.message(sessions.question(sessions.name(b"n0"), A), sets)
    return "".join((HEAD, *accepts, "query n0 A\n", reply([b"n0"], A, top), reply([], DNSKEY, keys), END)).encode()


def owners():
    """The message has the key, which is anchored, and 4,000 sets of different owners under a long name."""
    def last(number, pointer):
        return sessions.record(b"\3" + b"%03x" % number + pointer, A, b"")

    asked = sessions.question(ROOT, DNSKEY)
    return asking_for_keys(filled(asked, [sessions.record(ROOT, DNSKEY, KEY)], last))


def signatures():
    """The message has 3,600 keys, one of which is anchored and signs them: of eight signatures by it the last is good."""
    rdatas = [KEY, *(KEY[:4] + number.to_bytes(2, "big") for number in range(3_600))]
    keys = [sessions.record(ROOT, DNSKEY, rdata) for rdata in rdatas]
    signed = [signature(DNSKEY, 0, place) for place in range(8)]
    front = signed[-1].removesuffix(bytes([0xD0, 7])).hex()
    rising = b"".join(sessions.record(ROOT, DNSKEY, rdata) for rdata in sorted(rdatas))
    octets = sessions.message(sessions.question(ROOT, DNSKEY), [*keys, *(sessions.record(ROOT, RRSIG, one) for one in signed)])
    return asking_for_keys(octets, [f"accept 13 {KEY[4:].hex()} {front}{rising.hex()} d007\n"])


def hashed():
    """511 sets of a name of 127 labels, none of them signed. Each asks for the name's NS records, which are there, and then for its DS
    set; that answer has 1,200 NSEC3 records of one owner, a hundred iterations and a salt of 12 bytes, of the root alone and with
    opt-out. The denial is judged by hashes of 129 names, and then the delegation."""
    return denied_by(b"s" * 12, 1_200)


def salted():
    """The same with 220 records under a salt of 255 bytes, so that each round of a hash takes five blocks in place of one."""
    return denied_by(b"s" * 255, 220)


def denied_by(salt, count):
    """Unsigned sets whose DS answers have so many NSEC3 records under a salt."""
    types = bytes.fromhex("000122")
    digest = hash_of((), salt, 100)
    owner = sessions.name(in_digits(digest))
    nexts = [(int.from_bytes(digest, "big") - number).to_bytes(20, "big") for number in range(1, count + 1)]
    rdatas = sorted(bytes([1, 1]) + (100).to_bytes(2, "big") + bytes([len(salt)]) + salt + b"\x14" + one + types for one in nexts)
    signed = signature(NSEC3, 1, 0)
    asked = sessions.question(sessions.name(*DEEP), DS)
    pointer = (0xC000 | 12 + len(asked)).to_bytes(2, "big")
    denials = [sessions.record(owner if number == 0 else pointer, NSEC3, rdata) for number, rdata in enumerate(rdatas)]
    denial = sessions.message(asked, [], [*denials, sessions.record(pointer, RRSIG, signed)])
    front = signed.removesuffix(bytes([0xD0, 0])).hex()
    accept = f"accept 13 {KEY[4:].hex()} {front}{b''.join(sessions.record(owner, NSEC3, rdata) for rdata in rdatas).hex()} d000\n"
    return searching(accept, denial)


def searching(accept, denial):
    """511 unsigned sets of a name of 127 labels, whose zone is searched: each asks for the name's NS records, and then for its DS set. The root's keys
    are asked for once."""
    pointed = (0xC000 | 12).to_bytes(2, "big")
    sets = [sessions.record(pointed, kind, ADDRESS) for kind in (A, *range(OPAQUE, OPAQUE + 254), *range(1_000, 1_256))]
    own = sessions.question(sessions.name(*DEEP), NS)
    keys = sessions.message(sessions.question(ROOT, DNSKEY), [sessions.record(ROOT, DNSKEY, KEY)])
    lines = (reply(DEEP, A, sessions.message(sessions.question(sessions.name(*DEEP), A), sets)),
             reply(DEEP, NS, sessions.message(own, [sessions.record(pointed, NS, ROOT)])), reply(DEEP, DS, denial), reply([], DNSKEY, keys))
    return "".join((HEAD, accept, f"query {'a.' * len(DEEP)} A\n", *lines, END)).encode()


def denied():
    """The same, but the answer to the DS asks has a Secure set of 3,800 NSEC records of the name, whose next names have 67 labels and more, each a
    pointer into the question's name. An index of them sorts 7,600 names; their list gives the verdict by its first record."""
    owner, pointer = sessions.name(*DEEP), (0xC000 | 12).to_bytes(2, "big")
    # NS without SOA
    kinds = [types for types in range(256) if types & 0x22 == 0x20]
    rdatas = [(place, bytes([0, 1, types])) for place in range(60) for types in kinds][:3_800]
    asked = sessions.question(owner, DS)
    pointing = [sessions.record(pointer, NSEC, (0xC000 | 12 + 2 * place).to_bytes(2, "big") + types) for place, types in rdatas]
    signed = signature(NSEC, len(DEEP), 0)
    denial = sessions.message(asked, [], [*pointing, sessions.record(pointer, RRSIG, signed)])
    front = signed.removesuffix(bytes([0xD0, 0])).hex()
    rising = sorted(sessions.name(*DEEP[place:]) + types for place, types in rdatas)
    accept = f"accept 13 {KEY[4:].hex()} {front}{b''.join(sessions.record(owner, NSEC, rdata) for rdata in rising).hex()} d000\n"
    return searching(accept, denial)


def questions():
    """The most questions to a verifier that were found: 1,023 replies with a key set in each section, each with eight signatures."""
    return attacks.most_questions()[0]


KINDS = (searches, owners, signatures, hashed, salted, denied, questions)


def seconds(path, text):
    """The processor seconds of a run, the system's part with them. It must end with a report, or where memory runs out."""
    with tempfile.TemporaryFile() as given:
        given.write(text)
        given.seek(0)
        with subprocess.Popen([path, "validate"], stdin=given, stdout=subprocess.DEVNULL) as child:
            _, status, usage = os.wait4(child.pid, 0)
            child.returncode = os.waitstatus_to_exitcode(status)
    if child.returncode not in (0, 6):
        sys.exit(f"status {child.returncode}")
    return usage.ru_utime + usage.ru_stime, child.returncode


def measured(path, texts):
    """Prints the best of some runs of each kind, by turns, and says whether one takes too long."""
    best, ends = dict.fromkeys(texts, float("inf")), {}
    for _ in range(RUNS):
        for name, text in texts.items():
            taken, ends[name] = seconds(path, text)
            best[name] = min(best[name], taken)
    for name, text in texts.items():
        told = "" if ends[name] == 0 else ", and ends where memory runs out"
        print(f"{name:12} {len(text):10,} bytes {best[name]:8.2f} s {best[name] / best['owners']:6.2f} times owners{told}")
    return any(best[name] > most * best["owners"] for name, most in MOST_TIMES.items())


def main(words):
    texts = {kind.__name__: kind() for kind in KINDS}
    assert max(map(len, texts.values())) <= MOST_INPUT
    if words[:1] == ["--write"] and len(words) == 2:
        for name, text in texts.items():
            with open(os.path.join(words[1], f"{name}.session"), "wb") as file:
                file.write(text)
    elif words == ["--count"]:
        for name, text in texts.items():
            lookup = model.Lookup(reading.session_in(text))
            told = sum(len(section) for step in lookup.steps if step.message for section in step.message.sections)
            print(f"{name:12} {lookup.sends} sends, {told:,} records", flush=True)
    elif len(words) <= 1 and not words[:1] == ["--help"]:
        path = words[0] if words else PROGRAM
        if not os.access(path, os.X_OK):
            sys.exit(f"no program at {path}: `rt run` in crates/dns_check builds it")
        return measured(os.path.abspath(path), texts)
    else:
        sys.exit(__doc__)
    return 0


if __name__ == "__main__":
    sys.exit(main(sys.argv[1:]))
