"""The messages that the benchmarks of decoding read: plain compressed ones, and four hostile kinds."""
import random

import sessions
from sessions import MOST_MESSAGE, NS, RRSIG

A, RP, TXT, AAAA, OPT = 1, 17, 16, 28, 41
LONG_NAME_RECORDS = 5_000
POINTERS = 8_000
POINTING_RECORDS = 4_000

draw = random.Random(2)


def pointer(offset):
    assert offset < 0x4000
    return (0xC000 | offset).to_bytes(2, "big")


ASKED = pointer(12)


def plain(number):
    """A signed A set with its NS set and addresses, as a name server compresses it."""
    owner = sessions.name(b"host-%04d" % number, b"zone", b"example")
    zone = pointer(12 + 10)
    asked = sessions.question(owner, A)
    signature = bytes.fromhex("00010d0300000e10000007d0000003841234")
    answers = [sessions.record(ASKED, A, draw.randbytes(4)) for _ in range(4)]
    answers.append(sessions.record(ASKED, RRSIG, signature + sessions.name(b"zone", b"example") + draw.randbytes(64)))
    first = 12 + len(asked) + sum(map(len, answers)) + 12
    second = first + 2 + 4 + 12
    servers = [sessions.record(zone, NS, b"\3ns%d" % k + zone) for k in (1, 2)]
    addresses = [sessions.record(pointer(at), kind, draw.randbytes(size))
                 for at in (first, second) for kind, size in ((A, 4), (AAAA, 16))]
    payload = b"\0" + OPT.to_bytes(2, "big") + bytes.fromhex("04d0000080000000")
    return sessions.message(asked, answers, servers, addresses + [payload])


def filled(asked, answers, last):
    """The answers given, and then the last one as often as a message has room for it."""
    room = MOST_MESSAGE - 12 - len(asked) - sum(map(len, answers))
    return sessions.message(asked, answers + [last] * (room // len(last)))


def chained(_):
    """Names that are chains of pointers, each over one label of one byte, up to 255 bytes."""
    asked = sessions.question(b"\1a\0", RP)
    answers = []
    end = 12
    at = 12 + len(asked)
    for _ in range((255 - 3) // 2):
        answers.append(sessions.record(b"\1a" + pointer(end), RP, b""))
        end = at
        at += len(answers[-1])
    return filled(asked, answers, sessions.record(pointer(end), RP, pointer(end) * 2))


def long_named(_):
    """One name of 255 bytes, in four labels, that 5,000 records point to."""
    owner = sessions.name(b"a" * 63, b"b" * 63, b"c" * 63, b"d" * 61)
    asked = sessions.question(owner, A)
    return sessions.message(asked, [sessions.record(ASKED, A, b"")] * LONG_NAME_RECORDS)


def bare_pointers(_):
    """A row of 8,000 pointers, each to the one before, in an opaque rdata; 4,000 records point to the last."""
    asked = sessions.question(b"\0", TXT)
    start = 12 + len(asked) + len(sessions.record(ASKED, TXT, b""))
    row = ASKED + b"".join(pointer(start + 2 * k) for k in range(POINTERS - 1))
    last = pointer(start + 2 * (POINTERS - 1))
    return sessions.message(asked, [sessions.record(ASKED, TXT, row)]
                            + [sessions.record(last, A, b"")] * POINTING_RECORDS)


def smallest(_):
    """65,535 bytes of the smallest records: the root, without rdata."""
    asked = sessions.question(b"\0", TXT)
    return filled(asked, [], sessions.record(b"\0", TXT, b""))
