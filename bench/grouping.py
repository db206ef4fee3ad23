#!/usr/bin/env python3
"""Microseconds to group the records of a message by owner and type: by the sorted map that stands, and by `indexmap`.

    python3 bench/grouping.py PROGRAM

PROGRAM is none of the repository's: it was written for this question alone, outside it, and proved. It reads a byte for the map
(`t` a `BTreeMap` of places beside a list, `f` an `IndexMap` with the kit's hasher, `s` one with a `RandomState`), a byte for
passes, of which it makes eight times as many, and then records: a byte for the length of the owner, the owner's wire form and
two bytes of type. A key is the folded owner with the type behind it, 257 bytes at the most, as the repository's; it is hashed by
one write. The best of nine runs of some passes is taken off the best of nine of more."""
import subprocess
import sys
import time

# the kit's `FoldHasher`: its first state, and the number that it multiplies by
STATE, MULTIPLIER, MASK = 0x243F6A8885A308D3, 0x9E3779B97F4A7C15, 2**64 - 1
KEY_BYTES, MOST_MESSAGE, RUNS = 52, 65_535, 9
# passes that are compared, an eighth of them
PASSES = {"usual": (255, 0), "apart": (30, 2), "together": (5, 1)}
A, NS, AAAA = b"\0\1", b"\0\2", b"\0\x1c"
# what the state is when a key of this length begins: eight bytes of a name that are this make the first product 0, whatever
# the next eight are
FRONT = ((STATE + KEY_BYTES) & MASK).to_bytes(8, "little")


def hashed(key):
    """What `FoldHasher` makes of a key of more than 16 bytes."""
    def folded(one, other):
        return (one * other & MASK) ^ (one * other >> 64)

    def number(at):
        return int.from_bytes(key[at:at + 8], "little")

    state, at = (STATE + len(key)) & MASK, 0
    while len(key) - at > 16:
        state, at = folded(number(at) ^ state, number(at + 8) ^ MULTIPLIER), at + 16
    return folded(number(len(key) - 16) ^ state, number(len(key) - 8) ^ MULTIPLIER)


def ending(size):
    """A label that fills a name of this many bytes, and the root."""
    return bytes([size - 2]) + b"x" * (size - 2) + b"\0"


def together(number):
    return FRONT + b"\7%07x" % number + ending(KEY_BYTES - 2 - 16)


def apart(number):
    return b"\7%07x" % number + together(0)[8:]


def usual():
    """Two addresses, two servers of the zone, and the addresses of four servers."""
    zone = b"\7example\0"
    servers = [b"\2n%d" % number + zone for number in range(4)]
    return [(b"\3www" + zone, A)] * 2 + [(zone, NS)] * 2 + [(server, kind) for kind in (A, AAAA) for server in servers]


def inputs():
    """The records of each message. The large ones have as many sets as fit, of names whose last label is shared by a pointer."""
    count = (MOST_MESSAGE - 12 - KEY_BYTES - 4) // (16 + 2 + 10)
    names = {"apart": apart, "together": together}
    made = {name: [(of(number), A) for number in range(count)] for name, of in names.items()}
    assert FRONT[0] == 7 and FRONT == FRONT.lower()
    assert len({hashed(owner + kind) for owner, kind in made["together"]}) == 1
    assert len({hashed(owner + kind) for owner, kind in made["apart"]}) == count
    return {"usual": usual(), **made}


def seconds(program, kind, passes, records):
    text = kind + bytes([passes]) + b"".join(bytes([len(owner)]) + owner + of for owner, of in records)
    start = time.perf_counter()
    subprocess.run([program], input=text, capture_output=True, check=True)
    return time.perf_counter() - start


def main(program):
    kinds = {b"t": "sorted map", b"f": "indexmap, the kit's hasher", b"s": "indexmap, seeded"}
    for name, records in inputs().items():
        best = {}
        for _ in range(RUNS):
            for kind in kinds:
                for passes in PASSES[name]:
                    took = seconds(program, kind, passes, records)
                    best[kind, passes] = min(best.get((kind, passes), took), took)
        more, fewer = PASSES[name]
        for kind, what in kinds.items():
            each = (best[kind, more] - best[kind, fewer]) / (8 * (more - fewer))
            print(f"{name:10}{len(records):6} records  {what:28}{each * 1e6:12.1f} us")


if __name__ == "__main__":
    if len(sys.argv) != 2:
        sys.exit(__doc__)
    main(sys.argv[1])
