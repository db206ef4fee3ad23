#!/usr/bin/env python3
"""The rows of `explain`: other rows' sessions, and why each of their sets isn't Secure.

    python3 rows/explained.py [--check]

writes the files, or says which ones differ. The outputs come from `model.py`. Lines that have to stand in each, by the rules of docs/FORMATS.md,
stand below."""
import os
import sys

FOLDER = os.path.dirname(os.path.realpath(__file__))
sys.dont_write_bytecode = True
sys.path.insert(0, FOLDER)
import model  # noqa: E402


def text_of(name):
    with open(f"{FOLDER}/{name}", encoding="latin-1") as file:
        return file.read()


def changed(name, old, new):
    """The session of a row with another text in one place."""
    session = text_of(f"{name}.session")
    assert session.count(old) == 1
    return session.replace(old, new)


def same(name):
    return text_of(f"{name}.session")


# the session, the status, and lines of the output
ROWS = {
    "explained-stored-session": (same("stored-session"), 0, ["why 0 answer . DNSKEY none", "why 1 answer . NS none"]),
    "explained-second-after-the-last": (same("one-second-later"), 0, ["why 1 answer . NS rrsigs-unverified"]),
    "explained-ds-without-its-key": (same("ds-of-another-tag-and-algorithm"), 0, ["why 2 answer example. DNSKEY ds-records-but-no-dnskey"]),
    "explained-unsupported-algorithm": (same("ds-of-an-unknown-algorithm-alone"), 0, ["why 2 answer example. DNSKEY unknown-key-algorithm"]),
    "explained-delegation-without-ds": (same("unsigned-below-a-delegation-without-ds"), 0, ["ds-response-insecure"]),
    "explained-root-without-an-anchor": (same("key-of-no-octets-beside"), 0, ["dnskey-not-found"]),
    "explained-ds-set-without-a-signature": (same("unsigned-ds-set"), 0, ["rrsigs-not-present"]),
    "explained-search-up-to-the-root": (same("search-up-to-the-root"), 0, ["ds-record-should-exist"]),
    "explained-nsec3-that-covers-too-little": (same("hashed-name-error-without-the-wildcard"), 1, ["fault nsec bogus", "denial none"]),
    "explained-soft-limit": (same("hashed-once-more"), 1, ["fault nsec insecure", "why 0 answer example. DNSKEY none"]),
    "explained-hard-limit": (same("hashed-too-often"), 1, ["fault nsec bogus", "why 0 answer example. DNSKEY none"]),
    "explained-nested-busy": (changed("io-in-place-of-the-keys", "fault . DNSKEY io", "fault . DNSKEY busy"), 0, ["got fault", "why 1 answer . NS net"]),
    "explained-repeated-set": (same("second-signature-is-insecure"), 0, ["unknown-key-algorithm"]),
    "explained-foreign-class": (same("record-of-another-class"), 1, ["fault class . CH TXT"]),
    "explained-empty": (same("no-records-in-place-of-the-first-reply"), 1, ["fault nsec bogus"]),
    "explained-refused": (changed("no-records-in-place-of-the-first-reply", "empty . NS 000084000000000000000000", "reply . NS 0000840500010000000000000000020001"),
                          1, ["fault nsec bogus", "got 5"]),
    "explained-timeout": (same("no-reply"), 1, ["fault timeout"]),
    "explained-bad-line": (same("empty-label"), 3, []),
}


def output_of(name, session, status):
    """A bad line is that of the same session with `validate`."""
    if status == 3:
        return text_of("empty-label.out")
    wrote, ended = model.written(session.encode("latin-1"), [b"explain"])
    assert ended == status, f"{name} ends with {ended}"
    return wrote.decode("latin-1")


def files():
    """The text of each file by its name."""
    for name, (session, status, found) in ROWS.items():
        out = output_of(name, session, status)
        lines = out.split("\n")
        for part in found:
            assert any(line == part or line.endswith(f" {part}") for line in lines), f"{name} has no line {part}"
        yield f"{name}.session", session
        yield f"{name}.words", "explain\n"
        yield f"{name}.out", out
        if status:
            yield f"{name}.status", f"{status}\n"


def differs(name, text):
    path = f"{FOLDER}/{name}"
    return not os.path.isfile(path) or text_of(name) != text


def main(words):
    if words == ["--check"]:
        wrong = [name for name, text in files() if differs(name, text)]
        for name in wrong:
            print(f"rows/{name}: isn't as rows/explained.py makes it")
        return 1 if wrong else 0
    for name, text in files():
        with open(f"{FOLDER}/{name}", "w", encoding="latin-1") as file:
            file.write(text)
    return 0


if __name__ == "__main__":
    sys.exit(main(sys.argv[1:]))
