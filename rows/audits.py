#!/usr/bin/env python3
"""The rows of `audit` and `questions`: other rows' sessions with reports behind them, and sessions without their `accept` lines.

    python3 rows/audits.py [--check]

writes the files, or says which ones differ. What they must come to stands below, by the rules of docs/FORMATS.md."""
import os
import sys

FOLDER = os.path.dirname(os.path.realpath(__file__))
sys.dont_write_bytecode = True
sys.path.insert(0, FOLDER)
import chains  # noqa: E402

YES, TRAIL_YES = "chain 0 yes\n", "trail yes\n"


def text_of(name):
    with open(f"{FOLDER}/{name}", encoding="latin-1") as file:
        return file.read()


STORED, REPORT = text_of("stored-session.session"), text_of("stored-session.out")
WITH_TRAIL = text_of("trail-of-the-stored-session.out")
TWICE, TWO_CHAINS = text_of("one-owner-in-two-sections.session"), text_of("one-owner-in-two-sections.out")
HEAD = "dns-report 1\ncode 0\ndenial none\n"


def changed(text, old, new):
    """The text with what stands once, or last, in another form."""
    front, found, back = text.rpartition(old)
    assert found
    return front + new + back


def accepts(text):
    return [line + "\n" for line in text.split("\n") if line.startswith("accept ")]


def unaccepted(name):
    return "".join(line + "\n" for line in text_of(f"{name}.session").split("\n")[:-1] if not line.startswith("accept "))


def lines(text):
    return text.count("\n")


def listed(questions):
    return "dns-questions 1\n" + "".join(questions) + "end\n"


def told(words):
    """An answer for each chain, by its number."""
    return "".join(f"chain {number} {word}\n" for number, word in enumerate(words))


def ends_of(line, ends):
    """The line with other last words."""
    return [line.rpartition(" ")[0] + f" {end}\n" for end in ends]


def keyed(line, keys):
    """The line with other keys."""
    words = line.split(" ")
    return [" ".join([*words[:2], key, *words[3:]]) for key in keys]


SECOND_KEY, = accepts(text_of("second-of-three-keys-of-one-tag.session"))
NINTH, = accepts(text_of("ninth-of-nine-signatures.session"))
OWN_KEY, BY_DS = accepts(text_of("third-key-of-one-tag-signs-its-set.session"))
WALKED = accepts(text_of("walk-by-ds.session"))
DENIED = text_of("expansion-without-a-denial.session")
WRONG = [*chains.WRONG_NUMBERS, *chains.WRONG_PARTS, *chains.WRONG_RDATAS]
WHOLE = chains.report(chains.RIGHT[:1])
EMPTY_PARTS = HEAD + "chain answer 3\nanchored . IN 0101030daabb\nkeyset . IN\nsigned . IN NS 1 0101030daabb c0de\ntrail 0\nend\n"

# words, input, status and output
ROWS = {
    "audit-of-the-stored-session": ("audit", STORED + REPORT, 0, YES),
    "audit-one-second-later": ("audit", changed(STORED, "moment 1000", "moment 2001") + REPORT, 0, "chain 0 no\n"),
    "audit-with-its-trail": ("audit", STORED + WITH_TRAIL, 0, YES + TRAIL_YES),
    "audit-of-a-place-left-out": ("audit", STORED + changed(WITH_TRAIL, "table 0 0", "table - 0"), 0, YES + "trail no\n"),
    "audit-of-two-chains": ("audit", TWICE + changed(TWO_CHAINS, "c0de 016100", "c0de 016200"), 0, YES + "chain 1 no\n"),
    "audit-without-chain-or-trail": ("audit", STORED + HEAD + "end\n", 0, ""),
    "audit-of-empty-parts": ("audit", STORED + EMPTY_PARTS, 0, "chain 0 no\ntrail no\n"),
    "audit-of-right-chains": ("audit", chains.session() + chains.report(chains.RIGHT), 0, told(["yes"] * len(chains.RIGHT))),
    "audit-of-wrong-chains": ("audit", chains.session() + chains.report([*WRONG, *chains.RIGHT[:1]]), 0, told(["no"] * len(WRONG) + ["yes"])),
    "audit-with-anchors-below": ("audit", chains.session(anchors_below=True) + chains.report(chains.RIGHT_BELOW), 0, told(["yes", "yes"])),
    "audit-without-anchors-below": ("audit", chains.session() + chains.report(chains.RIGHT_BELOW), 0, told(["no", "no"])),
    "audit-before-the-first-second": ("audit", chains.session(899) + WHOLE, 0, "chain 0 no\n"),
    "audit-at-the-first-second": ("audit", chains.session(900) + WHOLE, 0, YES),
    "audit-at-the-last-second": ("audit", chains.session(2000) + WHOLE, 0, YES),
    "audit-behind-the-last-second": ("audit", chains.session(2001) + WHOLE, 0, "chain 0 no\n"),
    "audit-with-a-line-behind-it": ("audit", STORED + REPORT + "\n", 3, f"bad line {lines(STORED + REPORT) + 1}\n"),
    "audit-of-a-bad-line": ("audit", STORED + changed(REPORT, "code 0", "code 00"), 3, f"bad line {lines(STORED) + 2}\n"),
    "audit-of-a-bad-session": ("audit", changed(STORED, "query . NS", "query . ns") + REPORT, 3, "bad line 6\n"),
    "audit-without-a-report": ("audit", STORED, 3, f"bad line {lines(STORED) + 1}\n"),
    "asked-of-the-stored-session": ("questions", STORED, 0, listed(accepts(STORED))),
    "asked-before-any-is-accepted": ("questions", unaccepted("stored-session"), 0, listed(accepts(STORED))),
    "asked-once": ("questions", unaccepted("one-owner-in-two-sections"), 0, listed(accepts(TWICE))),
    "asked-of-two-keys-of-one-tag": ("questions", unaccepted("third-of-three-keys-of-one-tag"), 0, listed(keyed(SECOND_KEY, ["aabb", "a9bb01"]))),
    "asked-of-a-key-set": ("questions", unaccepted("third-key-of-one-tag-signs-its-set"), 0, listed([BY_DS, *keyed(OWN_KEY, ["e1e2", "e0e201", "dfe202"])])),
    "asked-along-a-walk": ("questions", unaccepted("walk-by-ds"), 0, listed(reversed(WALKED))),
    "asked-of-eight-signatures": ("questions", unaccepted("ninth-of-nine-signatures"), 0, listed(ends_of(NINTH, [f"c00{n}" for n in range(1, 9)]))),
    "asked-of-a-denial": ("questions", unaccepted("expansion-without-a-denial"), 0, listed(accepts(DENIED))),
    "asked-where-nothing-comes": ("questions", "".join(line + "\n" for line in STORED.split("\n")[:-1] if not line.startswith("reply ")), 1, "fault timeout\n"),
    "asked-of-no-session": ("questions", STORED + REPORT, 3, f"bad line {lines(STORED) + 1}\n"),
}


def files():
    """The text of each file by its name."""
    for name, (words, session, status, out) in ROWS.items():
        yield f"{name}.session", session
        yield f"{name}.words", words.replace(" ", "\n") + "\n"
        if out:
            yield f"{name}.out", out
        if status:
            yield f"{name}.status", f"{status}\n"


def differs(name, text):
    path = f"{FOLDER}/{name}"
    return not os.path.isfile(path) or text_of(name) != text


def main(words):
    if words == ["--check"]:
        wrong = [name for name, text in files() if differs(name, text)]
        for name in wrong:
            print(f"rows/{name}: isn't as rows/audits.py makes it")
        return 1 if wrong else 0
    for name, text in files():
        with open(f"{FOLDER}/{name}", "w", encoding="latin-1") as file:
            file.write(text)
    return 0


if __name__ == "__main__":
    sys.exit(main(sys.argv[1:]))
