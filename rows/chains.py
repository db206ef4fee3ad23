"""Chains for the rows of `audit`: those of two sessions, and these with other numbers, parts or rdatas."""
import os

FOLDER = os.path.dirname(os.path.realpath(__file__))
# the root's anchored key and its second key; the anchored key with flags by which it is no zone's key
ROOT, SECOND, HOST_KEY = "0101030daabb", "0100030dccdd", "0000030daabb"
# keys of `example.`: a DS matches the first, and the others are anchored
MATCHED, ANCHORED, LAST = "0101030de1", "0101030de2", "0101030de3"
DS = "e50e0d026691c87f523df73948a4cc0b62ebd65a708505e054a2fbf3143cec487ad142d8"
OTHER_DS = "e60e0d0237b9c7649c37a9f71b21968682a18baee6e4edf7b4efd2ffdda1230cdd222bdb"


def signature(type_and_labels, tag, signer):
    """A signature of original ttl 3600, from second 900 to second 2000."""
    return f"{type_and_labels[:4]}0d{type_and_labels[4:]}00000e10000007d000000384{tag}{signer}c0de"


OVER_ROOT, OVER_TWO_DS = signature("003000", "aec9", "00"), signature("002b01", "aec9", "00")
OVER_DS, OVER_DS_BY_HOST_KEY = signature("002b01", "d0ea", "00"), signature("002b01", "adc8", "00")
OVER_KEYS, OVER_HOST = (signature(front, "e50e", "076578616d706c6500") for front in ("003001", "000102"))

LINES = {"anchored": "anchored {owner} {class_word} {key}",
         "matched": "matched {owner} {class_word} {key} {number} {by}",
         "keyset": "keyset {owner} {class_word} {keys}",
         "signed": "signed {owner} {class_word} {type_word} {number} {key} {by} {rdatas}"}
ROOT_LINK, LINK = {"owner": ".", "class_word": "IN"}, {"owner": "example.", "class_word": "IN"}
# The chain of `walk-by-ds` is ARDMKH. W, T, S, L and E are what `keys-anchored-or-matched` has in place of some: key sets whose keys
# are anchored or matched, and a DS set that the anchored key signed.
LINKS = {
    "A": {**ROOT_LINK, "kind": "anchored", "key": ROOT},
    "R": {**ROOT_LINK, "kind": "signed", "type_word": "DNSKEY", "number": 0, "key": ROOT, "by": OVER_ROOT, "rdatas": f"{ROOT} {SECOND}"},
    "D": {**LINK, "kind": "signed", "type_word": "DS", "number": 1, "key": SECOND, "by": OVER_DS, "rdatas": DS},
    "M": {**LINK, "kind": "matched", "key": MATCHED, "number": 2, "by": DS},
    "K": {**LINK, "kind": "signed", "type_word": "DNSKEY", "number": 3, "key": MATCHED, "by": OVER_KEYS, "rdatas": MATCHED},
    "H": {**LINK, "kind": "signed", "owner": "wWw.Example.", "type_word": "A", "number": 4, "key": MATCHED, "by": OVER_HOST, "rdatas": "c0000201"},
    "W": {**ROOT_LINK, "kind": "keyset", "keys": f"0 {ROOT}"},
    "T": {**LINK, "kind": "signed", "type_word": "DS", "number": 1, "key": ROOT, "by": OVER_TWO_DS, "rdatas": f"{DS} {OTHER_DS}"},
    "S": {**LINK, "kind": "anchored", "key": ANCHORED},
    "L": {**LINK, "kind": "anchored", "key": LAST},
    "E": {**LINK, "kind": "keyset", "keys": f"3 {MATCHED} 4 {ANCHORED} 5 {LAST}"},
}


def link(letter, **other):
    """A link, as it is but for other parts; what is empty leaves no word."""
    row = {**LINKS[letter], **other}
    return LINES[row["kind"]].format(**row).rstrip()


def chain(*parts):
    """The lines of a chain: a part is one link's line, or a letter for each link."""
    return [line for part in parts for line in ([part] if " " in part else map(link, part))]


RIGHT = [
    *(chain("ARDMKH"[:length]) for length in range(6, 0, -1)),
    # links that none names
    chain("ARDMKHAH"),
    # the order of rdatas, and the case of letters
    chain("A", link("R", rdatas=f"{SECOND} {ROOT}"), "D", link("M", owner="EXAMPLE."), "K"),
    # an anchor's flags don't count
    chain(link("A", key=HOST_KEY), link("W", keys=f"0 {HOST_KEY}")),
    # an rdata twice
    chain("A", link("R", rdatas=f"{ROOT} {SECOND} {ROOT}")),
]
# Right where the second and the third key of `example.` are anchors: a key set that is shown shows its keys.
RIGHT_BELOW = [chain("AWTMSLE"), chain("AWTMSLE", link("H", number=6))]

WRONG_NUMBERS = [
    chain(),
    # one too small, its own, a later link's and none's
    chain("AR", link("D", number=0)), chain("ARD", link("M", number=1)), chain("ARDM", link("K", number=2)), chain("ARDMK", link("H", number=3)),
    chain("A", link("R", number=1)), chain("AR", link("D", number=2)), chain("ARD", link("M", number=3)), chain("ARDM", link("K", number=4)),
    chain(link("R", number=1), "A"), chain("A", link("D", number=2), "R"), chain("AR", link("M", number=3), "D"),
    chain("A", link("R", number=2)), chain("A", link("R", number=4294967295)),
    # the first dropped, with the numbers that were there and with theirs; links alone
    chain("RDMKH"), chain("R", link("D", number=0)), chain("D"), chain("M"), chain("K"), chain("H"),
    # two swapped
    chain("RADMKH"), chain("ADRMKH"), chain("ARDKMH"),
]
WRONG_PARTS = [
    chain(link("A", owner="org.")), chain("A", link("R", owner="org.")), chain("AR", link("D", owner="org.")),
    chain("ARD", link("M", owner="org.")), chain("ARDMK", link("H", owner="a.example.")),
    chain(link("A", class_word="CH"), "R"), chain("ARD", link("M", class_word="CH")), chain("ARDMK", link("H", class_word="CH")),
    chain(link("A", key=SECOND)), chain(link("A", key="010103")), chain("AR", link("D", key=ROOT)), chain("ARD", link("M", key=ANCHORED)),
    chain("ARDM", link("K", key=ANCHORED)), chain("ARD", link("M", by=OTHER_DS)), chain("ARD", link("M", by="-")),
    chain("ARDM", link("K", by=OVER_HOST)), chain("ARDMK", link("H", by="-")), chain("ARDMK", link("H", type_word="RRSIG")),
    chain("ARDMK", link("H", type_word="AAAA")),
]
WRONG_RDATAS = [
    chain("A", link("R", rdatas=ROOT)), chain("A", link("R", rdatas=SECOND)), chain("A", link("R", rdatas="")),
    chain("A", link("R", rdatas=f"{ROOT} {SECOND} {HOST_KEY}")), chain("ARDMK", link("H", rdatas="")), chain("A", link("W", keys="")),
    # a key that its link doesn't show, its own number, one that isn't there yet, and another owner
    chain("A", link("W", keys=f"0 {SECOND}")), chain("A", link("W", keys=f"1 {ROOT}")), chain(link("W", keys=f"1 {ROOT}"), "A"),
    chain("A", link("W", owner="org.")),
    # the keys of a key set aren't trusted for another one, nor a DS for a key
    chain("AW", link("W", keys=f"1 {ROOT}")), chain("AR", link("R", number=1)),
    # a key that is no zone's signed the DS
    chain(link("A", key=HOST_KEY), link("W", keys=f"0 {HOST_KEY}"), link("D", by=OVER_DS_BY_HOST_KEY, key=HOST_KEY)),
]


def report(chains):
    """A report with these chains and no record."""
    lines = [line for links in chains for line in (f"chain answer {len(links)}", *links)]
    return "".join(line + "\n" for line in ("dns-report 1", "code 0", "denial none", *lines, "end"))


def session(moment=1000, anchors_below=False):
    """The session `walk-by-ds`, whose verifier accepts each signature of these chains, also that of the key that is no zone's."""
    with open(f"{FOLDER}/walk-by-ds.session", encoding="ascii") as file:
        lines = file.read().split("\n")[:-1]
    ds_bytes = f"{{}}076578616d706c6500002b000100000e100024{DS}"
    two_ds = ds_bytes.format(OVER_TWO_DS[:-4]) + f"076578616d706c6500002b000100000e100024{OTHER_DS}"
    accepts = [f"accept 13 aabb {two_ds} c0de", f"accept 13 aabb {ds_bytes.format(OVER_DS_BY_HOST_KEY[:-4])} c0de"]
    place = next(place for place, line in enumerate(lines) if line.startswith("accept "))
    below = ["anchor example. 13 e2", "anchor example. 13 e3"] if anchors_below else []
    lines[place:place] = [*below, *accepts]
    return "".join(line + "\n" for line in lines).replace("moment 1000\n", f"moment {moment}\n")
