#!/usr/bin/env python3
"""The rows of the walk by DS to an anchor.

What has to be written is what `model.py` has for the session, and each row says besides what has to be found in it.

    python3 rows/walk.py            writes the rows' files beside it
    python3 rows/walk.py --check    says whether the files are those"""
import sys

import texts
from scene import PLAIN, ROOT, SHA_1, SHA_256, SHA_384, TRAIL, Opt, Scene, ds_of, finds, main
from texts import A, DNSKEY, DS, KEY, NS, NSEC, Record, Signed, key_of, key_tag, number

EXAMPLE, OTHER, WWW = [b"example"], [b"other"], [b"www", b"example"]
ADDRESS = bytes.fromhex("c0000201")
# a digest type that isn't supported, and a number that is none of an algorithm or a digest type
GOST, UNLISTED = 3, 250
# keys of `example.` and of zones below each other, and the key of `other.`
KEYS = [key_of(bytes.fromhex(octets)) for octets in ("e1", "e2", "e3")]
OTHERS = key_of(bytes.fromhex("0f"))
# what rows say: how the key set and the DS set of `example.` are judged, by the steps 0 and 1; how chains begin
DS_IS_SECURE = "set answer example. DS secure table 0 0"
IS_SECURE = "set answer example. DNSKEY secure table 0 1"
IS_WHOLLY_SECURE = "set answer example. DNSKEY secure table - 1"
TO_THE_ROOT = "links anchored ., keyset . 0"
TO_THE_DS = f"{TO_THE_ROOT}, signed example. DS 1"


def bogus_by(ask):
    return f"set answer example. DNSKEY bogus table - {ask}"


def of_nothing(key, k):
    """A DS with the algorithm and tag of a key, and a digest of no key."""
    return ds_of(EXAMPLE, key, digest=bytes([k]) * 32)


# ---- the realistic walk

def two_zones():
    """The root's first key is anchored and signs its key set; the second signs the DS set."""
    second = bytes.fromhex("0100030dccdd")
    scene = Scene(is_packed=True)
    scene.further = [Opt()]
    owner = [b"wWw", b"Example"]
    scene.says([b"WWW", b"example"], A, scene.signed([Record(owner, A, ADDRESS)], KEYS[0], EXAMPLE))
    scene.has_keys(EXAMPLE, KEYS[:1], KEYS[0])
    scene.delegates(EXAMPLE, [ds_of(EXAMPLE, KEYS[0])], second)
    scene.has_keys(ROOT, [KEY, second], KEY)
    says = ["answer wWw.Example. A secure", "asks 4", "chains 1",
            "links anchored ., signed . DNSKEY 0, signed example. DS 1, matched example. 2, signed example. DNSKEY 3,"
            " signed wWw.Example. A 4"]
    return scene.session([b"WWW", b"example"], A), says


def walk_by_ds():
    """from an anchored key by way of a DS to the keys of a zone below, and to what they sign; names are packed"""
    session, says = two_zones()
    return session, says, PLAIN


def trail_of_a_walk_by_ds():
    """its trail: a key set's ask is that for its DS"""
    session, says = two_zones()
    steps = ["step 3 judged . DNSKEY", "step 2 judged example. DS", "step 1 judged example. DNSKEY", "step 0 judged WWW.example. A"]
    return session, [*says, *steps, DS_IS_SECURE, IS_SECURE], TRAIL


# ---- which key sets ask, and by what they are Secure

def key_set(keys, rdatas, signing=None, **how):
    """A query for the keys of `example.`, whose DS set the root signs."""
    scene = Scene()
    scene.has_keys(EXAMPLE, keys, signing)
    scene.delegates(EXAMPLE, rdatas, **how)
    scene.root()
    return scene.session(EXAMPLE, DNSKEY)


def keys_matched_by_each_digest():
    """an unsigned key set, each of whose keys a DS matches: by SHA-1, SHA-256 and SHA-384, not in the order of the keys"""
    rdatas = [ds_of(EXAMPLE, KEYS[2], SHA_384), ds_of(EXAMPLE, KEYS[0], SHA_1), ds_of(EXAMPLE, KEYS[1], SHA_256)]
    links = "matched example. 2, matched example. 2, matched example. 2, keyset example. 3 4 5"
    return key_set(KEYS, rdatas), [IS_WHOLLY_SECURE, f"{TO_THE_DS}, {links}"], PLAIN


def keys_anchored_or_matched():
    """an unsigned key set with a key that a DS matches, one that is anchored too, and one that is only anchored"""
    scene = Scene((ROOT, KEY), *((EXAMPLE, key) for key in KEYS[1:]))
    scene.has_keys(EXAMPLE, KEYS)
    scene.delegates(EXAMPLE, [ds_of(EXAMPLE, key) for key in KEYS[:2]])
    scene.root()
    links = "matched example. 2, anchored example., anchored example., keyset example. 3 4 5"
    return scene.session(EXAMPLE, DNSKEY), [IS_WHOLLY_SECURE, f"{TO_THE_DS}, {links}"], PLAIN


def anchored_key_below_the_root():
    """where an anchored key signs, no DS is asked for"""
    scene = Scene((EXAMPLE, KEYS[0]))
    scene.has_keys(EXAMPLE, KEYS[:2], KEYS[0])
    scene.delegates(EXAMPLE, [ds_of(EXAMPLE, KEYS[0])])
    scene.root()
    return scene.session(EXAMPLE, DNSKEY), ["set answer example. DNSKEY secure table 0", "asks 1"], TRAIL


def key_that_no_ds_matches_signs():
    """a key set signed by a key of it that no DS matches is bogus"""
    return key_set(KEYS[:2], [ds_of(EXAMPLE, KEYS[0])], KEYS[1]), [DS_IS_SECURE, bogus_by(1)], PLAIN


def third_key_of_one_tag_signs_its_set():
    """in its own set each key is tried, also the third of a tag"""
    keys = [key_of(bytes.fromhex(octets)) for octets in ("e1e2", "e0e201", "dfe202")]
    assert len(set(map(key_tag, keys))) == 1
    return key_set(keys, [ds_of(EXAMPLE, keys[2])], keys[2]), [IS_SECURE, DS_IS_SECURE], PLAIN


def ninth_signature_of_a_key_set():
    """of a key set's signatures the ninth isn't tried"""
    scene = Scene()
    records = [Record(EXAMPLE, DNSKEY, key) for key in KEYS[:2]]
    signed = [Signed(records, KEYS[0], b"\xd0" + number(k, 1), EXAMPLE) for k in range(1, 10)]
    scene.accepts.append(signed[-1].accept())
    scene.says(EXAMPLE, DNSKEY, records, [one.rrsig() for one in signed])
    scene.delegates(EXAMPLE, [ds_of(EXAMPLE, KEYS[0])])
    scene.root()
    return scene.session(EXAMPLE, DNSKEY), [DS_IS_SECURE, bogus_by(1)], PLAIN


def names_in_another_case():
    """an ask has the letters of the name that asked; a digest is over the small ones"""
    upper, mixed, strange = [b"EXAMPLE"], [b"Example"], [b"eXAMPLe"]
    scene = Scene()
    scene.says(WWW, A, scene.signed([Record(WWW, A, ADDRESS)], KEYS[0], mixed))
    keys = scene.signed([Record(upper, DNSKEY, KEYS[0])], KEYS[0], strange)
    scene.says(EXAMPLE, DNSKEY, keys)
    scene.says(EXAMPLE, DS, scene.signed([Record(strange, DS, ds_of(EXAMPLE, KEYS[0]))], KEY, ROOT))
    scene.root()
    says = ["step 1 judged Example. DNSKEY", "step 2 judged EXAMPLE. DS", "set answer eXAMPLe. DS secure table 0 0",
            "links anchored ., keyset . 0, signed eXAMPLe. DS 1, matched EXAMPLE. 2, signed EXAMPLE. DNSKEY 3,"
            " signed www.example. A 4"]
    return scene.session(WWW, A), says, TRAIL


# ---- DS sets

def ds_of_another_zone(*beside):
    """The ask for the DS of `example.` hears a DS set of `other.` with the digest of the key of `example.`, and beside it a DS set of
    `example.` or none."""
    scene = Scene()
    scene.has_keys(EXAMPLE, KEYS[:1], KEYS[0])
    of_other = [Record(OTHER, DS, ds_of(owner, KEYS[0])) for owner in (EXAMPLE, OTHER)]
    parts = [scene.signed([Record(EXAMPLE, DS, rdata) for rdata in beside], KEY, ROOT)] if beside else []
    scene.says(EXAMPLE, DS, *parts, scene.signed(of_other, KEY, ROOT))
    scene.root()
    return scene.session(EXAMPLE, DNSKEY)


def ds_of_another_zone_alone():
    """a DS of another zone is no answer for this one, and nothing denies that there is one: the ask is denied"""
    says = ["set answer other. DS secure table 0 0", bogus_by(1), "ending denied bogus", "chains 0", "asks 3"]
    return ds_of_another_zone(), says, TRAIL


def ds_of_another_zone_beside():
    """nor does it match where a DS of this zone answers and matches nothing"""
    says = ["set answer other. DS secure table 0 1", DS_IS_SECURE, bogus_by(2), "no ending denied bogus"]
    return ds_of_another_zone(of_nothing(KEYS[0], 1)), says, TRAIL


def ds_set_signed_by_its_own_zone():
    """a DS set is signed above its zone, or it is bogus without an ask"""
    session = key_set(KEYS[:1], [ds_of(EXAMPLE, KEYS[0])], KEYS[0], key=KEYS[0], parent=EXAMPLE)
    says = ["set answer example. DS bogus table -", bogus_by(0), "asks 2"]
    return session, says, TRAIL


def ds_set_that_is_not_accepted():
    """a DS that isn't secure matches no key"""
    session = key_set(KEYS[:1], [ds_of(EXAMPLE, KEYS[0])], KEYS[0], is_accepted=False)
    return session, ["set answer example. DS bogus table - 0", bogus_by(1)], TRAIL


def of_one_tag(*rdatas):
    return key_set(KEYS[:1], rdatas, KEYS[0])


def denial(scene):
    """An NSEC record of `example.` that says it has NS and DS records, signed by the root (RFC 4034, 4.1)."""
    return scene.signed([Record(EXAMPLE, NSEC, texts.wire(OTHER) + bytes.fromhex("0006200000000010"))], KEY, ROOT)


def ds_beside(good, other):
    """A key set signed by its key, and for its DS a reply by these two functions of the scene: answers, authorities."""
    scene = Scene()
    scene.has_keys(EXAMPLE, KEYS[:1], KEYS[0])
    scene.says(EXAMPLE, DS, good(scene), authorities=other(scene))
    scene.root()
    return scene.session(EXAMPLE, DNSKEY)


def of_example(rdata):
    return lambda scene: scene.signed([Record(EXAMPLE, DS, rdata)], KEY, ROOT)


def ds_beside_a_denial():
    """a DS set that comes with a secure denial is no answer"""
    session = ds_beside(of_example(ds_of(EXAMPLE, KEYS[0])), denial)
    return session, [DS_IS_SECURE, "set authority example. NSEC secure table 0 1", bogus_by(2)], PLAIN


def ds_in_the_authority_section():
    """a DS counts in the answer section alone"""
    session = ds_beside(of_example(of_nothing(KEYS[0], 1)), of_example(ds_of(EXAMPLE, KEYS[0])))
    return session, [DS_IS_SECURE, "set authority example. DS secure table 0 1", bogus_by(2)], PLAIN


def second_ds_of_one_tag():
    """two DS of one algorithm and tag are tried"""
    rdatas = of_nothing(KEYS[0], 1), ds_of(EXAMPLE, KEYS[0]), of_nothing(KEYS[0], 2)
    return of_one_tag(*rdatas), [DS_IS_SECURE, IS_SECURE], PLAIN


def third_ds_of_one_tag():
    """the third is not"""
    rdatas = of_nothing(KEYS[0], 1), of_nothing(KEYS[0], 2), ds_of(EXAMPLE, KEYS[0])
    return of_one_tag(*rdatas), [DS_IS_SECURE, bogus_by(1)], PLAIN


def ds_of_an_unknown_digest_beside():
    """a DS whose digest isn't supported leaves the good one beside it"""
    rdatas = ds_of(EXAMPLE, KEYS[0]), ds_of(EXAMPLE, KEYS[0], GOST)
    return of_one_tag(*rdatas), [DS_IS_SECURE, IS_SECURE], PLAIN


def unknown_digests_before_a_good_one():
    """only DS that are supported count among the two of a tag"""
    rdatas = ds_of(EXAMPLE, KEYS[0], GOST), ds_of(EXAMPLE, KEYS[0], UNLISTED), ds_of(EXAMPLE, KEYS[0])
    return of_one_tag(*rdatas), [DS_IS_SECURE, IS_SECURE], PLAIN


def ds_of_another_tag_and_algorithm():
    """a DS has the tag and the algorithm of the key that it matches, and not its digest alone"""
    scene = Scene(algorithms=(8, 13))
    scene.has_keys(EXAMPLE, KEYS[:1], KEYS[0])
    scene.delegates(EXAMPLE, [ds_of(EXAMPLE, KEYS[0], tag=key_tag(KEYS[0]) ^ 1), ds_of(EXAMPLE, KEYS[0], algorithm=8)])
    scene.root()
    return scene.session(EXAMPLE, DNSKEY), [DS_IS_SECURE, bogus_by(1)], PLAIN


def ds_of_an_unknown_algorithm_alone():
    """a DS set without a supported record says that the zone's keys can't be judged: they are insecure"""
    session = of_one_tag(ds_of(EXAMPLE, KEYS[0], algorithm=UNLISTED))
    return session, [DS_IS_SECURE, "set answer example. DNSKEY insecure table - 1", "chains 0"], PLAIN


def beside_their_own_ds(depth):
    """Keys of `example.` in the reply to the ask for its DS set."""
    scene = Scene()
    keys = scene.signed([Record(EXAMPLE, DNSKEY, key) for key in KEYS[:2]], KEYS[0], EXAMPLE)
    scene.says(EXAMPLE, DNSKEY, keys)
    scene.says(EXAMPLE, DS, scene.signed([Record(EXAMPLE, DS, ds_of(EXAMPLE, KEYS[0]))], KEY, ROOT), keys)
    scene.root()
    return scene.session(EXAMPLE, DNSKEY, depth)


def keys_beside_their_own_ds():
    """a key set in the reply to the ask for its own DS asks for it again, one deeper, as deep as asks may go"""
    says = [bogus_by("deep"), "set answer example. DS bogus table - deep", "step 3 judged example. DS", bogus_by(2),
            "answer example. DNSKEY secure", "asks 6"]
    return beside_their_own_ds(3), says, TRAIL


# ---- asks that aren't made

def keys_and_what_they_sign():
    """a set signed by the zone whose keys are asked for is bogus, since nothing asks for them again"""
    scene = Scene()
    scene.says(ROOT, DNSKEY, [Record(ROOT, DNSKEY, KEY)], scene.signed([Record(ROOT, NS, texts.wire([b"a"]))], KEY, ROOT))
    says = ["set answer . DNSKEY secure table -", "set answer . NS bogus table -", "asks 1", "chains 1"]
    return scene.session(ROOT, DNSKEY), says, TRAIL


def set_signed_by_a_zone_beside():
    """the keys of a zone that isn't above a set aren't asked for"""
    scene = Scene((OTHER, OTHERS))
    scene.says(WWW, A, scene.signed([Record(WWW, A, ADDRESS)], OTHERS, OTHER))
    scene.has_keys(OTHER, [OTHERS])
    return scene.session(WWW, A), ["answer www.example. A bogus", "set answer www.example. A bogus table -", "asks 1"], TRAIL


def three_zones_below(depth):
    """Keys of the zone `c.b.a.`; each zone's key signs its key set and the DS set of the zone below."""
    zones = [[b"a"], [b"b", b"a"], [b"c", b"b", b"a"]]
    scene = Scene()
    for zone, key, parent, above in reversed(list(zip(zones, KEYS, [ROOT, *zones], [KEY, *KEYS]))):
        scene.has_keys(zone, [key], key)
        scene.delegates(zone, [ds_of(zone, key)], above, parent)
    scene.root()
    return scene.session(zones[2], DNSKEY, depth)


def third_zone_with_depth_five():
    """the keys of a third zone below the root need asks of depth 6"""
    says = ["set answer a. DS bogus table - deep", "set answer c.b.a. DNSKEY bogus table - 4", "asks 6", "chains 0"]
    return three_zones_below(5), says, TRAIL


def third_zone_with_depth_six():
    """with which they are secure"""
    links = TO_THE_ROOT
    for at, zone in enumerate(("a.", "b.a.", "c.b.a.")):
        links += f", signed {zone} DS {3 * at + 1}, matched {zone} {3 * at + 2}, signed {zone} DNSKEY {3 * at + 3}"
    says = ["answer c.b.a. DNSKEY secure", "asks 7", links]
    return three_zones_below(6), says, PLAIN


# ---- keys that may not sign

def revoked(key):
    return b"\x01\x81" + key[2:]


def revoked_key_that_a_ds_matches():
    """a revoked key's signature counts for nothing, also where a DS matches it"""
    key = revoked(KEYS[0])
    return key_set([key, KEYS[1]], [ds_of(EXAMPLE, key)], key), [DS_IS_SECURE, bogus_by(1)], PLAIN


def revoked_key_that_is_anchored():
    """a wholly anchored key set is secure with any flags, and what a revoked key of it signs is bogus"""
    scene = Scene()
    scene.says(ROOT, NS, scene.signed([Record(ROOT, NS, texts.wire([b"a"]))], revoked(KEY), ROOT))
    scene.says(ROOT, DNSKEY, [Record(ROOT, DNSKEY, revoked(KEY))])
    return scene.session(ROOT, NS), ["set answer . DNSKEY secure table -", "set answer . NS bogus table - 0"], TRAIL


def key_of_no_octets_beside():
    """a key that can't be read is never anchored: an unsigned key set with one is bogus, and so is what it signs"""
    scene = Scene()
    scene.says(ROOT, NS, scene.signed([Record(ROOT, NS, texts.wire([b"a"]))], KEY, ROOT))
    scene.says(ROOT, DNSKEY, [Record(ROOT, DNSKEY, KEY), Record(ROOT, DNSKEY, b"")])
    return scene.session(ROOT, NS), ["set answer . DNSKEY bogus table -", "set answer . NS bogus table - 0"], TRAIL


# ---- how often the verifier is asked

def turned(signed, place, octets):
    """A signature with other octets from a place of its rdata on, before the tag and the signer."""
    signed.front = signed.front[:place] + octets + signed.front[place + len(octets):]
    return signed


def questions_of_one_zone():
    """the verifier is asked for a signature that holds now, by the keys of its tag that may sign, up to the good one, and for no other"""
    # keys of the root: `first` and `third` have the tag of KEY, and `unsupported` is of algorithm 14
    first, third, beside = (key_of(bytes.fromhex(octets)) for octets in ("aaba0001", "aab90002", "ccdd"))
    unsupported = bytes.fromhex("0101030eaabb")
    assert len(set(map(key_tag, (KEY, first, third)))) == 1
    scene = Scene((ROOT, first), (ROOT, KEY))
    keys = [Record(ROOT, DNSKEY, key) for key in (first, KEY, third, KEY, revoked(KEY), unsupported, beside)]
    # each ask: `first` and KEY for a signature that is refused, and then again for one that KEY made
    by_key = Signed(keys, KEY)
    scene.says(ROOT, DNSKEY, keys, [Signed(keys, KEY, b"\xd0").rrsig(), by_key.rrsig()])
    servers = [Record(ROOT, NS, texts.wire([b"a"]))]
    signed = [
        Signed(servers, KEY, b"\xd0"),                                 # refused, by `first` and KEY
        turned(Signed(servers, KEY, b"\xd1"), 8, number(999, 4)),      # has expired
        turned(Signed(servers, KEY, b"\xd2"), 12, number(1001, 4)),    # doesn't hold yet
        Signed(servers, revoked(KEY), b"\xd3"),
        turned(Signed(servers, unsupported, b"\xd4"), 2, b"\x0e"),
        Signed(servers, third, b"\xd5"),                               # by `first` and KEY, since `third` doesn't count
        turned(Signed(servers, KEY, b"\xd6"), 3, b"\x01"),            # of more labels than the root has
        Signed(servers, beside, b"\xd7"),                              # good
        Signed(servers, KEY, b"\xd8"),                                 # the ninth
    ]
    # a denial that its signature would expand, and a set that a zone beside signed
    denial_of_a = [Record([b"a"], NSEC, texts.wire(OTHER) + bytes.fromhex("0006200000000010"))]
    expanded = Signed(denial_of_a, KEY, b"\xd9", labels=0)
    of_other = Signed([Record([b"b"], A, ADDRESS)], KEY, b"\xda", OTHER)
    scene.accepts.extend(one.accept() for one in (by_key, *signed[1:]))
    scene.says(ROOT, NS, servers, [one.rrsig() for one in signed], authorities=expanded.section(), additionals=of_other.section())
    # the first of 9 asks for the keys takes 4 questions, and no other one any, since their chain was accepted then; and 2 for the
    # first signature, 2 for the sixth, 1 for the eighth
    says = ["answer . NS secure", "set answer . NS secure table 7 0 1 2 3 4 5 6 7", "set authority a. NSEC bogus table - 8",
            "set answer . DNSKEY secure repeat-0 1", "asks 10", "questions 9"]
    return scene.session(ROOT, NS), says, TRAIL


def questions_of_a_walk():
    """in a key set copies of a key are asked for once, and beside it each copy that counts is"""
    one, other = (key_of(bytes.fromhex(octets)) for octets in ("e1e2", "e0e201"))
    assert key_tag(one) == key_tag(other)
    scene = Scene()
    address = [Record(WWW, A, ADDRESS)]
    by_one = Signed(address, one, signer=EXAMPLE)
    scene.says(WWW, A, address, [Signed(address, one, b"\xd0", EXAMPLE).rrsig(), by_one.rrsig()])
    keys = [Record(EXAMPLE, DNSKEY, key) for key in (one, one, other)]
    keys_by_one = Signed(keys, one, signer=EXAMPLE)
    scene.says(EXAMPLE, DNSKEY, keys, [Signed(keys, one, b"\xd0", EXAMPLE).rrsig(), keys_by_one.rrsig()])
    scene.delegates(EXAMPLE, [ds_of(EXAMPLE, one), ds_of(EXAMPLE, other)])
    scene.root()
    scene.accepts.extend([by_one.accept(), keys_by_one.accept()])
    # the first ask for the keys: 1 for the DS set, 2 for the signature that is refused and 1 for the good one. The second one: none, since
    # their chain was accepted then. Of the address the first signature is refused for both copies, and the second is good by the first copy
    says = ["answer www.example. A secure", "set answer example. DNSKEY secure repeat-2 1", "asks 5", "questions 7"]
    return scene.session(WWW, A), says, TRAIL


def questions_of_an_anchored_key_beside():
    """an anchored key that didn't sign its key set is asked for once, before the DS set comes"""
    scene = Scene((ROOT, KEY), (EXAMPLE, KEYS[1]))
    keys = [Record(EXAMPLE, DNSKEY, key) for key in KEYS[:2]]
    by_other = Signed(keys, KEYS[0], signer=EXAMPLE)
    scene.says(EXAMPLE, DNSKEY, keys, [Signed(keys, KEYS[1], b"\xd0", EXAMPLE).rrsig(), by_other.rrsig()])
    scene.delegates(EXAMPLE, [ds_of(EXAMPLE, KEYS[0])])
    scene.root()
    scene.accepts.append(by_other.accept())
    # 1 for the anchored key, whose signature is refused, 1 for the DS set and 1 for the key that it matches
    return scene.session(EXAMPLE, DNSKEY), ["answer example. DNSKEY secure", "asks 3", "questions 3"], TRAIL


# ---- large rows, which generate.py gives out

def deepest_keys_beside_their_own_ds():
    """At depth 255."""
    session = beside_their_own_ds(255)
    return session, finds(session, [bogus_by("deep"), "step 255 judged example. DS", "asks 510"], TRAIL), 0, b"validate\ntrail\n"


def four_hundred_copies(*beside):
    """400 copies of a key that a DS matches, with eight signatures that aren't accepted."""
    scene = Scene(is_packed=True)
    records = [Record(EXAMPLE, DNSKEY, key) for key in (*[KEYS[0]] * 400, *beside)]
    signed = [Signed(records, KEYS[0], b"\xd0" + number(k, 1), EXAMPLE) for k in range(8)]
    scene.says(EXAMPLE, DNSKEY, records, [one.rrsig() for one in signed])
    scene.delegates(EXAMPLE, [ds_of(EXAMPLE, KEYS[0])])
    scene.root()
    return scene.session(EXAMPLE, DNSKEY)


def four_hundred_copies_of_a_key():
    """With a key beside that no DS matches."""
    session = four_hundred_copies(KEYS[1])
    return session, finds(session, [DS_IS_SECURE, bogus_by(1), "chains 0"]), 0


def four_hundred_copies_and_no_other():
    """Every key is matched, and each has its link."""
    session = four_hundred_copies()
    named = " ".join(map(str, range(3, 403)))
    links = [TO_THE_DS, *["matched example. 2"] * 400, f"keyset example. {named}"]
    return session, finds(session, [DS_IS_SECURE, IS_WHOLLY_SECURE, ", ".join(links)]), 0


def ds_ask_past_the_last_send():
    """127 sets with eight signatures that aren't accepted, each of which asks for the same keys, and further sets: the keys of the last
    one's zone are asked for by the 1,024th send, and their DS isn't."""
    scene = Scene()
    refused = [[b"n%d" % k, b"example"] for k in range(127)]
    proved = [[b"m%d" % k, b"example"] for k in range(2)]
    parts = [scene.signed([Record(name, A, ADDRESS)], KEY, ROOT) for name in (WWW, OTHER)]
    for name in refused:
        records = [Record(name, A, ADDRESS)]
        parts.append([*records, *(Signed(records, KEYS[0], b"\xd0" + number(k, 1), EXAMPLE).rrsig() for k in range(8))])
    parts.extend(scene.signed([Record(name, A, ADDRESS)], KEYS[0], EXAMPLE) for name in proved)
    parts.append(scene.signed([Record([b"m2", *OTHER], A, ADDRESS)], KEYS[1], OTHER))
    scene.says(WWW, A, *parts)
    for zone, keys in ((EXAMPLE, KEYS[:1]), (OTHER, KEYS[1:2])):
        scene.has_keys(zone, keys, keys[0])
        scene.delegates(zone, [ds_of(zone, keys[0])])
    scene.root()
    session = scene.session(WWW, A)
    says = ["asks 1024", "chains 4", "answer m1.example. A secure", "set answer other. DNSKEY bogus table - many",
            "answer m2.other. A bogus"]
    return session, finds(session, says), 0


def thirty_sets_below_twelve_zones():
    """thirty sets of one zone, each of which asks for the keys of the zone, whose chain has thirteen signed links"""
    keys = [key_of(b"\xf0" + number(depth, 1)) for depth in range(13)]
    zones = [[b"z"] * depth for depth in range(13)]
    scene = Scene()
    owners = [[b"n%d" % k, *zones[12]] for k in range(30)]
    scene.says(owners[0], A, *(scene.signed([Record(owner, A, ADDRESS)], keys[12], zones[12]) for owner in owners))
    for depth in range(12, 0, -1):
        scene.has_keys(zones[depth], keys[depth:depth + 1])
        scene.delegates(zones[depth], [ds_of(zones[depth], keys[depth])], keys[depth - 1], zones[depth - 1])
    # the root's own key, by which its key set is signed, is anchored
    scene.has_keys(ROOT, [KEY, keys[0]], KEY)
    session = scene.session(owners[0], A)
    return session, ["asks 55", "chains 30", "questions 43"], PLAIN


def chain_of_sixty_three_links():
    """a set below twenty zones, one below the other"""
    keys = [key_of(b"\xf1" + number(depth, 1)) for depth in range(21)]
    zones = [[b"z"] * depth for depth in range(21)]
    scene = Scene()
    scene.says(zones[20], A, scene.signed([Record(zones[20], A, ADDRESS)], keys[20], zones[20]))
    for depth in range(20, 0, -1):
        scene.has_keys(zones[depth], keys[depth:depth + 1])
        scene.delegates(zones[depth], [ds_of(zones[depth], keys[depth])], keys[depth - 1], zones[depth - 1])
    scene.has_keys(ROOT, [KEY, keys[0]], KEY)
    session = scene.session(zones[20], A, depth=60)
    return session, ["asks 42", "chains 1", "chain answer 63"], PLAIN


MADE = (walk_by_ds, trail_of_a_walk_by_ds, keys_matched_by_each_digest, keys_anchored_or_matched, anchored_key_below_the_root,
        key_that_no_ds_matches_signs, third_key_of_one_tag_signs_its_set, ninth_signature_of_a_key_set, names_in_another_case,
        ds_of_another_zone_alone, ds_of_another_zone_beside, ds_set_signed_by_its_own_zone, ds_set_that_is_not_accepted,
        ds_beside_a_denial, ds_in_the_authority_section, second_ds_of_one_tag, third_ds_of_one_tag, ds_of_an_unknown_digest_beside,
        unknown_digests_before_a_good_one, ds_of_another_tag_and_algorithm, ds_of_an_unknown_algorithm_alone,
        keys_beside_their_own_ds, keys_and_what_they_sign, set_signed_by_a_zone_beside, third_zone_with_depth_five,
        third_zone_with_depth_six, revoked_key_that_a_ds_matches, revoked_key_that_is_anchored, key_of_no_octets_beside,
        questions_of_one_zone, questions_of_a_walk, questions_of_an_anchored_key_beside, thirty_sets_below_twelve_zones, chain_of_sixty_three_links)


if __name__ == "__main__":
    sys.exit(main(sys.modules[__name__], sys.argv[1:]))
