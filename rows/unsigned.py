#!/usr/bin/env python3
"""The rows of unsigned sets, of zones that aren't signed so that they could be judged, and of an upstream that hands on no message.

What has to be written is what `model.py` has for the session, and each row says besides what has to be found in it, or the one line
that is written.

    python3 rows/unsigned.py            writes the rows' files beside it
    python3 rows/unsigned.py --check    says whether the files are those"""
import sys

import texts
from scene import PLAIN, ROOT, TRAIL, Scene, ds_of, finds, main
from texts import A, DNSKEY, DS, KEY, NS, NSEC, Record
from walk import ADDRESS, EXAMPLE, GOST, KEYS, OTHER, UNLISTED, WWW, of_nothing

CNAME, SOA, NSEC3, CH = 5, 6, 50, 3
CHILD = [b"child", b"example"]
SERVER = texts.wire([b"a"])
# the answer of most rows: an address without a signature
UNSIGNED = Record(WWW, A, ADDRESS)
SOA_RDATA = texts.wire([b"ns"]) + texts.wire([b"host"]) + bytes(20)
# a DS by which the zone `example.` is insecure
UNKNOWN = ds_of(EXAMPLE, KEYS[0], algorithm=UNLISTED)
ENDS_PLAIN = "last ending none"


def ns_of(zone, **how):
    return Record(zone, NS, SERVER, **how)


def with_servers(scene, zone=EXAMPLE):
    scene.says(zone, NS, [ns_of(zone)])


def with_ds(scene, *rdatas):
    """The DS set of `example.`, secure by the root's key: of an algorithm that isn't supported, if it isn't said otherwise."""
    scene.delegates(EXAMPLE, rdatas or [UNKNOWN])
    scene.root()


def insecure_zone(scene):
    """`example.` has a key, which signs its key set, and its DS is of an algorithm that isn't supported."""
    scene.has_keys(EXAMPLE, KEYS[:1], KEYS[0])
    with_ds(scene)


def answered(scene, *parts, **how):
    """The reply to the query for the address."""
    scene.says(WWW, A, *(parts or [[UNSIGNED]]), **how)
    return scene


# ---- the search for the zone of an unsigned set

def unsigned_in_an_insecure_zone():
    """an unsigned set is insecure where its zone is, which is searched for from name to parent"""
    scene = answered(Scene())
    scene.says(WWW, NS)
    with_servers(scene)
    with_ds(scene)
    says = ["set answer www.example. A insecure table - 0 1 3", "step 0 ns www.example. NS", "step 0 ns example. NS",
            "step 1 judged example. DS", "ending seen", "asks 5", "chains 0"]
    return scene.session(WWW, A), says, TRAIL


def unsigned_in_a_signed_zone():
    """and bogus where that zone is signed"""
    scene = answered(Scene())
    scene.says(WWW, NS)
    with_servers(scene)
    with_ds(scene, ds_of(EXAMPLE, KEYS[0]))
    return scene.session(WWW, A), ["set answer www.example. A bogus table - 0 1 3", "asks 5"], TRAIL


def unsigned_in_a_zone_with_another_ds_beside():
    """one DS of an algorithm that is supported makes a zone a signed one"""
    scene = answered(Scene())
    with_servers(scene, WWW)
    scene.delegates(WWW, [UNKNOWN, of_nothing(KEYS[0], 1)])
    scene.root()
    return scene.session(WWW, A), ["set answer www.example. A bogus table - 0 2", "asks 4"], TRAIL


def unsigned_below_a_delegation_without_ds():
    """an unsigned set is insecure at a delegation whose secure NSEC record says that there is no DS"""
    scene = Scene((EXAMPLE, KEYS[0]))
    scene.says(CHILD, A, [Record(CHILD, A, ADDRESS)])
    scene.says(CHILD, NS, [ns_of(CHILD)])
    shown = Record(CHILD, NSEC, texts.wire(EXAMPLE) + bytes.fromhex("0006200000000003"))
    scene.says(CHILD, DS, authorities=scene.signed([shown], KEYS[0], EXAMPLE))
    scene.has_keys(EXAMPLE, KEYS[:1])
    says = ["set authority child.example. NSEC secure table 0 1", "ending absent secure", "step 1 judged child.example. DS",
            "step 2 judged example. DNSKEY", "set answer child.example. A insecure table - 0 2", "asks 4"]
    return scene.session(CHILD, A), says, TRAIL


def under_three_names(*replies):
    """An unsigned address of `a.b.c.`, and what comes to the asks for NS records of it and of its parents: fields of a reply, or a
    fault."""
    name = [b"a", b"b", b"c"]
    scene = Scene()
    scene.says(name, A, [Record(name, A, ADDRESS)])
    for cut, how in enumerate(replies):
        if isinstance(how, str):
            scene.fails(name[cut:], NS, how)
        else:
            scene.says(name[cut:], NS, **how)
    return scene.session(name, A)


def search_up_to_the_root():
    """a search asks for the NS records of each name below the root, and at the root the set is bogus"""
    start = {"authorities": [Record([b"c"], SOA, SOA_RDATA)]}
    session = under_three_names({}, {**start, "word": "empty"}, {**start, "code": 3, "word": "empty"})
    says = ["step 0 ns a.b.c. NS", "step 0 ns b.c. NS", "step 0 ns c. NS", "got 0 empty", "got 3 empty",
            f"told authority c. IN SOA 3600 {SOA_RDATA.hex()}", "set answer a.b.c. A bogus table - 0 1 2", "asks 4"]
    return session, says, TRAIL


def search_that_meets_a_fault():
    """a fault ends the search, and the set is bogus"""
    session = under_three_names({}, "io", {"authorities": [ns_of([b"c"])]})
    says = ["step 0 ns a.b.c. NS", "step 0 ns b.c. NS", "no step 0 ns c. NS", "set answer a.b.c. A bogus table - 0 1", "asks 3"]
    return session, says, TRAIL


def search_with_depth_zero():
    """a search asks as deep as its step, and the DS of the zone one deeper"""
    scene = answered(Scene())
    with_servers(scene)
    scene.says(WWW, NS)
    with_ds(scene)
    return scene.session(WWW, A, depth=0), ["set answer www.example. A bogus table - 0 1 deep", "asks 3"], TRAIL


def servers_of_another_class_beside():
    """an NS record of the name shows its zone in any section and of any class, and it isn't judged"""
    scene = answered(Scene())
    scene.says(WWW, NS, additionals=[ns_of(OTHER), ns_of([b"wWw", b"example"], klass=CH)])
    scene.delegates(WWW, [UNKNOWN])
    scene.root()
    says = [f"told additional wWw.example. CH NS 3600 {SERVER.hex()}", "ending seen",
            "set answer www.example. A insecure table - 0 2"]
    return scene.session(WWW, A), says, TRAIL


def no_records_with_servers_beside():
    """where an upstream says that there are no records, the search goes on, whatever comes with that"""
    scene = answered(Scene())
    # the message has no question, so that no record of it is the one asked for
    octets = bytes.fromhex("000084000000000000010000") + ns_of(WWW).wire()
    scene.replies.append(texts.reply(WWW, NS, octets, "empty"))
    with_servers(scene)
    with_ds(scene)
    says = ["got 0 empty", f"told authority www.example. IN NS 3600 {SERVER.hex()}",
            "set answer www.example. A insecure table - 0 1 3"]
    return scene.session(WWW, A), says, TRAIL


def search_for_the_zone_of_an_nsec3():
    """the zone of an unsigned NSEC3 is searched for from the parent of its owner, and no zone is above the root"""
    rdata = bytes.fromhex("01000000000101")
    scene = Scene()
    hashes = [Record(owner, NSEC3, rdata) for owner in ([b"h", *EXAMPLE], [b"h"])]
    answered(scene, scene.signed([UNSIGNED], KEY, ROOT), authorities=hashes)
    with_servers(scene)
    with_ds(scene)
    says = ["set authority h.example. NSEC3 insecure table - 1 3", "set authority h. NSEC3 bogus table -",
            "answer www.example. A secure"]
    return scene.session(WWW, A), says, TRAIL


def question_that_is_searched_too():
    """by turn a plain ask for NS records takes the reply after the query's own"""
    scene = Scene()
    with_servers(scene)
    scene.says(EXAMPLE, NS)
    with_ds(scene)
    return scene.session(EXAMPLE, NS, version=2), ["set answer example. NS bogus table - 0", "asks 2"], TRAIL


def unsigned_ds_set():
    """a DS set without a signature is bogus, and no zone is searched for it"""
    scene = Scene()
    scene.has_keys(EXAMPLE, KEYS[:1], KEYS[0])
    scene.says(EXAMPLE, DS, [Record(EXAMPLE, DS, UNKNOWN)])
    with_servers(scene)
    says = ["set answer example. DS bogus table -", "set answer example. DNSKEY bogus table - 0", "asks 2"]
    return scene.session(EXAMPLE, DNSKEY), says, TRAIL


# ---- signatures of zones that are insecure

def set_of_an_insecure_zone():
    """what the keys of an insecure zone sign is insecure: the zone's DS set is secure, and of no algorithm that is supported"""
    scene = Scene()
    answered(scene, scene.signed([UNSIGNED], KEYS[0], EXAMPLE))
    insecure_zone(scene)
    says = ["answer www.example. A insecure", "answer www.example. RRSIG insecure", "set answer example. DNSKEY insecure table - 1",
            "set answer www.example. A insecure table 0 2", "asks 4", "chains 0"]
    return scene.session(WWW, A), says, PLAIN


def signed(scene, key, signer, signature, is_accepted):
    """A signature of the address alone."""
    return scene.signed([UNSIGNED], key, signer, bytes.fromhex(signature), is_accepted)[1:]


def second_signature_is_insecure():
    """a set without a good signature is insecure by the first of an insecure zone, whether that is accepted or not"""
    scene = Scene()
    answered(scene, [UNSIGNED], signed(scene, KEY, ROOT, "d0", False), signed(scene, KEYS[0], EXAMPLE, "d1", False),
             signed(scene, KEYS[0], EXAMPLE, "d2", True))
    insecure_zone(scene)
    says = ["set answer www.example. A insecure table 1 0 3 4", "answer www.example. RRSIG insecure",
            "answer www.example. RRSIG indeterminate"]
    return scene.session(WWW, A), says, TRAIL


def good_signature_after_an_insecure_one():
    """a good signature of a secure zone proves a set, also after one of an insecure zone"""
    scene = Scene()
    answered(scene, [UNSIGNED], signed(scene, KEYS[0], EXAMPLE, "d0", True), signed(scene, KEY, ROOT, "d1", True))
    insecure_zone(scene)
    return scene.session(WWW, A), ["set answer www.example. A secure table 1 2 3", "chains 1"], TRAIL


def signature_of_a_bogus_zone():
    """a signature by a key of a bogus key set neither proves its set nor excuses it"""
    scene = Scene()
    answered(scene, scene.signed([UNSIGNED], KEYS[0], EXAMPLE))
    scene.has_keys(EXAMPLE, KEYS[:1], KEYS[0])
    with_servers(scene)
    with_ds(scene, UNKNOWN, of_nothing(KEYS[0], 1))
    return scene.session(WWW, A), ["set answer www.example. A bogus table - 2", "asks 4"], TRAIL


def keys_under(*rdatas):
    """The key set of `example.`, signed by its key, and what a secure DS set of these records makes of it."""
    scene = Scene()
    scene.has_keys(EXAMPLE, KEYS[:1], KEYS[0])
    with_ds(scene, *rdatas)
    return scene.session(EXAMPLE, DNSKEY)


def ds_of_an_unknown_digest_alone():
    """a zone is insecure too where no DS has a digest type that is supported"""
    session = keys_under(b"", ds_of(EXAMPLE, KEYS[0], GOST), UNKNOWN)
    return session, ["set answer example. DS secure table 0 0", "set answer example. DNSKEY insecure table - 1"], TRAIL


def ds_that_cannot_be_read():
    """a DS set of which no record can be read excuses nothing"""
    return keys_under(b""), ["set answer example. DS secure table 0 0", "set answer example. DNSKEY bogus table - 1"], TRAIL


def zone_below_an_insecure_one():
    """a DS set that is insecure proves no keys and excuses none: the key set of its zone is bogus"""
    scene = Scene()
    child = KEYS[1]
    scene.has_keys(CHILD, [child], child)
    scene.delegates(CHILD, [ds_of(CHILD, child)], KEYS[0], EXAMPLE)
    insecure_zone(scene)
    says = ["set answer child.example. DS insecure table 0 2", "set answer child.example. DNSKEY bogus table - 3"]
    return scene.session(CHILD, DNSKEY), says, TRAIL


def cname_in_place_of_a_ds(owner):
    """The ask for the DS of `www.example.` hears a CNAME, and beside it an unsigned SOA record of this owner."""
    scene = answered(Scene())
    with_servers(scene, WWW)
    scene.says(WWW, DS, [Record(WWW, CNAME, texts.wire(OTHER))], authorities=[Record(owner, SOA, SOA_RDATA)])
    with_servers(scene)
    with_ds(scene)
    return scene


def insecure_soa_beside_a_cname():
    """an answer without a DS tells of an insecure zone by an insecure set at the zone or above it"""
    says = ["set authority example. SOA insecure table - 1 3", "set answer www.example. A insecure table - 0 4", ENDS_PLAIN]
    return cname_in_place_of_a_ds(EXAMPLE).session(WWW, A), says, TRAIL


def insecure_soa_of_another_zone():
    """but not by one that is elsewhere"""
    owner = [b"mail", *EXAMPLE]
    scene = cname_in_place_of_a_ds(owner)
    scene.says(owner, NS)
    says = ["set authority mail.example. SOA insecure table - 1 2 4", "set answer www.example. A bogus table - 0 5"]
    return scene.session(WWW, A), says, TRAIL


# ---- answers from a wildcard

def from_a_wildcard(scene, name, kind, rdata):
    scene.says(name, kind, scene.signed([Record(name, kind, rdata)], KEYS[0], EXAMPLE, is_accepted=False, labels=1))
    scene.says(name, NS)
    with_servers(scene)
    return scene


def wildcard_of_an_insecure_zone():
    """an answer with a wildcard's signature stands where the zone of the question is insecure, and its ending names the search"""
    scene = from_a_wildcard(Scene(), WWW, A, ADDRESS)
    insecure_zone(scene)
    says = ["answer www.example. A insecure", "set answer www.example. A insecure table 0 2", "last ending none 3 4 5", "asks 7"]
    return scene.session(WWW, A), says, TRAIL


def wildcard_of_a_signed_zone():
    """and is denied where it is signed"""
    scene = from_a_wildcard(Scene(), WWW, A, ADDRESS)
    scene.has_keys(EXAMPLE, KEYS[:1], KEYS[0])
    with_ds(scene, ds_of(EXAMPLE, KEYS[0]))
    return scene.session(WWW, A), "fault nsec bogus"


def ds_from_a_wildcard():
    """for a DS the zone above is searched for"""
    scene = from_a_wildcard(Scene(), WWW, DS, UNKNOWN)
    insecure_zone(scene)
    says = ["set answer www.example. DS insecure table 0 2", "last ending none 3 4", "no step 0 ns www.example. NS"]
    return scene.session(WWW, DS), says, TRAIL


def insecure_servers_beside_an_answer():
    """beside an insecure authority section an answer stands without a search"""
    scene = Scene()
    answered(scene, scene.signed([UNSIGNED], KEYS[0], EXAMPLE), authorities=[ns_of(EXAMPLE)])
    with_servers(scene)
    insecure_zone(scene)
    says = ["answer www.example. A insecure", "authority example. NS insecure", "set answer www.example. A insecure table 0 2",
            "set authority example. NS insecure table - 3 4", ENDS_PLAIN]
    return scene.session(WWW, A), says, TRAIL


# ---- an upstream that hands on an error, or that there are no records

NS_REPLY = texts.reply(ROOT, NS, texts.message(ROOT, NS, texts.Signed([ns_of(ROOT)], KEY).section()))


def stored(*lines):
    """The stored session with these lines in place of its replies."""
    servers = texts.Signed([ns_of(ROOT)], KEY)
    return texts.session([texts.anchor(KEY)], [servers.accept()], ROOT, NS, lines)


def failure_in_place_of_the_first_reply():
    """an upstream that hands on a failure gives its code, and that ends the lookup"""
    return stored("empty . NS 000084020000000000000000", texts.keys_reply([KEY])), "fault code 2"


def busy_in_place_of_the_first_reply():
    """an upstream may be too busy"""
    return stored("fault . NS busy", texts.keys_reply([KEY])), "fault busy"


def io_in_place_of_the_first_reply():
    """or its outside may fail"""
    return stored("fault . NS io", NS_REPLY, texts.keys_reply([KEY])), "fault io Other"


def io_in_place_of_the_keys():
    """a fault below the query never ends the lookup: the set that needed the ask is bogus"""
    return stored(NS_REPLY, "fault . DNSKEY io"), ["answer . NS bogus", "got fault", "ending failed", "asks 2"], PLAIN


def no_records_in_place_of_the_first_reply():
    """that there are no records is no error of the upstream, and of a signed zone it is denied where nothing shows it"""
    return stored("empty . NS 000084000000000000000000", texts.keys_reply([KEY])), "fault nsec bogus"


def no_message_in_place_of_the_first_reply():
    """what an upstream should hand on may be no message"""
    return stored("empty . NS -", texts.keys_reply([KEY])), "fault proto Short 0"


def answers_that_are_handed_on():
    """a message with the records asked for is handed on as it is; the lines of an upstream stand in any order"""
    lines = [texts.keys_reply([KEY]).replace("reply", "empty"), "fault A A timeout", "fault a. NS io", "empty a AAAA -",
             NS_REPLY.replace("reply", "empty"), "fault . NS busy", "empty . DNSKEY 00008402000000000000000A"]
    return stored(*lines), ["answer . NS secure", "no got 0 empty", "asks 2", "chains 1"], PLAIN


# ---- lines of an upstream out of their form, and at other places than their own

def bad(line):
    """The line stands after the query and a reply."""
    return stored(NS_REPLY, line), "bad line 8"


def fault_of_an_unknown_word():
    """a fault has one of three words"""
    return bad("fault . NS lost")


def fault_word_in_another_case():
    """in its own case"""
    return bad("fault . NS Timeout")


def fault_without_a_word():
    """and never none"""
    return bad("fault . NS")


def fault_with_a_message():
    """and no message"""
    return bad("fault . NS timeout 000084020000000000000000")


def empty_without_a_message():
    """a line `empty` has a message"""
    return bad("empty . NS")


def empty_with_half_an_octet():
    """in whole octets"""
    return bad("empty . NS 00008")


def empty_with_a_fault():
    """and no word of a fault"""
    return bad("empty . NS busy")


def at(place, line):
    """The stored session with a line before the line at this place, from 1."""
    lines = stored(NS_REPLY).split(b"\n")
    return b"\n".join([*lines[:place - 1], line.encode(), *lines[place - 1:]])


def empty_before_the_query():
    """lines of the upstream stand after the query"""
    return at(6, "empty . NS 000084020000000000000000"), "bad line 6"


def fault_after_the_last_line():
    """and before the last line"""
    return at(9, "fault . NS busy"), "bad line 9"


# ---- a large row, which generate.py gives out

def deepest_searches():
    """A set without a signature, and one in each reply to the ask for the DS set of its zone, which its own name is: each level asks
    for the NS records of the name and then for the DS set, one deeper, up to depth 255."""
    scene = Scene()
    scene.says(EXAMPLE, A, [Record(EXAMPLE, A, ADDRESS)])
    with_servers(scene)
    scene.says(EXAMPLE, DS, authorities=[Record(EXAMPLE, SOA, SOA_RDATA)])
    session = scene.session(EXAMPLE, A, 255)
    says = ["answer example. A bogus", "step 255 judged example. DS", "step 255 ns example. NS", "asks 512"]
    return session, finds(session, says, TRAIL), 0, b"validate\ntrail\n"


MADE = (unsigned_in_an_insecure_zone, unsigned_in_a_signed_zone, unsigned_in_a_zone_with_another_ds_beside,
        unsigned_below_a_delegation_without_ds, search_up_to_the_root, search_that_meets_a_fault, search_with_depth_zero,
        servers_of_another_class_beside, no_records_with_servers_beside, search_for_the_zone_of_an_nsec3,
        question_that_is_searched_too, unsigned_ds_set, set_of_an_insecure_zone, second_signature_is_insecure,
        good_signature_after_an_insecure_one, signature_of_a_bogus_zone, ds_of_an_unknown_digest_alone, ds_that_cannot_be_read,
        zone_below_an_insecure_one, insecure_soa_beside_a_cname, insecure_soa_of_another_zone, wildcard_of_an_insecure_zone,
        wildcard_of_a_signed_zone, ds_from_a_wildcard, insecure_servers_beside_an_answer, failure_in_place_of_the_first_reply,
        busy_in_place_of_the_first_reply, io_in_place_of_the_first_reply, io_in_place_of_the_keys,
        no_records_in_place_of_the_first_reply, no_message_in_place_of_the_first_reply, answers_that_are_handed_on,
        fault_of_an_unknown_word, fault_word_in_another_case, fault_without_a_word, fault_with_a_message,
        empty_without_a_message, empty_with_half_an_octet, empty_with_a_fault, empty_before_the_query, fault_after_the_last_line)

if __name__ == "__main__":
    sys.exit(main(sys.modules[__name__], sys.argv[1:]))
