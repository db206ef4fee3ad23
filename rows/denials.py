#!/usr/bin/env python3
"""The rows of answers by NSEC, and of such as nothing denies.

What has to be written is what `model.py` has for the session, and each row says besides what has to be found in it, or the one line
that is written.

    python3 rows/denials.py            writes the rows' files beside it
    python3 rows/denials.py --check    says whether the files are those"""
import sys

import texts
from scene import TRAIL, Scene, finds, main
from texts import A, DNSKEY, DS, MX, NS, NSEC, RRSIG, Record, Signed, number
from unsigned import CHILD, CNAME, SOA, SOA_RDATA, ns_of
from walk import ADDRESS, EXAMPLE, KEYS, WWW

NAME_ERROR, TXT = 3, 16
W, STAR, X = [b"w", b"example"], [b"*", b"w", b"example"], [b"x", b"w", b"example"]
ML, OTHERS = [b"ml", b"example"], [b"other", *CHILD]
BELOW = [b"www", *CHILD]
KEY_OF_W = texts.key_of(bytes.fromhex("77"))
IS_BOGUS = "fault nsec bogus"


# ---- records

def name(text):
    return [label.encode() for label in text.split(".") if label]


def bitmap(*types):
    """RFC 4034, 4.1.2; here types below 256."""
    octets = bytearray(max(types) // 8 + 1)
    for kind in types:
        octets[kind // 8] |= 0x80 >> kind % 8
    return bytes([0, len(octets)]) + bytes(octets)


def nsec(owner, following, *types):
    return Record(name(owner), NSEC, texts.wire(name(following)) + bitmap(*types, RRSIG, NSEC))


def signed_zone(*further):
    """`example.` has one key, which is anchored and signs what lies in the zone; and so have further zones."""
    zones = [(EXAMPLE, KEYS[0]), *further]
    scene = Scene(*zones)
    for zone, key in zones:
        scene.says(zone, DNSKEY, [Record(zone, DNSKEY, key)])
    return scene


def by_example(scene, *records):
    return [one for record in records for one in scene.signed([record], KEYS[0], EXAMPLE)]


def expanded(scene, owner, kind, rdata):
    """A set at the name, made from `*.w.example.` by its signature of two labels (RFC 4035, 5.3.2)."""
    wild = Signed([Record(STAR, kind, rdata)], KEYS[0], signer=EXAMPLE)
    scene.accepts.append(wild.accept())
    return [Record(owner, kind, rdata), Record(owner, RRSIG, wild.rrsig().rdata)]


def asked(kind, *records, at=ML, code=0):
    """A query of the signed zone, and the answer to it: no records but these in the authority section."""
    scene = signed_zone()
    scene.says(at, kind, authorities=by_example(scene, *records), code=code)
    return scene.session(at, kind)


# ---- names and types that aren't there

def name_error(following):
    return asked(A, nsec("b.example", following, NS), nsec("example", "a.example", SOA, NS), code=NAME_ERROR)


def name_error_by_two_records():
    """neither the name nor a wildcard is there, and two records say so"""
    says = ["denial absent secure", "ending absent secure", "code 3", "chains 2", "asks 3"]
    return name_error("ns1.example"), says, TRAIL


def name_error_beside_seven_others():
    """of nine signed NSEC sets two deny the name and the wildcard; each asks for the keys of the zone"""
    others = [nsec(f"o{k}.example", f"o{k + 1}.example", A) for k in range(7)]
    session = asked(A, nsec("b.example", "ns1.example", NS), nsec("example", "a.example", SOA, NS), *others, code=NAME_ERROR)
    return session, ["denial absent secure", "ending absent secure", "code 3", "chains 9", "asks 10"], TRAIL


def name_error_of_a_name_with_another_below():
    """a record whose next name lies below the name: the name exists, so there is no name error"""
    return name_error("a.ml.example"), IS_BOGUS


def name_error_without_the_name():
    """no record covers the name: that of the wildcard alone shows nothing"""
    return asked(A, nsec("example", "a.example", SOA, NS), code=NAME_ERROR), IS_BOGUS


def name_error_without_the_wildcard():
    """no record covers the wildcard that would answer"""
    return asked(A, nsec("b.example", "ns1.example", NS), code=NAME_ERROR), IS_BOGUS


def signed_together(scene, records):
    """One set, which `example.` signed. A message of a thousand of them is packed."""
    scene.is_packed = True
    return scene.signed(records, KEYS[0], EXAMPLE)


def denial_by_a_thousand_records():
    """Of as many records of the name the first decides."""
    scene = signed_zone()
    scene.says(ML, A, authorities=signed_together(scene, [nsec("ml.example", f"n{k}.example", TXT) for k in range(1_000)]))
    session = scene.session(ML, A)
    return session, finds(session, ["denial absent secure", "chains 1", "asks 2"]), 0


def type_that_a_name_lacks():
    """the record of the name itself says which types it has"""
    says = ["denial absent secure", "code 0", "authority ml.example. NSEC secure", "chains 1", "asks 2"]
    return asked(A, nsec("ml.example", "ns1.example", TXT)), says, TRAIL


def denial_that_cannot_be_read():
    """a secure NSEC record that can't be read denies nothing, and no answer stands beside it"""
    scene = signed_zone()
    denials = by_example(scene, Record(ML, NSEC, b""))
    scene.says(WWW, A, by_example(scene, Record(WWW, A, ADDRESS)), authorities=denials)
    return scene.session(WWW, A), IS_BOGUS


def address_at_an_apex():
    """where the NSEC record at a delegation has SOA too, it is of the zone below and tells nothing of a DS"""
    scene = signed_zone()
    scene.says(CHILD, A, [Record(CHILD, A, ADDRESS)])
    scene.says(CHILD, NS, [ns_of(CHILD)])
    scene.says(CHILD, DS, authorities=by_example(scene, nsec("child.example", "d.example", NS, SOA)))
    return scene.session(CHILD, A), ["set answer child.example. A bogus table - 0 2", "ending denied bogus"], TRAIL


# ---- expansions

def expansion(*denials):
    scene = signed_zone()
    scene.says(X, MX, expanded(scene, X, MX, number(10, 2) + texts.wire(WWW)), authorities=by_example(scene, *denials))
    return scene.session(X, MX)


def expansion_with_its_denial():
    """an answer from a wildcard, beside the record that denies a closer name"""
    says = ["denial expanded secure", "ending expanded secure", "answer x.w.example. MX secure", "chains 2"]
    return expansion(nsec("*.w.example", "xw.example", MX)), says, TRAIL


def expansion_without_a_denial():
    """the same without any NSEC record"""
    return expansion(), IS_BOGUS


def expansion_past_a_closer_name():
    """where a closer name is there, the record that covers the name says so"""
    return expansion(nsec("a.x.w.example", "y.x.w.example", MX)), IS_BOGUS


# ---- which records count, and for which zone

def denial_elsewhere(section):
    """The record that denies the type stands in this section of the reply, and not among the authorities."""
    scene = signed_zone()
    denials = by_example(scene, nsec("ml.example", "ns1.example", TXT))
    scene.says(ML, A, *([denials] if section == "answer" else []), additionals=denials if section == "additional" else ())
    return scene.session(ML, A)


def denial_in_the_answer_section():
    """a secure NSEC record of the answer section denies nothing"""
    return denial_elsewhere("answer"), IS_BOGUS


def denial_in_the_additional_section():
    """nor does one of the additional section"""
    return denial_elsewhere("additional"), IS_BOGUS


def expanded_denial_beside_an_answer():
    """an NSEC set whose signature has fewer labels than its owner is bogus"""
    scene = signed_zone()
    beside = expanded(scene, [b"b", *W], NSEC, nsec("w.example", "z.example", A).rdata)
    scene.says(WWW, A, by_example(scene, Record(WWW, A, ADDRESS)), additionals=beside)
    return scene.session(WWW, A), ["answer www.example. A secure", "additional b.w.example. NSEC bogus", "denial none"], TRAIL


def denials_of_two_zones():
    """records that two zones signed are never joined"""
    scene = signed_zone((W, KEY_OF_W))
    denials = by_example(scene, nsec("example", "a.example", SOA, NS))
    denials += scene.signed([nsec("w.example", "z.w.example", SOA, NS)], KEY_OF_W, W)
    scene.says(X, A, authorities=denials, code=NAME_ERROR)
    return scene.session(X, A), IS_BOGUS


def no_ds(*signed):
    """The DS of `w.example.` is asked for, and the record of that name says that there is none, with these signatures."""
    scene = signed_zone((W, KEY_OF_W))
    record = nsec("w.example", "z.example", NS)
    signatures = [scene.signed([record], key, zone, is_accepted=is_accepted)[1] for zone, key, is_accepted in signed]
    scene.says(W, DS, authorities=[record, *signatures])
    return scene.session(W, DS)


def denial_by_its_second_signature():
    """the zone of a denial is the signer of the signature that decided, here the second"""
    says = ["denial absent secure", "set authority w.example. NSEC secure table 1 0 1", "chains 1"]
    return no_ds((W, KEY_OF_W, False), (EXAMPLE, KEYS[0], True)), says, TRAIL


def ds_denied_by_its_own_zone():
    """a DS stands above its zone, which can't deny it"""
    return no_ds((W, KEY_OF_W, True)), IS_BOGUS


def denial_of_the_target_of_a_cname():
    """a plain answer needs no denial, so that one beside it, of its target, is refused"""
    scene = signed_zone()
    alias = Record(WWW, CNAME, texts.wire(name("z.example")))
    scene.says(WWW, A, by_example(scene, alias), authorities=by_example(scene, nsec("z.example", "example", MX)))
    return scene.session(WWW, A), IS_BOGUS


# ---- zones that aren't signed

def no_records_of_an_unsigned_zone(*authorities):
    """`child.example.` is delegated without a DS record, which an NSEC record at it says; names below it have no NS records."""
    scene = signed_zone()
    scene.says(BELOW, A, authorities=authorities)
    scene.says(BELOW, NS)
    scene.says(CHILD, NS, [ns_of(CHILD)])
    scene.says(CHILD, DS, authorities=by_example(scene, nsec("child.example", "d.example", NS)))
    scene.says(OTHERS, NS)
    return scene.session(BELOW, A)


def unsigned_soa_above_the_name():
    """a reply without records, with the SOA of the unsigned zone: what is insecure above the name excuses"""
    says = ["denial absent insecure", "authority child.example. SOA insecure", "last ending absent insecure", "asks 4"]
    return no_records_of_an_unsigned_zone(Record(CHILD, SOA, SOA_RDATA)), says, TRAIL


def unsigned_soa_beside_the_name():
    """where its owner isn't above the name, the zone of the name is searched for"""
    says = ["denial absent insecure", "last ending absent insecure 4 5 6", "asks 8"]
    return no_records_of_an_unsigned_zone(Record(OTHERS, SOA, SOA_RDATA)), says, TRAIL


def no_record_at_all_of_an_unsigned_zone():
    """a reply without any record: the zone of the name is searched for"""
    return no_records_of_an_unsigned_zone(), ["denial absent insecure", "last ending absent insecure 0 1 3", "asks 5"], TRAIL


MADE = (name_error_by_two_records, name_error_beside_seven_others, name_error_of_a_name_with_another_below, name_error_without_the_name,
        name_error_without_the_wildcard, type_that_a_name_lacks, denial_that_cannot_be_read,
        address_at_an_apex, expansion_with_its_denial, expansion_without_a_denial, expansion_past_a_closer_name,
        denial_in_the_answer_section, denial_in_the_additional_section,
        expanded_denial_beside_an_answer, denials_of_two_zones, denial_by_its_second_signature, ds_denied_by_its_own_zone,
        denial_of_the_target_of_a_cname, unsigned_soa_above_the_name, unsigned_soa_beside_the_name,
        no_record_at_all_of_an_unsigned_zone)

if __name__ == "__main__":
    sys.exit(main(sys.modules[__name__], sys.argv[1:]))
