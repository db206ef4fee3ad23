#!/usr/bin/env python3
"""The rows of answers by NSEC3 (RFC 5155), and of zones that NSEC3 records show to be unsigned.

What has to be written is what `model.py` has for the session, and each row says besides what has to be found in it, or the one line
that is written.

    python3 rows/hashed.py            writes the rows' files beside it
    python3 rows/hashed.py --check    says whether the files are those"""
import sys

import hashes
import texts
from denials import (IS_BOGUS, KEY_OF_W, ML, NAME_ERROR, TXT, W, WWW, X, asked, bitmap, by_example, expanded, name, nsec, signed_together,
                     signed_zone)
from scene import TRAIL, finds, main
from texts import A, DS, MX, NS, RRSIG, Record, number
from unsigned import CHILD, NSEC3, SOA, ns_of
from walk import ADDRESS, EXAMPLE

DNSKEY, NSEC3PARAM = 48, 51
SALT = bytes.fromhex("aabbccdd")
IS_INSECURE = "fault nsec insecure"
BELOW = [b"www", *CHILD]


# ---- records

def nsec3(owner, following, *types, zone="example", flags=0, iterations=12, salt=SALT):
    """The record of a name, whose hash comes before that of another one; RRSIG stands beside types, if there are some."""
    def hashed(text):
        return hashes.hash_of(name(text), salt, iterations)
    rdata = number(1, 1) + number(flags, 1) + number(iterations, 2) + number(len(salt), 1) + salt + b"\x14" + hashed(following)
    label = hashes.in_digits(hashed(owner))
    return Record([label, *name(zone)], NSEC3, rdata + (bitmap(*types) if types else b""))


# the records of RFC 5155, B.1: of the closest encloser, over the next closer name, and over the wildcard
ENCLOSER = nsec3("x.w.example", "ai.example", MX, RRSIG)
APEX = nsec3("example", "ns1.example", MX, DNSKEY, NS, SOA, NSEC3PARAM, RRSIG)
OVER_WILDCARD = nsec3("a.example", "x.w.example", DS, NS, RRSIG)
MISSING = name("a.c.x.w.example")


def opted_out(owner, following, *types):
    return nsec3(owner, following, *types, flags=1)


# ---- names that aren't there

def name_error(*records):
    return asked(A, *records, at=MISSING, code=NAME_ERROR)


def hashed_name_error():
    """three records say that a name isn't there: of the closest encloser, over the next closer name and over the wildcard"""
    says = ["denial absent secure", "last ending absent secure", "code 3", "chains 3", "asks 4"]
    return name_error(APEX, ENCLOSER, OVER_WILDCARD), says, TRAIL


def hashed_name_error_by_opt_out():
    """where the next closer name lies in an opt-out span, an unsigned zone may be there"""
    span = opted_out("example", "ns1.example", MX, DNSKEY, NS, SOA, NSEC3PARAM, RRSIG)
    return name_error(span, ENCLOSER, OVER_WILDCARD), IS_INSECURE


def hashed_name_error_without_the_wildcard():
    """nothing is said of the wildcard that would answer"""
    return name_error(APEX, ENCLOSER), IS_BOGUS


# ---- how often names are hashed

def hashed_so_often(iterations):
    """At `ml.example.` there is TXT alone."""
    return asked(A, nsec3("ml.example", "example", TXT, RRSIG, iterations=iterations))


def hashed_a_hundred_times():
    """a hundred iterations are judged"""
    return hashed_so_often(100), ["denial absent secure", "code 0", "chains 1"], TRAIL


def hashed_once_more():
    """with more nothing is proved, and nothing refuted"""
    return hashed_so_often(101), IS_INSECURE


def hashed_five_hundred_times():
    """up to five hundred"""
    return hashed_so_often(500), IS_INSECURE


def hashed_too_often():
    """and with more than these they are refused"""
    return hashed_so_often(501), IS_BOGUS


# ---- which records count

def denials_of_both_kinds():
    """secure NSEC3 records beside secure NSEC records are refused, though the latter would do"""
    denials = nsec("b.example", "ns1.example", A), nsec("example", "a.example", SOA, NS)
    return asked(A, *denials, nsec3("ml.example", "example", TXT, RRSIG), code=NAME_ERROR), IS_BOGUS


def hashed_denial_beside_an_answer():
    """those of the additional section deny nothing, and an answer stands beside them"""
    scene = signed_zone()
    beside = by_example(scene, nsec3("www.example", "example", TXT, RRSIG))
    scene.says(WWW, A, by_example(scene, Record(WWW, A, ADDRESS)), additionals=beside)
    return scene.session(WWW, A), ["answer www.example. A secure", "denial none", "last ending none"], TRAIL


def hashed_denial_in_the_answer_section():
    """nor do those of the answer section"""
    scene = signed_zone()
    scene.says(ML, A, by_example(scene, nsec3("ml.example", "example", TXT, RRSIG)))
    return scene.session(ML, A), IS_BOGUS


def plain_answer_beside_a_hashed_denial():
    """beside those of the authority section no plain answer stands"""
    scene = signed_zone()
    denial = by_example(scene, nsec3("www.example", "example", TXT, RRSIG))
    scene.says(WWW, A, by_example(scene, Record(WWW, A, ADDRESS)), authorities=denial)
    return scene.session(WWW, A), IS_BOGUS


def hashed_denials_of_two_zones():
    """records that two zones signed are never joined"""
    scene = signed_zone((W, KEY_OF_W))
    denials = by_example(scene, nsec3("x.w.example", "ai.example", TXT, RRSIG))
    denials += scene.signed([nsec3("w.example", "x.w.example", SOA, NS, RRSIG, zone="w.example")], KEY_OF_W, W)
    scene.says(X, A, authorities=denials)
    return scene.session(X, A), IS_BOGUS


def misplaced(scene):
    """A record right below `w.example.`, signed by `example.`"""
    return by_example(scene, nsec3("ml.example", "example", TXT, RRSIG, zone="w.example"))


def hashed_denial_of_another_zone():
    """an NSEC3 set stands right below its signer, or isn't secure"""
    scene = signed_zone()
    scene.says(ML, A, authorities=misplaced(scene))
    return scene.session(ML, A), IS_BOGUS


def hashed_denial_of_another_zone_beside_an_answer():
    """such a set is bogus, and denies nothing"""
    scene = signed_zone()
    scene.says(WWW, A, by_example(scene, Record(WWW, A, ADDRESS)), authorities=misplaced(scene))
    says = ["answer www.example. A secure", "denial none", "last ending none", "asks 3"]
    return scene.session(WWW, A), says, TRAIL


# ---- expansions

def expansion(*denials):
    scene = signed_zone()
    scene.says(X, MX, expanded(scene, X, MX, number(10, 2) + texts.wire(WWW)), authorities=by_example(scene, *denials))
    return scene.session(X, MX)


def expansion_with_its_hashed_denial():
    """an answer from a wildcard, beside the record over the name that would be closer"""
    says = ["denial expanded secure", "last ending expanded secure", "answer x.w.example. MX secure", "chains 2"]
    return expansion(round_of_the_apex(0)), says, TRAIL


def expansion_past_a_closer_name_by_hashes():
    """a record of that name doesn't deny it"""
    return expansion(nsec3("x.w.example", "ai.example", MX, RRSIG)), IS_BOGUS


# ---- zones that aren't signed

def child_asked_for(scene):
    """An unsigned address below `child.example.`, a zone whose DS set is asked for."""
    scene.says(BELOW, A, [Record(BELOW, A, ADDRESS)])
    scene.says(BELOW, NS)
    scene.says(CHILD, NS, [ns_of(CHILD)])
    return scene


def unsigned_child(*denials, code=0):
    """The answer to that ask has these records."""
    scene = child_asked_for(signed_zone())
    scene.says(CHILD, DS, authorities=by_example(scene, *denials), code=code)
    return scene.session(BELOW, A)


def round_of_the_apex(flags):
    """The one record of a zone spans all hashes but its own."""
    return nsec3("example", "example", MX, DNSKEY, NS, SOA, NSEC3PARAM, RRSIG, flags=flags)


INSECURE_BELOW = "answer www.child.example. A insecure"
BOGUS_BELOW = "answer www.child.example. A bogus"


def unsigned_below_an_opt_out_zone():
    """a zone without DS in an opt-out span may be unsigned: what is below it is insecure"""
    says = [INSECURE_BELOW, "denial none", "ending absent secure", "last ending none"]
    return unsigned_child(round_of_the_apex(1)), says, TRAIL


def unsigned_below_a_zone_without_opt_out():
    """without opt-out the record says that no such delegation is there, and shows none"""
    return unsigned_child(round_of_the_apex(0)), [BOGUS_BELOW, "denial none", "last ending none"], TRAIL


def name_error_of_an_opt_out_zone_to_the_ds_ask():
    """a name error that rests on opt-out answers no ask"""
    says = [BOGUS_BELOW, "ending denied insecure", "last ending none"]
    return unsigned_child(round_of_the_apex(1), code=NAME_ERROR), says, TRAIL


def of_the_child(*types):
    return nsec3("child.example", "example", *types)


def unsigned_delegation_by_hash():
    """a record of the delegation itself, with NS and without DS"""
    return unsigned_child(of_the_child(NS)), [INSECURE_BELOW, "ending absent secure", "last ending none"], TRAIL


def apex_in_place_of_a_delegation_by_hash():
    """with SOA it is of the zone below, and tells nothing of a DS"""
    return unsigned_child(of_the_child(NS, SOA, RRSIG)), [BOGUS_BELOW, "ending denied bogus", "last ending none"], TRAIL


def signed_delegation_by_hash():
    """with DS there is one"""
    return unsigned_child(of_the_child(NS, DS, RRSIG)), [BOGUS_BELOW, "ending denied bogus", "last ending none"], TRAIL


def no_delegation_by_hash():
    """without NS there is no DS, and no delegation either"""
    return unsigned_child(of_the_child(A, RRSIG)), [BOGUS_BELOW, "ending absent secure", "last ending none"], TRAIL


# ---- a thousand records

def thousand_records(owner, kind):
    return [nsec3(owner, f"n{k}.example", kind) for k in range(1_000)]


def hashed_denial_by_a_thousand_records():
    """Of as many records of the name the first decides."""
    scene = signed_zone()
    scene.says(ML, A, authorities=signed_together(scene, thousand_records("ml.example", TXT)))
    session = scene.session(ML, A)
    return session, finds(session, ["denial absent secure", "chains 1", "asks 2"]), 0


def unsigned_by_a_thousand_records():
    """As many records of a delegation say that it has no DS."""
    scene = child_asked_for(signed_zone())
    scene.says(CHILD, DS, authorities=signed_together(scene, thousand_records("child.example", NS)))
    session = scene.session(BELOW, A)
    return session, finds(session, [INSECURE_BELOW, "ending absent secure", "asks 5"]), 0


MADE = (hashed_name_error, hashed_name_error_by_opt_out, hashed_name_error_without_the_wildcard, hashed_a_hundred_times, hashed_once_more,
        hashed_five_hundred_times, hashed_too_often, denials_of_both_kinds, hashed_denial_beside_an_answer,
        hashed_denial_in_the_answer_section, plain_answer_beside_a_hashed_denial, hashed_denials_of_two_zones,
        hashed_denial_of_another_zone, hashed_denial_of_another_zone_beside_an_answer, expansion_with_its_hashed_denial,
        expansion_past_a_closer_name_by_hashes, unsigned_below_an_opt_out_zone, unsigned_below_a_zone_without_opt_out,
        name_error_of_an_opt_out_zone_to_the_ds_ask, unsigned_delegation_by_hash, apex_in_place_of_a_delegation_by_hash,
        signed_delegation_by_hash, no_delegation_by_hash)

if __name__ == "__main__":
    sys.exit(main(sys.modules[__name__], sys.argv[1:]))
