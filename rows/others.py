#!/usr/bin/env python3
"""The rows of `docs/OTHERS.md`: sessions that other validators are known to answer otherwise.

What has to be written is what `model.py` has for the session, and each row says besides what has to be found in it, or the one line
that is written.

    python3 rows/others.py            writes the rows' files beside it
    python3 rows/others.py --check    says whether the files are those"""
import sys

import texts
from denials import IS_BOGUS, ML, TXT, X, asked, by_example, nsec, signed_zone
from hashed import BOGUS_BELOW, nsec3, unsigned_child
from scene import PLAIN, TRAIL, main
from texts import A, DNSKEY, MX, NS, RRSIG, Record
from unsigned import SOA
from walk import ADDRESS, EXAMPLE, KEYS, WWW

ANY, NSEC3PARAM, REFUSED = 255, 51, 5
TRUNCATED = 0x02


def spans_all(iterations=12):
    """The one record of an opt-out zone spans all hashes but that of its apex."""
    return nsec3("example", "example", MX, DNSKEY, NS, SOA, NSEC3PARAM, RRSIG, flags=1, iterations=iterations)


def iterations_above_the_limit_in_the_ds_reply():
    """a denial of DS by more than a hundred iterations is insecure and shows no delegation, so an unsigned child is bogus"""
    return unsigned_child(spans_all(101)), [BOGUS_BELOW, "ending denied insecure", "last ending none"], TRAIL


def left_out_empty_non_terminal():
    """a name without a record in an opt-out span may be an empty non-terminal that the zone left out: no data is refused"""
    return asked(A, spans_all(), at=ML), IS_BOGUS


def any_answered_by_other_types():
    """to a query of type ANY the records of other types are no answer"""
    scene = signed_zone()
    scene.says(WWW, ANY, by_example(scene, Record(WWW, A, ADDRESS)))
    return scene.session(WWW, ANY), IS_BOGUS


def wildcard_that_is_an_empty_non_terminal():
    """no data below a wildcard that only has names below it asks for a record of that wildcard, and there is none"""
    return asked(A, nsec("w.example", "a.*.w.example", TXT), nsec("a.*.w.example", "xw.example", TXT), at=X), IS_BOGUS


def nested(scene, octets):
    """A signed address whose zone has no other key set than the one in these octets."""
    scene.replies = [line for line in scene.replies if not line.startswith("reply example. DNSKEY ")]
    scene.says(WWW, A, by_example(scene, Record(WWW, A, ADDRESS)))
    scene.replies.append(texts.reply(EXAMPLE, DNSKEY, octets))
    return scene.session(WWW, A)


def truncated_keys():
    """a truncated key set is judged as it stands: nothing is asked again by TCP"""
    octets = bytearray(texts.message(EXAMPLE, DNSKEY, []))
    octets[2] |= TRUNCATED
    return nested(signed_zone(), bytes(octets)), ["answer www.example. A bogus", "last ending none", "asks 3"], PLAIN


def refused_keys():
    """nor is another server asked where one refuses"""
    octets = texts.message(EXAMPLE, DNSKEY, [], code=REFUSED)
    return nested(signed_zone(), octets), ["answer www.example. A bogus", "last ending none", "asks 3"], PLAIN


def query_that_comes_back():
    """a query that a server sends back is a reply without records"""
    scene = signed_zone()
    octets = bytearray(texts.message(WWW, A, []))
    octets[2] = 0x01
    scene.replies.append(texts.reply(WWW, A, bytes(octets)))
    return scene.session(WWW, A), IS_BOGUS


MADE = (iterations_above_the_limit_in_the_ds_reply, left_out_empty_non_terminal, any_answered_by_other_types,
        wildcard_that_is_an_empty_non_terminal, truncated_keys, refused_keys, query_that_comes_back)

if __name__ == "__main__":
    sys.exit(main(sys.modules[__name__], sys.argv[1:]))
