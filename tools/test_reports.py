#!/usr/bin/env python3
"""Tests of `tools/show` and `tools/picture`. The gate runs them by `tools/check_repository`; alone: `python3 tools/test_reports.py`.

Expected texts are the examples of the RFCs and, for those that no RFC has, what dnspython 2.3.0 writes; so are the octets."""
import glob
import json
import os
import subprocess
import sys
import unittest
from xml.etree import ElementTree

HERE = os.path.dirname(os.path.realpath(__file__))
TOP = os.path.dirname(HERE)
sys.dont_write_bytecode = True
sys.path[:0] = [HERE, f"{TOP}/rows"]
import denied  # noqa: E402
import drawing  # noqa: E402
import graph as graphs  # noqa: E402
import model  # noqa: E402
import presentation  # noqa: E402
import reading  # noqa: E402
import reasons  # noqa: E402
import report_lines  # noqa: E402
import reports  # noqa: E402
import rolled  # noqa: E402
import shown  # noqa: E402

# the type, the rdata's octets and its presentation form
RDATAS = (
    ("A", "c0000201", "192.0.2.1"),
    ("AAAA", "20010db8000000000000000000000001", "2001:db8::1"),
    ("AAAA", "00000000000000000000ffffc0000201", "::ffff:192.0.2.1"),
    # RFC 1035, 5.3
    ("NS", "0656454e455241034953490345445500", "VENERA.ISI.EDU."),
    ("MX", "000a0656454e455241034953490345445500", "10 VENERA.ISI.EDU."),
    ("SOA", "0656454e4552410349534903454455000e616374696f6e2e646f6d61696e730349534903454455000000001400001c20000002580036ee800000003c",
     r"VENERA.ISI.EDU. action\.domains.ISI.EDU. 20 7200 600 3600000 60"),
    ("PTR", "0441444452044152504100", "ADDR.ARPA."),
    ("CNAME", "116140622263286429653b66246720682e69076578616d706c6500", r'a\@b\"c\(d\)e\;f\$g\032h\.i.example.'),
    ("DNAME", "1066726f626f7a7a2d6469766973696f6e0461636d65076578616d706c6500", "frobozz-division.acme.example."),
    ("TXT", "1361202271756f74656422205c20737472696e67000200ff", r'"a \"quoted\" \\ string" "" "\000\255"'),
    ("SRV", "0000000100090c6f6c642d736c6f772d626f78076578616d706c6503636f6d00", "0 1 9 old-slow-box.example.com."),
    # RFC 4034, 2.3, 3.3, 4.3 and 5.4; RFC 4509, 2.3
    ("DNSKEY", "010003050103d22a6ca77f35b893206fd35e4c506d8378843709b97e041647e1bff43d8d64c649af1e371973c9e891fce3df519a8c840a63ee42a6d2ebddbb97035d"
     "215aa4e417b1fa45fa11a9741ea2098c1dfa5fb5feb332fd4bc8152089aef36ba644cce2413b3b72be18cbef8da253f4e93d2103866d9234a2e28df529a67d5468dbefe3",
     "256 3 5 AQPSKmynfzW4kyBv015MUG2DeIQ3Cbl+BBZH4b/0PY1kxkmvHjcZc8nokfzj31GajIQKY+5CptLr3buXA10hWqTkF7H6RfoRqXQeogmMHfpftf6zMv1LyBUgia7za6ZE"
     "zOJBOztyvhjL742iU/TpPSEDhm2SNKLijfUppn1UaNvv4w=="),
    ("RRSIG", "00010503000151803e7c9dd73e5510d70a52076578616d706c6503636f6d00a090755ba58d1affa576f4375831b4310920e481218d18a9f164eb3d81afd3b875d3c754"
     "28631e0cf2a28d50875f70c329d7dbfafea807dc1fba1dc34c95d401f23f334ce63bfcf3f1b5b44739e5f0eded18d6b33f040a911376d173d757a9f0c1fa1798941bb0b3"
     "6b2df9062790fa7f0166f2737eea907378341fb12dc0a77a",
     "A 5 3 86400 20030322173103 20030220173103 2642 example.com. oJB1W6WNGv+ldvQ3WDG0MQkg5IEhjRip8WTrPYGv07h108dUKGMeDPKijVCHX3DDKdfb+v6oB9wf"
     "uh3DTJXUAfI/M0zmO/zz8bW0Rznl8O3tGNazPwQKkRN20XPXV6nwwfoXmJQbsLNrLfkGJ5D6fwFm8nN+6pBzeDQfsS3Ap3o="),
    ("NSEC", "04686f7374076578616d706c6503636f6d000006400100000003041b000000000000000000000000000000000000000000000000000020",
     "host.example.com. A MX RRSIG NSEC TYPE1234"),
    ("DS", "ec4505012bb183af5f22588179a53b0a98631fad1a292118", "60485 5 1 2BB183AF5F22588179A53B0A98631FAD1A292118"),
    ("DS", "ec450502d4b7d520e7bb5f0f67674a0cceb1e3e0614b93c4f9e99b8383f6a1e4469da50a",
     "60485 5 2 D4B7D520E7BB5F0F67674A0CCEB1E3E0614B93C4F9E99B8383F6A1E4469DA50A"),
    # RFC 5155, appendix A; without a salt and a type
    ("NSEC3", "0101000c04aabbccdd14174eb2409fe28bcb4887a1836f957f0a8425e27b000722010000000290",
     "1 1 12 aabbccdd 2t7b4g4vsa5smi47k61mv5bv1a22bojr NS SOA MX RRSIG DNSKEY NSEC3PARAM"),
    ("NSEC3", "010000000014174eb2409fe28bcb4887a1836f957f0a8425e27b", "1 0 0 - 2t7b4g4vsa5smi47k61mv5bv1a22bojr"),
    # RFC 3597, 5; the last two haven't the shape of their type
    ("TYPE731", "abcdef012345", r"\# 6 abcdef012345"),
    ("TYPE62347", "", r"\# 0"),
    ("A", "c00002", r"\# 3 c00002"),
    ("MX", "000a0161", r"\# 4 000a0161"),
)

REPORT = """dns-report 1
code 0
denial none
answer . IN NS 1000 secure 016100
chain answer 3
anchored . IN 0101030daabb
keyset . IN 0 0101030daabb
signed . IN NS 1 0101030daabb 00020d0000000e10000007d000000384aec900c0de 016100
trail 2
step 1 judged . DNSKEY
got 0
told answer . IN DNSKEY 3600 0101030daabb
set answer . DNSKEY secure table -
ending none
step 0 judged . NS
got 0
told answer . IN NS 3600 016100
told answer . IN RRSIG 3600 00020d0000000e10000007d000000384aec900c0de
set answer . NS secure table 0 0
ending none
end
"""

# what is changed in the report, and the number of the first line that is bad then
CHANGES = (
    ("dns-report 1", "dns-report 2", 1), ("dns-report 1\n", "", 1), ("dns-report 1", "dns-session 1", 1), ("code 0", "code 4096", 2),
    ("code 0", "code 00", 2), ("code 0", "code  0", 2), ("code 0", "code 0 ", 2), ("code 0", "code 0\r", 2), ("code 0", "code +0", 2),
    ("denial none", "denial absent", 3), ("denial none", "denial none secure", 3), ("denial none", "denial absent sure", 3),
    ("answer . IN", "answer .. IN", 4), ("answer . IN", "answer a IN", 4), ("answer . IN", "answer " + 64 * "a" + ". IN", 4),
    ("answer . IN", "answer " + 128 * "a." + " IN", 4), ("answer . IN", r"answer \300. IN", 4), ("answer . IN", "answer \u00e4. IN", 4),
    ("NS 1000", "TYPE2 1000", 4), ("NS 1000", "TYPE65536 1000", 4), ("IN NS 1000", "CLASS1 NS 1000", 4), ("1000 secure", "4294967296 secure", 4),
    ("secure 016100", "secure 01610", 4), ("secure 016100", "secure 0161AA", 4), ("secure 016100", "sure 016100", 4),
    ("chain answer 3", "chain question 3", 5), ("chain answer 3", "chain answer 4", 9), ("chain answer 3", "chain answer 2", 8),
    ("anchored . IN 0101030daabb", "anchored . IN 010103", 6), ("keyset . IN 0", "keyset . IN 1", 7), ("NS 1 0101030daabb", "NS 2 0101030daabb", 8),
    ("daabb 00020d0000000e10000007d000000384aec900c0de", "daabb 0002", 8), ("trail 2", "trail 1", 15), ("trail 2", "trail 3", 21),
    ("trail 2", "trail 1025", 9), ("step 1 judged", "step 256 judged", 10), ("step 1 judged", "step 1 asked", 10), ("got 0\n", "got zero\n", 11),
    ("got 0\n", "got fault\n", 12), ("table -", "table 0", 13), ("table -", "repeat-0 -", 13), ("table -", "told -", 13),
    ("set answer . DNSKEY", "set answer a. DNSKEY", 13), ("ending none\nstep", "ending over\nstep", 14), ("table 0 0", "table 1 0", 19),
    ("RRSIG 3600 00020d0000000e10000007d000000384aec900c0de", "RRSIG 3600 00020d", 19),
    ("table 0 0", "table 0 1", 19), ("table 0 0", "table 0 never", 19), ("end\n", "", 21), ("\nend\n", "\nend", 21), ("\nend\n", "\nend\nend\n", 22),
)


def stored_reports():
    """Those among the outputs of rows and examples; the others are fault lines, `bad line` and the like."""
    for path in sorted(glob.glob(f"{TOP}/rows/*.out") + glob.glob(f"{TOP}/examples/*.out") + glob.glob(f"{TOP}/examples/*.trail")):
        with open(path, "rb") as file:
            octets = file.read()
        if octets.startswith(b"dns-report"):
            yield os.path.relpath(path, TOP), octets


class Rdatas(unittest.TestCase):
    def test_presentation_form(self):
        for word, octets, text in RDATAS:
            record = reading.Record((), reading.type_in(word), 1, 0, bytes.fromhex(octets))
            self.assertEqual(presentation.rdata_text(record), text)

    def test_times_are_utc(self):
        self.assertEqual(presentation.time_text(0), "1970-01-01 00:00:00 UTC")
        # RFC 4034, 3.3 has this expiration
        self.assertEqual(presentation.time_text(0x3E7C9DD7), "2003-03-22 17:31:03 UTC")
        self.assertEqual(presentation.time_text(2**64 - 1), "18446744073709551615 seconds after 1970")


class Grammar(unittest.TestCase):
    def test_the_report_is_read(self):
        report = reports.report_in(REPORT.encode())
        self.assertEqual((len(report.records), len(report.chains[0].links), len(report.steps)), (1, 3, 2))

    def test_the_first_bad_line_is_named(self):
        for old, new, number in CHANGES:
            self.assertIn(old, REPORT)
            with self.assertRaises(report_lines.BadLine, msg=new) as raised:
                reports.report_in(REPORT.replace(old, new, 1).encode())
            self.assertEqual(raised.exception.number, number, f"{new!r}: {raised.exception}")

    def test_causes_stand_behind_a_report(self):
        text = f"{REPORT}why 0 answer . DNSKEY none\nwhy 1 answer . NS net\n"
        report = reports.report_in(text.encode())
        self.assertEqual([entry.cause for step in report.steps for entry in step.sets], [None, "net"])
        self.assertEqual(reports.report_in(text.replace("end\n", "end\nfault nsec bogus\n").encode()).fault, "nsec bogus")
        for old, new, number in (("why 1 answer . NS net\n", "", 23), ("NS net", "NS never", 23), ("why 0", "why 1", 22),
                                 ("why 0 answer . DNSKEY none\n", "", 22), ("NS net\n", "NS net\nend\n", 24), ("\nend\n", "\nend\nfault\nfault\n", 23)):
            with self.assertRaises(report_lines.BadLine, msg=new) as raised:
                reports.report_in(text.replace(old, new, 1).encode())
            self.assertEqual(raised.exception.number, number, f"{new!r}: {raised.exception}")

    def test_each_stored_report_is_read_and_shown(self):
        count = 0
        for path, octets in stored_reports():
            with self.subTest(path):
                report = reports.report_in(octets)
                count += 1
                self.assertGreaterEqual(len(shown.text_of(report, None).splitlines()), 1 + len(report.records))
                value = json.loads(json.dumps(shown.value_of(report, None)))
                self.assertEqual([len(chain["links"]) for chain in value["chains"]], [len(chain.links) for chain in report.chains])
                ElementTree.fromstring(drawing.picture(report, None))
        self.assertGreater(count, 90)


class TrustedKeys(unittest.TestCase):
    def test_keys_are_records_with_tags(self):
        """The tags of the root's keys are those of IANA's "Root Anchors"."""
        with open(f"{TOP}/rows/roll-of-the-root-2018-10-11.out", "rb") as file:
            keys = rolled.keys_in(file.read(), ())
        lines = rolled.text_of(keys).splitlines()
        self.assertEqual([line.partition(" ; ")[2] for line in lines], ["key 19036 (RSASHA256), SEP", "key 20326 (RSASHA256), SEP"])
        self.assertTrue(all(line.startswith(". IN DNSKEY 257 3 8 AwEAAa") for line in lines))
        self.assertEqual([key["tag"] for key in rolled.value_of(keys)], [19036, 20326])

    def test_bad_lines_are_named(self):
        for text, number in ((b"trusted 01\n", 1), (b"trusted 0101030daabb\nkey 0101030daabb\n", 2), (b"trusted 0101030daabb\n\n", 2), (b"trusted 010x\n", 1)):
            with self.assertRaises(report_lines.BadLine) as raised:
                rolled.keys_in(text, ())
            self.assertEqual(raised.exception.number, number)


class Denials(unittest.TestCase):
    def test_each_line_is_said_in_words(self):
        with open(f"{TOP}/rows/deny-two-names.out", "rb") as file:
            octets = file.read()
        self.assertTrue(denied.is_denied(octets))
        said = denied.denials_in(octets)
        self.assertEqual(denied.text_of(said), "mm.example. A: the name doesn't exist; 3600 seconds are left\nzz.example. A: unknown; ask a server\n")
        self.assertEqual(denied.value_of(said)[0]["denied"], {"code": 3, "ttl": 3600})

    def test_bad_lines_are_named(self):
        for text, number in ((b"a. A unknown\na. A denied 2 5\n", 2), (b"a. A unknown\n\n", 2), (b"a. A denied 3 05\n", 1)):
            with self.assertRaises(report_lines.BadLine) as raised:
                denied.denials_in(text)
            self.assertEqual(raised.exception.number, number)
        self.assertFalse(denied.is_denied(b"fault busy\n"))


class Pictures(unittest.TestCase):
    def test_pictures_of_examples_are_current(self):
        names = [os.path.basename(path).removesuffix(".svg") for path in sorted(glob.glob(f"{TOP}/examples/*.svg"))]
        self.assertGreaterEqual(len(names), 3)
        for name in names:
            with open(f"{TOP}/examples/{name}.session", "rb") as session, open(f"{TOP}/examples/{name}.trail", "rb") as trail:
                asked, report = reading.session_in(session.read()), reports.report_in(trail.read())
            with open(f"{TOP}/examples/{name}.svg", encoding="utf-8") as picture, open(f"{TOP}/docs/PICTURES.md", encoding="utf-8") as page:
                is_current, is_shown = drawing.picture(report, asked.moment, asked) == picture.read(), f"](../examples/{name}.svg)" in page.read()
            self.assertTrue(is_current, f"tools/picture --session examples/{name}.session examples/{name}.trail > examples/{name}.svg")
            self.assertTrue(is_shown, f"docs/PICTURES.md doesn't show examples/{name}.svg")

    def test_boxes_lie_apart_and_within(self):
        """No box of a node covers another or leaves its zone, whatever is drawn."""
        for path, octets in stored_reports():
            graph = graphs.Graph(reports.report_in(octets), None)
            layout = drawing.Layout(graph, 0, 0)
            for zone in graph.zones.values():
                outer, boxes = layout.boxes[id(zone)], [layout.boxes[id(node)] for node in zone.nodes]
                for place, box in enumerate(boxes):
                    self.assertTrue(is_within(box, outer), path)
                    self.assertFalse(any(is_over(box, other) for other in boxes[:place]), path)


    def test_arrows_lead_through_no_box(self):
        for path, octets in stored_reports():
            graph = graphs.Graph(reports.report_in(octets), None)
            layout = drawing.Layout(graph, 0, 0)
            nodes = [node for zone in graph.zones.values() for node in zone.nodes]
            for arrow, points in drawing.arrow_points(graph, layout, drawing.Routes(layout)):
                way = list(places_on(points))
                for node in nodes:
                    if node is not arrow.start and node is not arrow.end:
                        self.assertFalse(any(is_inside(place, layout.boxes[id(node)]) for place in way), f"{path}: {arrow.tip}, {node.lines}")

    def test_no_label_is_broken(self):
        name = "a" * 60 + "." + "b" * 60 + ".example."
        self.assertEqual(drawing.wrapped(f"up to {name} here", 36), ["up to", "a" * 60 + ".", "b" * 60 + ".", "example. here"])


def places_on(points):
    """Forty places on each part of a path, as `drawing.curve` draws it."""
    for (left, top), (to_left, to_top) in zip(points, points[1:]):
        for share in (step / 40 for step in range(41)):
            rest = 1 - share
            bow = 3 * share * rest * rest * (top + (to_top - top) * 0.45) + 3 * share * share * rest * (to_top - (to_top - top) * 0.45)
            bent = rest ** 3 * top + bow + share ** 3 * to_top
            is_bow = abs(to_left - left) >= 0.05 and abs(to_top - top) >= 0.05
            across = (rest ** 3 + 3 * share * rest * rest) * left + (3 * share * share * rest + share ** 3) * to_left
            yield (across, bent) if is_bow else (left + (to_left - left) * share, top + (to_top - top) * share)


def is_inside(place, box):
    return box.left < place[0] < box.left + box.width and box.top < place[1] < box.bottom()


def is_within(box, outer):
    return outer.left < box.left and box.left + box.width < outer.left + outer.width and outer.top < box.top and box.bottom() < outer.bottom()


def is_over(box, other):
    return (box.left < other.left + other.width and other.left < box.left + box.width and box.top < other.bottom() and other.top < box.bottom())


class Words(unittest.TestCase):
    """Lines of `show` for docs/FORMATS.md's own example. The tag 44745 is that of its key by RFC 4034, appendix B: 0x0101 + 0x030d + 0xaabb."""

    def test_links_in_words(self):
        text = shown.text_of(reports.report_in(REPORT.encode()), None)
        for line in ("  secure         . 1000 IN NS a.", "   0  Key 44745 (ECDSAP256SHA256) of . is a trust anchor.",
                     "   1  The DNSKEY set of . is shown key by key: key 44745 (ECDSAP256SHA256) by link 0.",
                     "   2  Key 44745 (ECDSAP256SHA256) of ., shown by link 1, signed the NS set of . until 1970-01-01 00:33:20 UTC.",
                     "  . NS  (step 1, depth 0)", "      . DNSKEY  (step 0, depth 1)"):
            self.assertIn(line, text.splitlines())

    def test_an_ended_signature_is_named(self):
        report = reports.report_in(REPORT.replace("NS secure table 0 0", "NS bogus table - 0").encode())
        self.assertIn(" ended at 1970-01-01 00:33:20 UTC, 1 second before", shown.text_of(report, 2001))
        self.assertNotIn(" ended at ", shown.text_of(report, 2000))


class Causes(unittest.TestCase):
    """What `show` says of rows that aren't Secure: the signature, the DS record, the name or the query that is at fault."""

    CASES = (
        ("examples/expired", "the signature by key 56361 (ECDSAP256SHA256) of . ended at 2025-12-01 00:00:00 UTC, 62 days before"),
        ("examples/oo-bad", "the DS record 42474 (ECDSAP256SHA256, SHA-256) has another digest than the key of that tag"),
        ("examples/ins-unkalg", "no DS record of unkalg.example. has an algorithm and a digest type that are supported"),
        ("rows/ds-set-that-is-not-accepted", "the signature by key 44745 (ECDSAP256SHA256) of . isn't accepted"),
        ("rows/truncated-keys", "the query for example. DNSKEY has no answer, and its denial is Bogus: the reply was truncated"),
        ("rows/refused-keys", "the query for example. DNSKEY was answered with REFUSED"),
        ("rows/explained-nested-busy", "a query that it needs failed; . has no keys to judge by; the query for . DNSKEY got no reply: the server was busy"),
        ("rows/explained-search-up-to-the-root", "neither a DS record of its zone nor its absence is shown"),
        ("rows/explained-nsec3-that-covers-too-little", "no NSEC3 record covers the wildcard *.x.w.example."),
        ("examples/it501-nx", "names are hashed 501 times more, which is over 500"),
    )

    def test_causes(self):
        for name, said in self.CASES:
            with open(f"{TOP}/{name}.session", "rb") as file:
                octets = file.read()
            session, report = reading.session_in(octets), reports.report_in(model.written(octets, (b"explain",))[0])
            reasons.told_faults(report, session)
            self.assertIn(said, shown.text_of(report, session.moment))


class Ends(unittest.TestCase):
    """The status and the message of the commands."""

    def end(self, script, text=REPORT):
        ended = subprocess.run(["sh", "-c", script], input=text.encode(), capture_output=True, cwd=TOP, timeout=60, check=False)
        self.assertNotIn(b"Traceback", ended.stderr)
        return ended.returncode, ended.stderr.decode()

    def test_statuses(self):
        for tool in ("tools/show", "tools/picture"):
            self.assertEqual(self.end(f"{tool} - > /dev/null"), (0, ""))
            self.assertEqual(self.end(f"{tool} -", "fault timeout\n"), (1, f"{tool}: - has no report, and says why: fault timeout\n"))
            self.assertEqual(self.end(f"{tool} --moment x -")[0], 2)
            self.assertEqual(self.end(tool)[0], 2)
            self.assertEqual(self.end(f"{tool} -", "bad line 3\n")[0], 3)
            self.assertEqual(self.end(f"{tool} -", "")[0], 3)
            self.assertEqual(self.end(f"{tool} missing"), (4, f"{tool}: missing can't be read: No such file or directory\n"))
            self.assertEqual(self.end(f"{tool} rows"), (4, f"{tool}: rows can't be read: Is a directory\n"))
            self.assertEqual(self.end(f"{tool} - <&-")[0], 4)
            self.assertEqual(self.end(f"{tool} - > /dev/full"), (5, f"{tool}: the output can't be written: No space left on device\n"))
            self.assertEqual(self.end(f"{tool} - >&-"), (5, f"{tool}: the output can't be written: the output is closed\n"))


if __name__ == "__main__":
    unittest.main()
