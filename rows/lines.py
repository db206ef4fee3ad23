"""Lines of sessions, of reports and of texts of sightings: which can stand at which place, and the number of the first bad line of a text. `tools/run_rows` runs
each on the program.

The forms are those of docs/FORMATS.md. A session without a bad line comes to a report or to a fault; a report behind its session is
audited."""

VERSIONS = ("dns-session 1\n", "dns-session 2\n")
# what stands before a line and behind it, its number, lines that can stand there, and lines that can't
PLACES = (
    # the header
    ("",
     "\nmoment 0\nalgorithms\nquery . A\nend\n", 1, (
        "dns-session 1", "dns-session 2",
     ), (
        "", "dns-session 0", "dns-session 3", "dns-session 12", "dns-session 02", "dns-session", "dns-session  1",
        "dns-session 1 ", " dns-session 1", "dns-session 01", "dns-session 1\r",
     )),
    # the moment
    ("dns-session 1\n",
     "\nalgorithms\nquery . A\nend\n", 2, (
        "moment 0", "moment 18446744073709551615",
     ), (
        "moment", "moment ", "moment 00", "moment 01", "moment +1", "moment -1", "moment 1 2", "moment  1", "moment 1 ",
        "moment 18446744073709551616", "moment 36893488147419103232", "moment 340282366920938463463374607431768211457",
        "algorithms",
     )),
    # the algorithms
    ("dns-session 1\nmoment 0\n",
     "\nquery . A\nend\n", 3, (
        "algorithms", "algorithms 0 255 255",
     ), (
        "algorithms ", "algorithms 256", "algorithms 013", "algorithms 1  2", "algorithms 1 2 ", "algorithms 1 a",
        "query . A",
     )),
    # an anchor or an accepted signature
    ("dns-session 1\nmoment 0\nalgorithms\n",
     "\nquery . A\nend\n", 4, (
        "anchor . 13 aaBB", "anchor . 13 -", "anchor A\\.b\\009\\\\.C 255 0123456789abcdefABCDEF",
        "anchor www.example. 0 00", "anchor www.example 0 00", "accept 1 - - -", "accept 255 Aa bB 0C",
     ), (
        "anchor . 13", "anchor . 13 ", "anchor . 13 a", "anchor . 13 aabbc", "anchor . 13 ag", "anchor . 13 --",
        "anchor . 13 0x",
        "anchor . 13 aa bb", "anchor . 13  aa", "anchor . 256 aa", "anchor . 013 aa", "anchor .. 13 aa",
        "anchor a..b 13 aa", "anchor a\\256 13 aa", "accept 13 - -", "accept 13 - - - -", "reply . A -", "empty . A -",
        "fault . A io", "end",
     )),
    # the query
    ("dns-session 1\nmoment 0\nalgorithms\nanchor . 1 -\n",
     "\nend\n", 5, (
        "query . ANY", "query \\065.\\*.b NSEC3PARAM", "query . TYPE0", "query . TYPE65535", "query . TYPE3",
     ), (
        "query . TYPE1", "query . TYPE03", "query . TYPE65536", "query . TYPE", "query . a", "query . A IN", "query .",
        "query  . A", "query . ", "query . Ns", "query . AA", "query . type3", "query . TYPE 3",
     )),
    # a reply
    ("dns-session 1\nmoment 0\nalgorithms\nanchor . 1 -\nquery . A\n",
     "\nend\n", 6, (
        "reply . A -", "reply . A 00", "reply a. TYPE3 0000840000000000000000FF",
        "reply a. DNSKEY 000084000000000000000000", "reply \\200. IXFR aA",
     ), (
        "query . A", "reply . A", "reply . A 000", "anchor . 13 aa",
     )),
    # the depth
    ("dns-session 1\nmoment 0\n",
     "\nalgorithms\nquery . A\nend\n", 3, (
        "depth 0", "depth 65535",
     ), (
        "depth", "depth ", "depth  1", "depth 1 ", "depth 1 2", "depth 00", "depth 01", "depth +1", "depth -1", "depth -",
        "depth 0x1", "depth 65536", "depth 131071", "depth 18446744073709551616", "Depth 1", "depths 1",
     )),
)
# the same behind the query of a session of either version
REPLIES = (
    "moment 0\nalgorithms\nquery . A\n",
    "\nfault . A busy\nreply . A -\nempty . A -\nend\n", 5, (
        "reply . A -", "empty . A -", "empty . A 00", "empty . NS 000084020000000000000000",
        "empty a. TYPE3 0000840000000000000000FF", "empty \\200. IXFR aA", "fault . A timeout",
        "fault www.example DNSKEY io", "fault a\\.b. TYPE3 busy", "fault \\200. ANY io",
    ), (
        "reply . A io", "reply . A - -", "Reply . A -", "empty", "empty . A", "empty . A ", "empty . A 000", "empty . A io",
        "empty . A 00 00", "empty . A  00", "empty . TYPE1 00", "empty .. A 00", "Empty . A 00", "emptyy . A 00", "fault",
        "fault . A", "fault . A ", "fault . A -", "fault . A 00", "fault . A i", "fault . A iox", "fault . A IO",
        "fault . A Timeout", "fault . A time", "fault . A timeouts", "fault . A bus", "fault . A no-connections",
        "fault . A io busy", "fault . A  io", "fault . A io ", "fault  . A io", "fault . TYPE1 io", "fault .. A io",
        "fault io . A", "faults . A io",
    ))
# whole texts, with the number of their first bad line, or 0: whether they are whole and end with LF, and where a depth stands
TEXTS = (
    (0, (
        "dns-session 1\nmoment 1\nalgorithms\nquery . A\nend\n",
    )),
    (1, (
        "", "\n", "dns-session 1", "depth 1\ndns-session 1\nmoment 0\nalgorithms\nquery . A\nend\n",
    )),
    (2, (
        "dns-session 1\n", "dns-session 1\ndepth 1\nmoment 0\nalgorithms\nquery . A\nend\n",
    )),
    (3, (
        "dns-session 1\nmoment 0\ndepth 1",
    )),
    (4, (
        "dns-session 1\nmoment 1\nalgorithms\nquery . A",
        "dns-session 1\nmoment 0\ndepth 1\ndepth 1\nalgorithms\nquery . A\nend\n",
        "dns-session 1\nmoment 0\nalgorithms\ndepth 1\nquery . A\nend\n",
        "dns-session 1\nmoment 0\ndepth 1\nquery . A\nend\n",
    )),
    (5, (
        "dns-session 1\nmoment 1\nalgorithms\nquery . A\n", "dns-session 1\nmoment 1\nalgorithms\nquery . A\nend",
        "dns-session 1\nmoment 1\nalgorithms\naccept 1 - - -\nanchor . 1 -\nquery . A\nend\n",
        "dns-session 1\nmoment 0\ndepth 1\nalgorithms\ndepth 1\nquery . A\nend\n",
        "dns-session 1\nmoment 0\nalgorithms\nanchor . 1 -\ndepth 1\nquery . A\nend\n",
        "dns-session 2\nmoment 0\nalgorithms\nquery . A\ndepth 1\nend\n",
    )),
    (6, (
        "dns-session 1\nmoment 1\nalgorithms\nquery . A\nend\n\n",
        "dns-session 1\nmoment 1\nalgorithms\nquery . A\nend\nend\n",
        "dns-session 1\nmoment 1\nalgorithms\nquery . A\nend\n ",
        "dns-session 2\nmoment 0\nalgorithms\nquery . A\nend\ndepth 1\n",
    )),
)
# the same of what stands behind the algorithms: replies stand between the query and the end
TAILS = (
    (0, (
        "query . A\nfault . A io\nreply . A -\nempty . A -\nend\n",
    )),
    (4, (
        "fault . A io\nquery . A\nend\n",
    )),
    (5, (
        "query . A\nfault . A io",
    )),
    (6, (
        "query . A\nend\nempty . A -\n", "query . A\nfault . A io\n",
        "query . A\nempty . A -\nfault . A none\nempty . A 0\nend\n", "query . A\nfault . A busy\nquery . A\nend\n",
    )),
    (7, (
        "query . A\nfault . A io\nend\nfault . A io\n",
    )),
)

# the report behind a session, with the number of its first bad line, or 0
REPORTS = (
    (0, (
        "dns-report 1\ncode 65535\ndenial none\nend\n",
        "dns-report 1\ncode 3\ndenial expanded insecure\nend\n",
        "dns-report 1\ncode 0\ndenial none\nanswer a IN TXT 4294967295 indeterminate -\n"
        "authority \\065.b. CH TYPE3 0 bogus 0a\nadditional . CLASS7 A 0 insecure 0a\nend\n",
        "dns-report 1\ncode 0\ndenial none\nchain answer 3\nanchored . IN 0101030daabb\n"
        "keyset . IN 0 0101030daabb 4294967295 -\nsigned . IN NS 1 0101030daabb 00020d 016100 -\nchain authority 0\n"
        "chain additional 2\nmatched a. CH aa 7 bb\nkeyset . IN\nend\n",
        "dns-report 1\ncode 0\ndenial none\ntrail 0\nend\n",
        "dns-report 1\ncode 0\ndenial none\ntrail 3\nstep 1 judged . DNSKEY\ngot 0\n"
        "told answer . IN DNSKEY 3600 0101030daabb\ntold authority . IN DNSKEY 3600 -\nset answer . DNSKEY secure table -\n"
        "set authority . DNSKEY secure repeat-7 0 deep many 4294967295\nending foreign a. CH A 1 deep\n"
        "step 65535 ns a TYPE7\ngot fault\nending denied bogus\nstep 0 judged . NS\ngot 3 empty\n"
        "set additional b DS insecure cache -\nending seen\nend\n",
        "dns-report 1\ncode 3\ndenial absent bogus\n"
        "answer \\000a\\.b\\032\\\\.Example. IN TYPE65280 3600 indeterminate 0161\nchain authority 1\n"
        "anchored \\200z.Example. IN 0aff\nend\n",
        "dns-report 1\ncode 0\ndenial none\ntrail 3\nstep 1 judged Example. A\ngot 0\n"
        "ending foreign x.Example. CH TYPE65280 1 many\nstep 1 judged Example. DS\ngot 4095\n"
        "told additional Example. IN A 3600 01020304\nset additional Example. A indeterminate cache 4294967295\n"
        "ending denied indeterminate\nstep 0 judged Example. SOA\ngot 0 empty\ntold answer Example. IN A 3600 -\n"
        "told authority Example. IN NS 3600 00\nset authority Example. NS bogus repeat-3 - 3 deep many\n"
        "ending expanded insecure 2 deep\nend\n",
    )),
    (1, (
        "",
        "dns-report 1",
        "dns-report 2\n",
    )),
    (2, (
        "dns-report 1\ncode 65536\ndenial none\nend\n",
        "dns-report 1\ncode 00\ndenial none\nend\n",
    )),
    (3, (
        "dns-report 1\ncode 0\ndenial none \nend\n",
        "dns-report 1\ncode 0\ndenial absent\nend\n",
    )),
    (4, (
        "dns-report 1\ncode 0\ndenial none\nanswer . IN NS 0 bogus 0A\nend\n",
        "dns-report 1\ncode 0\ndenial none\nanswer . IN NS 4294967296 bogus 0a\nend\n",
        "dns-report 1\ncode 0\ndenial none\nanswer . IN TYPE1 0 bogus 0a\nend\n",
        "dns-report 1\ncode 0\ndenial none\nanswer . IN A 0 bogus 0a 0b\nend\n",
        "dns-report 1\ncode 0\ndenial none\nchain answer 4294967296\nend\n",
    )),
    (5, (
        "dns-report 1\ncode 0\ndenial none\nend\n\n",
        "dns-report 1\ncode 0\ndenial none\nadditional . IN A 0 bogus 0a\nanswer . IN A 0 bogus 0a\nend\n",
        "dns-report 1\ncode 0\ndenial none\nchain answer 0\nanchored . IN aa\nend\n",
        "dns-report 1\ncode 0\ndenial none\nchain answer 1\nkeyset . IN 0\nend\n",
        "dns-report 1\ncode 0\ndenial none\ntrail 0\ntrail 0\nend\n",
        "dns-report 1\ncode 0\ndenial none\ntrail 1\nstep 0 seen . NS\ngot 0\nending failed\nend\n",
    )),
    (6, (
        "dns-report 1\ncode 0\ndenial none\nchain answer 2\nanchored . IN aa\nend\n",
        "dns-report 1\ncode 0\ndenial none\ntrail 1\nstep 0 judged . NS\ngot 0 full\nending failed\nend\n",
    )),
    (7, (
        "dns-report 1\ncode 0\ndenial none\ntrail 1\nstep 0 judged . NS\ngot fault\ntold answer . IN DNSKEY 3600 aa\n"
        "ending failed\nend\n",
        "dns-report 1\ncode 0\ndenial none\ntrail 1\nstep 0 ns . NS\ngot 0\nending absent bogus -\nend\n",
        "dns-report 1\ncode 0\ndenial none\ntrail 1\nstep 0 ns . NS\ngot 0\nset answer . NS secure table 0 00\nending none\n"
        "end\n",
    )),
    (8, (
        "dns-report 1\ncode 0\ndenial none\ntrail 2\nstep 0 ns . NS\ngot 0\nending none\nend\n",
    )),
)
SESSION = ("dns-session 1\nmoment 1000\nalgorithms 13\nanchor . 13 aabb\n"
           "accept 13 aabb 00020d0000000e10000007d000000384aec900000002000100000e100003016100 c0de\nquery . NS\n"
           "reply . DNSKEY 0000840000010001000000000000300001000030000100000e1000060101030daabb\nfault . NS busy\nend\n")

# the same of texts of sightings
ROLL_PLACES = (
    ("", "\nzone .\nalgorithms\nend\n", 1, (
        "dns-roll 1",
     ), (
        "", "dns-roll 0", "dns-roll 2", "dns-roll", "dns-roll  1", "dns-roll 1 ", "dns-session 1", "zone .",
     )),
    ("dns-roll 1\n", "\nalgorithms\nend\n", 2, (
        "zone .", "zone a\\.b.C", "zone \\200.",
     ), (
        "zone", "zone ", "zone a..b", "zone . .", "zone  .", "Zone .", "algorithms",
     )),
    ("dns-roll 1\nzone .\n", "\nend\n", 3, (
        "algorithms", "algorithms 0 255 255",
     ), (
        "algorithms ", "algorithms 256", "algorithms 013", "key -", "end",
     )),
    # a key, an accepted signature or what was seen
    ("dns-roll 1\nzone .\nalgorithms\n", "\nend\n", 4, (
        "key -", "key aaBB", "key 0101030daabb", "accept 1 - - -", "accept 255 Aa bB 0C", "sight 0 -",
        "sight 18446744073709551615 00", "sight 1 000084000000000000000000", "key " + 65_535 * "00",
     ), (
        "key", "key ", "key a", "key - -", "key . 13 aabb", "accept 13 - -", "accept 13 - - - -", "sight 0", "sight 0 ", "sight -",
        "sight 00 -", "sight 01 -", "sight -1 -", "sight 18446744073709551616 -", "sight 0 0", "sight 0 - -", "sight  0 -",
        "key " + 65_536 * "00", "anchor . 13 aabb", "moment 0", "zone .", "algorithms",
     )),
    # a key or an accepted signature behind others of its kind, and what was seen behind them
    ("dns-roll 1\nzone .\nalgorithms 13\nkey 00\nkey 00\naccept 13 - - -\nsight 5 00\n", "\nend\n", 8, (
        "sight 5 00", "sight 6 -",
     ), (
        "sight 4 00", "sight 0 -", "key 00", "accept 13 - - -", "", "end ",
     )),
)
ROLLS = (
    (0, (
        "dns-roll 1\nzone .\nalgorithms\nend\n",
        "dns-roll 1\nzone .\nalgorithms\naccept 13 - - -\nend\n",
        "dns-roll 1\nzone .\nalgorithms\nsight 0 -\nend\n",
     )),
    (1, ("", "\n", "dns-roll 1")),
    (4, ("dns-roll 1\nzone .\nalgorithms\n", "dns-roll 1\nzone .\nalgorithms\nend")),
    (5, ("dns-roll 1\nzone .\nalgorithms\nend\n\n", "dns-roll 1\nzone .\nalgorithms\nend\nend\n", "dns-roll 1\nzone .\nalgorithms\nend\nx")),
    # the first of two bad lines
    (6, ("dns-roll 1\nzone .\nalgorithms\nsight 1 -\nsight 2 -\nsight 1 -\nsight 0 -\nend\n",
         "dns-roll 1\nzone .\nalgorithms\nsight 1 -\nsight 2 -\nsight 1 -\nkey -\nend\n")),
)

# the same of questions behind a session
DENY_PLACES = (
    ("", "\nend\n", 1, (
        "then . A", "then a\\.b.C MX", "then a. TYPE65535", "then a. ANY", "then \\200. RRSIG", "then a A\nthen a A",
     ), (
        "", "then", "then ", "then .", "then . ", "then . a", "then . A ", "then  . A", "then .  A", "then . A A", "Then . A", "then a..b A",
        "then . TYPE065", "then . TYPE65536", "query . A", "fault . A busy", "reply . A -", "dns-report 1", "end ", "anchor . 13 aabb",
     )),
    ("then . A\nthen . A\n", "\nend\n", 3, ("then . A",), ("", "then", "query . A", "END")),
)
DENIES = (
    (0, ("end\n",)),
    (1, ("", "\n", "end", "then . A")),
    (2, ("end\n\n", "end\nend\n", "end\nx", "end\nthen . A\nend\n", "then . A\n", "then . A\nend")),
)


def at(place, version=""):
    """The texts of a place, each with the number of its first bad line."""
    before, after, number, good, bad = place
    yield from ((version + before + line + after, 0) for line in good)
    yield from ((version + before + line + after, number) for line in bad)


def texts():
    """Each text with the number of its first bad line, 0 where there is none."""
    for place in PLACES:
        yield from at(place)
    for version in VERSIONS:
        yield from at(REPLIES, version)
        yield from ((f"{version}moment 1\nalgorithms\n{text}", number) for number, ends in TAILS for text in ends)
    yield from ((text, number) for number, whole in TEXTS for text in whole)


def reports():
    """Each report behind a session, with the number of its first bad line from the session's first, 0 where there is none."""
    front = SESSION.count("\n")
    yield from ((SESSION + text, number and front + number) for number, ends in REPORTS for text in ends)


def rolls():
    """Each text of sightings with the number of its first bad line, 0 where there is none."""
    for place in ROLL_PLACES:
        yield from at(place)
    yield from ((text, number) for number, whole in ROLLS for text in whole)


def denies():
    """Each text of questions behind a session, with the number of its first bad line from the session's first, 0 where there is none."""
    front = SESSION.count("\n")
    for place in DENY_PLACES:
        yield from ((SESSION + text, number and front + number) for text, number in at(place))
    yield from ((SESSION + text, number and front + number) for number, whole in DENIES for text in whole)
