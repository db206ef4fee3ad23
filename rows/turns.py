"""Trails of rows, turned in one place (RFC 4035, 4.3, 5.2, 5.3 and 5.4), and whether they are derivations then. `tools/audit_rows` audits
each by the program, behind the row's session."""

WALK, WILDCARD, UNSIGNED = "trail-of-a-walk-by-ds", "wildcard-of-an-insecure-zone", "unsigned-in-an-insecure-zone"
DEEP, FAULT = "trail-of-an-ask-too-deep", "trail-of-a-fault"
CUT, NAME_ERROR = "unsigned-below-a-delegation-without-ds", "name-error-by-two-records"
EXPANSION, NOTHING = "expansion-with-its-denial", "no-record-at-all-of-an-unsigned-zone"
# what comes in place of a whole step, by its lines and those of the step before it
NO_STEP, AHEAD = object(), object()
# what is turned, in which row, the number of the step, and what comes there in place of what
NONE_FOLLOWS = (
    # marks
    ("Secure as Insecure", WALK, 3, " A secure ", " A insecure "),
    ("Secure as Bogus", WALK, 3, " A secure ", " A bogus "),
    ("Secure as Indeterminate", WALK, 2, " secure ", " indeterminate "),
    ("Insecure as Secure", WILDCARD, 6, " insecure ", " secure "),
    ("an unsigned set as Secure", UNSIGNED, 4, " insecure ", " secure "),
    ("an unsigned set as Bogus", UNSIGNED, 4, " insecure ", " bogus "),
    ("Bogus as Secure", FAULT, 1, " bogus ", " secure "),
    ("keys as Bogus", WALK, 0, " secure ", " bogus "),
    ("another signature", WALK, 3, " table 0 ", " table 1 "),
    ("no signature", WALK, 1, " table 0 ", " table - "),
    ("a signature of an unsigned set", UNSIGNED, 4, " table - ", " table 0 "),
    ("a set of another type", WALK, 3, "set answer wWw.Example. A ", "set answer wWw.Example. DS "),
    # repeats
    ("a repeat of a set of another type", WILDCARD, 5, "told answer example. IN DS ", "told answer example. IN TYPE99 "),
    ("a repeat of itself", WILDCARD, 5, " repeat-1 ", " repeat-5 "),
    ("a repeat of a later step", WILDCARD, 0, " table ", " repeat-5 "),
    ("a repeat of another query", WILDCARD, 5, " repeat-1 ", " repeat-0 "),
    ("a repeat of an earlier lookup", WILDCARD, 5, " repeat-1 ", " cache "),
    ("a repeat with another mark", WILDCARD, 5, " secure repeat-1 ", " bogus repeat-1 "),
    # steps
    ("a step dropped", WALK, 0, NO_STEP, ""),
    ("the last step dropped", WALK, 3, NO_STEP, ""),
    ("a step before what it names", WALK, 1, AHEAD, ""),
    ("another depth", WALK, 1, "step 2 ", "step 1 "),
    ("a judged step only seen", WALK, 2, " judged ", " ns "),
    ("a step only seen that is judged", UNSIGNED, 0, " ns ", " judged "),
    ("another question", WALK, 0, " judged . DNSKEY", " judged . A"),
    ("a fault in place of a reply", WALK, 0, "got 0", "got fault"),
    ("a fault in place of what was seen", UNSIGNED, 1, "got 0", "got fault"),
    ("a record of another class", WALK, 2, " IN DNSKEY ", " CH DNSKEY "),
    ("an entry less", WALK, 3, "set answer wWw.Example. A secure table 0 2\n", ""),
    ("a failed end", WALK, 3, "ending none", "ending failed"),
    ("a denied end", WALK, 3, "ending none", "ending denied bogus"),
    ("another denial", WALK, 3, "ending none", "ending absent insecure"),
    ("a seen end", WALK, 0, "ending none", "ending seen"),
    ("a fault that answers", FAULT, 0, "ending failed", "ending none"),
    ("an excuse added", WALK, 3, "ending none", "ending none deep"),
    ("an excuse dropped", WILDCARD, 6, "ending none 3 4 5", "ending none"),
    ("an excuse in another order", WILDCARD, 6, "ending none 3 4 5", "ending none 4 3 5"),
    ("an ask as too deep", FAULT, 1, " table - 0", " table - deep"),
    ("an ask as one too many", DEEP, 0, " table - deep", " table - many"),
    ("an ask that isn't made", DEEP, 0, " table - deep", " table -"),
    ("an ask more", DEEP, 0, " table - deep", " table - deep deep"),
    # denials
    ("no DS as Insecure", CUT, 2, "ending absent secure", "ending absent insecure"),
    ("no DS as an answer", CUT, 2, "ending absent secure", "ending none"),
    ("no DS as refused", CUT, 2, "ending absent secure", "ending denied bogus"),
    ("no DS as a failed end", CUT, 2, "ending absent secure", "ending failed"),
    ("no DS by a Bogus NSEC", CUT, 2, " NSEC secure ", " NSEC bogus "),
    ("no DS by an excuse", CUT, 2, "ending absent secure", "ending absent secure 0"),
    ("no DS without its entry", CUT, 2, "set authority child.example. NSEC secure table 0 1\n", ""),
    ("a name error as an answer", NAME_ERROR, 2, "ending absent secure", "ending none"),
    ("a name error refused", NAME_ERROR, 2, "ending absent secure", "ending denied bogus"),
    ("an expansion as an answer", EXPANSION, 2, "ending expanded secure", "ending none"),
    ("an expansion as an absence", EXPANSION, 2, "ending expanded secure", "ending absent secure"),
    ("an absence of an unsigned zone as Secure", NOTHING, 4, "ending absent insecure", "ending absent secure"),
    ("an absence of an unsigned zone without its search", NOTHING, 4, "ending absent insecure 0 1 3", "ending absent insecure"),
)
# the same where it follows yet
FOLLOWS = (
    ("a repeat with its ttl apart", WILDCARD, 5, "IN DS 3600 ", "IN DS 7 "),
)


def parts(report):
    """The lines before the steps of a report, and the steps."""
    front, *steps = report.split("\nstep ")
    return front + "\n", ["step " + step.removesuffix("end\n").rstrip("\n") + "\n" for step in steps]


def turned(report, number, old, new):
    """A report whose step with a number is turned. After `got fault` no record is told."""
    front, steps = parts(report)
    if old is NO_STEP:
        steps.pop(number)
        front = front.replace(f"\ntrail {len(steps) + 1}\n", f"\ntrail {len(steps)}\n")
    elif old is AHEAD:
        steps[number - 1:number + 1] = steps[number], steps[number - 1]
    else:
        assert old in steps[number], (number, old, steps[number])
        steps[number] = steps[number].replace(old, new, 1)
    if new == "got fault":
        steps[number] = "".join(line for line in steps[number].splitlines(True) if not line.startswith("told "))
    return front + "".join(steps) + "end\n"


def turns():
    """What is turned, the row, what its report comes to, and whether its trail is a derivation."""
    for follows, table in ((False, NONE_FOLLOWS), (True, FOLLOWS)):
        for what, row, number, old, new in table:
            yield what, row, lambda report, at=(number, old, new): turned(report, *at), follows
