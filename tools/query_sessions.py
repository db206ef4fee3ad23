"""What `dns_query` is to write of the sessions of `examples`, each asked for over sockets at its moment, for `tools/run_queries`.

Marks, codes and denials are those of the report beside a session, which `dns_check validate` writes; records stand as dnspython writes
them, and the status is that of docs/dns_query.1. The program's clock stands still by `tools/fixed_clock.c`."""
import base64
import collections
import functools
import glob
import os
import re
import subprocess

import reading

TOP = os.path.realpath(os.path.join(os.path.dirname(os.path.realpath(__file__)), ".."))
SECURE, INSECURE, BOGUS = 0, 1, 3
STATUSES = {"secure": SECURE, "insecure": INSECURE, "bogus": BOGUS, "indeterminate": BOGUS}
FAULTS = {"nsec secure": SECURE, "nsec insecure": INSECURE, "nsec bogus": BOGUS, "bogus": BOGUS}
NO_ANSWER = 4
MARKED = re.compile(r"(secure|insecure|bogus|indeterminate) +(.+)")

# what is asked for of which session at which moment, with the records that are to be there, their marks, and the status
Asked = collections.namedtuple("Asked", "title session words moment anchors records status")


def dnspython():
    """The module, or None where Debian's python3-dnspython isn't installed."""
    try:
        import dns.message
        import dns.rdata
        import dns.rdataclass
        import dns.rdatatype
    except ImportError:
        return None
    return dns


def clock_in(folder):
    """The library that makes a clock stand still; None where there is no C compiler."""
    path = f"{folder}/fixed_clock.so"
    try:
        subprocess.run(["cc", "-O2", "-shared", "-fPIC", "-o", path, f"{TOP}/tools/fixed_clock.c"], check=True)
    except FileNotFoundError:
        return None
    return path


# ---- what is to be written

def anchor_lines(session):
    """The keys of a session as DNSKEY records of a zone that sign keys."""
    return "".join(f"{reading.shown(owner)} IN DNSKEY 257 3 {algorithm} {base64.b64encode(key).decode()}\n"
                   for owner, algorithm, key in sorted(session.anchors))


def record_text(dns, owner, klass, kind, ttl, rdata):
    """A record as a line of a master file."""
    klass, kind = dns.rdataclass.from_text(klass), dns.rdatatype.from_text(kind)
    read = dns.rdata.from_wire(klass, kind, rdata, 0, len(rdata))
    return f"{owner} {ttl} {dns.rdataclass.to_text(klass)} {dns.rdatatype.to_text(kind)} {read.to_text(chunksize=0)}"


def reported(dns, lines):
    """The records of a report's answer section, each behind its mark, and the status by them and by what is denied."""
    answers = [line.split(" ")[1:] for line in lines if line.startswith("answer ")]
    records = [(mark, record_text(dns, owner, klass, kind, ttl, reading.octets_in(rdata)))
               for owner, klass, kind, ttl, mark, rdata in answers]
    denials = [line.split(" ")[2] for line in lines if re.match("denial (absent|expanded) ", line)]
    marks = [words[4] for words in answers if words[2] != "RRSIG"] + denials
    return records, max((STATUSES[mark] for mark in marks), default=SECURE)


def refused(dns, session):
    """The records of the reply to the query: an answer that is refused has them, with marks that no report tells."""
    name, kind = session.query
    asked = (reading.folded(name), kind)
    _, told = next(line for question, line in session.replies if question == asked)
    message = dns.message.from_wire(reading.octets_in(told), one_rr_per_rrset=True)
    return [(None, f"{rrset.name} {rrset.ttl} {dns.rdataclass.to_text(rrset.rdclass)} {dns.rdatatype.to_text(rrset.rdtype)} "
                   f"{rrset[0].to_text(chunksize=0)}") for rrset in message.answer]


def expected(dns, session, lines):
    """The records and the status of a report."""
    if not lines[0].startswith("fault "):
        return reported(dns, lines)
    fault = lines[0].removeprefix("fault ")
    return refused(dns, session) if fault.startswith("nsec ") else [], FAULTS.get(fault, NO_ANSWER)


def asked_of(dns, title):
    with open(f"{TOP}/examples/{title}.session", "rb") as file:
        session = reading.session_in(file.read())
    with open(f"{TOP}/examples/{title}.out", encoding="ascii") as file:
        records, status = expected(dns, session, file.read().splitlines())
    name, kind = session.query
    words = [reading.shown(name), reading.type_word(kind), "--depth", str(session.depth)]
    return Asked(title, session, words, session.moment, anchor_lines(session), records, status)


@functools.cache
def all_asked():
    """The sessions whose report is that of `validate`; none without dnspython."""
    dns = dnspython()
    if dns is None:
        return ()
    titles = sorted(os.path.basename(path).removesuffix(".session") for path in glob.glob(f"{TOP}/examples/*.session"))
    plain = [title for title in titles if not os.path.exists(f"{TOP}/examples/{title}.words")]
    return tuple(asked_of(dns, title) for title in plain)


# ---- what was written

def written(out):
    """The records of lines, each behind its mark, and the lines that are sentences."""
    lines = out.splitlines()
    marked = [MARKED.fullmatch(line) for line in lines]
    return [found.groups() for found in marked if found], [line for line, found in zip(lines, marked) if not found]


def is_as_asked(asked, ended):
    """Whether the program ended so: the records with their marks, the status, and a sentence where that isn't 0; where there is no answer it is an error."""
    status, out, err = ended
    records, sentences = written(out)
    same = len(records) == len(asked.records) and all(text == wanted and (mark == told or told is None)
                                                      for (mark, text), (told, wanted) in zip(records, asked.records))
    if asked.status == NO_ANSWER:
        return status == NO_ANSWER and out == "" and err.startswith("dns_query: no answer: ")
    return status == asked.status and same and err == "" and (status == SECURE or bool(sentences))
