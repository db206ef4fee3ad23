"""The lines that `dns_check deny` writes, for `tools/show`: what is said of each question, in words."""
import re

from report_lines import BadLine

LINE = re.compile(r"(\S+) (\S+) (?:unknown|denied ([03]) (0|[1-9]\d*))")
WHAT = {"3": "the name doesn't exist", "0": "there is no such data"}


def is_denied(octets):
    return LINE.fullmatch(octets.decode("latin-1").partition("\n")[0]) is not None


def denials_in(octets):
    """Name, type, and the code with the ttl or None, of each line."""
    *lines, last = octets.decode("latin-1").split("\n")
    said = []
    for number, line in enumerate([*lines, *([last] if last else [])], 1):
        found = LINE.fullmatch(line)
        if not found:
            raise BadLine(number, "a denial")
        name, kind, code, ttl = found.groups()
        said.append((name, kind, (code, int(ttl)) if code else None))
    return said


def text_of(said):
    return "".join(f"{name} {kind}: {WHAT[denial[0]]}; {denial[1]} seconds are left\n" if denial else f"{name} {kind}: unknown; ask a server\n"
                   for name, kind, denial in said)


def value_of(said):
    return [{"name": name, "type": kind, **({"denied": {"code": int(denial[0]), "ttl": denial[1]}} if denial else {"unknown": True})}
            for name, kind, denial in said]
