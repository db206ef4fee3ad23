"""What `tools/show` and `tools/picture` have in common: their words, what they read and write, and how they end."""
import argparse
import os
import sys

import denied
import reading
import rolled
from report_lines import BadLine
from reports import NoReport, report_in

# the statuses of `dns_check`, as far as they have a meaning here; argparse ends with 2, that of wrong words
NO_REPORT, BAD_INPUT, NOT_READ, NOT_WRITTEN = 1, 3, 4, 5


def seconds(word):
    """A time on the command line."""
    value = int(word)
    if not 0 <= value < 2**64:
        raise ValueError(word)
    return value


def words_of(tool, about):
    """The arguments that both tools take."""
    parser = argparse.ArgumentParser(prog=tool, description=about, formatter_class=argparse.RawDescriptionHelpFormatter)
    parser.add_argument("--session", metavar="FILE", help="the session of the report: its query, its time and its replies are used")
    parser.add_argument("--moment", type=seconds, metavar="SECONDS", help="the time of the session, in seconds since 1970, or another one")
    parser.add_argument("report", metavar="REPORT", help="a file, or - for the standard input")
    return parser


def read_input(path):
    """A file, or the standard input by the word `-`."""
    if path != "-":
        with open(path, "rb") as file:
            return file.read()
    if sys.stdin is None:
        raise OSError("the input is closed")
    return sys.stdin.buffer.read()


def write_output(text):
    if sys.stdout is None:
        raise OSError("the output is closed")
    try:
        sys.stdout.buffer.write(text.encode())
        sys.stdout.flush()
    except OSError:
        # what is left in the buffer isn't written at the end again
        os.dup2(os.open(os.devnull, os.O_WRONLY), sys.stdout.fileno())
        raise


def session_at(path):
    """The session of a file, or None without one. Of its lines no more is looked at than these tools use."""
    if path is None:
        return None
    session = reading.session_in(read_input(path))
    for _, (word, rest) in session.replies:
        _ = reading.FAULTS[rest] if word == "fault" else reading.octets_in(rest)
    return session


def run(tool, words, made, of_keys=None, of_denials=None):
    """Writes the text that `made` makes of the report that the arguments name, and answers the status. `made` takes the report, the time or
    None, and the session or None. Of trusted keys `of_keys` makes it, where it is given, by their records; --session is then the text of sightings.
    Of denials `of_denials` makes it, where it is given."""
    def said(status, what):
        if sys.stderr is not None:
            print(f"{tool}: {what}", file=sys.stderr)
        return status

    path = words.report
    try:
        octets = read_input(path)
        is_rolled = of_keys is not None and rolled.is_rolled(octets)
        is_denied = of_denials is not None and denied.is_denied(octets)
        path = words.session
        session = None if is_rolled or is_denied else session_at(path)
        zone = rolled.zone_in(read_input(path)) if is_rolled and path is not None else ()
    except OSError as error:
        return said(NOT_READ, f"{path} can't be read: {error.strerror or error}")
    except (KeyError, ValueError, IndexError):
        return said(BAD_INPUT, f"{path} is no {'text of sightings' if is_rolled else 'session'}; dns_check names its first bad line")
    moment = words.moment if words.moment is not None or session is None else session.moment
    path = words.report
    try:
        if is_rolled:
            text = of_keys(rolled.keys_in(octets, zone))
        elif is_denied:
            text = of_denials(denied.denials_in(octets))
        else:
            text = made(report_in(octets), moment, session)
    except BadLine as bad:
        return said(BAD_INPUT, f"{path} is no report: {bad}")
    except NoReport as none:
        return said(NO_REPORT, f"{path} has no report, and says why: {none}")
    try:
        write_output(text)
    except OSError as error:
        return said(NOT_WRITTEN, f"the output can't be written: {error.strerror or error}")
    return 0
