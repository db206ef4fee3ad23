"""What the benchmarks share: the stored session in its parts, and runs of the built program over a session."""
import argparse
import os
import subprocess
import sys
import time

TOP = os.path.join(os.path.dirname(os.path.realpath(__file__)), "..")
PROGRAM = os.path.join(TOP, "crates", "dns_check", "out", "dns_check")
MOST_INPUT = 16_777_216
MOST_MESSAGE = 65_535
RUNS = 9

NS, RRSIG, DNSKEY, IN = 2, 46, 48, 1

HEAD = "dns-session 1\nmoment 1000\nalgorithms 13\nanchor . 13 aabb\n"
ACCEPT = ("accept 13 aabb 00020d0000000e10000007d000000384aec900000002000100000e100003016100"
          " c0de\n")
QUERY = "query . NS\n"
REPLIES = ("reply . NS 0000840000010002000000000000020001000002000100000e1000030161000000"
           "2e000100000e10001500020d0000000e10000007d000000384aec900c0de\n"
           "reply . DNSKEY 0000840000010001000000000000300001000030000100000e1000060101030daabb\n")
END = "end\n"
REPORT = b"""dns-report 1
code 0
denial none
answer . IN NS 1000 secure 016100
answer . IN RRSIG 1000 secure 00020d0000000e10000007d000000384aec900c0de
chain answer 3
anchored . IN 0101030daabb
keyset . IN 0 0101030daabb
signed . IN NS 1 0101030daabb 00020d0000000e10000007d000000384aec900c0de 016100
end
"""


def session(accepts=(), replies=()):
    """The stored session with further lines before its own `accept` line and before its own replies."""
    return "".join((HEAD, *accepts, ACCEPT, QUERY, *replies, REPLIES, END)).encode()


def name(*labels):
    """The wire form of a name, from its leaf to its root."""
    return b"".join(bytes([len(label)]) + label for label in labels) + b"\0"


def question(owner, kind):
    return owner + kind.to_bytes(2, "big") + IN.to_bytes(2, "big")


def record(owner, kind, rdata):
    return question(owner, kind) + (3600).to_bytes(4, "big") + len(rdata).to_bytes(2, "big") + rdata


def message(asked, answers, authorities=(), additionals=()):
    """A response with one question. Each owner and rdata stands as it is given, pointers too."""
    counts = (1, len(answers), len(authorities), len(additionals))
    head = bytes.fromhex("00008400") + b"".join(count.to_bytes(2, "big") for count in counts)
    whole = b"".join((head, asked, *answers, *authorities, *additionals))
    assert len(whole) <= MOST_MESSAGE
    return whole


def program():
    """The program that is measured: the argument, or the one that the repository has built."""
    words = argparse.ArgumentParser()
    words.add_argument("program", nargs="?", default=PROGRAM, help="the built program dns_check")
    path = os.path.abspath(words.parse_args().program)
    if not os.access(path, os.X_OK):
        sys.exit(f"no program at {path}: `rt run` in crates/dns_check builds it")
    return path


def seconds(path, text):
    """The best of some runs, each of which must end well with the stored report."""
    assert len(text) <= MOST_INPUT
    best = float("inf")
    for _ in range(RUNS):
        start = time.perf_counter()
        ended = subprocess.run([path, "validate"], input=text, stdout=subprocess.PIPE, check=False)
        best = min(best, time.perf_counter() - start)
        if ended.returncode != 0 or ended.stdout != REPORT:
            shown = ended.stdout[:200].decode(errors="replace")
            sys.exit(f"wrong answer: status {ended.returncode}, output beginning\n{shown}")
    return best
