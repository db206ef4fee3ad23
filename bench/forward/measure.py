#!/usr/bin/env python3
"""Replies a second that dns_forward gives to clients with one request open each, beside those of an unbound that validates and of the server that both ask.

    python3 bench/forward/measure.py [--program PATH] [--programs FOLDER] [--turns NUMBER] [--plain]

--program is the built dns_forward. The zones are those of `tools/try_record`, served by nsd behind an unbound that doesn't validate; that is the
server that both ask. The other unbound has one thread and the same key. Both load `nodelay.c`, which says why; --plain leaves that out. `clients.c` sends one query, with DO, over and over:
by one client over UDP, and by one, four and 32 over TCP, each with a connection of its own and 1,000 requests, of which the first 100 aren't timed, since a seat of
dns_forward ends after 1,000. Each figure is the best of some runs by turns. dns_forward keeps no reply: each request asks the server once, where
unbound answers from what it keeps.

Then it says how many bytes dns_forward takes for an exchange: its greatest resident size after 32 seats of 1,000 requests, beyond that after 10 each.

The status is 1 where dns_forward gives less than half of unbound's replies over UDP, or over four connections fewer than 12,800 a second though unbound
gives one client as many; or takes more than 20,000 bytes for an exchange. It needs Debian's unbound, nsd, ldnsutils, a C compiler, and what `tools/record` needs."""
import argparse
import importlib.machinery
import importlib.util
import os
import re
import subprocess
import sys
import tempfile

sys.dont_write_bytecode = True
HERE = os.path.dirname(os.path.realpath(__file__))
TOP = os.path.join(HERE, "..", "..")
sys.path[:0] = [os.path.join(TOP, "tools", "recording")]
import resolvers  # noqa: E402
LOADER = importlib.machinery.SourceFileLoader("try_forward", os.path.join(TOP, "tools", "try_forward"))
trial = importlib.util.module_from_spec(importlib.util.spec_from_loader("try_forward", LOADER))
LOADER.exec_module(trial)

FORMS = (("udp", 1), ("tcp", 1), ("tcp", 4), ("tcp", 32))
REQUESTS, WARM, FEW = 1000, 100, 10
LEAST_SHARE, LEAST_RATE, MOST_BYTES = 0.5, 12_800, 20_000
QUERY = resolvers.query_of("www.one.", 1, True)
SAID = re.compile(rb"replies (\d+) authentic (\d+) truncated (\d+) failed (\d+) nanoseconds (\d+)\n")


def words_given():
    about = argparse.ArgumentParser(description=__doc__.split("\n", maxsplit=1)[0])
    about.add_argument("--program", metavar="PATH", default=os.path.join(TOP, "crates", "dns_forward", "out", "dns_forward"))
    about.add_argument("--programs", metavar="FOLDER", default=os.path.join(TOP, "crates"))
    about.add_argument("--turns", metavar="NUMBER", type=int, default=9)
    about.add_argument("--plain", action="store_true", help="the servers load nothing")
    return about.parse_args()


def compiled(folder):
    """The program of the clients, and the library that servers load."""
    made = os.path.join(folder, "clients"), os.path.join(folder, "nodelay.so")
    for path, more, source in zip(made, ([], ["-shared", "-fPIC"]), ("clients.c", "nodelay.c")):
        subprocess.run(["cc", "-O2", *more, "-o", path, os.path.join(HERE, source)], check=True)
    return made


def asked(who, clients, protocol, port, count, requests, warm, authentic):
    """Replies a second of a server, all of them with AD or none."""
    ran = subprocess.run([clients, protocol, str(port), str(count), str(requests), str(warm), QUERY.hex()], capture_output=True, check=False)
    said = SAID.fullmatch(ran.stdout)
    if ran.returncode or not said:
        sys.exit(f"{who}, {protocol} {count}: {ran.stderr.decode()}{ran.stdout.decode()}")
    replies, with_ad, truncated, failed, nanoseconds = map(int, said.groups())
    if (with_ad, truncated, failed) != (replies if authentic else 0, 0, 0):
        sys.exit(f"{who}, {protocol} {count}: {ran.stdout.decode()}")
    return replies / nanoseconds * 1e9


def forwarded(words, clients, servers, session, protocol, count, requests, warm):
    """Replies a second of a dns_forward that is started for it, and its greatest resident size in bytes."""
    port = resolvers.zones.free_port() if protocol == "udp" else resolvers.free_tcp_port()
    more = [count] if protocol == "tcp" else []
    command = [protocol, f"127.0.0.1:{port}", f"127.0.0.1:{servers.upstream}", *more, requests]
    process = resolvers.forwarder(words.program, command, session, port, protocol)
    rate = asked("dns_forward", clients, protocol, port, count, requests, warm, True)
    text = process.stdout.read()
    _, status, usage = os.wait4(process.pid, 0)
    process.returncode = status
    wanted = "".join(f"seat {seat} requests {requests} count\n" for seat in range(count)).encode()
    if status or text != wanted:
        sys.exit(f"dns_forward {command}: status {status}, {text[:300]!r}")
    return rate, usage.ru_maxrss * 1024


def rates(words, clients, servers, session):
    """The best rate of each form: dns_forward's, unbound's and the server's."""
    best = {}
    for _ in range(words.turns):
        for protocol, count in FORMS:
            found = (forwarded(words, clients, servers, session, protocol, count, REQUESTS, WARM)[0],
                     asked("unbound", clients, protocol, servers.validating, count, REQUESTS, WARM, True),
                     asked("the server", clients, protocol, servers.upstream, count, REQUESTS, WARM, False))
            best[protocol, count] = tuple(map(max, zip(found, best.get((protocol, count), (0, 0, 0)))))
    return best


def main():
    words = words_given()
    if not os.access(words.program, os.X_OK):
        sys.exit(f"no program {words.program}: `rt run` in crates/dns_forward builds it")
    with tempfile.TemporaryDirectory(prefix="bench-forward-") as folder:
        clients, prompt = compiled(folder)
        with resolvers.Servers(folder, None if words.plain else prompt) as servers:
            session = trial.session_of(words, folder, servers)
            best = rates(words, clients, servers, session)
            many, few = (forwarded(words, clients, servers, session, "tcp", 32, requests, 0)[1] for requests in (REQUESTS, FEW))
    print("replies a second: dns_forward, unbound, the server")
    for (protocol, count), found in best.items():
        print(f"{protocol} {count}: " + ", ".join(f"{rate:.0f}" for rate in found) + f"; {found[0] / found[1]:.2f} of unbound's")
    each = (many - few) / (32 * (REQUESTS - FEW))
    print(f"{each:.0f} bytes an exchange")
    slow = best["udp", 1][0] < LEAST_SHARE * best["udp", 1][1]
    slow = slow or best["tcp", 1][1] >= LEAST_RATE > best["tcp", 4][0]
    sys.exit(slow or each > MOST_BYTES)


main()
