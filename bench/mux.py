#!/usr/bin/env python3
"""Sends and arrivals a second of a multiplexer with 1, 32 and 1,000 live requests, beside decoding alone; then what an exchange that threads share takes.

    python3 bench/mux.py [--turns NUMBER] [PROGRAM]

PROGRAM is the built dns_exchange_trial. An arrival is a response of 50 bytes that is decoded, waits and is taken. What counts is the
least processor time of nine runs; its start is less than a hundredth of a run. The status is 1 where an arrival costs more
beside its decoding than is wanted, or more than twice as much with 1,000 live requests as with 32.

A round of a request has five calls: a send, a pop, an arrival, a take and a cancel. Rounds by a multiplexer alone stand beside those through a token of
one exchange, by one thread and by four: times by the clock, the best run of some rounds taken off the best of twice as many. The bytes of an entry are
those that a run of a million ticks takes beyond one of half as many. The longest of a million calls is the least of all runs, since each
waits now and then while the machine does something else. At last four threads send requests over one connection of this machine, and over a connection each. The status is
also 1 where a call through a token takes more than three times as long as the multiplexer's, four threads together do less than half the rounds of one, or an
entry takes more than 128 bytes.
"""
import argparse
import os
import subprocess
import sys
import time

from passes import TOP, TURNS, counts_of, processor_seconds

PROGRAM = os.path.join(TOP, "crates", "dns_exchange_trial", "out", "dns_exchange_trial")
LIVE = (1, 32, 1_000)
PASSES = 1_000_000
# nanoseconds of an arrival beside its decoding
MOST_BESIDE = 1_000
MOST_TIMES = 2
# an exchange carries 209,715 rounds, each of five calls
ROUNDS, CALLS = 20_000, 5
THREADS = (1, 4)
TICKS = 500_000
MOST_TOKEN, LEAST_TOGETHER, MOST_BYTES = 3, 0.5, 128
TIMED_ROUNDS = 200_000
REQUESTS, ASKERS = 5_000, 4


def nanoseconds(path, *words):
    """Nanoseconds of one pass of a run, which writes the number of its passes."""
    taken, counts = counts_of([path, *words, str(PASSES)], b"", ("done",), processor_seconds)
    if counts != (PASSES,):
        sys.exit(f"{' '.join(words)}: {counts[0]} of {PASSES}")
    return taken * 1e9 / PASSES


def measured(path, turns):
    """The least of some runs each: decoding, sends and arrivals by live requests."""
    runs = [("decoded",), *((work, str(live)) for work in ("sends", "arrivals") for live in LIVE)]
    best = dict.fromkeys(runs, float("inf"))
    for _ in range(turns):
        for words in runs:
            best[words] = min(best[words], nanoseconds(path, *words))
    return best


class Rounds:
    """The best runs so far of some rounds by each of some threads and of twice as many, by the clock."""

    def __init__(self, path, words, threads):
        self.words = [path, *words]
        self.threads = threads
        self.best = [float("inf"), float("inf")]

    def turn(self):
        for place, rounds in enumerate((ROUNDS, 2 * ROUNDS)):
            taken, counts = counts_of([*self.words, str(rounds)], b"", ("done",))
            if counts != (rounds * self.threads,):
                sys.exit(f"{' '.join(self.words[1:])} {rounds}: {counts[0]} of {rounds * self.threads}")
            self.best[place] = min(self.best[place], taken)

    def nanoseconds(self):
        """Of one call, of all threads together."""
        return (self.best[1] - self.best[0]) / (ROUNDS * self.threads * CALLS) * 1e9


def resident(path, ticks):
    """The greatest resident bytes of a run of ticks."""
    with subprocess.Popen([path, "ticks", str(ticks)], stdout=subprocess.PIPE) as child:
        line = child.stdout.read()
        _, child.returncode, usage = os.wait4(child.pid, 0)
    if line != b"done %d\n" % ticks:
        sys.exit(f"ticks {ticks}: {line}")
    return usage.ru_maxrss * 1024


def longest(path, work):
    """Nanoseconds of the longest call of a run."""
    _, counts = counts_of([path, work, str(TIMED_ROUNDS)], b"", ("longest", "done"))
    if counts[1] != TIMED_ROUNDS:
        sys.exit(f"{work}: {counts[1]} of {TIMED_ROUNDS}")
    return counts[0]


def asked(path, work):
    """Requests a second of four threads."""
    began = time.perf_counter()
    _, counts = counts_of([path, work, str(REQUESTS)], b"", ("done",))
    if counts != (REQUESTS * ASKERS,):
        sys.exit(f"{work}: {counts[0]} of {REQUESTS * ASKERS} were answered")
    return REQUESTS * ASKERS / (time.perf_counter() - began)


def shared(path, turns):
    """Prints what sharing costs, and says whether it is more than is wanted."""
    alone = Rounds(path, ["rounds"], 1)
    through = {threads: Rounds(path, ["shared-rounds", str(threads)], threads) for threads in THREADS}
    calls = {work: float("inf") for work in ("longest", "shared-longest")}
    requests = {work: 0 for work in ("shared", "apart")}
    for _ in range(turns):
        for one in (alone, *through.values()):
            one.turn()
        for work, least in calls.items():
            calls[work] = min(least, longest(path, work))
        for work, most in requests.items():
            requests[work] = max(most, asked(path, work))
    single = through[1].nanoseconds()
    print(f"a call of a multiplexer alone: {alone.nanoseconds():.0f} ns")
    for threads, one in through.items():
        print(f"a call through a token, {threads} thread{'s' if threads > 1 else ''}: {one.nanoseconds():.0f} ns")
    entry = (resident(path, 2 * TICKS) - resident(path, TICKS)) / TICKS
    print(f"an entry: {entry:.0f} bytes")
    print(f"longest of a million calls: {calls['longest'] / 1e3:.0f} µs by a multiplexer alone, {calls['shared-longest'] / 1e3:.0f} µs through a token")
    print(f"requests of four threads: {requests['shared']:.0f} a second over one connection, {requests['apart']:.0f} over a connection each")
    return (single > MOST_TOKEN * alone.nanoseconds() or single < LEAST_TOGETHER * through[4].nanoseconds() or entry > MOST_BYTES)


def main():
    words = argparse.ArgumentParser()
    words.add_argument("--turns", type=int, default=TURNS, help="of how many runs the best counts")
    words.add_argument("program", nargs="?", default=PROGRAM, help="the built program dns_exchange_trial")
    given = words.parse_args()
    path = os.path.abspath(given.program)
    if not os.access(path, os.X_OK):
        sys.exit(f"no program at {path}: `rt run` in crates/dns_exchange_trial builds it")
    best = measured(path, given.turns)
    alone = best["decoded",]
    arrivals = {live: best["arrivals", str(live)] for live in LIVE}
    print(f"decoding alone: {alone:.0f} ns a response")
    print(f"{'live':>6}{'ns a send':>12}{'ns an arrival':>15}{'ns beside decoding':>20}")
    for live in LIVE:
        print(f"{live:6}{best['sends', str(live)]:12.0f}{arrivals[live]:15.0f}{arrivals[live] - alone:20.0f}")
    is_slow = max(arrivals.values()) - alone > MOST_BESIDE or arrivals[1_000] > MOST_TIMES * arrivals[32]
    is_over = shared(path, given.turns)
    sys.exit(1 if is_slow or is_over else 0)


main()
