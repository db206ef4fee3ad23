#!/usr/bin/env python3
"""What a forwarder's answer takes beside the lookup of its question alone, and how many answers seats give side by side.

    python3 bench/forwarder.py [--measure PROGRAM] [--trial PROGRAM] [SESSION..]

The programs are the built dns_measure and dns_trial. For each session, without any the two of bench/lookup.py, the query is looked up and
a request for it, with DO, is answered over UDP: cold, from an empty cache, and warm, from what the one before it kept. Times are those of the
processor: the best of nine runs of some passes is taken off the best of nine of twice as many.

Then one, two and four seats over one shared cache answer requests for the stored session's name servers, a thousand each in a round, by ports
in memory: answers a second by the clock, all seats together, the best of nine runs by turns. dns_trial takes the time of the call of `serve`
alone: seats and requests are made before it, and exchanges freed behind it. The status is 1 where an answer takes more than 1.3
times its lookup, or four seats give fewer than 2.5 times the answers of one."""
import argparse
import os
import sys

import lookup
import passes
from passes import TOP, TURNS, Timing, counts_of, processor_seconds

TRIAL = os.path.join(TOP, "crates", "dns_trial", "out", "dns_trial")
MOST_TIMES, LEAST_TOGETHER = 1.3, 2.5
SEATS = (1, 2, 4)
ROUNDS = 20
ROUND = 1000
WORKS = (("cold", "anew", "respond-anew"), ("warm", "lookup", "respond"))


def times_of(program, session):
    """For a cold and a warm one: the word, and the seconds of a lookup and of an answer."""
    with open(session, "rb") as file:
        text = file.read()
    pairs = [(kind, *(Timing([program, work], text, ("answers", "faults"), lookup.PASSES, processor_seconds) for work in works))
             for kind, *works in WORKS]
    for _ in range(TURNS):
        for _, plain, answer in pairs:
            plain.turn()
            answer.turn()
    return [(kind, plain.seconds(), answer.seconds()) for kind, plain, answer in pairs]


def say_answers(program, sessions):
    """A line for each session, and how many times are over."""
    over = 0
    for session in sessions:
        for kind, plain, answer in times_of(program, session):
            over += answer > MOST_TIMES * plain
            print(f"{os.path.basename(session)}: a {kind} lookup {plain * 1e6:.1f} microseconds, an answer {answer * 1e6:.1f}, {answer / plain:.2f} of it",
                  flush=True)
    return over


def say_seats(program):
    """Answers a second by so many seats; whether four give too few."""
    best = {}
    for _ in range(TURNS):
        for seats in SEATS:
            nanoseconds, answers = counts_of([program, "serve", str(ROUNDS), str(seats)], b"", ("nanoseconds", "done"))[1]
            if answers != ROUNDS * ROUND * seats:
                sys.exit(f"serve: {answers} of {ROUNDS * ROUND * seats} requests were answered")
            best[seats] = max(best.get(seats, 0), answers / nanoseconds * 1e9)
    for seats, rate in best.items():
        print(f"{seats} seats: {rate:.0f} answers a second, {rate / best[1]:.2f} times one seat's")
    return best[max(SEATS)] < LEAST_TOGETHER * best[1]


def main():
    words = argparse.ArgumentParser()
    words.add_argument("--measure", default=passes.PROGRAM, metavar="PROGRAM", help="the built dns_measure")
    words.add_argument("--trial", default=TRIAL, metavar="PROGRAM", help="the built dns_trial")
    words.add_argument("session", nargs="*", default=lookup.SESSIONS)
    asked = words.parse_args()
    over = say_answers(passes.checked(asked.measure), asked.session)
    if not os.access(asked.trial, os.X_OK):
        sys.exit(f"no program at {asked.trial}: `rt run` in crates/dns_trial builds it")
    over += say_seats(os.path.abspath(asked.trial))
    sys.exit(over > 0)


if __name__ == "__main__":
    main()
