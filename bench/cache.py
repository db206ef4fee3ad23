#!/usr/bin/env python3
"""What a get and an insert of the default cache take at 1,000 and at 65,536 entries, and how many bytes an entry takes.

    python3 bench/cache.py [--turns NUMBER] [--shared] [PROGRAM]

PROGRAM is the built dns_trial. Each key is a set of one address with a signature of 96 bytes. Each entry has a chain of six
signed links, or none. A get finds its entry and copies it. An insert makes an entry whose key isn't there, and the least recently
used one falls off. Beside them stands what making and letting go of an entry takes without a cache, and what the map that the cache
stands on takes for the same keys. Times are those of the processor: the best run of some passes over all keys is taken off the best
of twice as many. The bytes of an entry are those of a full cache's run beyond those of a run that has the keys alone. The status is 1
where a get or an insert takes more than four times as long at the greater size.

Then gets over a shared cache by one, two and four threads, by turns with those over a cache of one's own, whose entries have a chain of six
links with four signatures each: times by the clock, for all threads together. The status is also 1 where one thread takes more than 1.3
times as long as over a cache of its own, where several together do less than 0.8 times the gets of one, since each get copies its entry
under the lock, or where four threads make fewer than twice as many warm lookups as one. Beside them stands an insert into a shelf, and the same entry made and dropped with its chain tested, with a verifier that takes no time
and with one that hashes 11,500 bytes for a signature; and a get for a list of as many signatures as the shelf's.
"""
import argparse
import os
import subprocess
import sys
import time

from passes import TOP, TURNS, done_of

PROGRAM = os.path.join(TOP, "crates", "dns_trial", "out", "dns_trial")
# how many passes over how many entries
SIZES = {1_000: 400, 65_536: 6}
LINKS = (6, 0)
MOST_TIMES = 4
MOST_SHARED, LEAST_TOGETHER, LEAST_LOOKUPS = 1.3, 0.8, 2
SHARED_LOOKUPS = 20_000
SHARED_ENTRIES, SHARED_PASSES = 1_000, 400
# no thread: a cache of one's own
THREADS = (0, 1, 2, 4)
# what a verifier hashes for a signature, and how many passes
WEIGHTS = {0: 100, 11_500: 4}
SIGNATURES = {4: 400, 10_000: 2}
# what is done, and whether a chain's links are among its words
WORKS = {"get": True, "insert": True, "copy": True, "map-get": False, "map-put": False}


def words_of(path, work, entries, links):
    return [path, work, str(entries), *([str(links)] if WORKS[work] else [])]


class Measured:
    """The best runs so far of some passes and of twice as many."""

    def __init__(self, words, entries, passes):
        self.words = words
        self.entries = entries
        self.passes = passes
        self.best = [float("inf"), float("inf")]

    def turn(self):
        for place, passes in enumerate((self.passes, 2 * self.passes)):
            count, seconds, _ = done_of([*self.words, str(passes)])
            if count != passes * self.entries:
                sys.exit(f"{' '.join(self.words[1:])} {passes}: {count} times and not {passes * self.entries}")
            self.best[place] = min(self.best[place], seconds)

    def nanoseconds(self):
        """Of one time, without start and filling."""
        return (self.best[1] - self.best[0]) / (self.passes * self.entries) * 1e9


class Timed(Measured):
    """The same by the clock, of words with one more behind the passes."""

    def __init__(self, path, work, passes, last, times=1):
        super().__init__([path, work, str(SHARED_ENTRIES)], SHARED_ENTRIES, passes)
        self.last = str(last)
        self.times = times

    def turn(self):
        for place, passes in enumerate((self.passes, 2 * self.passes)):
            wanted = f"done {passes * self.entries * self.times}\n"
            began = time.perf_counter()
            line = subprocess.run([*self.words, str(passes), self.last], stdout=subprocess.PIPE, text=True, check=True).stdout
            self.best[place] = min(self.best[place], time.perf_counter() - began)
            if line != wanted:
                sys.exit(f"{' '.join(self.words[1:])} {passes} {self.last}: {line} and not {wanted}")

    def nanoseconds(self):
        return super().nanoseconds() / self.times


class Lookups(Timed):
    """Lookups by some threads over one shared cache."""

    def __init__(self, path, threads):
        super().__init__(path, "shared-lookups", SHARED_LOOKUPS, threads, threads)
        self.words, self.entries = [path, "shared-lookups"], 1


def shared(path, turns):
    """Prints what sharing costs, and says whether it is more than is wanted."""
    gets = {threads: Timed(path, "shared-get", SHARED_PASSES, threads, max(threads, 1)) for threads in THREADS}
    rows = [*gets.values()]
    shelves = {(work, weight): Timed(path, work, passes, weight) for weight, passes in WEIGHTS.items() for work in ("shelf-insert", "shelf-test")}
    lists = {count: Timed(path, "shelf-for", passes, count) for count, passes in SIGNATURES.items()}
    lookups = {threads: Lookups(path, threads) for threads in (1, 4)}
    for _ in range(turns):
        for one in (*rows, *shelves.values(), *lists.values(), *lookups.values()):
            one.turn()
    for threads, one in gets.items():
        print(f"gets over {f'a shared cache by {threads}' if threads else 'an owned one'}: {one.nanoseconds():.0f} ns each")
    for (work, weight), one in shelves.items():
        print(f"{work}, {weight} bytes hashed for a signature: {one.nanoseconds():.0f} ns")
    for count, one in lists.items():
        print(f"get for a list of {count} signatures: {one.nanoseconds():.0f} ns")
    for threads, one in lookups.items():
        print(f"warm lookups by {threads} over a shared cache: {one.nanoseconds():.0f} ns each")
    single, alone = gets[1].nanoseconds(), lookups[1].nanoseconds()
    ratios = [(f"a get over a shared cache, in times of one over an owned one (at most {MOST_SHARED})", single / gets[0].nanoseconds(), MOST_SHARED, False)]
    ratios += [(f"gets by {threads} threads, in times of those by one (at least {LEAST_TOGETHER})", single / gets[threads].nanoseconds(), LEAST_TOGETHER, True)
               for threads in (2, 4)]
    ratios.append((f"warm lookups by 4 threads, in times of those by one (at least {LEAST_LOOKUPS})", alone / lookups[4].nanoseconds(), LEAST_LOOKUPS, True))
    for what, ratio, _, _ in ratios:
        print(f"{what}: {ratio:.2f}")
    return any(ratio < wanted if is_least else ratio > wanted for _, ratio, wanted, is_least in ratios)


def owned(path, turns):
    """Prints what a cache of one's own takes, and says whether it grows more than is wanted."""
    rows = [(work, links) for work in WORKS for links in (LINKS if WORKS[work] else (0,))]
    measured = {(work, links, entries): Measured(words_of(path, work, entries, links), entries, passes)
                for work, links in rows for entries, passes in SIZES.items()}
    for _ in range(turns):
        for one in measured.values():
            one.turn()
    is_over = False
    print(f"{'':10}{'links':>6}" + "".join(f"{f'{entries:,}':>12}" for entries in SIZES) + f"{'times':>8}")
    for work, links in rows:
        small, large = (measured[work, links, entries].nanoseconds() for entries in SIZES)
        print(f"{work:10}{links:6}{small:9.0f} ns{large:9.0f} ns{large / small:8.1f}")
        is_over |= work in ("get", "insert") and large > MOST_TIMES * small
    many = max(SIZES)
    for links in LINKS:
        full, keys_alone = (done_of([*words_of(path, work, many, links), "0"])[2] for work in ("get", "copy"))
        room = full - keys_alone
        print(f"{links} links: {room / many:.0f} bytes an entry")
    return is_over


def main():
    words = argparse.ArgumentParser()
    words.add_argument("--turns", type=int, default=TURNS, help="of how many runs the best counts")
    words.add_argument("--shared", action="store_true", help="the shared cache alone")
    words.add_argument("program", nargs="?", default=PROGRAM, help="the built program dns_trial")
    given = words.parse_args()
    path = os.path.abspath(given.program)
    if not os.access(path, os.X_OK):
        sys.exit(f"no program at {path}: `rt run` in crates/dns_trial builds it")
    is_over = not given.shared and owned(path, given.turns)
    is_over |= shared(path, given.turns)
    sys.exit(1 if is_over else 0)


main()
