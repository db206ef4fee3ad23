"""What the scripts over programs of the repository share: their runs, what passes alone take, and frames."""
import os
import resource
import subprocess
import sys
import time

TOP = os.path.join(os.path.dirname(os.path.realpath(__file__)), "..")
PROGRAM = os.path.join(TOP, "crates", "dns_measure", "out", "dns_measure")
TURNS = 9
# the passes must take at least this part of a run
LEAST_SHARE = 4


def checked(path):
    """The whole path of a program, or the end with a word on what is missing."""
    path = os.path.abspath(path)
    if not os.access(path, os.X_OK):
        sys.exit(f"no program at {path}: `rt run` in crates/dns_measure builds dns_measure into its folder out")
    return path


def processor_seconds():
    """Processor time of all programs that were run and have ended: a clock that other work moves less."""
    used = resource.getrusage(resource.RUSAGE_CHILDREN)
    return used.ru_utime + used.ru_stime


def counts_of(words, text, names, clock=time.perf_counter):
    """Seconds of one run by a clock, and the counts that it writes: a line for each of these names."""
    start = clock()
    ended = subprocess.run(words, input=text, stdout=subprocess.PIPE, check=False)
    taken = clock() - start
    lines = [line.split() for line in ended.stdout.decode().splitlines()]
    if ended.returncode != 0 or [line[0] for line in lines] != list(names):
        sys.exit(f"{' '.join(words[1:])}: status {ended.returncode}, {ended.stdout[:200]!r}")
    return taken, tuple(int(line[1]) for line in lines)


def done_of(words):
    """How often a run of a trial program says that it was done, its processor seconds and its greatest resident bytes."""
    with subprocess.Popen(words, stdout=subprocess.PIPE) as child:
        line = child.stdout.read().split()
        _, status, usage = os.wait4(child.pid, 0)
        child.returncode = status
    if status != 0 or line[:1] != [b"done"]:
        sys.exit(f"{' '.join(words[1:])}: status {status}, {line}")
    return int(line[1]), usage.ru_utime + usage.ru_stime, usage.ru_maxrss * 1024


class Timing:
    """The best runs so far of some passes and of twice as many, by a clock: what the passes alone take is the difference."""

    def __init__(self, words, text, names, passes, clock=time.perf_counter):
        self.clock = clock
        self.words = words
        self.text = text
        self.names = names
        self.passes = passes
        self.best = [float("inf"), float("inf")]
        self.counts = counts_of([*words, "1"], text, names)[1]

    def turn(self):
        """One run of each. Its counts must be those of one pass so many times."""
        for place, passes in enumerate((self.passes, 2 * self.passes)):
            taken, counts = counts_of([*self.words, str(passes)], self.text, self.names, self.clock)
            if counts != tuple(count * passes for count in self.counts):
                sys.exit(f"wrong counts: {self.counts} of one pass, {counts} of {passes}")
            self.best[place] = min(self.best[place], taken)

    def seconds(self):
        """Seconds of one pass, with start and reading taken off; the end where the passes are lost in these."""
        taken = self.best[1] - self.best[0]
        if taken < self.best[0] / LEAST_SHARE:
            sys.exit(f"too few passes: {self.passes} take {taken:.4f} s of {self.best[1]:.4f} s")
        return taken / self.passes


def decoding(path, frames, passes):
    """The timing of decoding frames: messages, refused ones, records."""
    timing = Timing([path, "decode"], frames, ("messages", "refused", "records"), passes)
    if timing.counts[0] + timing.counts[1] != messages_in(frames):
        sys.exit(f"wrong counts: {timing.counts} of {messages_in(frames)} frames")
    return timing


def frame(message):
    """A message after its length in two bytes."""
    return len(message).to_bytes(2, "big") + message


def messages_in(frames):
    """How many messages stand in frames."""
    at = count = 0
    while at + 2 <= len(frames):
        at += 2 + int.from_bytes(frames[at:at + 2], "big")
        count += 1
    if at != len(frames):
        sys.exit(f"frame {count} is cut off")
    return count
