"""The loop of a worker: makes cases, compares the program with the reading over them, and keeps what differs."""
import os
import random
import tempfile
import time
import traceback

from fuzzing import told
from fuzzing.cases import cases_below, keep
from fuzzing.comparing import Program, Reading, explained, kind_of_difference
from fuzzing.mutations import make
from fuzzing.smaller import Smaller
from fuzzing.tallies import Tallies

MOST_KEPT_OF_A_KIND, MOST_KEPT, MOST_KNOWN = 2, 40, 2000
LARGEST_FIRST, LARGEST_KNOWN = 40000, 3000


class Source:
    """Makes cases: at first those that are known, then mutations of these and of those that showed something new."""

    def __init__(self, folders, seed, job, jobs):
        self.seed, self.job, self.number = seed, job, 0
        found = [it for folder in folders for it in cases_below(folder)]
        small = [it for it in found if len(it[1].list) + len(it[1].script) <= LARGEST_FIRST]
        self.known = [(name, case) for name, case, is_good in small if is_good]
        self.refused = [(name, case) for name, case, is_good in small if not is_good]
        self.first = [case.after("case " + name) for name, case, _ in found][job::jobs]
        self.traits, self.slips = set(), []

    def next(self):
        """The next case. A mutation that fails in itself is remembered and passed over."""
        while True:
            self.number += 1
            if self.number <= len(self.first):
                return self.first[self.number - 1]
            rng = random.Random("%s/%s/%s" % (self.seed, self.job, self.number))
            try:
                return make(rng, self.refused if self.refused and rng.random() < 0.1 else self.known)
            except Exception:
                self.slips.append(traceback.format_exc())

    def learn(self, case, answers):
        """Takes a case among those that are known if its answers show something new."""
        new = told.traits(case, answers) - self.traits
        self.traits |= new
        if not new or len(case.list) > LARGEST_KNOWN or len(case.script) > 2 * LARGEST_KNOWN:
            return
        name = case.trail[0].removeprefix("case ") if case.trail else "new"
        known = self.known if told.is_opened(answers) else self.refused
        if len(known) < MOST_KNOWN:
            known.append((name, case))
        else:
            known[self.number * 7919 % MOST_KNOWN] = name, case


class Worker:
    """Compares the program with the reading until the time is over."""

    def __init__(self, options, job, scratch):
        import reading
        self.options, self.job = options, job
        self.program, self.reading = Program(options.program, scratch), Reading(reading)
        self.source = Source(options.folders, options.seed, job, options.jobs)
        self.tallies, self.kept = Tallies(), 0

    def run(self):
        end = time.monotonic() + self.options.seconds
        while time.monotonic() < end and not self.source.number == self.options.count:
            self.one(self.source.next())
        self.tallies.slips = self.source.slips
        return self.tallies

    def one(self, case):
        seen, text = self.program(case)
        expected = self.reading(case)
        self.tallies.count(case, seen.answers)
        self.source.learn(case, seen.answers)
        if seen != expected:
            self.tallies.differences += 1
            self.look(case, seen, expected)

    def look(self, case, seen, expected):
        """Makes a case with a difference smaller and keeps it, if there are not many of its kind."""
        kind = kind_of_difference(seen, expected)
        self.tallies.kinds[kind] += 1
        if self.tallies.kinds[kind] > MOST_KEPT_OF_A_KIND or self.kept >= MOST_KEPT:
            return
        self.kept += 1
        small = Smaller(case, lambda it: self.differs(it, kind)).run()
        folder = os.path.join(self.options.keep, "%d_%d_%d" % (self.options.seed, self.job, self.source.number))
        (seen, text), expected = self.program(small), self.reading(small)
        said = "%s\n\nmade by: %s\nthe program's answers:\n" % (explained(seen, expected), "; ".join(case.trail))
        rest = "standard error: %r\nimage: %s\n" % (text, "none" if seen.image is None else seen.image.hex())
        keep(folder, small, None if isinstance(expected.status, str) else expected, said.encode() + seen.answers + rest.encode())
        print("%s\n%s" % (folder, explained(seen, expected)), flush=True)

    def differs(self, case, kind):
        """Whether a case has a difference of this kind."""
        seen, expected = self.program(case)[0], self.reading(case)
        return seen != expected and kind_of_difference(seen, expected) == kind


def work(options, job):
    """What a worker met, in a folder of its own."""
    with tempfile.TemporaryDirectory() as scratch:
        return Worker(options, job, scratch).run()
