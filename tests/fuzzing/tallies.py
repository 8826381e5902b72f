"""What a run of the fuzzer met, and the tables at its end."""
from collections import Counter

from fuzzing import told
from fuzzing.mutations import AIMED, ARGUMENTS, BYTES, IMAGES, OPCODES, PACKAGES, SCRIPTS, TEXTS

# The mutations that do not change what is refused before the script is read.
AFTERWARDS = {row[1] for row in SCRIPTS} | {"another language of the run"}


class Tallies:
    """Counts of cases, and of causes and denials by the mutations that met them first."""

    def __init__(self):
        self.cases = self.accepted = self.opened = self.commands = self.differences = 0
        self.met, self.firsts, self.mutations, self.slips = Counter(), {}, Counter(), []
        self.kinds = Counter()

    def count(self, case, answers):
        """Counts a case with its answers."""
        self.cases += 1
        self.accepted += told.list_is_accepted(answers)
        self.opened += told.is_opened(answers)
        self.commands += len(list(told.paired(case.script, answers))) if told.is_opened(answers) else 0
        self.mutations.update(set(case.trail))
        for it in told.causes(answers) + told.denials(answers):
            self.met[it] += 1
            self.name(it, case.trail, told.is_opened(answers))

    def name(self, it, trail, is_opened):
        """Takes the last mutation among the first that met this. Of bytes that are refused one of the script does not count."""
        names = [name for name in trail if is_opened or name not in AFTERWARDS]
        by = self.firsts.setdefault(it, [])
        if names and len(by) < 3 and names[-1] not in by:
            by.append(names[-1])

    def add(self, other):
        """Adds what another worker met."""
        for name in ("cases", "accepted", "opened", "commands", "differences"):
            setattr(self, name, getattr(self, name) + getattr(other, name))
        self.met.update(other.met)
        self.mutations.update(other.mutations)
        self.slips += other.slips
        self.kinds.update(other.kinds)
        for it, by in other.firsts.items():
            known = self.firsts.setdefault(it, [])
            known += [name for name in by if name not in known][:3 - len(known)]

    def never_met(self):
        return [it for it in told.CAUSES + told.KINDS if not self.met[it]]

    def table(self):
        """Each cause and each kind of denial, how often it was met, and by which mutations first."""
        rows = ["%15s %9d  %s" % (it, self.met[it], "; ".join(self.firsts.get(it, []))) for it in told.CAUSES + told.KINDS]
        return ["          cause     times  first met by"] + rows

    def summary(self):
        """The lines at the end of a run, but for the last."""
        tables = (OPCODES, SCRIPTS, IMAGES, TEXTS, BYTES, PACKAGES, ARGUMENTS, AIMED)
        known = {row[1] for table in tables for row in table}
        unused = sorted(known - set(self.mutations))
        missing = [it for it in self.never_met() if it not in told.LEFT_OUT]
        lines = self.table() + ["%d cases, %d lists accepted, %d sessions opened, %d commands answered" % (
            self.cases, self.accepted, self.opened, self.commands)]
        lines += ["mutations that were never used: " + "; ".join(unused)] if unused else []
        lines += ["%d mutations failed in themselves, the first:\n%s" % (len(self.slips), self.slips[0])] if self.slips else []
        lines.append("never met: %s" % (", ".join(map(str, missing)) or "none"))
        lines += ["%6d differences like %s" % (times, kind) for kind, times in self.kinds.most_common(20)]
        lines.append("left to tests/run: 60, an allocation that fails; 73, a file of more than 16,777,216 bytes")
        return lines
