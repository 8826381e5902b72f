"""What the measurements of the built program share: counts of instructions and of memory, and whether they grow evenly.

`valgrind` must be there.
"""
import argparse
import math
import os
import re
import subprocess
import sys
import tempfile

HERE = os.path.dirname(os.path.abspath(__file__))
sys.path.insert(0, os.path.join(os.path.dirname(HERE), "tests"))
from packages import END_PACKAGE, older_image, package, package_list

CRATES = os.path.join(os.path.dirname(HERE), "crates")
PROGRAM = os.path.join(CRATES, "setup_main", "out", "setup_main")
AUDIT = os.path.join(CRATES, "setup_audit", "out", "setup_audit")
SIZES = [1000, 2000, 4000, 8000]
MOST_PER_DOUBLING, MOST_OF_THE_SAME = 2.4, 1.2
# The C library copies and fills wide pieces by one instruction for all their bytes, of which valgrind counts each byte as an instruction.
# So it is told to use that for no piece, and the counts grow as the work does.
TUNABLES = "glibc.cpu.x86_rep_movsb_threshold=1000000000:glibc.cpu.x86_rep_stosb_threshold=1000000000"


class Counter:
    """Counts what runs of a program take, and how many counts are wrong."""

    def __init__(self, program, audit, scratch):
        self.program, self.audit, self.scratch, self.wrong = program, audit, scratch, 0

    def file(self, name, content):
        path = os.path.join(self.scratch, name)
        with open(path, "wb") as f:
            f.write(content)
        return path

    def given(self, texts, opcodes, held):
        """The words that give string packages and a forms package with a store of so many bytes, or with these stores."""
        packages = texts + package(opcodes) + END_PACKAGE
        stores = [(1, bytes(held))] if isinstance(held, int) else held
        return ["--list", self.file("list", package_list(packages)), "--stores", self.file("stores", older_image(stores))]

    def session(self, texts, opcodes, held):
        """The command of a session over these."""
        return [self.program, *self.given(texts, opcodes, held), "--out", os.path.join(self.scratch, "image")]

    def run_under(self, tool, command, script):
        """A run of a command under a tool of valgrind."""
        counted = {**os.environ, "GLIBC_TUNABLES": TUNABLES}
        done = subprocess.run(["valgrind", *tool, *command], input=script, capture_output=True, env=counted)
        if done.returncode != 0:
            sys.exit("a run ends with %d: %r %r" % (done.returncode, done.stdout[:200], done.stderr[-400:]))
        return done

    def instructions(self, command, script):
        """The instructions of a run, and its answers."""
        done = self.run_under(["--tool=cachegrind", "--cache-sim=no", "--cachegrind-out-file=/dev/null"], command, script)
        told = re.search(rb"I +refs: +([\d,]+)", done.stderr)
        if not told:
            sys.exit("valgrind tells no count: %r" % done.stderr[-400:])
        return int(told.group(1).replace(b",", b"")), done.stdout

    def measure(self, texts, opcodes, held, script):
        """The instructions of a session's script, and its answers."""
        return self.instructions(self.session(texts, opcodes, held), script)

    def peak(self, texts, opcodes, held, script):
        """The bytes of memory that such a session has taken and not given back where these are most."""
        return self.peak_of(self.session(texts, opcodes, held), script)

    def peak_of(self, command, script=b""):
        """The same of a run of a command."""
        told = os.path.join(self.scratch, "massif")
        tool = ["--tool=massif", "--peak-inaccuracy=0.0", "--massif-out-file=" + told]
        self.run_under(tool, command, script)
        with open(told, encoding="utf-8") as f:
            return max(int(count) for count in re.findall(r"^mem_heap_B=(\d+)$", f.read(), re.MULTILINE))

    def wanted(self, got, expected, what):
        if got != expected:
            sys.exit("wrong %s: %r" % (what, got[:400] if isinstance(got, bytes) else got))

    def line(self, name, cells, said="", fault=None):
        """Prints a line of a table. A fault counts as wrong."""
        self.wrong += fault is not None
        print("%-24s" % name + "".join("%16s" % cell for cell in cells) + said + ("   " + fault if fault else ""), flush=True)

    def row(self, name, sizes, counts, most=MOST_PER_DOUBLING):
        """Prints the counts of something for growing sizes, and whether they grow evenly: at most so many times per doubling."""
        grown = [b / max(a, 1) for a, b in zip(counts, counts[1:])]
        even = all(growth <= most ** math.log2(b / a) for growth, a, b in zip(grown, sizes, sizes[1:]))
        said = "   x " + ", ".join("%.2f" % growth for growth in grown)
        self.line(name, counts, said, None if even else "grows too fast")

    def done(self):
        """Prints whether all is right, and gives the status."""
        print("all counts grow evenly" if self.wrong == 0 else "%d counts grow too fast" % self.wrong)
        return 0 if self.wrong == 0 else 1


def main(doc, counter, parts):
    """Runs a counter of this kind over the sizes, and those of its parts, that the command line asks for, and gives the status."""
    parser = argparse.ArgumentParser(description=doc, formatter_class=argparse.RawDescriptionHelpFormatter)
    parser.add_argument("program", nargs="?", default=PROGRAM)
    parser.add_argument("--sizes", nargs="*", type=int, default=SIZES)
    parser.add_argument("--only", nargs="+", choices=parts, default=parts, metavar="PART")
    parser.add_argument("--audit", default=AUDIT)
    options = parser.parse_args()
    with tempfile.TemporaryDirectory() as scratch:
        made = counter(os.path.abspath(options.program), os.path.abspath(options.audit), scratch)
        made.run(options.sizes, options.only)
        return made.done()
