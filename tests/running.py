"""Runs of the program over cases: those in tests/cases, those of the series, and the examples; and runs with failing allocations."""
import os
import subprocess
import tempfile

HERE = os.path.dirname(os.path.abspath(__file__))
KEPT = os.path.join(HERE, "cases")
EXAMPLES = os.path.join(os.path.dirname(HERE), "examples")
SECONDS = 60
OUT_OF_MEMORY = (4, b"REFUSED 60 OutOfMemory\n", None)
FILE_TOO_LONG = b"REFUSED 73 FileTooLong\n"
# No run has as many allocations, but for those of large cases.
MANY_ALLOCATIONS = 2000


def read(path):
    with open(path, "rb") as f:
        return f.read()


def read_or_none(path):
    return read(path) if os.path.isfile(path) else None


class Case:
    """What a run is given, and the expected answers, status and image."""

    def __init__(self, folder):
        self.folder = folder
        self.name = os.path.basename(folder)
        self.list, self.stores = self.at("list.bin"), self.at("stores.bin")
        self.script = read(self.at("script.bin"))
        self.args = [word for word in (read_or_none(self.at("args")) or b"").decode().split("\n") if word]
        self.expected = int(read(self.at("status"))), read(self.at("answers")), read_or_none(self.at("out.bin"))

    @property
    def is_large(self):
        """Whether a run takes too many or too long for each allocation to fail in turn."""
        return self.name.startswith("large_")

    @property
    def is_one_of_many(self):
        """Whether it is one of a series of many that ask for memory alike."""
        return self.name.startswith(("fault_", "placed_", "accepted_", "edge_", "script_"))

    def at(self, file):
        return os.path.join(self.folder, file)

    def words(self, out):
        return ["--list", self.list, "--stores", self.stores, "--out", out] + self.args

    def is_out_of_memory(self, run):
        """Whether a run says that it is out of memory, and nothing else."""
        return run == OUT_OF_MEMORY


class Example(Case):
    """An example, whose files have the names that readers see."""

    def __init__(self, folder):
        self.folder = folder
        self.name = "example " + os.path.basename(folder)
        self.list, self.stores = self.at("list"), self.at("stores")
        self.script = read(self.at("script"))
        self.args = []
        self.expected = 0, read(self.at("answers")), read(self.at("image"))


def cases_below(folder):
    for root, folders, files in os.walk(folder):
        folders.sort()
        if "list.bin" in files and "answers" in files:
            yield Case(root)


def examples():
    folders = [os.path.join(EXAMPLES, name) for name in sorted(os.listdir(EXAMPLES))]
    return [Example(folder) for folder in folders if os.path.isfile(os.path.join(folder, "script"))]


def make_cases(folder, *words):
    subprocess.run([os.path.join(HERE, "make_cases"), folder, *words], check=True, stdout=subprocess.DEVNULL)


def run_case(program, case, env=None):
    """The status, the answers and the image that the program leaves, or None where it does not end."""
    with tempfile.TemporaryDirectory() as scratch:
        out = os.path.join(scratch, "image")
        try:
            done = subprocess.run(
                [program] + case.words(out), input=case.script, capture_output=True, timeout=SECONDS, env=env
            )
        except subprocess.TimeoutExpired:
            return None
        return done.returncode, done.stdout, read_or_none(out)


def build_library(scratch):
    """The library that makes allocations fail, which is built in this folder."""
    library = os.path.join(scratch, "fail_allocation.so")
    source = os.path.join(HERE, "fail_allocation.c")
    subprocess.run(["cc", "-O2", "-Wall", "-shared", "-fPIC", "-o", library, source, "-ldl"], check=True)
    return library


def runs_with_failing_allocations(library, run):
    """Makes each allocation fail in turn, until a run has no such one: its number, what `run` gives in this environment, and whether
    it was asked for."""
    for number in range(1, MANY_ALLOCATIONS):
        with tempfile.TemporaryDirectory() as scratch:
            told = os.path.join(scratch, "told")
            given = run(dict(os.environ, LD_PRELOAD=library, FAIL_ALLOCATION=str(number), FAIL_ALLOCATION_TOLD=told))
            met = os.path.exists(told)
        yield number, given, met
        if not met:
            return


def shown(run):
    if run is None:
        return "no end in %d seconds" % SECONDS
    status, answers, out = run
    return "status %d, %r, image %s" % (status, answers[:200], "none" if out is None else out.hex()[:200])


def check_case(program, case):
    run = run_case(program, case)
    return [] if run == case.expected else ["%s: %s, not %s" % (case.name, shown(run), shown(case.expected))]
