"""The worked cases over programs that are built without proofs (`rt try --cases`). Such a run keeps no file, so answers alone are compared."""
import os
import re
import subprocess
import tempfile

from audits import NAMES, of_defaults, of_dump, of_example, of_images, of_text, splits
from running import KEPT, cases_below, examples

CRATES = os.path.join(os.path.dirname(os.path.dirname(os.path.abspath(__file__))), "crates")
LINE = re.compile(r"^case=.*", re.M)


def setup_runs():
    """The words, the script and the answers of each worked case and example but for the largest."""
    for case in [*cases_below(KEPT), *examples()]:
        if not case.is_large:
            yield case.words("image"), case.script, case.expected[1]


def audit_runs():
    """The words and the answers of what is told of the examples."""
    for run in [*splits(), *of_dump(), *of_text(), *of_defaults(), *of_images(), *(run for name in NAMES for run in of_example(name))]:
        yield run.words("taken"), b"", run.expected[1]


RUNS = {"setup_main": setup_runs, "setup_audit": audit_runs}


def put(folder, name, content):
    with open(os.path.join(folder, name), "wb") as f:
        f.write(content)


def put_case(folder, name, words, script, answers):
    """Writes a case, and gives the words by which the files that it names are given to it."""
    args, data = [], []
    for number, word in enumerate(words):
        if os.path.isfile(word):
            args.append("%s.%d" % (name, number))
            data += ["--data", "%s=%s" % (args[-1], word)]
        else:
            args.append(word)
    put(folder, name, script)
    put(folder, name + ".args", "".join(word + "\n" for word in args).encode())
    put(folder, name + ".stdout", answers)
    return data


def try_cases(program):
    """How many runs of a program give their answers, how many do not, and what was told."""
    runs = list(RUNS[program]())
    with tempfile.TemporaryDirectory() as folder:
        data = []
        for number, run in enumerate(runs):
            data += put_case(folder, "case%d" % number, *run)
        words = ["rt", "try", *data, "--cases", folder]
        done = subprocess.run(words, cwd=os.path.join(CRATES, program), stdin=subprocess.DEVNULL, capture_output=True, text=True, errors="replace")
    passed = sum(" output=expected " in line for line in LINE.findall(done.stderr))
    return passed, len(runs) - passed, done.stderr
