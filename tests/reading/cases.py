"""Cases in folders: the reading run over each, and where it differs from what the case expects."""

from pathlib import Path

from . import answer
from .program import options

REPOSITORY = Path(__file__).resolve().parents[2]
DEFAULT_FOLDERS = [REPOSITORY / "tests/cases", REPOSITORY / "examples"]
# The names of list, stores, script and written image, in a case and in an example.
CASE = ("list.bin", "stores.bin", "script.bin", "out.bin")
EXAMPLE = ("list", "stores", "script", "image")


def cases_below(folder):
    """The folders of cases at or below a folder, sorted, each with the names of its files."""
    found = []
    for answers in sorted(Path(folder).rglob("answers")):
        for names in (CASE, EXAMPLE):
            if (answers.parent / names[0]).is_file():
                found.append((answers.parent, names))
    return found


def read(path, otherwise):
    """The bytes of a file, or something else where there is none."""
    return path.read_bytes() if path.is_file() else otherwise


def differences(case, names):
    """What differs in a case, as lines."""
    list_bytes, stores, script = [(case / name).read_bytes() for name in names[:3]]
    words = read(case / "args", b"").decode("utf-8").splitlines()
    chosen = options(["--list", "", "--stores", "", "--out", ""] + words)
    run = answer(list_bytes, stores, script, int(chosen["--forms"]), chosen["--lang"])
    found = []
    status = int(read(case / "status", b"0"))
    if run.status != status:
        found.append(f"status {run.status}, expected {status}")
    expected = (case / "answers").read_bytes()
    if run.answers != expected:
        found += first_difference(run.answers, expected)
    image = read(case / names[3], None)
    if run.image != image:
        found.append(f"image {run.image}, expected {image}"[:400])
    return found


def first_difference(answers, expected):
    """The first line of two answers in which they differ."""
    ours, theirs = answers.split(b"\n"), expected.split(b"\n")
    for at, (one, other) in enumerate(zip(ours, theirs), 1):
        if one != other:
            return [f"line {at}: {one}", f"expected: {other}"]
    return [f"{len(ours) - 1} lines, expected {len(theirs) - 1}"]


def main(folders):
    """Run the cases below the folders, and give the status."""
    passed = failed = 0
    for folder in folders or DEFAULT_FOLDERS:
        for case, names in cases_below(folder):
            try:
                found = differences(case, names)
            except Exception as error:  # A case in which the reading itself breaks is one that fails.
                found = [f"{type(error).__name__}: {error}"]
            passed, failed = passed + (not found), failed + bool(found)
            for line in found:
                print(f"{case}: {line}")
    print(f"{passed} passed, {failed} failed")
    return 1 if failed else 0
