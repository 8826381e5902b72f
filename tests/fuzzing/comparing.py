"""The program and the reading over a case: what each gives, and whether both give the same."""
import os
import signal
import subprocess
import traceback

from fuzzing.cases import Run, read, write

PROGRAM_SECONDS, READING_SECONDS = 60, 60


class TooSlow(Exception):
    """The reading takes too long over a case."""


class Program:
    """A program that is run over the files of a folder of its own."""

    def __init__(self, path, folder):
        self.path, self.folder = path, folder

    def at(self, name):
        return os.path.join(self.folder, name)

    def __call__(self, case):
        """What a run gives, and what it writes to standard error."""
        write(self.folder, "list", case.list)
        write(self.folder, "stores", case.stores)
        write(self.folder, "script", case.script)
        if os.path.exists(self.at("image")):
            os.remove(self.at("image"))
        words = [self.path, "--list", self.at("list"), "--stores", self.at("stores"), "--out", self.at("image"), *case.words]
        with open(self.at("script"), "rb") as script:
            try:
                done = subprocess.run(words, stdin=script, stdout=subprocess.PIPE, stderr=subprocess.PIPE,
                                      timeout=PROGRAM_SECONDS)
            except subprocess.TimeoutExpired:
                return Run("no end in %d seconds" % PROGRAM_SECONDS, b"", None), b""
        image = read(self.at("image")) if os.path.isfile(self.at("image")) else None
        # No case makes the program write to standard error.
        status = "%d, with a text on standard error" % done.returncode if done.stderr else done.returncode
        return Run(status, done.stdout, image), done.stderr


def out_of_time(number, frame):
    raise TooSlow


class Reading:
    """The reading, or a planted one, called within this process."""

    def __init__(self, module):
        self.answer = module.answer

    def __call__(self, case):
        """What the reading gives. Where it fails the status says how."""
        signal.signal(signal.SIGALRM, out_of_time)
        signal.setitimer(signal.ITIMER_REAL, READING_SECONDS)
        try:
            told = self.answer(case.list, case.stores, case.script, case.forms, case.language)
            return Run(told.status, told.answers, told.image)
        except TooSlow:
            return Run("no end in %d seconds" % READING_SECONDS, b"", None)
        except Exception:
            return Run("an exception: " + traceback.format_exc(), b"", None)
        finally:
            signal.setitimer(signal.ITIMER_REAL, 0)


def first_difference(one, other):
    """The number of the first line in which two answers differ, and the line of each."""
    ones, others = one.split(b"\n"), other.split(b"\n")
    at = next((at for at, pair in enumerate(zip(ones, others)) if pair[0] != pair[1]), min(len(ones), len(others)))
    line = lambda lines: lines[at] if at < len(lines) else b"(no line)"
    return at + 1, line(ones), line(others)


def shown_image(image):
    return "none" if image is None else image.hex()


def explained(program, reading):
    """In which way two runs differ, as lines of text."""
    said = []
    if program.status != reading.status:
        said.append("status: the program %s, the reading %s" % (program.status, reading.status))
    if program.answers != reading.answers:
        said.append("answers, line %d:\n  the program %r\n  the reading %r" % first_difference(program.answers, reading.answers))
    if program.image != reading.image:
        said.append("image:\n  the program %s\n  the reading %s" % (shown_image(program.image), shown_image(reading.image)))
    return "\n".join(said)


def kind_of_difference(program, reading):
    """What differences have in common that come from one cause: the first words of the lines that differ."""
    _, one, other = first_difference(program.answers, reading.answers)
    return str(program.status)[:40], str(reading.status)[-60:], tuple(one.split(b" ")[:2]), tuple(other.split(b" ")[:2])
