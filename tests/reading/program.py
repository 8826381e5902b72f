"""PROFILE.md, Program: the command line, the files and the statuses."""

import re
import sys

from .faults import Refused
from .run import MOST_FILE, answer
from .script import MOST_SCRIPT

USAGE = "usage: setup --list F --stores F --out F [--forms N] [--lang L] < script"
NEEDED = {"--list", "--stores", "--out"}
OTHERWISE = {"--forms": "1", "--lang": "en-US"}
MOST_FORMS = 65535


class Usage(Exception):
    """The command line is wrong, or asks for help."""


class Fault(Exception):
    """A read or a write failed."""


def options(words):
    """The values of the options of a command line. The word behind an option is its value whatever it is."""
    given = {}
    for option, value in zip(words[::2], words[1::2]):
        if option not in NEEDED | set(OTHERWISE) or option in given or not is_utf8(value):
            raise Usage
        given[option] = value
    found = OTHERWISE | given
    if len(words) % 2 or not NEEDED <= set(given) or not re.fullmatch("[0-9]+", found["--forms"]):
        raise Usage
    if not 1 <= int(found["--forms"]) <= MOST_FORMS:
        raise Usage
    return found


def is_utf8(word):
    """Whether the bytes of a word of the command line are UTF-8."""
    try:
        word.encode("utf-8")
        return True
    except UnicodeEncodeError:
        return False


def read_file(name, what):
    """The bytes of a file."""
    try:
        with open(name, "rb") as file:
            data = file.read(MOST_FILE + 1)
    except (OSError, ValueError):
        raise Fault(f"FAULT read {what}") from None
    if len(data) > MOST_FILE:
        raise Refused(73)
    return data


def read_script():
    """The bytes of the script, one more than it may have at the most."""
    try:
        with open(0, "rb", closefd=False) as file:
            return file.read(MOST_SCRIPT + 1)
    except OSError:
        raise Fault("FAULT read script") from None


def write(data, what, file):
    """Write bytes to a file, given by its name or number."""
    try:
        with open(file, "wb", buffering=0, closefd=file != 1) as opened:
            while data:
                data = data[opened.write(data):]
    except (OSError, ValueError):
        raise Fault(f"FAULT write {what}") from None


def run(words):
    """Run the program, and give its status."""
    chosen = options(words)
    try:
        list_bytes = read_file(chosen["--list"], "list")
        image_bytes = read_file(chosen["--stores"], "stores")
    except Refused as fault:
        write(fault.line().encode() + b"\n", "answers", 1)
        return 1
    result = answer(list_bytes, image_bytes, read_script(), int(chosen["--forms"]), chosen["--lang"])
    write(result.answers, "answers", 1)
    if result.image is not None:
        write(result.image, "out", chosen["--out"])
    return result.status


def main(words):
    """Run the program, tell what failed, and give the status."""
    try:
        return run(words)
    except Usage:
        print(USAGE, file=sys.stderr)
        return 2
    except Fault as fault:
        print(fault, file=sys.stderr)
        return 3
