"""FORMATS.md, section 5: the lines of a script."""

import re
from dataclasses import dataclass

from .faults import Refused
from .questions import LIST, NUMBER, TEXT, Offer

MOST_LINE = 4096
MOST_SCRIPT = 1_048_576

QUESTION = rb"[0-9]{1,5}"
DECIMAL = rb"[0-9]{1,20}"
GRAMMAR = {
    "page": rb"page",
    "back": rb"back",
    "submit": rb"submit",
    "discard": rb"discard",
    "set": rb"set (%s) (-?%s|0x[0-9a-fA-F]{1,16})" % (QUESTION, DECIMAL),
    "order": rb"order (%s)(?: (%s(?:,%s)*))?" % (QUESTION, DECIMAL, DECIMAL),
    "text": rb"text (%s)(?: (.*))?" % QUESTION,
    "go": rb"go (%s)" % QUESTION,
    "why": rb"why (%s)" % QUESTION,
    "press": rb"press ([0-9]{1,9})",
    "defaults": rb"defaults (%s)" % QUESTION,
    "lang": rb"lang ([a-zA-Z0-9-]{1,63})",
    "extract": rb"extract ([^ ]+)",
    "route": rb"route ([^ ]+)",
}
MOST_ID, MOST_VALUE = 65535, 2 ** 64 - 1


@dataclass
class Command:
    """The name of a command, the number of its question, class or row, what it offers, and its word in bytes."""

    name: str
    number: int = 0
    offer: Offer = None
    word: bytes = b""


def lines(script):
    """The lines of a script without their LF; what stands behind the last LF is a line if it is not empty."""
    found = script.split(b"\n")
    return found if found[-1] else found[:-1]


def read_line(line):
    """The command of a line, None where it is empty or a CR alone."""
    if len(line) > MOST_LINE:
        raise Refused(71)
    line = line.removesuffix(b"\r")
    if not line:
        return None
    for name, grammar in GRAMMAR.items():
        match = re.fullmatch(grammar, line, re.DOTALL)
        if match:
            return command_of(name, *match.groups())
    raise Refused(70)


def command_of(name, first=None, second=None):
    """The command of a name and the words behind it."""
    if first is None:
        return Command(name)
    if name in ("lang", "extract", "route"):
        return Command(name, word=first)
    named = int(first)
    if name != "press" and named > MOST_ID:
        raise Refused(70)
    return Command(name, named, OFFERS[name](second) if name in OFFERS else None)


def number_of(word):
    value = int(word, 16) if word.startswith(b"0x") else int(word)
    if abs(value) > MOST_VALUE:
        raise Refused(70)
    return Offer(NUMBER, value)


def list_of(word):
    elements = [int(element) for element in word.split(b",")] if word else []
    if any(element > MOST_VALUE for element in elements):
        raise Refused(70)
    return Offer(LIST, elements)


def text_of(rest):
    """The characters of a text as units. One that is no UTF-8 is offered all the same."""
    try:
        return Offer(TEXT, [ord(character) for character in (rest or b"").decode("utf-8")])
    except UnicodeDecodeError:
        return Offer(TEXT, None)


# What the words behind the question of a command offer.
OFFERS = {"set": number_of, "order": list_of, "text": text_of}
