"""The worked cases of the program, by name, and what they are made of.

What a case expects was worked out by hand, never taken from the program.
"""
from packages import (END, END_PACKAGE, base, checkbox, duplicate, eq_id_val, image, list_of, older_image, package, package_list, scoped,
                      skip, string, suppress_if)

# One form with one checkbox over the first byte of a store of two bytes. The forms package has 75 bytes, the list 99.
ONE_BOX = base() + checkbox(1, 0) + END + END
ONE_BOX_LIST = list_of(ONE_BOX)
ZEROS = older_image([(1, bytes(2))])

# Question 1 is hidden while question 2 is 1.
GUARDED = base() + suppress_if() + eq_id_val(2, 1) + checkbox(1, 0) + END + checkbox(2, 1) + END + END
GUARDED_LIST = list_of(GUARDED)

# Question 1 is hidden while it is 1 itself.
SELF_GUARDED_LIST = list_of(base() + suppress_if() + eq_id_val(1, 1) + checkbox(1, 0) + END + END + END)

# Blocks of the ids 1 to 8: a text, three without one, units of a surrogate and of no character and a letter, a text twice, two without
# one.
EIGHT_IDS = [string("A"), skip(3), bytes([0x14, 0x00, 0xD8, 0xF1, 0xFF, 0x42, 0x00, 0x00, 0x00]), duplicate(1), duplicate(9)]

OK = "OK\n"
TITLE = "FORM 1 #2\n"
FIRST = 57


def row(number, question, mark, value):
    """The row of a question whose prompt has no text: its string's id, in 24 columns."""
    return "%3d %s %5d %-24s [%s]\n" % (number, mark, question, "#%d" % (question + 2), value)


def plain_row(number, mark, prompt, value):
    """The row of a statement that is no question, whose prompt has no text."""
    return "%3d %s     - %-24s [%s]\n" % (number, mark, "#%d" % prompt, value)


def prompts(*ids):
    """Checkboxes whose prompts are these ids and two, all over the first byte of the store."""
    return base() + b"".join(checkbox(number, 0) for number in ids) + END + END


def shown_row(number, question, prompt, columns=None):
    """The row of an unset checkbox whose prompt takes so many columns, one for each character where none are given."""
    columns = len(prompt) if columns is None else columns
    return "%3d * %5d %s%s [ ]\n" % (number, question, prompt, " " * (24 - columns))


def held(*bytes_of_store):
    return image([(1, bytes(bytes_of_store))])


CASES = {}


def case(name, list_bytes, stores, script, answers, out=None, args=()):
    """A run that leaves `out`, or that is refused, where there is none."""
    assert name not in CASES, name
    CASES[name] = (list_bytes, stores, script, answers, out, args)


def refused(name, list_bytes, line, stores=ZEROS, args=()):
    """Bytes that open no session."""
    case(name, list_bytes, stores, b"page\n", "REFUSED %s\n" % line, None, args)


def of_form(*statements, size=2):
    """A list of one form with these statements, and a store of so many bytes. The first statement stands at 57."""
    return list_of(base(size) + b"".join(statements) + END + END)


def in_form(name, opcodes, line):
    """Refused for opcodes that stand at 57, the first in a form."""
    refused(name, of_form(opcodes, checkbox(1, 0)), line)


def in_checkbox(name, opcodes, line):
    """Refused for opcodes that stand at 71, the first in a checkbox."""
    in_form(name, scoped(checkbox(2, 1), opcodes), line)


def counted(count):
    """The answer with a count."""
    return "OK %d\n" % count


def denied(kind, place=FIRST):
    return "DENIED %s at %08x\n" % (kind, place)


def talk_over(name, list_bytes, stores, said, left=None):
    """Lines with their answers, over the bytes of stores by their ids. They leave other bytes if these are given."""
    script = b"".join((line if isinstance(line, bytes) else line.encode()) + b"\n" for line, _ in said)
    case(name, list_bytes, older_image(stores), script, "".join(answer for _, answer in said), image(left or stores))


def talk(name, list_bytes, stored, said, left=None):
    """The same over the bytes of store 1."""
    talk_over(name, list_bytes, [(1, stored)], said, [(1, left or stored)])


def with_strings(opcodes, *packages):
    """A list of these string packages, and a forms package behind them."""
    return package_list(b"".join(packages) + package(opcodes) + END_PACKAGE)
