"""What answers tell: the causes of refusals, the kinds of denials, and what is new in them."""
import re

from fuzzing.structure import FORMS, split_list

CAUSES = (*range(1, 11), *range(20, 41), *range(50, 57), 60, 70, 71, 72, 73, 80, 81, 82, 83)
KINDS = ("suppressif", "disableif", "grayoutif", "locked", "readonly", "outside", "kind", "range", "nooption", "badtext",
         "length", "emptyset",
         "repeat", "inconsistentif", "nosubmitif", "noquestion", "notref", "deephistory", "noback", "norow", "notbutton",
         "nostore", "nofield", "password")
# What these tests leave to others: an allocation that fails, and a file of more than 16,777,216 bytes.
LEFT_OUT = (60, 73)
FIRST = re.compile(rb"^(OK|DENIED|REFUSED|FORM|CONFIG|WARNING)\b(?: (\w+))?(?: .*? ?at ([0-9a-f]{8}))?", re.MULTILINE)
REFUSED = re.compile(rb"^REFUSED (\d+) ", re.MULTILINE)
DENIED = re.compile(rb"^DENIED (\w+) at ", re.MULTILINE)
REFUSED_LIST = re.compile(rb"\AREFUSED ([1-9]|10|[23]\d|40) \w+ at ")
REFUSED_BYTES = re.compile(rb"\AREFUSED \d+ \w+ at ")


def causes(answers):
    return [int(number) for number in REFUSED.findall(answers)]


def denials(answers):
    return [kind.decode() for kind in DENIED.findall(answers)]


def list_is_accepted(answers):
    return not REFUSED_LIST.match(answers)


def is_opened(answers):
    """Whether the list and the image were accepted."""
    return not REFUSED_BYTES.match(answers)


def code_at(data, forms, place):
    """The number of the opcode at a place of the opened forms package."""
    packages = [body for kind, body in split_list(data).packages if kind == FORMS]
    body = packages[forms - 1] if forms <= len(packages) else b""
    return body[place - 4] if 4 <= place < len(body) + 4 else None


def paired(script, answers):
    """The first word of each line of a script with the first line of its answer, where the script was run."""
    lines = [line for line in (it.removesuffix(b"\r") for it in script.split(b"\n")) if line]
    firsts = [it for it in FIRST.finditer(answers) if it[1] != b"WARNING"]
    return zip(lines, firsts)


def traits(case, answers):
    """What a run is known by: its refusal and the opcode there, or for each command how it was answered and over which opcode."""
    found = set()
    if not is_opened(answers):
        it = FIRST.match(answers)
        place = int(it[3], 16) if it and it[3] else 0
        return {(it[2], code_at(case.list, case.forms, place))} if it else {("none",)}
    for line, it in paired(case.script, answers):
        place = int(it[3], 16) if it[3] else 0
        kind = it[2] if it[1] in (b"DENIED", b"REFUSED") else b""
        found.add((line.split(b" ")[0][:8] if it[1] != b"REFUSED" else b"", it[1], kind, code_at(case.list, case.forms, place)
                   if place else None))
    return found
