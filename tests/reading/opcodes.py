"""FORMATS.md, section 3, Opcodes: each opcode by itself, and what may stand where (pass 2)."""

from dataclasses import dataclass

from . import operators
from .faults import refuse_least

MUST, MAY, MAY_NOT = "must", "may", "may not"

# Scope's classes.
FORM_SET, FORM, TEXT, QUESTION, CHOICE, OPTION = "form set", "form", "text", "question", "choice", "option"
ONE_VALUE, ONE_EXPRESSION, AROUND, NONE = "one VALUE", "one expression", "by what is around it", ""


@dataclass(frozen=True)
class Opcode:
    """A row of the table: the name, the least length in bytes before it is asked further, Scope and the scope's class."""

    name: str
    least: int
    scope: str
    scope_class: str = NONE


OPCODES = {
    0x0E: Opcode("FORM_SET", 23, MUST, FORM_SET),
    0x01: Opcode("FORM", 6, MUST, FORM),
    0x02: Opcode("SUBTITLE", 7, MAY, FORM),
    0x03: Opcode("TEXT", 8, MAY, TEXT),
    0x0D: Opcode("RESET_BUTTON", 8, MAY, TEXT),
    0x06: Opcode("CHECKBOX", 14, MAY, QUESTION),
    0x07: Opcode("NUMERIC", 14, MAY, QUESTION),
    0x05: Opcode("ONE_OF", 14, MAY, CHOICE),
    0x1C: Opcode("STRING", 16, MAY, QUESTION),
    0x08: Opcode("PASSWORD", 17, MAY, QUESTION),
    0x23: Opcode("ORDERED_LIST", 15, MAY, CHOICE),
    0x1A: Opcode("DATE", 14, MAY, QUESTION),
    0x1B: Opcode("TIME", 14, MAY, QUESTION),
    0x0C: Opcode("ACTION", 13, MAY, QUESTION),
    0x0F: Opcode("REF", 13, MAY, QUESTION),
    0x09: Opcode("ONE_OF_OPTION", 6, MAY, OPTION),
    0x5B: Opcode("DEFAULT", 5, MAY_NOT, ONE_VALUE),
    0x5A: Opcode("VALUE", 2, MUST, ONE_EXPRESSION),
    0x5C: Opcode("DEFAULTSTORE", 6, MAY_NOT),
    0x24: Opcode("VARSTORE", 23, MAY_NOT),
    0x26: Opcode("VARSTORE_EFI", 27, MAY_NOT),
    0x25: Opcode("VARSTORE_NAME_VALUE", 20, MAY_NOT),
    0x0A: Opcode("SUPPRESS_IF", 2, MUST, AROUND),
    0x19: Opcode("GRAY_OUT_IF", 2, MUST, AROUND),
    0x1E: Opcode("DISABLE_IF", 2, MUST, AROUND),
    0x0B: Opcode("LOCKED", 2, MAY_NOT),
    0x11: Opcode("INCONSISTENT_IF", 4, MUST, ONE_EXPRESSION),
    0x10: Opcode("NO_SUBMIT_IF", 4, MUST, ONE_EXPRESSION),
    0x63: Opcode("WARNING_IF", 5, MUST, ONE_EXPRESSION),
    0x18: Opcode("RULE", 3, MUST, ONE_EXPRESSION),
    0x5F: Opcode("GUID", 2, MAY_NOT),
    0x04: Opcode("IMAGE", 2, MAY_NOT),
    0x1F: Opcode("ANIMATION", 2, MAY_NOT),
    0x1D: Opcode("REFRESH", 2, MAY_NOT),
    0x62: Opcode("REFRESH_ID", 2, MAY_NOT),
    0x61: Opcode("MODAL_TAG", 2, MAY_NOT),
}

GUARDS = {"SUPPRESS_IF", "GRAY_OUT_IF", "DISABLE_IF"}
STORES = {"VARSTORE", "VARSTORE_EFI", "VARSTORE_NAME_VALUE"}
QUESTIONS = {
    "CHECKBOX", "NUMERIC", "ONE_OF", "STRING", "PASSWORD", "ORDERED_LIST", "DATE", "TIME", "ACTION", "REF",
}
STATEMENTS = QUESTIONS | {"SUBTITLE", "TEXT", "RESET_BUTTON"}
IGNORED = {"GUID", "IMAGE", "ANIMATION", "REFRESH", "REFRESH_ID", "MODAL_TAG"}

IN_A_QUESTION = {"DEFAULT", "INCONSISTENT_IF", "NO_SUBMIT_IF", "WARNING_IF", "LOCKED"} | IGNORED
MAY_STAND = {
    FORM_SET: {"FORM", "DEFAULTSTORE", "LOCKED"} | STORES | GUARDS | IGNORED,
    FORM: {"RULE", "LOCKED"} | STATEMENTS | GUARDS | IGNORED,
    TEXT: {"LOCKED"} | IGNORED,
    QUESTION: IN_A_QUESTION,
    CHOICE: IN_A_QUESTION | {"ONE_OF_OPTION"} | GUARDS,
    OPTION: IGNORED,
    NONE: set(),
}
# What a guard in the scope of a question covers.
IN_A_GUARD_OF_OPTIONS = {"ONE_OF_OPTION", "LOCKED"} | GUARDS | IGNORED

# Types of values: the bytes that each asks for.
TYPE_BYTES = {
    0x00: 1, 0x01: 2, 0x02: 4, 0x03: 8, 0x04: 1, 0x05: 3, 0x06: 4, 0x07: 2, 0x08: 0, 0x09: 0, 0x0A: 0, 0x0C: 0, 0x0B: 0,
}
TYPE_OTHER = 0x08
OPTION_TYPES = range(0x00, 0x05)
DEFAULT_TYPES = range(0x00, 0x0D)

# Offsets in bytes of the Types and of the names of stores, and the length of a VARSTORE_EFI that is left out.
OPTION_TYPE, DEFAULT_TYPE = 5, 4
NAMES = {"VARSTORE": 22, "VARSTORE_EFI": 26}
OLD_VARSTORE_EFI = 24


def name(node):
    """The name of a node's opcode, an operator's own name, empty where the tables do not list it."""
    row = OPCODES.get(node.number) or operators.OPERATORS.get(node.number)
    return row.name if row else ""


def is_operator(node):
    return node.number in operators.OPERATORS


def is_listed(node):
    return node.number in OPCODES or is_operator(node)


def width(node):
    """The bytes w of the numbers of a NUMERIC or ONE_OF."""
    return 1 << (node.data[13] & 0x03)


def faults(roots):
    """All faults of pass 2, as pairs of place and number."""
    found = []
    if not roots or name(roots[0]) != "FORM_SET":
        found.append((4, 24))
    found += [(root.place, 25) for root in roots[1:]]
    for root in roots:
        found += faults_below(root)
    return found


def check(roots):
    refuse_least(faults(roots))


def faults_below(node):
    """The faults of a node and of all below it."""
    found = faults_of(node) + faults_of_shape(node)
    for child in node.children:
        found += faults_below(child)
    return found


def faults_of(node):
    """The faults 26 to 29 of an opcode."""
    causes = []
    if not is_listed(node) or is_left_out(node):
        causes.append(26)
    if is_listed(node):
        if is_too_short(node):
            causes.append(27)
        if is_scope_wrong(node):
            causes.append(29)
        if node.parent is not None and not may_stand(node):
            causes.append(28)
    return [(node.place, cause) for cause in causes]


def is_left_out(node):
    """Whether it is one of the opcodes of a listed number that are refused like one that is not listed."""
    kind, data = name(node), node.data
    if kind == "GUID":
        return node.scope
    if kind == "VARSTORE_EFI":
        return len(data) == OLD_VARSTORE_EFI
    if kind == "ONE_OF_OPTION":
        return len(data) > OPTION_TYPE and data[OPTION_TYPE] not in OPTION_TYPES
    if kind == "DEFAULT":
        return len(data) > DEFAULT_TYPE and data[DEFAULT_TYPE] not in DEFAULT_TYPES
    return False


def is_too_short(node):
    kind, data = name(node), node.data
    if is_operator(node):
        return len(data) < operators.least_length(node)
    if len(data) < OPCODES[node.number].least:
        return True
    if kind in ("NUMERIC", "ONE_OF"):
        return len(data) < 14 + 3 * width(node)
    if kind == "ONE_OF_OPTION":
        return len(data) < 6 + TYPE_BYTES.get(data[OPTION_TYPE], 0)
    if kind == "DEFAULT":
        return len(data) < 5 + TYPE_BYTES.get(data[DEFAULT_TYPE], 0)
    if kind in NAMES:
        return 0 not in data[NAMES[kind]:]
    return False


def is_scope_wrong(node):
    """Whether Scope is clear where it must be set, or set where it may not be."""
    if is_operator(node):
        wanted = MAY_NOT if node.parent is not None and is_operator(node.parent) else MAY
    elif name(node) == "DEFAULT" and len(node.data) > DEFAULT_TYPE and node.data[DEFAULT_TYPE] == TYPE_OTHER:
        wanted = MUST
    else:
        wanted = OPCODES[node.number].scope
    return wanted == (MAY_NOT if node.scope else MUST)


def may_stand(node):
    """Whether a node may stand where it stands in its parent's scope."""
    parent, kind = node.parent, name(node)
    first = parent.children[0] is node
    if is_operator(parent):
        return is_operator(node)
    if parent.number not in OPCODES:
        return False
    row = OPCODES[parent.number]
    if row.scope_class == ONE_EXPRESSION:
        return first and is_operator(node)
    if row.scope_class == ONE_VALUE:
        return first and kind == "VALUE"
    if row.name in GUARDS:
        return is_operator(node) if first else kind in covered(parent)
    return kind in MAY_STAND[row.scope_class]


def covered(guard):
    """What a guard covers: what may stand in the scope of the nearest ancestor that is no guard."""
    around = guard
    while around is not None and name(around) in GUARDS:
        around = around.parent
    if around is None or around.number not in OPCODES:
        return set()
    scope_class = OPCODES[around.number].scope_class
    return IN_A_GUARD_OF_OPTIONS if scope_class == CHOICE else MAY_STAND.get(scope_class, set())


def is_condition_wanted(node):
    """Whether the first child of a node is its expression."""
    row = OPCODES.get(node.number)
    return row is not None and (row.name in GUARDS or row.scope_class == ONE_EXPRESSION)


def faults_of_shape(node):
    """The fault 30 of a node that wants an expression or a VALUE, and the faults 30 and 31 of an expression."""
    if is_condition_wanted(node):
        first = node.children[0] if node.children else None
        if first is None or (is_listed(first) and not is_operator(first)):
            return [(node.place, 30)]
        return faults_of_expression(first) if is_operator(first) else []
    if name(node) == "DEFAULT" and len(node.data) > DEFAULT_TYPE and node.data[DEFAULT_TYPE] == TYPE_OTHER:
        first = node.children[0] if node.children else None
        if first is None or (is_listed(first) and name(first) != "VALUE"):
            return [(node.place, 30)]
    return []


def faults_of_expression(expression):
    """What is told of the order of an expression's operators: only where none has a fault 26 to 29, and only the first."""
    sequence = operators.sequence(expression)
    if any(faults_of(node) for node in sequence):
        return []
    return operators.first_fault_of_order(sequence)
