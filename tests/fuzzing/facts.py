"""What a list has, read leniently: for mutations and scripts that name things that exist."""
from dataclasses import dataclass, field

from packages import FORM_SET_GUID, SIGNED, WIDTHS
from fuzzing.structure import (BOX, DEVICE_PATH, FORM, FORM_SET, FORMS, GUARDS, LISTED, NUMERIC, ONE_OF, OPTION, PASSWORD,
                               QUESTIONS, RULE,
                               STATEMENTS, STORES, STRING, STRINGS, has_scope, number_at, parents, split_list, split_opcodes)


@dataclass
class Store:
    """A store that a form set declares."""
    number: int
    size: int = 0
    guid: bytes = bytes(16)
    name: bytes = b""
    has_bytes: bool = True


@dataclass
class Question:
    """A question of any kind, with what its kind has of these."""
    code: int
    number: int
    store: int = 0
    offset: int = 0
    width: int = 0
    least: int = 0
    most: int = 0
    element: int = 1
    display: int = 0
    values: list = field(default_factory=list)
    form: int = 0

    @property
    def is_signed(self):
        return self.code == NUMERIC and self.display == SIGNED


@dataclass
class Facts:
    """What a list has."""
    guid: bytes = FORM_SET_GUID
    path: bytes = b""
    languages: list = field(default_factory=list)
    forms: list = field(default_factory=list)
    rows: dict = field(default_factory=dict)
    stores: list = field(default_factory=list)
    questions: list = field(default_factory=list)
    rules: list = field(default_factory=list)
    classes: list = field(default_factory=list)
    constants: dict = field(default_factory=dict)

    @property
    def held(self):
        """The stores with bytes."""
        return [store for store in self.stores if store.has_bytes]

    @property
    def numbers(self):
        """The ids of all questions."""
        return [it.number for it in self.questions]

    def of_code(self, *codes):
        return [it for it in self.questions if it.code in codes]


def facts_of(data, forms=1):
    """What the forms package of this number has in the bytes of a list."""
    whole = split_list(data)
    paths, strings = whole.of_kind(DEVICE_PATH), whole.of_kind(STRINGS)
    of_forms = whole.of_kind(FORMS)
    number = of_forms[min(forms, len(of_forms)) - 1] if of_forms else None
    found = facts_of_opcodes(split_opcodes(whole.packages[number][1])[0] if of_forms else [])
    found.path = whole.packages[paths[0]][1] if paths else b""
    found.languages = [whole.packages[it][1][42:].split(b"\0")[0] for it in strings]
    return found


def facts_of_opcodes(ops):
    found, above = Facts(), parents(ops)
    for at, op in enumerate(ops):
        read_opcode(found, op)
        if op[0] == OPTION:
            read_option(found, ops, above, at)
    for it in found.questions:
        it.width = {BOX: 1, STRING: 2 * it.most, PASSWORD: 2 * it.most, LISTED: it.most * it.element}.get(it.code, it.width)
    return found


def read_opcode(found, op):
    """Takes over what one opcode says."""
    if op[0] == FORM_SET:
        found.guid = op[2:18].ljust(16, b"\0")
    elif op[0] == FORM:
        found.forms.append(number_at(op, 2))
    elif op[0] in STORES:
        found.stores.append(read_store(op))
    elif op[0] in QUESTIONS:
        found.questions.append(read_question(op, found.forms[-1] if found.forms else 0))
    elif op[0] == RULE:
        found.rules.append(number_at(op, 2, 1))
    elif op[0] in (0x0D, 0x5B):
        found.classes.append(number_at(op, 6 if op[0] == 0x0D else 2))
    elif op[0] in (0x12, 0x14):
        found.constants.setdefault(number_at(op, 2), []).extend(number_at(op, at)
                                                                for at in range(4 if op[0] == 0x12 else 6, len(op) - 1, 2))
    if op[0] in STATEMENTS and found.forms:
        found.rows[found.forms[-1]] = found.rows.get(found.forms[-1], 0) + 1


def read_store(op):
    if op[0] == 0x25:
        return Store(number_at(op, 2), guid=op[4:20], has_bytes=False)
    if op[0] == 0x24:
        return Store(number_at(op, 18), number_at(op, 20), op[2:18], op[22:].split(b"\0")[0])
    return Store(number_at(op, 2), number_at(op, 24), op[4:20], op[26:].split(b"\0")[0])


def read_question(op, form):
    it = Question(op[0], number_at(op, 6), number_at(op, 8), number_at(op, 10), form=form)
    if op[0] in (NUMERIC, ONE_OF):
        flags = number_at(op, 13, 1)
        it.width, it.display = 1 << (flags & 3), flags & 0x30
        it.least, it.most = number_at(op, 14, it.width), number_at(op, 14 + it.width, it.width)
    elif op[0] == STRING:
        it.least, it.most = number_at(op, 13, 1), number_at(op, 14, 1)
    elif op[0] == PASSWORD:
        it.least, it.most = number_at(op, 13), number_at(op, 15)
    elif op[0] == LISTED:
        it.most = number_at(op, 13, 1)
    elif op[0] == 0x0F:
        it.most = number_at(op, 13)
    return it


def read_option(found, ops, above, at):
    """Adds an option to the question around it, which is the last one that was read."""
    near = above[at]
    while near >= 0 and ops[near][0] in GUARDS:
        near = above[near]
    if near < 0 or ops[near][0] not in (ONE_OF, LISTED) or not has_scope(ops[near]) or not found.questions:
        return
    width, question = WIDTHS.get(number_at(ops[at], 5, 1), 1), found.questions[-1]
    if not question.values:
        question.element = width
    question.values.append(number_at(ops[at], 6, width))
