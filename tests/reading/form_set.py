"""FORMATS.md, section 3: the form set that a good forest of opcodes is, with its forms, statements, stores and rules."""

import dataclasses
from dataclasses import dataclass

from . import opcodes
from .little_endian import number

WITH_BYTES = {"VARSTORE", "VARSTORE_EFI"}


@dataclass(eq=False)
class Store:
    """A store of any kind. The position counts the stores with bytes by place from 0; None for one without bytes."""

    node: object
    kind: str
    id: int
    guid: bytes
    name: bytes = b""
    size: int = 0
    position: int = None


@dataclass(frozen=True)
class Field:
    """Bytes of a store with bytes: the store's position, and offset and width in bytes."""

    store: int
    offset: int
    width: int


@dataclass(eq=False)
class Option:
    """A ONE_OF_OPTION: its text, flags and Type, and its value without sign."""

    node: object
    text: int
    flags: int
    type: int
    value: int


@dataclass(eq=False)
class Statement:
    """A statement. Only a question has an id, None in others; its field is None where it has none."""

    node: object
    kind: str
    form: object
    prompt: int
    id: int = None
    store_id: int = 0
    offset: int = 0
    flags: int = 0
    options: list = dataclasses.field(default_factory=list)
    field: Field = None

    def is_question(self):
        return self.id is not None

    def children(self, kind):
        """The opcodes of a kind that stand directly in its scope, by place."""
        return [child for child in self.node.children if opcodes.name(child) == kind]


@dataclass(eq=False)
class Rule:
    """A RULE of a form: its depth and its weight in operators."""

    node: object
    form: object
    id: int
    depth: int = 1
    weight: int = 0


@dataclass(eq=False)
class Form:
    node: object
    id: int
    title: int
    statements: list = dataclasses.field(default_factory=list)
    rules: list = dataclasses.field(default_factory=list)


@dataclass(eq=False)
class FormSet:
    """The form set with what stands in it, all by place; and by the place of each RULE_REF the rule that it names.

    Locks has the first LOCKED that stands directly in a scope, by the place of the opcode that opens the scope.
    """

    node: object
    guid: bytes
    forms: list
    stores: list
    questions: list
    locks: dict
    named_rules: dict = dataclasses.field(default_factory=dict)

    def __post_init__(self):
        self.forms_by_id = {form.id: form for form in self.forms}
        self.questions_by_id = {question.id: question for question in self.questions}
        self.questions_by_place = {question.node.place: question for question in self.questions}
        self.stores_with_bytes = [store for store in self.stores if store.kind in WITH_BYTES]
        for position, store in enumerate(self.stores_with_bytes):
            store.position = position

    def question(self, wanted):
        """The question of an id, None where there is none. No question has the id 0."""
        return self.questions_by_id.get(wanted) if wanted != 0 else None


def below(node, goes_into):
    """The nodes below a node by place; it goes into the scopes of those of the names that are given."""
    found = []
    for child in node.children:
        found.append(child)
        if opcodes.name(child) in goes_into:
            found += below(child, goes_into)
    return found


def form_set(root):
    """The form set of a forest without faults of pass 2."""
    nodes = below(root, opcodes.GUARDS)
    forms = [form_of(node) for node in nodes if opcodes.name(node) == "FORM"]
    stores = [store_of(node, opcodes.name(node)) for node in nodes if opcodes.name(node) in opcodes.STORES]
    questions = [statement for form in forms for statement in form.statements if statement.is_question()]
    return FormSet(root, root.data[2:18], forms, stores, questions, locks_below(root))


def locks_below(node):
    """The first LOCKED that stands directly in each scope from a node's on, by the place of the scope."""
    found = {}
    for child in node.children:
        if opcodes.name(child) == "LOCKED":
            found.setdefault(node.place, child)
        found.update(locks_below(child))
    return found


def form_of(node):
    form = Form(node, number(node.data, 2), number(node.data, 4))
    for child in below(node, opcodes.GUARDS | {"SUBTITLE"}):
        kind = opcodes.name(child)
        if kind in opcodes.STATEMENTS:
            form.statements.append(statement_of(child, kind, form))
        elif kind == "RULE":
            form.rules.append(Rule(child, form, child.data[2]))
    return form


def store_of(node, kind):
    """A store. The name is the bytes up to the first NUL; a name/value store has no bytes and no name here."""
    data = node.data
    if kind == "VARSTORE":
        return Store(node, kind, number(data, 18), data[2:18], data[22:].partition(b"\0")[0], number(data, 20))
    if kind == "VARSTORE_EFI":
        return Store(node, kind, number(data, 2), data[4:20], data[26:].partition(b"\0")[0], number(data, 24))
    return Store(node, kind, number(data, 2), data[4:20])


def statement_of(node, kind, form):
    data = node.data
    statement = Statement(node, kind, form, number(data, 2))
    if kind in opcodes.QUESTIONS:
        statement.id, statement.store_id = number(data, 6), number(data, 8)
        statement.offset, statement.flags = number(data, 10), data[12]
        statement.options = [option_of(child) for child in below(node, opcodes.GUARDS)
                             if opcodes.name(child) == "ONE_OF_OPTION"]
    return statement


def option_of(node):
    data = node.data
    value = number(data, 6, opcodes.TYPE_BYTES[data[5]])
    return Option(node, number(data, 2), data[4], data[5], value)
