"""The opcodes that docs/FORMATS.md lists (section 3): one of each, its Scope, and where it may stand.

Each has the least length of its row, and ids that no opcode of a context has.
"""
from collections import namedtuple
from packages import *

MUST, MAY, MAY_NOT = "must", "may", "may not"
# The classes of scopes. A guard in a question covers less than the question, so it has a class of its own.
FORM_SET, FORM, TEXT, QUESTION, CHOICE, OPTION, ALONE, GUARDED_OPTIONS = (
    "form set", "form", "text", "question", "choice", "option", "alone", "guarded options")

# An opcode without Scope, whether it has Scope, what its scope is to have, and the classes of scopes in which it may stand.
Listed = namedtuple("Listed", "op scope inside classes")


def whole(listed):
    """The opcode as it may stand, with its scope where it must have one."""
    return scoped(listed.op, listed.inside) if listed.scope == MUST else listed.op


def of_a_form(op):
    return Listed(op, MAY, b"", (FORM,))


def of_a_form_set(op):
    return Listed(op, MAY_NOT, b"", (FORM_SET,))


def of_a_question(op, scope=MUST, inside=TRUE):
    return Listed(op, scope, inside, (QUESTION, CHOICE))


def guard(code):
    return Listed(opcode(code), MUST, TRUE, (FORM_SET, FORM, CHOICE, GUARDED_OPTIONS))


def passed_over(code):
    return Listed(opcode(code), MAY_NOT, b"", (FORM_SET, FORM, TEXT, QUESTION, CHOICE, OPTION, GUARDED_OPTIONS))


LISTED = {
    "form_set": Listed(form_set()[:1] + bytes([23]) + form_set()[2:], MUST, b"", ()),
    "form": Listed(opcode(0x01, u16(7) + u16(2)), MUST, b"", (FORM_SET,)),
    "subtitle": of_a_form(subtitle(9)),
    "text": of_a_form(text_statement(9, 9)),
    "reset_button": of_a_form(reset_button(9)),
    "checkbox": of_a_form(checkbox(7, 0)),
    "numeric": of_a_form(numeric(7, 0, UNSIGNED, 1, 0, 9)),
    "one_of": of_a_form(one_of(7, 0)),
    "string": of_a_form(string_question(7, 0, 0, 1)),
    "password": of_a_form(password(7, 0, 0, 1)),
    "ordered_list": of_a_form(ordered_list(7, 0, 1)),
    "date": of_a_form(date(7)),
    "time": of_a_form(time(7)),
    "action": of_a_form(action(7)),
    "ref": of_a_form(ref(7, b"")),
    "option": Listed(option(5, 1), MAY, b"", (CHOICE, GUARDED_OPTIONS)),
    "default": of_a_question(default(0, BOOLEAN, b"\1"), MAY_NOT, b""),
    "default_of_a_value": of_a_question(default(0, OTHER), MUST, value(TRUE)),
    "value": Listed(opcode(0x5A), MUST, TRUE, ()),
    "default_store": of_a_form_set(default_store(9, 0)),
    "varstore": of_a_form_set(varstore(7, 2, b"")),
    "varstore_efi": of_a_form_set(varstore_efi(7, 2, b"")),
    "varstore_name_value": of_a_form_set(varstore_name_value(8)),
    "suppress_if": guard(0x0A),
    "gray_out_if": guard(0x19),
    "disable_if": guard(0x1E),
    "locked": Listed(opcode(0x0B), MAY_NOT, b"", (FORM_SET, FORM, TEXT, QUESTION, CHOICE, GUARDED_OPTIONS)),
    "inconsistent_if": of_a_question(opcode(0x11, u16(7))),
    "no_submit_if": of_a_question(opcode(0x10, u16(7))),
    "warning_if": of_a_question(opcode(0x63, u16(7) + b"\0")),
    "rule": Listed(opcode(0x18, b"\7"), MUST, TRUE, (FORM,)),
    "guid": passed_over(0x5F),
    "image": passed_over(0x04),
    "animation": passed_over(0x1F),
    "refresh": passed_over(0x1D),
    "refresh_id": passed_over(0x62),
    "modal_tag": passed_over(0x61),
}

QUESTIONS = ("checkbox", "numeric", "one_of", "string", "password", "ordered_list", "date", "time", "action", "ref")

# Each operator, and how many operands it takes.
OPERATORS = {
    "eq_id_val": (eq_id_val(1, 0), 0),
    "eq_id_id": (operator(0x13, u16(1) + u16(1)), 0),
    "eq_id_val_list": (operator(0x14, u16(1) + u16(1) + u16(0)), 0),
    "rule_ref": (rule_ref(1), 0),
    "question_ref1": (question_ref(1), 0),
    "uint8": (uint8(1), 0),
    "uint16": (operator(0x43, u16(1)), 0),
    "uint32": (operator(0x44, u32(1)), 0),
    "uint64": (operator(0x45, bytes(8)), 0),
}
# Those without fields, by how many operands they take.
PLAIN = {
    0: {"true": 0x46, "false": 0x47, "zero": 0x52, "one": 0x53, "ones": 0x54, "undefined": 0x55, "this": 0x58},
    1: {"not": 0x17, "bitwise_not": 0x37},
    2: {"and": 0x15, "or": 0x16, "equal": 0x2F, "not_equal": 0x30, "greater_than": 0x31, "greater_equal": 0x32, "less_than": 0x33,
        "less_equal": 0x34, "bitwise_and": 0x35, "bitwise_or": 0x36, "shift_left": 0x38, "shift_right": 0x39, "add": 0x3A,
        "subtract": 0x3B, "multiply": 0x3C, "divide": 0x3D, "modulo": 0x3E},
}
for operands, codes in PLAIN.items():
    OPERATORS.update({name: (operator(code), operands) for name, code in codes.items()})
END_CODE = 0x29
CODES = {op[0] for op, *_ in LISTED.values()} | {op[0] for op, _ in OPERATORS.values()} | {END_CODE}

# What stands before an opcode in a scope of some class, and behind it. A question around it has the id 3.
Context = namedtuple("Context", "class_of before behind")


def opened(op):
    """An opcode with Scope, whose END comes later."""
    return scoped(op)[:-len(END)]


def in_a_form_set(before, ends=0):
    return Context(FORM_SET, form_set() + varstore(1, 2) + before, END * ends + form(1) + END + END)


def in_a_form(class_of, *opens):
    """A context in the scopes of these opcodes in a form, each of which stands in the scope of the one before."""
    return Context(class_of, base() + b"".join(opens), END * (len(opens) + 2))


CONTEXTS = {
    "form_set": in_a_form_set(b""),
    "form": in_a_form(FORM),
    "subtitle": in_a_form(FORM, opened(subtitle(9))),
    "text": in_a_form(TEXT, opened(text_statement(9, 9))),
    "reset_button": in_a_form(TEXT, opened(reset_button(9))),
    "checkbox": in_a_form(QUESTION, opened(checkbox(3, 0))),
    "numeric": in_a_form(QUESTION, opened(numeric(3, 0, UNSIGNED, 1, 0, 9))),
    "string": in_a_form(QUESTION, opened(string_question(3, 0, 0, 1))),
    "password": in_a_form(QUESTION, opened(password(3, 0, 0, 1))),
    "date": in_a_form(QUESTION, opened(date(3))),
    "time": in_a_form(QUESTION, opened(time(3))),
    "action": in_a_form(QUESTION, opened(action(3))),
    "ref": in_a_form(QUESTION, opened(ref(3, b""))),
    "one_of": in_a_form(CHOICE, opened(one_of(3, 0))),
    "ordered_list": in_a_form(CHOICE, opened(ordered_list(3, 0, 1))),
    "option": in_a_form(OPTION, opened(one_of(3, 0)), opened(option(5, 1))),
    "guard_in_a_form_set": in_a_form_set(suppress_if() + TRUE, 1),
    "guard_in_a_form": in_a_form(FORM, suppress_if() + TRUE),
    "guards_in_a_form": in_a_form(FORM, opened(opcode(0x19)) + TRUE, opened(opcode(0x1E)) + TRUE),
    "guard_in_a_one_of": in_a_form(GUARDED_OPTIONS, opened(one_of(3, 0)), suppress_if() + TRUE),
    "guard_in_an_ordered_list": in_a_form(GUARDED_OPTIONS, opened(ordered_list(3, 0, 1)), suppress_if() + TRUE),
    "rule": in_a_form(ALONE, opened(opcode(0x18, b"\1")) + TRUE),
    "inconsistent_if": in_a_form(ALONE, opened(checkbox(3, 0)), opened(opcode(0x11, u16(7))) + TRUE),
    "no_submit_if": in_a_form(ALONE, opened(checkbox(3, 0)), opened(opcode(0x10, u16(7))) + TRUE),
    "warning_if": in_a_form(ALONE, opened(checkbox(3, 0)), opened(opcode(0x63, u16(7) + b"\0")) + TRUE),
    "default": in_a_form(ALONE, opened(checkbox(3, 0)), opened(default(0, OTHER)) + value(TRUE)),
    "value": in_a_form(ALONE, opened(checkbox(3, 0)), opened(default(0, OTHER)), opened(opcode(0x5A)) + TRUE),
}


def placed(context, opcodes):
    """A list with opcodes in a context, and the place of the first of them."""
    return list_of(context.before + opcodes + context.behind), 4 + len(context.before)
