"""FORMATS.md, section 3, Defaults: what the default of a question for a class offers."""

from . import opcodes, questions
from .little_endian import number
from .questions import BITS, LIST, TEXT, Offer

STANDARD, MANUFACTURING = 0, 1
# The flags that give a default without a DEFAULT, by class.
OPTION_FLAGS = {STANDARD: 0x10, MANUFACTURING: 0x20}
CHECKBOX_FLAGS = {STANDARD: 0x01, MANUFACTURING: 0x02}

NUMBERS = range(0x00, 0x04)
BOOLEAN, STRING, OTHER, BUFFER = 0x04, 0x07, 0x08, 0x0B


def default(question, class_id, answers, texts):
    """What the default of a question for a class offers, None where there is none."""
    for node in question.children("DEFAULT"):
        if number(node.data, 2) == class_id:
            return offer_of(question, node, answers, texts)
    if question.kind == "ONE_OF" and class_id in OPTION_FLAGS:
        for option in question.options:
            if option.flags & OPTION_FLAGS[class_id]:
                return Offer(BITS, option.value)
    if question.kind == "CHECKBOX" and question.node.data[13] & CHECKBOX_FLAGS.get(class_id, 0):
        return Offer(BITS, 1)
    return None


def offer_of(question, node, answers, texts):
    """What a DEFAULT gives, None where it gives nothing."""
    kind, data = node.data[4], node.data
    if kind in NUMBERS:
        return Offer(BITS, number(data, 5, opcodes.TYPE_BYTES[kind]))
    if kind == BOOLEAN:
        return Offer(BITS, 1 if data[5] != 0 else 0)
    if kind == STRING:
        units = texts.units(number(data, 5))
        return None if units is None else Offer(TEXT, units)
    if kind == OTHER:
        value = answers.value(node.children[0].children[0])
        return Offer(BITS, int(value)) if isinstance(value, int) else None
    if kind == BUFFER:
        width = questions.element_width(question)
        return Offer(LIST, questions.elements_up_to_0(data[5:], width))
    return None
