"""FORMATS.md, section 3, Fields, values and inputs: questions, their stores and their options (pass 5)."""

from dataclasses import dataclass

from . import opcodes
from .faults import refuse_least
from .form_set import Field
from .little_endian import number, two_bytes, whole_number
from .stores import read_field

# The kinds that have a field where their store has bytes.
WITH_FIELD = {"CHECKBOX", "NUMERIC", "ONE_OF", "STRING", "PASSWORD", "ORDERED_LIST"}
READ_ONLY = 0x01
UNIQUE_SET, NO_EMPTY_SET = 0x01, 0x02
SIGNED_DECIMAL, UNSIGNED_DECIMAL, HEXADECIMAL = "signed", "unsigned", "hexadecimal"

# What is offered to a question: its kind, below, and its value.
NUMBER, LIST, TEXT, BITS = "number", "list", "text", "bits"


class Denied(Exception):
    """A command is denied: the kind, the place of the opcode that decides, and the id of a text to be shown behind it."""

    def __init__(self, kind, place=0, text=None):
        super().__init__(kind, place, text)
        self.kind = kind
        self.place = place
        self.text = text


@dataclass(frozen=True)
class Offer:
    """What is offered. A number and bits are an int, a list ints, a text a list of units. A TEXT of None is no UTF-8."""

    kind: str
    value: object


# Widths and displays.

def element_width(question):
    """The bytes of an element of an ORDERED_LIST: those of the Type of its first option, 1 where there is none."""
    return opcodes.TYPE_BYTES[question.options[0].type] if question.options else 1


def most_elements(question):
    return question.node.data[13]


def display(question):
    """How a NUMERIC is shown. A ONE_OF has no sign."""
    if question.kind != "NUMERIC":
        return UNSIGNED_DECIMAL
    return {0x00: SIGNED_DECIMAL, 0x20: HEXADECIMAL}.get(question.node.data[13] & 0x30, UNSIGNED_DECIMAL)


def text_bounds(question):
    """The least and the greatest number of characters of a STRING or PASSWORD."""
    data = question.node.data
    if question.kind == "STRING":
        return data[13], data[14]
    return number(data, 13), number(data, 15)


def field_width(question):
    """The bytes of the field of a question that has one."""
    if question.kind == "CHECKBOX":
        return 1
    if question.kind in ("NUMERIC", "ONE_OF"):
        return opcodes.width(question.node)
    if question.kind in ("STRING", "PASSWORD"):
        return 2 * text_bounds(question)[1]
    return most_elements(question) * element_width(question)


# Pass 5.

def check(form_set):
    """Tell the least fault of pass 5, and give each question its field."""
    by_id = {store.id: store for store in form_set.stores}
    found = []
    for question in form_set.questions:
        store = by_id.get(question.store_id)
        if store is None:
            if question.store_id != 0:
                found.append((question.node.place, 35))
        elif question.kind in WITH_FIELD and store.position is not None:
            question.field = Field(store.position, question.offset, field_width(question))
            if question.offset + question.field.width > store.size:
                found.append((question.node.place, 36))
        found += faults_of_options(question)
    refuse_least(found)


def faults_of_options(question):
    if question.kind == "ONE_OF":
        most = 256 ** opcodes.width(question.node)
        return [(option.node.place, 37) for option in question.options if option.value >= most]
    return [(option.node.place, 38) for option in question.options if option.type != question.options[0].type]


# Answers.

def units_up_to_0(held):
    """The units of two bytes up to the first 0 or the end."""
    return elements_up_to_0(held, 2)


def elements_up_to_0(held, width):
    """The elements of so many bytes up to the first 0 or the end; a part of one at the end is left off."""
    found = []
    for at in range(0, len(held) - width + 1, width):
        element = number(held, at, width)
        if element == 0:
            break
        found.append(element)
    return found


def answer(question, stores):
    """The answer: a bool, an int without sign, a tuple of units, the bytes of a list, or None where there is none."""
    if question is None or question.field is None:
        return None
    held = read_field(stores, question.field)
    if question.kind == "CHECKBOX":
        return held[0] != 0
    if question.kind in ("NUMERIC", "ONE_OF"):
        return whole_number(held)
    if question.kind in ("STRING", "PASSWORD"):
        return tuple(units_up_to_0(held))
    return held


def with_sign(value, width):
    """A number of so many bytes as two's complement."""
    return value - 256 ** width if value >= 256 ** width // 2 else value


# What a question takes.

def taken(question, offer):
    """The new bytes of the field of a question that is not fixed. Denied by the first check that fails."""
    place = question.node.place
    takes = {"CHECKBOX": take_boolean, "NUMERIC": take_number, "ONE_OF": take_choice, "STRING": take_text,
             "PASSWORD": take_text, "ORDERED_LIST": take_list}.get(question.kind)
    if takes is None:
        raise Denied("kind", place)
    return takes(question, offer, place)


def take_boolean(question, offer, place):
    if offer.kind == BITS:
        return b"\x01" if offer.value != 0 else b"\x00"
    if offer.kind != NUMBER:
        raise Denied("kind", place)
    if offer.value not in (0, 1):
        raise Denied("range", place)
    return bytes([offer.value])


def take_number(question, offer, place):
    if offer.kind not in (NUMBER, BITS):
        raise Denied("kind", place)
    width = opcodes.width(question.node)
    data = question.node.data
    minimum, maximum = number(data, 14, width), number(data, 14 + width, width)
    value, lowest, highest = offer.value, 0, 256 ** width - 1
    if offer.kind == BITS and value > highest:
        raise Denied("range", place)
    if display(question) == SIGNED_DECIMAL:
        minimum, maximum = with_sign(minimum, width), with_sign(maximum, width)
        lowest, highest = -(256 ** width // 2), 256 ** width // 2 - 1
        if offer.kind == BITS:
            value = with_sign(value, width)
    if not lowest <= value <= highest or value < minimum or value > maximum:
        raise Denied("range", place)
    return (value % 256 ** width).to_bytes(width, "little")


def take_choice(question, offer, place):
    if offer.kind not in (NUMBER, BITS):
        raise Denied("kind", place)
    if all(option.value != offer.value for option in question.options):
        raise Denied("nooption", place)
    return offer.value.to_bytes(opcodes.width(question.node), "little")


def take_text(question, offer, place):
    if offer.kind != TEXT:
        raise Denied("kind", place)
    units = offer.value
    if units is None or any(unit == 0 or unit > 0xFFFF for unit in units):
        raise Denied("badtext", place)
    least, most = text_bounds(question)
    if not least <= len(units) <= most:
        raise Denied("length", place)
    return b"".join(two_bytes(unit) for unit in units).ljust(2 * most, b"\0")


def take_list(question, offer, place):
    if offer.kind != LIST:
        raise Denied("kind", place)
    elements, flags = offer.value, question.node.data[14]
    if len(elements) > most_elements(question):
        raise Denied("length", place)
    if not elements and flags & NO_EMPTY_SET:
        raise Denied("emptyset", place)
    for at, element in enumerate(elements):
        if element == 0 or all(option.value != element for option in question.options):
            raise Denied("nooption", place)
        if flags & UNIQUE_SET and element in elements[:at]:
            raise Denied("repeat", place)
    width = element_width(question)
    held = b"".join(element.to_bytes(width, "little") for element in elements)
    return held.ljust(field_width(question), b"\0")


def offer_of_field(question, held):
    """What the bytes of a whole field offer."""
    if question.kind in ("STRING", "PASSWORD"):
        return Offer(TEXT, units_up_to_0(held))
    if question.kind == "ORDERED_LIST":
        return Offer(LIST, elements_up_to_0(held, element_width(question)))
    return Offer(BITS, whole_number(held))


def values_of(question, held):
    """The values of options that the bytes of a field name, in order."""
    if question.kind == "ONE_OF":
        return [whole_number(held)]
    if question.kind == "ORDERED_LIST":
        return elements_up_to_0(held, element_width(question))
    return []
