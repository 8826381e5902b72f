"""FORMATS.md, section 6: configuration texts; PROFILE.md, Configuration texts: which store and which question they name."""

from dataclasses import dataclass

from .faults import Refused
from .form_set import Field
from .little_endian import whole_number
from .questions import Denied
from .stores import read_field

HEX = b"0123456789abcdefABCDEF"


@dataclass
class Block:
    """Offset and width in bytes of the store; of a response also the bytes of the value."""

    offset: int
    width: int
    value: bytes = b""

    def meets(self, field):
        """Whether it has a byte in common with a field of its store."""
        return self.offset < field.offset + field.width and field.offset < self.offset + self.width


@dataclass
class ConfigurationText:
    """The header as three parts without their keys, in bytes of lower-case digits, and the blocks."""

    guid: bytes
    name: bytes
    path: bytes
    blocks: list


def is_hex(digits):
    return all(digit in HEX for digit in digits)


def read(text, with_values):
    """A request, or a response where blocks have values. The leftmost fault is told."""
    parts = text.split(b"&")
    header = read_header(parts[:3])
    blocks = []
    rest = parts[3:]
    while rest:
        block = Block(read_number(behind_key(rest, b"OFFSET="), 0), 0)
        block.width = read_number(behind_key(rest, b"WIDTH="), 1)
        if with_values:
            block.value = read_value(behind_key(rest, b"VALUE="), block.width)
        blocks.append(block)
    return ConfigurationText(*header, blocks)


def read_header(parts):
    """The digits of the header, in lower case."""
    found = []
    for part, key in zip(parts, (b"GUID=", b"NAME=", b"PATH=")):
        if not part.startswith(key) or not is_hex(part[len(key):]):
            raise Refused(80)
        found.append(part[len(key):].lower())
    if len(found) < 3 or len(found[0]) != 32 or len(found[1]) % 4 or len(found[2]) % 2:
        raise Refused(80)
    return found


def behind_key(rest, key):
    """Take the next part, which begins with the key, and give what stands behind it."""
    if not rest or not rest[0].startswith(key):
        raise Refused(81)
    return rest.pop(0)[len(key):]


def read_number(digits, least):
    if not 1 <= len(digits) <= 8 or not is_hex(digits) or not least <= int(digits, 16) <= 0xFFFF:
        raise Refused(82)
    return int(digits, 16)


def read_value(digits, width):
    """The bytes of a value, the highest digits those of the last byte."""
    if not digits or not is_hex(digits):
        raise Refused(82)
    value = int(digits, 16)
    if value >= 256 ** width:
        raise Refused(83)
    return value.to_bytes(width, "little")


def named_store(form_set, device_path, text):
    """The first store with bytes by place that the header names."""
    for store in form_set.stores_with_bytes:
        name = b"".join(b"%04x" % byte for byte in store.name)
        if (store.guid.hex().encode(), name, device_path.hex().encode()) == (text.guid, text.name, text.path):
            return store
    raise Denied("nostore")


def asked_blocks(store, text):
    """The blocks of a request: one without blocks asks for the whole store, and for none of a store of size 0."""
    if text.blocks or store.size == 0:
        return text.blocks
    return [Block(0, store.size)]


def extract(form_set, device_path, committed, word):
    """The response to a request."""
    text = read(word, False)
    store = named_store(form_set, device_path, text)
    passwords = [question for question in form_set.questions if question.kind == "PASSWORD"
                 and question.field is not None and question.field.store == store.position and question.field.width]
    response = b"GUID=" + text.guid + b"&NAME=" + text.name + b"&PATH=" + text.path
    for block in asked_blocks(store, text):
        if block.offset + block.width > store.size:
            raise Denied("nofield")
        for password in passwords:
            if block.meets(password.field):
                raise Denied("password", password.node.place)
        held = read_field(committed, Field(store.position, block.offset, block.width))
        response += b"&OFFSET=%04x&WIDTH=%04x&VALUE=" % (block.offset, block.width)
        response += b"%0*x" % (2 * block.width, whole_number(held))
    return response


def named_question(form_set, store, block, policy):
    """The question that a block sets: the first by place with exactly this field that is not fixed, else the first."""
    field = Field(store.position, block.offset, block.width)
    named = [question for question in form_set.questions if question.field == field]
    if not named:
        raise Denied("nofield")
    for question in named:
        if policy.fixed(question) is None:
            return question
    return named[0]
