"""FORMATS.md, section 2: string packages."""

from dataclasses import dataclass, field

from .faults import Refused, refuse_least
from .little_endian import number
from .package_list import STRINGS

HEADER = 46

END, DUPLICATE = 0x00, 0x20
# The bytes of a block before its first text, its number counted.
FIELDS = {
    0x00: 1, 0x14: 1, 0x15: 2, 0x16: 3, 0x17: 4, 0x20: 3, 0x21: 3, 0x22: 2, 0x30: 3, 0x31: 4, 0x32: 6,
}
ONE_TEXT = {0x14, 0x15}
# The offset of the count of two bytes in a block of several texts.
SEVERAL_TEXTS = {0x16: 1, 0x17: 2}
# The bytes of the count of a block that skips ids.
SKIPS = {0x21: 2, 0x22: 1}
# The bytes of the length of an extended block, which stands at its byte 2.
EXTENDED = {0x30: 1, 0x31: 2, 0x32: 4}


@dataclass
class StringPackage:
    """The language of a string package, and its texts by string id, each a list of units of two bytes."""

    language: bytes = b""
    texts: dict = field(default_factory=dict)


def string_packages(found):
    """All string packages of a list, in their order. Each is a part of its own that may have a fault."""
    return [read(package) for package in found if package.type == STRINGS]


def read(package):
    """One string package. Places of faults are offsets in the list."""
    data, start = package.data, package.place
    if len(data) < HEADER:
        raise Refused(7, start)
    blocks = number(data, 8, 4)
    if not HEADER <= blocks <= len(data):
        raise Refused(7, start)
    faults = []
    result = StringPackage()
    language, nul, _ = data[HEADER:blocks].partition(b"\0")
    if not nul or any(byte > 0x7E for byte in language):
        faults.append((start + HEADER, 10))
    result.language = language
    try:
        read_blocks(data, blocks, result.texts)
    except Refused as fault:
        faults.append((start + fault.place, fault.cause))
    refuse_least(faults)
    return result


def read_blocks(data, at, texts):
    """Read the blocks from an offset of the package up to END. The first block that is refused ends the walk."""
    next_id = 1
    while True:
        if at >= len(data):
            raise Refused(8, len(data))
        block = data[at]
        if block not in FIELDS or at + FIELDS[block] > len(data):
            raise Refused(8, at)
        if block == END:
            return
        behind = at + FIELDS[block]
        if block in ONE_TEXT or block in SEVERAL_TEXTS:
            count = 1 if block in ONE_TEXT else number(data, at + SEVERAL_TEXTS[block])
            for _ in range(count):
                texts[next_id], behind = read_text(data, behind, at)
                next_id += 1
        elif block == DUPLICATE:
            same = number(data, at + 1)
            if same < next_id and same in texts:
                texts[next_id] = texts[same]
            next_id += 1
        elif block in SKIPS:
            next_id += number(data, at + 1, SKIPS[block])
        else:
            length = number(data, at + 2, EXTENDED[block])
            if length < FIELDS[block] or at + length > len(data):
                raise Refused(8, at)
            behind = at + length
        at = behind


def read_text(data, at, block):
    """The units of the text at an offset, and the offset behind its unit 0."""
    units = []
    while True:
        if at + 2 > len(data):
            raise Refused(9, block)
        unit = number(data, at)
        at += 2
        if unit == 0:
            return units, at
        units.append(unit)
