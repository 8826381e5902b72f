"""FORMATS.md, section 1: the package list."""

from dataclasses import dataclass

from .faults import Refused
from .little_endian import number

FORMS, STRINGS, DEVICE_PATH, END = 0x02, 0x04, 0x08, 0xDF
LIST_HEADER = 20
PACKAGE_HEADER = 4


@dataclass
class Package:
    """A package: its offset in the list, its Type, and its bytes with its header."""

    place: int
    type: int
    data: bytes


def packages(data):
    """The packages of a list before its end package. The walk ends at its first fault, so there is one at most."""
    if len(data) < LIST_HEADER:
        raise Refused(1, 0)
    length = number(data, 16, 4)
    if not LIST_HEADER <= length <= len(data):
        raise Refused(2, 16)
    found = []
    at = LIST_HEADER
    while True:
        if at == length:
            raise Refused(4, at)
        if length - at < PACKAGE_HEADER:
            raise Refused(3, at)
        size, kind = number(data, at, 3), data[at + 3]
        if size < PACKAGE_HEADER or at + size > length or (kind == END and size != PACKAGE_HEADER):
            raise Refused(3, at)
        if kind == END:
            break
        found.append(Package(at, kind, data[at:at + size]))
        at += size
    if at + PACKAGE_HEADER != length:
        raise Refused(5, at + PACKAGE_HEADER)
    return found


def forms_package(found, wanted):
    """The forms package of a number, counted from 1."""
    forms = [package for package in found if package.type == FORMS]
    if not 1 <= wanted <= len(forms):
        raise Refused(6, 0)
    return forms[wanted - 1]


def device_path(found):
    """The bytes of the list's device path: the body of the first package that has one, empty where none has."""
    for package in found:
        if package.type == DEVICE_PATH:
            return package.data[PACKAGE_HEADER:]
    return b""
