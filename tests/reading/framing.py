"""FORMATS.md, section 3, Opcode header and scopes: the forest of opcodes (pass 1)."""

from dataclasses import dataclass, field

from .faults import Refused
from .package_list import PACKAGE_HEADER

END = 0x29
MOST_SCOPES = 64


@dataclass(eq=False)
class Node:
    """An opcode with its children. Place and end are offsets from the package's header; the end is behind its scope."""

    place: int
    number: int
    data: bytes
    scope: bool
    parent: "Node" = None
    end: int = 0
    children: list = field(default_factory=list)

    def path(self):
        """The chain of nodes from the form set down to this one."""
        chain = []
        node = self
        while node is not None:
            chain.append(node)
            node = node.parent
        return chain[::-1]


def forest(data):
    """The roots of the forest that a forms package spells. The walk ends at the first fault."""
    roots = []
    open_scopes = []
    at = PACKAGE_HEADER
    while at < len(data):
        if at + 2 > len(data):
            raise Refused(20, at)
        number, length, scope = data[at], data[at + 1] & 0x7F, data[at + 1] >= 0x80
        if length < 2 or at + length > len(data):
            raise Refused(20, at)
        if number == END:
            if length != 2 or scope:
                raise Refused(20, at)
            if not open_scopes:
                raise Refused(21, at)
            open_scopes.pop().end = at + length
        else:
            if scope and len(open_scopes) == MOST_SCOPES:
                raise Refused(23, at)
            parent = open_scopes[-1] if open_scopes else None
            node = Node(at, number, data[at:at + length], scope, parent, at + length)
            (parent.children if parent else roots).append(node)
            if scope:
                open_scopes.append(node)
        at += length
    if open_scopes:
        raise Refused(22, len(data))
    return roots
