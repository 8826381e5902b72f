"""Package lists as packages, and forms packages as opcodes, as far as the bytes go. All of it can be written again."""
from dataclasses import dataclass, field

from packages import END, u32

FORMS, STRINGS, DEVICE_PATH, END_KIND = 0x02, 0x04, 0x08, 0xDF
GUARDS = (0x0A, 0x19, 0x1E)
CONDITIONS = (0x11, 0x10, 0x63)
BOX, NUMERIC, ONE_OF, STRING, PASSWORD = 0x06, 0x07, 0x05, 0x1C, 0x08
LISTED, DATE, TIME, ACTION, REF = 0x23, 0x1A, 0x1B, 0x0C, 0x0F
QUESTIONS = (BOX, NUMERIC, ONE_OF, STRING, PASSWORD, LISTED, DATE, TIME, ACTION, REF)
WITH_FIELD = QUESTIONS[:6]
PLAIN = (0x02, 0x03, 0x0D)
STATEMENTS = PLAIN + QUESTIONS
STORES = (0x24, 0x25, 0x26)
IGNORED = (0x5F, 0x04, 0x1F, 0x1D, 0x62, 0x61)
FORM_SET, FORM, OPTION, DEFAULT, VALUE = 0x0E, 0x01, 0x09, 0x5B, 0x5A
DEFAULT_STORE, LOCKED, RULE, END_CODE = 0x5C, 0x0B, 0x18, 0x29
LEAVES = (0x12, 0x13, 0x14, 0x3F, 0x40, 0x42, 0x43, 0x44, 0x45, 0x46, 0x47, 0x52, 0x53, 0x54, 0x55, 0x58)
BINARY = (0x15, 0x16) + tuple(range(0x2F, 0x37)) + tuple(range(0x38, 0x3F))
UNARY = (0x17, 0x37)
OPERATORS = LEAVES + BINARY + UNARY
LISTED_CODES = (FORM_SET, FORM, OPTION, DEFAULT, VALUE, DEFAULT_STORE, LOCKED, RULE,
                END_CODE) + GUARDS + CONDITIONS + STATEMENTS \
    + STORES + IGNORED + OPERATORS
# The class of the scope that an opcode opens, but for guards.
CLASSES = {FORM_SET: "form set", FORM: "form", 0x02: "form", 0x03: "text", 0x0D: "text", OPTION: "option", DEFAULT: "value",
           VALUE: "expression", RULE: "expression", ONE_OF: "choice", LISTED: "choice", **{it: "expression" for it in CONDITIONS}}
CLASSES.update({it: "question" for it in QUESTIONS if it not in CLASSES})


@dataclass
class Packages:
    """A list: its GUID, its packages as kinds and bodies, and the bytes behind them."""
    guid: bytes = bytes([0x11]) * 16
    packages: list = field(default_factory=list)
    behind: bytes = b""

    def of_kind(self, kind):
        """The numbers of the packages of this kind."""
        return [number for number, (it, _) in enumerate(self.packages) if it == kind]

    def copy(self):
        return Packages(self.guid, list(self.packages), self.behind)


def split_list(data):
    """The packages of a list, up to the first whose length is wrong. What follows stands behind them."""
    found, at, length = Packages(data[:16].ljust(16, b"\x11")), 20, min(len(data), int.from_bytes(data[16:20], "little"))
    while at + 4 <= length:
        size, kind = int.from_bytes(data[at:at + 3], "little"), data[at + 3]
        if size < 4 or at + size > length:
            break
        found.packages.append((kind, data[at + 4:at + size]))
        at += size
        if kind == END_KIND:
            break
    found.behind = data[at:]
    return found


def join_package(kind, body):
    return ((4 + len(body)) & 0xFFFFFF).to_bytes(3, "little") + bytes([kind]) + body


def join_list(whole):
    """The bytes of a list with right lengths."""
    packages = b"".join(join_package(kind, body) for kind, body in whole.packages)
    return whole.guid + u32(20 + len(packages)) + packages + whole.behind


def split_opcodes(body):
    """The opcodes of a forms package, each as its bytes, and the rest from the first whose length is wrong."""
    found, at = [], 0
    while at + 2 <= len(body):
        length = body[at + 1] & 0x7F
        if length < 2 or at + length > len(body):
            break
        found.append(body[at:at + length])
        at += length
    return found, body[at:]


def has_scope(op):
    return op[1] >= 0x80


def with_scope(op, scope=True):
    return bytes([op[0], op[1] & 0x7F | (0x80 if scope else 0)]) + op[2:]


def mended(op):
    """An opcode that tells its own length, of 127 bytes at most."""
    op = op[:127]
    return bytes([op[0], len(op) | op[1] & 0x80]) + op[2:]


def spans(ops):
    """For each opcode the position behind its whole subtree, its END counted."""
    ends, stack = [at + 1 for at in range(len(ops))], []
    for at, op in enumerate(ops):
        if op == END:
            if stack:
                ends[stack.pop()] = at + 1
        elif has_scope(op):
            stack.append(at)
    for at in stack:
        ends[at] = len(ops)
    return ends


def parents(ops):
    """For each opcode the position of that whose scope it stands in, -1 at the top. An END stands in the scope that it closes."""
    found, stack = [], []
    for at, op in enumerate(ops):
        found.append(stack[-1] if stack else -1)
        if op == END:
            if stack:
                stack.pop()
        elif has_scope(op):
            stack.append(at)
    return found


def classes(ops):
    """For each position the class of the scope in which an opcode put there would stand, and whether a guard is around it."""
    found, above = [], parents(ops)
    for at in range(len(ops)):
        near, guarded = above[at], False
        while near >= 0 and ops[near][0] in GUARDS:
            near, guarded = above[near], True
        found.append((CLASSES.get(ops[near][0], "none") if near >= 0 else "top", guarded))
    return found


def first_children(ops):
    """The positions of opcodes that come first in a scope: where guards and rules have their expressions."""
    return {at + 1 for at, op in enumerate(ops) if op != END and has_scope(op)}


def number_at(op, at, width=2):
    """The number in some bytes of an opcode, zeros behind its end."""
    return int.from_bytes(op[at:at + width].ljust(width, b"\0"), "little")


def with_number(op, at, value, width=2):
    """An opcode with another number in some of its bytes, if it has them."""
    if len(op) < at + width:
        return op
    return op[:at] + (value % 256 ** width).to_bytes(width, "little") + op[at + width:]
