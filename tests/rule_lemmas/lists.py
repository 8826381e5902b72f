"""Package lists as terms: an opcode in each row, set in by its scopes, with its place and its name beside it."""
import re

from reading import opcodes
from rule_lemmas.terms import hexes, in_call, joined, little, rows_of, spaced, terms_of

FORMS, STRINGS, DEVICE_PATH, END_PACKAGE = 0x02, 0x04, 0x08, 0xDF
PACKAGES = {FORMS: "a forms package", STRINGS: "a string package", DEVICE_PATH: "a device path", END_PACKAGE: "the end package"}
END = b"\x29\x02"
# How far a row is set in for each scope.
INDENT = "  "
# The bytes of each field behind the header of an opcode. What is behind these stands together.
QUESTION = (2, 2, 2, 2, 2, 1)
FIELDS = {
    "FORM_SET": (16, 2, 2, 1), "FORM": (2, 2), "DEFAULTSTORE": (2, 2), "VARSTORE": (16, 2, 2), "VARSTORE_EFI": (2, 16, 4, 2),
    "VARSTORE_NAME_VALUE": (2, 16), "SUBTITLE": (2, 2, 1), "TEXT": (2, 2, 2), "RESET_BUTTON": (2, 2, 2), "CHECKBOX": QUESTION + (1,),
    "NUMERIC": QUESTION + (1,), "ONE_OF": QUESTION + (1,), "ORDERED_LIST": QUESTION + (1, 1), "STRING": QUESTION + (1, 1, 1),
    "PASSWORD": QUESTION + (2, 2), "DATE": QUESTION + (1,), "TIME": QUESTION + (1,), "ACTION": QUESTION, "REF": QUESTION + (2,),
    "ONE_OF_OPTION": (2, 1, 1), "DEFAULT": (2, 1), "RULE": (1,), "INCONSISTENT_IF": (2,), "NO_SUBMIT_IF": (2,), "WARNING_IF": (2, 1),
    "RULE_REF": (1,), "QUESTION_REF1": (2,), "EQ_ID_VAL": (2, 2), "EQ_ID_ID": (2, 2), "EQ_ID_VAL_LIST": (2, 2, 2, 2, 2, 2),
}
# The opcodes with which most packages begin: a form set, the store 1 of so many bytes, a form.
OPENING = re.compile(rb"\x0e\x97\x22{16}\x01\0\0\0\0\x24\x18\x33{16}\x01\0(..)V\0\x01\x86\x01\0\x02\0", re.DOTALL)


class Opcode:
    """An opcode at its place in its package, in so many scopes."""

    def __init__(self, place, data, depth=0):
        self.place, self.data, self.number, self.depth = place, data, data[0], depth

    def rows(self):
        name = opcodes.name(self)
        widths = [2, *FIELDS.get(name, ())]
        if name in ("NUMERIC", "ONE_OF") and len(self.data) > 13:
            widths += [opcodes.width(self)] * 3
        return rows_of(INDENT * self.depth + spaced(self.data, widths), "%x %s" % (self.place, name or "an opcode that is not known"))


def opcodes_in(data, place):
    """The opcodes at the front of bytes, and the bytes behind them that are none."""
    found, depth = [], 0
    while len(data) >= 2 and 2 <= data[1] & 0x7F <= len(data):
        size, is_end = data[1] & 0x7F, data[0] == END[0]
        depth -= is_end and depth > 0
        found.append(Opcode(place, data[:size], depth))
        depth += not is_end and data[1] >= 0x80
        data, place = data[size:], place + size
    return found, data


def opcode_rows(ops):
    """The rows of opcodes. ENDs that follow one another have one."""
    rows = []
    while ops:
        ends = next((at for at, op in enumerate(ops) if op.data != END), len(ops))
        if ends:
            rows.append((INDENT * ops[0].depth + " ".join([END.hex()] * ends), " ".join("%x" % op.place for op in ops[:ends]) + " END"))
        else:
            rows += ops[0].rows()
        ops = ops[max(ends, 1):]
    return rows


def repeated(ops):
    """How many opcodes come again and again, one to four of them, and how often: four times at least, an END nine times."""
    best = 1, 1
    for period in range(1, 5):
        count = 1
        while [op.data for op in ops[count * period:(count + 1) * period]] == [op.data for op in ops[:period]]:
            count += 1
        if count >= (9 if ops[0].data == END else 4) and period * count > best[0] * best[1]:
            best = period, count
    return best


def forest(data, place):
    """The rows of opcodes, and terms for what comes again and again."""
    ops, rest = opcodes_in(data, place)
    pieces, group = [], []
    while ops:
        period, count = repeated(ops)
        if count == 1:
            group.append(ops[0])
        else:
            once = hexes(opcode_rows([Opcode(op.place, op.data) for op in ops[:period]]))
            pieces, group = pieces + opcode_rows(group) + [in_call("times %d" % count, once)], []
        ops = ops[period * count:]
    return pieces + opcode_rows(group) + rows_of(rest.hex())


def forms(body):
    """The body of a forms package, in rows and terms."""
    opening = OPENING.match(body)
    if opening:
        return [["opening %d" % little(opening[1])]] + forest(body[opening.end():], 4 + opening.end())
    return forest(body, 4)


# ---- string packages

def shown(data, width):
    """A text of units of so many bytes, in ASCII."""
    units = [little(data[at:at + width]) for at in range(0, len(data), width)]
    return "".join(chr(unit) if 0x20 <= unit < 0x7F else "<%x>" % unit for unit in units)


def block_at(data, next_id):
    """How many bytes the block at the front has, its parts, what it says, and how many ids it has. None where it is not shown so."""
    if data[:1] == b"\x14":
        size = next((at + 2 for at in range(1, len(data) - 1, 2) if data[at:at + 2] == b"\0\0"), 0)
        return (size, (1, size - 3), "%d: %s" % (next_id, shown(data[1:size - 2], 2)), 1) if size else None
    if data[:1] == b"\x20" and len(data) >= 3:
        return 3, (1, 2), "%d: the text of %d" % (next_id, little(data[1:3])), 1
    if data[:1] == b"\x22" and len(data) >= 2:
        return 2, (1,), "%d to %d: none" % (next_id, next_id + data[1] - 1), data[1]
    return (1, (1,), "the end of texts", 0) if data[:1] == b"\0" else None


def block_rows(data, next_id=1):
    """The rows of blocks, whose texts have the ids from this one on."""
    block = block_at(data, next_id)
    if not block:
        return rows_of(data.hex())
    size, widths, says, ids = block
    return rows_of(spaced(data[:size], widths), says) + block_rows(data[size:], next_id + ids)


def strings(body):
    """The rows of a string package: its header, the language behind that, the blocks."""
    blocks = little(body[4:8]) - 4
    rows = rows_of(spaced(body[:8], (4,)), "where the texts begin") + rows_of(body[8:40].hex()) + rows_of(body[40:42].hex())
    if not 42 < blocks <= len(body):
        return rows + rows_of(body[42:].hex())
    language = body[42:blocks]
    return rows + rows_of(language.hex(), shown(language.rstrip(b"\0"), 1)) + block_rows(body[blocks:])


# ---- lists

def body_of(kind, body):
    """The body of a package, in rows and terms."""
    return forms(body) if kind == FORMS else strings(body) if kind == STRINGS else rows_of(body.hex())


def packages_in(data):
    """The packages at the front of bytes, each its Type and its body, and the bytes that are none."""
    found = []
    while len(data) >= 4 and 4 <= little(data[:3]) <= len(data):
        size = little(data[:3])
        found.append((data[3], data[4:size]))
        data = data[size:]
    return found, data


def is_usual(data, found, rest):
    """Whether a list has the usual GUID, states its length, and ends with the one end package that it has."""
    ends = [at for at, package in enumerate(found) if package[0] == END_PACKAGE]
    return data[:16] == b"\x11" * 16 and little(data[16:20]) == len(data) and not rest and ends == [len(found) - 1] and not found[-1][1]


def headed(header, body):
    """A package with its header, which may be cut."""
    says = PACKAGES.get(header[3], "a package") if len(header) > 3 else ""
    return rows_of(spaced(header, (3,)), says) + (body_of(header[3], body) if body else [])


def raw_list(data):
    """A list that is not as usual with its headers, in rows and terms."""
    stated = little(data[16:20])
    end = stated if stated in range(20, len(data)) else len(data)
    found, rest = packages_in(data[20:end])
    pieces = [(data[:16].hex(), ""), (data[16:20].hex(), "how long the list is")]
    for kind, body in found:
        pieces += headed((len(body) + 4).to_bytes(3, "little") + bytes([kind]), body)
    return pieces + headed(rest[:4], rest[4:]) + rows_of(data[end:].hex(), "behind the list")


def list_lines(data):
    """The term of a list."""
    found, rest = packages_in(data[20:])
    if len(data) < 20:
        return hexes(rows_of(data.hex()))
    if not is_usual(data, found, rest):
        return joined(terms_of(raw_list(data)))
    bodies = [(kind, joined(terms_of(body_of(kind, body)))) for kind, body in found[:-1]]
    if [kind for kind, _ in bodies] == [FORMS]:
        return in_call("forms_list", bodies[0][1])
    return in_call("package_list", joined([in_call("packed %d" % kind, lines) for kind, lines in bodies] or [["[]"]]))
