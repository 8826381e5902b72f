"""A second reading of docs/AUDIT.md, `opcodes`: the lines of the opcodes of a forms package, from the bytes of its list."""
import json

FORMS, STRINGS, END = 0x02, 0x04, 0x29
TEXT, GUID, BITS, NUMBER = "text", "guid", "bits", "number"
# The characters that stand as escapes in a text, each range with its first and its last.
UNSAFE = [(0x00, 0x1F), (0x7F, 0x9F), (0xAD, 0xAD), (0x61C, 0x61C), (0x180E, 0x180E), (0x200B, 0x200F), (0x2028, 0x202E), (0x2060, 0x206F),
          (0xD800, 0xDFFF), (0xFEFF, 0xFEFF), (0xFFF9, 0xFFFB), (0xE0000, 0xE007F)]
STATEMENT = "Prompt* Help*"
QUESTION = STATEMENT + " QuestionId VarStoreId VarOffset:x QuestionFlags:x1"
FLAGGED = QUESTION + " Flags:x1"
# The names of the opcodes from 1 on, and the fields of those that have some: `*` a string id, `:g` a GUID, `:x` bits, a number of bytes other
# than two behind it.
NAMES = """FORM SUBTITLE TEXT IMAGE ONE_OF CHECKBOX NUMERIC PASSWORD ONE_OF_OPTION SUPPRESS_IF LOCKED ACTION RESET_BUTTON FORM_SET REF
NO_SUBMIT_IF INCONSISTENT_IF EQ_ID_VAL EQ_ID_ID EQ_ID_VAL_LIST AND OR NOT RULE GRAY_OUT_IF DATE TIME STRING REFRESH DISABLE_IF ANIMATION
TO_LOWER TO_UPPER MAP ORDERED_LIST VARSTORE VARSTORE_NAME_VALUE VARSTORE_EFI VARSTORE_DEVICE VERSION END MATCH GET SET READ WRITE EQUAL
NOT_EQUAL GREATER_THAN GREATER_EQUAL LESS_THAN LESS_EQUAL BITWISE_AND BITWISE_OR BITWISE_NOT SHIFT_LEFT SHIFT_RIGHT ADD SUBTRACT MULTIPLY
DIVIDE MODULO RULE_REF QUESTION_REF1 QUESTION_REF2 UINT8 UINT16 UINT32 UINT64 TRUE FALSE TO_UINT TO_STRING TO_BOOLEAN MID FIND TOKEN
STRING_REF1 STRING_REF2 CONDITIONAL QUESTION_REF3 ZERO ONE ONES UNDEFINED LENGTH DUP THIS SPAN VALUE DEFAULT DEFAULTSTORE FORM_MAP CATENATE
GUID SECURITY MODAL_TAG REFRESH_ID WARNING_IF MATCH2""".split()
FIELDS = {
    "FORM_SET": "Guid:g FormSetTitle* Help* Flags:x1", "FORM": "FormId FormTitle*", "SUBTITLE": STATEMENT + " Flags:x1",
    "TEXT": STATEMENT + " TextTwo*", "RESET_BUTTON": STATEMENT + " DefaultId", "ONE_OF": FLAGGED, "CHECKBOX": FLAGGED, "NUMERIC": FLAGGED,
    "DATE": FLAGGED, "TIME": FLAGGED, "STRING": QUESTION + " MinSize:1 MaxSize:1 Flags:x1", "PASSWORD": QUESTION + " MinSize MaxSize",
    "ORDERED_LIST": QUESTION + " MaxContainers:1 Flags:x1", "ACTION": QUESTION + " QuestionConfig*",
    "REF": QUESTION + " FormId RefQuestionId FormSetId:g DevicePath*", "ONE_OF_OPTION": "Option* Flags:x1 Type:1", "DEFAULT": "DefaultId Type:1",
    "DEFAULTSTORE": "DefaultName* DefaultId", "VARSTORE": "Guid:g VarStoreId Size", "VARSTORE_EFI": "VarStoreId Guid:g Attributes:x4 Size",
    "VARSTORE_NAME_VALUE": "VarStoreId Guid:g", "VARSTORE_DEVICE": "DevicePath*", "IMAGE": "Id", "ANIMATION": "Id", "REFRESH": "RefreshInterval:1",
    "REFRESH_ID": "RefreshEventGroupId:g", "INCONSISTENT_IF": "Error*", "NO_SUBMIT_IF": "Error*", "WARNING_IF": "Warning* TimeOut:1",
    "RULE": "RuleId:1", "RULE_REF": "RuleId:1", "EQ_ID_VAL": "QuestionId Value", "EQ_ID_ID": "QuestionId1 QuestionId2",
    "EQ_ID_VAL_LIST": "QuestionId ListLength", "QUESTION_REF1": "QuestionId", "UINT8": "Value:1", "UINT16": "Value", "UINT32": "Value:4",
    "UINT64": "Value:8", "GET": "VarStoreId VarStoreInfo:x VarStoreType:1", "SET": "VarStoreId VarStoreInfo:x VarStoreType:1",
    "STRING_REF1": "StringId*", "QUESTION_REF3": "DevicePath* Guid:g", "TO_STRING": "Format:1", "FIND": "Format:1", "SPAN": "Flags:x1",
    "FORM_MAP": "FormId", "GUID": "Guid:g", "SECURITY": "Permissions:g", "MATCH2": "SyntaxType:g",
}
VALUE_WIDTHS = [1, 2, 4, 8, 1]
BIT_FIELDS = {"Flags", "QuestionFlags", "VarOffset", "Attributes", "VarStoreInfo"}
# The members of an object that are the texts of others.
TEXT_FIELDS = {it[:-1] + "Text" for fields in FIELDS.values() for it in fields.split() if it.endswith("*")} | {"ValueText"}


def packages(content):
    """The packages of a list: where each begins, its Type and its bytes."""
    at = 20
    while content[at + 3] != 0xDF:
        length = int.from_bytes(content[at:at + 3], "little")
        yield at, content[at + 3], content[at:at + length]
        at += length


def language(package):
    """Whether the language of a string package is text, up to its NUL."""
    name, nul, _ = package[46:int.from_bytes(package[8:12], "little")].partition(b"\0")
    return bool(nul) and all(byte <= 0x7E for byte in name)


def texts(content):
    """The texts of the first string package by their ids; none where it has a fault."""
    for _, kind, package in packages(content):
        if kind == STRINGS:
            begin = int.from_bytes(package[8:12], "little") if len(package) >= 46 else 0
            if not 46 <= begin <= len(package) or not language(package):
                return {}
            try:
                return blocks(package[begin:])
            except (IndexError, ValueError):
                return {}
    return {}


def blocks(content):
    """The texts of string blocks, which end with a block 0."""
    found, id, at = {}, 1, 0
    number = lambda offset, width: whole(content, at + offset, width)

    def text():
        nonlocal at, id
        begin = at
        while whole(content, at, 2) != 0:
            at += 2
        found[id], at, id = content[begin:at], at + 2, id + 1
    while (kind := content[at]) != 0:
        if kind in (0x14, 0x15):
            at += 1 + (kind == 0x15)
            text()
        elif kind in (0x16, 0x17):
            skipped = 1 + (kind == 0x17)
            count, at = number(skipped, 2), at + skipped + 2
            for _ in range(count):
                text()
        elif kind == 0x20:
            if (other := number(1, 2)) in found and other < id:
                found[id] = found[other]
            at, id = at + 3, id + 1
        elif kind in (0x21, 0x22):
            width = 3 - (kind - 0x20)
            id, at = id + number(1, width), at + 1 + width
        elif kind in (0x30, 0x31, 0x32):
            width = {0x30: 1, 0x31: 2, 0x32: 4}[kind]
            length = number(2, width)
            if length < 2 + width or at + length > len(content):
                raise ValueError
            at += length
        else:
            raise ValueError
    return found


def whole(content, at, width):
    if at + width > len(content):
        raise IndexError
    return int.from_bytes(content[at:at + width], "little")


def shown(units):
    """What is shown of a text: a space for a control, U+FFFD for half of a pair, nothing for FFF0 to FFF2."""
    out = ""
    for unit in (int.from_bytes(units[k:k + 2], "little") for k in range(0, len(units), 2)):
        if unit < 0x20 or 0x7F <= unit < 0xA0:
            out += " "
        elif 0xD800 <= unit < 0xE000:
            out += "\ufffd"
        elif not 0xFFF0 <= unit < 0xFFF3:
            out += chr(unit)
    return out


def string(text):
    """A text as a string of JSON."""
    out = ""
    for c in text:
        if c in '"\\':
            out += "\\" + c
        elif any(first <= ord(c) <= last for first, last in UNSAFE):
            out += "\\u%04x" % ord(c)
        else:
            out += c
    return '"%s"' % out


def guid(content):
    number = lambda at, width: int.from_bytes(content[at:at + width], "little")
    return "%08X-%04X-%04X-%s-%s" % (number(0, 4), number(4, 2), number(6, 2), content[8:10].hex().upper(), content[10:16].hex().upper())


def parts(layout):
    """The name, the kind and the width of each field."""
    for part in layout.split():
        name, _, rest = part.partition(":")
        if name.endswith("*"):
            yield name[:-1], TEXT, 2
        elif rest == "g":
            yield name, GUID, 16
        else:
            yield name, BITS if rest.startswith("x") else NUMBER, int(rest.strip("x") or 2)


def tail(name, op, at):
    """The fields behind those of an opcode, or their words."""
    if name in ("NUMERIC", "ONE_OF") and at == 14:
        return [(it, NUMBER, 1 << (op[13] & 3)) for it in ("MinValue", "MaxValue", "Step")], ""
    if name in ("ONE_OF_OPTION", "DEFAULT") and at:
        kind = op[at - 1]
        if kind <= 4:
            return [("Value", NUMBER, VALUE_WIDTHS[kind])], ""
        if kind == 7:
            return [("Value", TEXT, 2)], ""
        return [], " Value=" + op[at:].hex() if op[at:] else ""
    if name == "EQ_ID_VAL_LIST" and at:
        rest = op[at:at + 2 * int.from_bytes(op[4:6], "little")]
        values = [int.from_bytes(rest[k:k + 2], "little") for k in range(0, len(rest) - 1, 2)]
        return [], " ValueList=" + ",".join(map(str, values)) if values else ""
    if name in ("VARSTORE", "VARSTORE_EFI") and op[at:] and at:
        return [], " Name=" + string(op[at:].partition(b"\0")[0].decode("latin-1"))
    return [], ""


def words(op, known):
    """The name of an opcode and its fields."""
    name = NAMES[op[0] - 1] if 1 <= op[0] <= len(NAMES) else ""
    out, at = name or "0x%02x" % op[0], 2

    def tell(fields):
        nonlocal out, at
        for field, kind, width in fields:
            if at + width > len(op):
                return False
            value = int.from_bytes(op[at:at + width], "little")
            if kind == TEXT:
                text = " " + string(shown(known[value]) if value in known else "#%d" % value) if value else ""
                told = "%d%s" % (value, text)
            else:
                told = {GUID: guid(op[at:at + 16]), BITS: "0x%x" % value, NUMBER: str(value)}[kind]
            out, at = "%s %s=%s" % (out, field, told), at + width
        return True
    if tell(parts(FIELDS.get(name, ""))):
        fields, rest = tail(name, op, at)
        tell(fields)
        out += rest
    return out


def opcodes_text(content, number):
    """The lines of the opcodes of the forms package of a number."""
    known = texts(content)
    place, _, package = [it for it in packages(content) if it[1] == FORMS][number - 1]
    lines, at, depth = [], 4, 0
    while len(package) >= at + 2 and 2 <= package[at + 1] & 0x7F <= len(package) - at:
        op = package[at:at + (package[at + 1] & 0x7F)]
        depth -= op[0] == END and depth > 0
        lines.append("%08x %08x %s%s ; %s\n" % (at, place + at, "  " * depth, words(op, known), op.hex()))
        depth += op[0] != END and op[1] >= 0x80
        at += len(op)
    return "".join(lines).encode()


def value_of(field, value, fields):
    """What stands of a field in a line, of what an object has."""
    if field + "Text" in fields:
        return "%d %s" % (value, string(fields[field + "Text"]))
    if field in BIT_FIELDS:
        return "0x%x" % value
    if isinstance(value, list):
        return ",".join(map(str, value))
    return string(value) if field == "Name" else str(value)


def line_of(fact):
    """The line that an object stands for."""
    if fact["kind"] == "refused":
        return "REFUSED %d %s at %08x" % (fact["cause"], fact["name"], fact["at"])
    if fact["kind"] == "error":
        return fact["text"]
    fields = fact["fields"]
    told = "".join(" %s=%s" % (field, value_of(field, value, fields)) for field, value in fields.items() if field not in TEXT_FIELDS)
    return "%08x %08x %s%s%s ; %s" % (fact["at"], fact["byte"], "  " * fact["depth"], fact["name"], told, fact["bytes"])


def lines_of_objects(told):
    """The lines that objects of JSON stand for."""
    return "".join(line_of(json.loads(line)) + "\n" for line in told.decode().split("\n")[:-1]).encode()
