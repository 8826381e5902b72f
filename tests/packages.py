"""Package lists, images and scripts as bytes, for the tests and the measurements of the program.

All numbers are little-endian (UEFI 2.8, 33.3.1 Package Lists, 33.3.8 Forms Package). Only what the tests use is here.
"""
END = bytes([0x29, 0x02])
END_PACKAGE = bytes([4, 0, 0, 0xDF])
FORM_SET_GUID = bytes([0x22]) * 16
VARSTORE_GUID = bytes([0x33]) * 16

# The Types of options and defaults (UEFI 2.8, 33.3.8.3, EFI_IFR_ONE_OF_OPTION.Type, EFI_IFR_DEFAULT.Type).
NUMBER_1, NUMBER_2, NUMBER_4, NUMBER_8, BOOLEAN, STRING_ID, OTHER, BUFFER = 0, 1, 2, 3, 4, 7, 8, 0x0B
WIDTHS = {NUMBER_1: 1, NUMBER_2: 2, NUMBER_4: 4, NUMBER_8: 8, BOOLEAN: 1, STRING_ID: 2}

# How a numeric question shows its value, and the flags of an ordered list (EFI_IFR_NUMERIC, EFI_IFR_ORDERED_LIST).
SIGNED, UNSIGNED, HEXADECIMAL = 0x00, 0x10, 0x20
UNIQUE_SET, NO_EMPTY_SET = 1, 2


def u16(n):
    return n.to_bytes(2, "little")


def u32(n):
    return n.to_bytes(4, "little")


def little(n, width):
    return n.to_bytes(width, "little", signed=n < 0)


def opcode(code, fields=b"", length=None):
    """An opcode with its fields. Its header tells its length, or the one that is given."""
    return bytes([code, 2 + len(fields) if length is None else length]) + fields


def scoped(op, *children):
    """An opcode with Scope, and what stands in its scope."""
    return bytes([op[0], op[1] | 0x80]) + op[2:] + b"".join(children) + END


def form_set(title=1):
    return bytes([0x0E, 0x97]) + FORM_SET_GUID + u16(title) + u16(0) + bytes([0])


def varstore(store, size, name=b"V", guid=VARSTORE_GUID):
    """A store with bytes."""
    return opcode(0x24, guid + u16(store) + u16(size) + name + b"\0")


def varstore_efi(store, size, name=b"V", guid=VARSTORE_GUID):
    """A store with bytes and with the attributes of a variable."""
    return opcode(0x26, u16(store) + guid + u32(7) + u16(size) + name + b"\0")


def varstore_name_value(store):
    return opcode(0x25, u16(store) + VARSTORE_GUID)


def default_store(name, default):
    return opcode(0x5C, u16(name) + u16(default))


def form(number, title=2):
    return bytes([0x01, 0x86]) + u16(number) + u16(title)


def statement(code, prompt, fields):
    """A statement that is no question."""
    return opcode(code, u16(prompt) + u16(0) + fields)


def subtitle(prompt):
    return statement(0x02, prompt, bytes([0]))


def text_statement(prompt, second):
    return statement(0x03, prompt, u16(second))


def reset_button(prompt, default=0):
    return statement(0x0D, prompt, u16(default))


def question(code, number, offset, fields, store=1, flags=0):
    """A question whose prompt is the string of its id and two."""
    return statement(code, number + 2, u16(number) + u16(store) + u16(offset) + bytes([flags]) + fields)


def checkbox(number, offset, store=1, flags=0):
    return question(0x06, number, offset, bytes([0]), store, flags)


def bounds(display, width, least, most, step=4):
    """Flags with a display and a width in bytes, a minimum, a maximum and a step."""
    flags = display | {1: 0, 2: 1, 4: 2, 8: 3}[width]
    return bytes([flags]) + little(least, width) + little(most, width) + little(step, width)


def numeric(number, offset, display, width, least, most, step=4, **header):
    """A number of so many bytes, within bounds."""
    return question(0x07, number, offset, bounds(display, width, least, most, step), **header)


def one_of(number, offset, width=1, step=4, **header):
    """A choice, whose options stand in its scope. It has bounds that none of them meets."""
    return question(0x05, number, offset, bounds(UNSIGNED, width, 0, 0, step), **header)


def ordered_list(number, offset, most, flags=0, **header):
    """A list of at most so many of the options in its scope."""
    return question(0x23, number, offset, bytes([most, flags]), **header)


def option(text, value, value_type=NUMBER_1, flags=0):
    return opcode(0x09, u16(text) + bytes([flags, value_type]) + little(value, WIDTHS[value_type]))


def string_question(number, offset, least, most, **header):
    """A text of so many characters at least and at most."""
    return question(0x1C, number, offset, bytes([least, most, 0]), **header)


def password(number, offset, least, most, **header):
    return question(0x08, number, offset, u16(least) + u16(most), **header)


def date(number, store=0, flags=0):
    return question(0x1A, number, 0, bytes([0]), store, flags)


def time(number, store=0):
    return question(0x1B, number, 0, bytes([0]), store)


def action(number):
    return question(0x0C, number, 0, b"", 0)


def ref(number, fields):
    """A reference, whose fields behind those of a question begin with the id of its form."""
    return question(0x0F, number, 0, fields, 0)


def default(number, value_type, value=b""):
    return opcode(0x5B, u16(number) + bytes([value_type]) + value)


def value(says):
    """The VALUE of a default, which an expression says."""
    return scoped(opcode(0x5A), says)


def suppress_if():
    return bytes([0x0A, 0x82])


def eq_id_val(question, value):
    return opcode(0x12, u16(question) + u16(value))


def operator(code, fields=b""):
    """An operator of an expression (UEFI 2.8, 33.3.8.3)."""
    return opcode(code, fields)


TRUE, FALSE, ZERO, ONE, ONES, UNDEFINED, THIS = (operator(code) for code in (0x46, 0x47, 0x52, 0x53, 0x54, 0x55, 0x58))
LOCKED = opcode(0x0B)


def uint8(n):
    return operator(0x42, bytes([n]))


def rule_ref(number):
    return operator(0x3F, bytes([number]))


def question_ref(number):
    return operator(0x40, u16(number))


def expression(first, *others):
    """An expression of these operators: the first has Scope where there are more."""
    return scoped(first, *others) if others else first


def suppressed(condition, *statements):
    """Statements that are hidden while a condition holds."""
    return scoped(suppress_if(), condition, *statements)


def grayed_out(condition, *statements):
    """Statements that may not be changed while a condition holds."""
    return scoped(opcode(0x19), condition, *statements)


def disabled(condition, *statements):
    """Statements that are not there where a condition holds at opening."""
    return scoped(opcode(0x1E), condition, *statements)


def rule(number, value):
    return scoped(opcode(0x18, bytes([number])), value)


def base(size=2):
    """What stands before the first statement, up to place 57: the form set, a store of so many bytes and a form."""
    return form_set() + varstore(1, size) + form(1)


def package(opcodes, length=None):
    """A forms package. Its header tells its length, or the one that is given."""
    length = 4 + len(opcodes) if length is None else length
    return length.to_bytes(3, "little") + bytes([0x02]) + opcodes


def text(characters):
    """A text of the Basic Multilingual Plane with its zero unit."""
    return characters.encode("utf-16-le") + bytes(2)


def string(characters):
    """A block with the text of one string id (UEFI 2.8, 33.3.6.2 String Information)."""
    return bytes([0x14]) + text(characters)


def strings(*texts):
    """A block with the texts of so many ids."""
    return bytes([0x16]) + u16(len(texts)) + b"".join(text(characters) for characters in texts)


def skip(count):
    """A block of so many ids without a text."""
    return bytes([0x22, count]) if count < 256 else bytes([0x21]) + u16(count)


def duplicate(other):
    """A block with the text of another id."""
    return bytes([0x20]) + u16(other)


def string_package(language, blocks, info_offset=None, end=b"\0"):
    """A string package (UEFI 2.8, 33.3.6 String Package). The blocks begin behind the language, or at the offset that is
    given."""
    language = language.encode() + b"\0"
    info_offset = 46 + len(language) if info_offset is None else info_offset
    fixed = u32(46) + u32(info_offset) + bytes(32) + u16(1)
    body = fixed + language + blocks + end
    return (4 + len(body)).to_bytes(3, "little") + bytes([0x04]) + body


def device_path(path):
    """A package with a device path (UEFI 2.8, 33.3.4 Device Path Package)."""
    return (4 + len(path)).to_bytes(3, "little") + bytes([0x08]) + path


def package_list(packages, length=None):
    """A list of packages that ends as these bytes do. Its header tells its length, or the one that is given."""
    return bytes([0x11]) * 16 + u32(20 + len(packages) if length is None else length) + packages


def list_of(opcodes):
    """A list with one forms package and the end package."""
    return package_list(package(opcodes) + END_PACKAGE)


def image(stores, guid=FORM_SET_GUID):
    """The image in the form that is written, with the bytes of each store by its id."""
    parts = [b"HVS2", guid, u16(len(stores))]
    return b"".join(parts + [u16(store) + u16(len(held)) + held for store, held in stores])


def older_image(stores):
    parts = [b"HVS1", u16(len(stores))]
    return b"".join(parts + [u16(store) + u16(len(held)) + held for store, held in stores])
