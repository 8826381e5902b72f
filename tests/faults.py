"""Series of cases for docs/FORMATS.md, section 7: each row of the table of faults in its variants, two faults in one list, and
faults in the second forms package. Their names begin with `fault_`, `placed_` or `accepted_`.

What they expect is computed by the rules that stand in the documents: what may stand where (listed.py), and which of several
faults is told (documents.py).
"""
from documents import least, line_of
from listed import CODES, CONTEXTS, LISTED, MAY, MAY_NOT, MUST, OPERATORS, QUESTIONS, placed, whole
from packages import *
from worked import ONE_BOX, ONE_BOX_LIST, TITLE, ZEROS, case, held, prompts, refused, row, with_strings

GUID = LISTED["guid"].op
UNKNOWN = opcode(0x64)
# The first store of a list, and the one of LISTED.
STORES = [(1, bytes(2)), (7, bytes(2))]


def told(name, opcodes, cause, at=0, context="form"):
    """Refused for opcodes that stand in a context, by a cause so far behind their first byte."""
    list_bytes, place = placed(CONTEXTS[context], opcodes)
    refused("fault_%d_%s" % (cause, name), list_bytes, line_of(cause, place + at))


def opens(name, list_bytes, stores=STORES[:1]):
    """Accepted: an empty script leaves the image."""
    case("accepted_" + name, list_bytes, older_image(stores), b"", "", image(stores))


# Where what is listed may stand, and how it is to be there.

def what_may_stand_where():
    for where, context in CONTEXTS.items():
        for name, listed in LISTED.items():
            list_bytes, place = placed(context, whole(listed))
            case_name = "placed_%s_in_%s" % (name, where)
            if context.class_of in listed.classes:
                stores = STORES if name in ("varstore", "varstore_efi") else STORES[:1]
                case(case_name, list_bytes, older_image(stores), b"", "", image(stores))
            else:
                refused(case_name, list_bytes, line_of(28, place))


def operators_outside_of_expressions():
    for name, (op, _) in OPERATORS.items():
        told(name, op, 28)
    for where in CONTEXTS:
        if where != "form":
            told("an_operator_in_%s" % where, OPERATORS["eq_id_val"][0], 28, 0, where)


def home_of(listed):
    """A context in which the opcode may stand."""
    return next(where for where, context in CONTEXTS.items() if context.class_of in listed.classes)


def cut_to(op, length):
    """The opcode with so many bytes."""
    return bytes([op[0], length]) + op[2:length]


def shorter(op):
    """Lengths below that of an opcode which is as short as it may be: that of a header alone, and one byte less."""
    return sorted({2, len(op) - 1}) if len(op) > 2 else ()


def opcodes_that_are_too_short():
    for name, listed in LISTED.items():
        for length in shorter(listed.op) if listed.classes else ():
            cut = cut_to(listed.op, length)
            told("%s_of_%d_bytes" % (name, length), scoped(cut, listed.inside) if listed.scope == MUST else cut, 27, 0,
                 home_of(listed))
    for name, (op, operands) in OPERATORS.items():
        for length in shorter(op):
            told("%s_of_%d_bytes" % (name, length), suppressed(expression(*[ZERO] * operands, cut_to(op, length))), 27,
                 2 + 2 * operands)


def scopes_that_are_not_as_they_must():
    for name, listed in LISTED.items():
        if listed.classes and listed.scope == MUST:
            told("%s_without_scope" % name, listed.op, 29, 0, home_of(listed))
        elif listed.classes and listed.scope == MAY_NOT:
            told("%s_with_scope" % name, scoped(listed.op), 26 if name == "guid" else 29, 0, home_of(listed))
        elif listed.scope == MAY:
            opens("%s_with_scope" % name, placed(CONTEXTS[home_of(listed)], scoped(listed.op))[0])
    for name, (op, _) in OPERATORS.items():
        told("%s_with_scope_in_an_expression" % name, suppressed(scoped(ZERO, scoped(op))), 29, 4)
    told("value_without_scope", scoped(default(0, OTHER), opcode(0x5A)), 29, 5, "checkbox")


def expressions_without_a_shape():
    for name, listed in LISTED.items():
        if listed.inside and name != "value":
            where = home_of(listed)
            told("%s_without_a_child" % name, scoped(listed.op), 30, 0, where)
            told("%s_around_locked" % name, scoped(listed.op, LOCKED), 30, 0, where)
            told("%s_around_what_is_unknown" % name, scoped(listed.op, UNKNOWN), 26, len(listed.op), where)
    for name, child in (("without_a_child", b""), ("around_locked", LOCKED)):
        told("value_" + name, scoped(default(0, OTHER), scoped(opcode(0x5A), child)), 30, 5, "checkbox")
    for name, (op, operands) in OPERATORS.items():
        if operands:
            told("%s_with_an_operand_too_few" % name, suppressed(expression(*[ZERO] * (operands - 1), op)), 30, 2 * operands)
        else:
            told("%s_behind_another_value" % name, suppressed(expression(ZERO, op)), 30, 2)
        opens("condition_by_" + name, placed(CONTEXTS["form"], suppressed(expression(*[ZERO] * operands, op)))[0])


def numbers_that_are_not_listed():
    for code in range(256):
        if code not in CODES:
            told("opcode_%02x" % code, opcode(code), 26)


# The bytes of a value by its Type, where it is listed.
VALUE_BYTES = {0x00: 1, 0x01: 2, 0x02: 4, 0x03: 8, 0x04: 1, 0x05: 3, 0x06: 4, 0x07: 2, 0x09: 0, 0x0A: 0, 0x0B: 0, 0x0C: 0}
# What makes an option or a DEFAULT of a Type with a value, where it may stand, and the Types that it may not have.
VALUED = {
    "option": (lambda code, held: opcode(0x09, u16(5) + bytes([0, code]) + held), "one_of",
               (0x05, 0x06, 0x07, 0x08, 0x09, 0x0A, 0x0B, 0x0C, 0x0D, 0x7F, 0x80, 0xFF)),
    "default": (lambda code, held: default(0, code, held), "checkbox", (0x0D, 0x0E, 0x7F, 0x80, 0xFF)),
}


def types_that_are_not_listed():
    for name, (make, where, codes) in VALUED.items():
        for code in codes:
            told("%s_of_type_%02x" % (name, code), make(code, bytes(8)), 26, 0, where)


def types_that_are_listed():
    """A value of as many bytes as its Type asks for, and of one less."""
    for name, (make, where, unlisted) in VALUED.items():
        for code, width in VALUE_BYTES.items():
            if code not in unlisted:
                opens("%s_of_type_%02x" % (name, code), placed(CONTEXTS[where], make(code, bytes(width)))[0])
                if width:
                    told("%s_of_type_%02x" % (name, code), make(code, bytes(width - 1)), 27, 0, where)


# The rows of lists, of string packages and of framing that have variants.

def list_rows():
    for length in (0, 1, 19, len(ONE_BOX_LIST) + 1, 2**32 - 1):
        refused("fault_2_length_%d" % length, package_list(ONE_BOX_LIST[20:], length), line_of(2, 16))
    behind = len(ONE_BOX_LIST) - len(END_PACKAGE)
    for length in range(4):
        refused("fault_3_package_of_%d_bytes" % length, package_list(package(ONE_BOX, length) + END_PACKAGE), line_of(3, 20))
        short = length.to_bytes(3, "little")
        refused("fault_3_end_package_of_%d_bytes" % length, package_list(package(ONE_BOX) + short + b"\xdf"), line_of(3, behind))
    for length, rest in ((5, 1), (8, 4), (5, 0), (0xFFFFFF, 0)):
        end = length.to_bytes(3, "little") + b"\xdf" + bytes(rest)
        refused("fault_3_end_package_of_%d_bytes_and_%d" % (length, rest), package_list(package(ONE_BOX) + end),
                line_of(3, behind))
    other = b"\4\0\0\x01"
    refused("fault_3_second_package_is_cut", package_list(package(ONE_BOX) + b"\x08\0\0\x01" + END_PACKAGE[:3]),
            line_of(3, behind))
    refused("fault_4_other_package_at_the_end", package_list(package(ONE_BOX) + other), line_of(4, behind + 4))
    refused("fault_5_package_behind_the_end", package_list(package(ONE_BOX) + END_PACKAGE + other), line_of(5, behind + 4))
    for number in (2, 65535):
        refused("fault_6_forms_%d" % number, ONE_BOX_LIST, line_of(6, 0), args=("--forms", str(number)))
    refused("fault_6_list_of_other_packages", package_list(other * 3 + END_PACKAGE), line_of(6, 0))


def string_package_told(name, source, cause, at):
    """Refused for a string package, by a cause so far behind its header. The package stands at 20."""
    refused("fault_%d_%s" % (cause, name), with_strings(prompts(1), source), line_of(cause, 20 + at))


# Where the language of a string package begins, and where the blocks do behind `en`.
LANGUAGE, BLOCKS = 46, 49


def string_headers():
    blocks = string("A")
    for offset in (0, 45, BLOCKS + len(blocks) + 2, 2**32 - 1):
        string_package_told("blocks_from_%d_on" % offset, string_package("en", blocks, info_offset=offset), 7, 0)
    end = BLOCKS + len(blocks) + 1
    string_package_told("no_blocks", string_package("en", blocks, info_offset=end), 8, end)
    for code in (0x7F, 0x80, 0xFF):
        source = bytearray(string_package("en", blocks))
        source[LANGUAGE + 1] = code
        string_package_told("language_with_%02x" % code, bytes(source), 10, LANGUAGE)


# String blocks that are cut before their texts, and blocks whose texts have no end, in hex.
CUT_BLOCKS = ("15", "16", "16 01", "17", "17 00", "17 00 01", "20", "20 01", "21", "21 01", "22", "30", "30 00", "31", "31 00",
              "31 00 04", "32", "32 00", "32 00 06 00 00")
ENDLESS_TEXTS = ("14", "14 41", "14 41 00 00", "14 41 00 41 00 00", "14 41 00 00 41", "15 00", "15 00 41 00", "16 01 00",
                 "16 02 00 00 00 41 00", "17 00 01 00 41 00", "17 00 02 00 41 00 00 00")
BLOCK_CODES = (0x00, 0x14, 0x15, 0x16, 0x17, 0x20, 0x21, 0x22, 0x30, 0x31, 0x32)


def string_blocks():
    before = string("A")
    for cause, cut in [(8, cut) for cut in CUT_BLOCKS] + [(9, cut) for cut in ENDLESS_TEXTS]:
        source = string_package("en", before + bytes.fromhex(cut), end=b"")
        string_package_told("block_" + cut.replace(" ", "_"), source, cause, BLOCKS + len(before))
    for code in range(256):
        if code not in BLOCK_CODES:
            string_package_told("block_%02x" % code, string_package("en", bytes([code, 4, 0, 0])), 8, BLOCKS)


def blocks_of_ext():
    """Their lengths are those of their own fields or more, and no more than is left."""
    for code, own, width in ((0x30, 3, 1), (0x31, 4, 2), (0x32, 6, 4)):
        ext = lambda length: bytes([code, 7]) + little(length, width)
        for length in (0, own - 1, own + 2):
            string_package_told("block_%02x_that_says_%d" % (code, length), string_package("en", ext(length)), 8, BLOCKS)
        source = string_package("en", ext(own) + ext(own + 1) + b"\xff" + strings("A", "B", "C"))
        case("accepted_block_%02x" % code, with_strings(prompts(1), source), ZEROS, b"page\n",
             "FORM 1 B\n  1 *     1 C" + " " * 23 + " [ ]\n", held(0, 0))


def framing_rows():
    for length in ("06 00", "06 01", "06 80", "06 81", "06 7f", "29 01", "29 03 00", "29 82"):
        told("opcode_" + length.replace(" ", "_"), bytes.fromhex(length), 20)
    refused("fault_20_no_length_byte", list_of(ONE_BOX[:-1]), line_of(20, 4 + len(ONE_BOX) - 2))
    refused("fault_20_one_byte", list_of(b"\x0e"), line_of(20, 4))
    told("end_in_the_form_set", END * 3, 21, 4)
    refused("fault_21_end_alone", list_of(END), line_of(21, 4))
    refused("fault_22_form_set_alone", list_of(form_set()), line_of(22, 4 + len(form_set())))


def first_and_last_opcodes():
    for name, opcodes in (("form", form(1) + END), ("guid", GUID + ONE_BOX), ("unknown", UNKNOWN + ONE_BOX),
                          ("too_short_form", b"\x01\x03\1"),
                          ("locked_form_set", LOCKED + form_set() + END)):
        refused("fault_24_%s_first" % name, list_of(opcodes), line_of(24, 4))
    refused("fault_27_form_set_too_short", list_of(scoped(cut_to(form_set(), 22))), line_of(27, 4))
    refused("fault_27_form_set_of_2_bytes", list_of(opcode(0x0E)), line_of(27, 4))
    refused("fault_29_form_set_without_scope", list_of(LISTED["form_set"].op), line_of(29, 4))
    for name, op in (("form_set", form_set() + END), ("unknown", UNKNOWN), ("too_short", b"\x06\x03\0"), ("form", form(2) + END),
                     ("operator", TRUE), ("guid_with_scope", scoped(GUID))):
        refused("fault_25_%s_last" % name, list_of(ONE_BOX + op), line_of(25, 4 + len(ONE_BOX)))


def ids_of_questions_and_stores():
    for name in QUESTIONS:
        again = LISTED[name].op
        told("%s_behind_a_checkbox" % name, checkbox(7, 0) + again, 33, 14)
        told("%s_before_a_checkbox" % name, again + checkbox(7, 0), 33, len(again))
        told("%s_of_an_unknown_store" % name, again[:8] + u16(9) + again[10:], 35)
    told("in_another_form", checkbox(7, 0) + END + form(9) + checkbox(7, 0), 33, 14 + 2 + 6)
    opens("questions_of_id_0", placed(CONTEXTS["form"], checkbox(0, 0) * 3)[0])
    for name, at in (("varstore", 18), ("varstore_efi", 2), ("varstore_name_value", 2)):
        op = LISTED[name].op
        for number in (0, 1):
            told("%s_of_id_%d" % (name, number), op[:at] + u16(number) + op[at + 2:], 34, 0, "form_set")


def ids_of_forms():
    told("form_of_id_0", END + form(0) + END + form(0), 32, 10)
    store = varstore(1, 2)
    for name, inside in (("form", b""), ("form_but_a_store", store), ("form_in_a_guard", suppressed(TRUE, store))):
        refused("fault_39_no_%s" % name, list_of(form_set() + inside + END), line_of(39, 4))
    # References by their lengths: those of 15 to 32 bytes lead to a form, if its id is not 0.
    for length in (15, 16, 17, 32):
        told("ref_of_%d_bytes" % length, ref(7, u16(9) + bytes(length - 15)), 39)
        opens("ref_of_%d_bytes_to_0" % length, placed(CONTEXTS["form"], ref(7, bytes(length - 13)))[0])
    for length in (13, 14, 33, 34, 35, 60):
        opens("ref_of_%d_bytes" % length, placed(CONTEXTS["form"], ref(7, b"\x09" * (length - 13)))[0])


# Two faults in one list.

def rule_too_deep(_):
    return rule(1, TRUE) + rule(1, rule_ref(1)) * 16, 7 + 15 * 8


# What has a fault, by its cause, where it stands in a form, and how far behind its first byte the fault is. It gets a number for
# the ids that are its own. What stands behind it stands in a form, too.
FAULTY = {
    20: lambda n: (b"\x06\x01", 0),
    21: lambda n: (END * 3, 4),
    23: lambda n: ((suppress_if() + TRUE) * 63 + END * 63, 62 * 4),
    26: lambda n: (UNKNOWN, 0),
    27: lambda n: (cut_to(checkbox(n, 0), 13), 0),
    28: lambda n: (default_store(9, 0), 0),
    29: lambda n: (opcode(0x0A), 0),
    30: lambda n: (scoped(opcode(0x0A)), 0),
    31: lambda n: (suppressed(expression(*[ZERO] * 65)), 2 + 64 * 2),
    32: lambda n: (END + form(1), 2),
    33: lambda n: (checkbox(n, 0) * 2, 14),
    39: lambda n: (ref(n, u16(999)), 0),
    40: rule_too_deep,
    34: lambda n: (END + varstore(0, 2) + form(n), 2),
    35: lambda n: (checkbox(n, 0, store=9), 0),
    36: lambda n: (checkbox(n, 2), 0),
    37: lambda n: (scoped(one_of(n, 0), option(5, 256, NUMBER_2)), 17),
    38: lambda n: (scoped(ordered_list(n, 0, 1), option(5, 1), option(6, 2, NUMBER_2)), 15 + 7),
}


def with_faults(*causes):
    """Opcodes with these faults in a form, a checkbox behind each, and the faults with their places."""
    opcodes, found = base(), []
    for n, cause in enumerate(causes, 2):
        faulty, at = FAULTY[cause](10 * n)
        found.append((cause, 4 + len(opcodes) + at))
        opcodes += faulty + checkbox(10 * n + 1, 0)
    return opcodes + END + END, found


def one_before_another():
    for first in FAULTY:
        for second in FAULTY:
            opcodes, found = with_faults(first, second)
            refused("fault_%d_before_%d" % (first, second), list_of(opcodes), least(*found))


def one_at_an_end():
    """A scope that stays open, an opcode behind the form set, and one before it."""
    for cause in FAULTY:
        opcodes, found = with_faults(cause)
        refused("fault_%d_before_22" % cause, list_of(opcodes[:-2]), least(*found, (22, 4 + len(opcodes) - 2)))
        refused("fault_%d_before_25" % cause, list_of(opcodes + UNKNOWN), least(*found, (25, 4 + len(opcodes))))
        refused("fault_24_before_%d" % cause, list_of(GUID + opcodes),
                least((24, 4), *[(number, place + 2) for number, place in found]))


def one_place():
    """Of the faults of one opcode the least number is told."""
    told("short_form_without_scope_in_a_form", cut_to(form(2), 5), 27)
    told("form_without_scope_in_a_form", LISTED["form"].op, 28)
    told("guard_without_a_child_in_a_checkbox", scoped(opcode(0x0A)), 28, 0, "checkbox")
    told("guard_without_scope_and_child", opcode(0x0A), 29)
    told("short_rule_without_scope_and_child", opcode(0x18), 27)
    told("rule_without_a_child_in_a_form_set", scoped(opcode(0x18, b"\1")), 28, 0, "form_set")
    told("text_option_in_a_form", option(5, 1, STRING_ID), 26)
    told("unknown_default_with_scope", scoped(default(0, 0x0D)), 26, 0, "checkbox")
    told("second_question_of_an_id_to_no_form", checkbox(7, 0) + ref(7, u16(999)), 33, 14)
    told("short_operator_with_scope", suppressed(scoped(ZERO, scoped(opcode(0x42)))), 27, 4)


def one_expression():
    """What the order of operators is told by only where none of them has a fault of its own, and only the first."""
    add, short = operator(0x3A), opcode(0x42)
    told("short_operator_behind_one_without_operands", suppressed(expression(add, short)), 27, 4)
    told("short_operator_behind_64_values", suppressed(expression(*[ZERO] * 65, short)), 27, 2 + 65 * 2)
    told("unknown_opcode_behind_one_without_operands", suppressed(expression(add, UNKNOWN)), 26, 4)
    told("checkbox_behind_an_operator_without_operands", suppressed(expression(add, checkbox(7, 0))), 28, 4)
    told("operator_without_operands_before_two_values", suppressed(expression(add, ZERO, ZERO)), 30, 2)
    told("operator_without_operands_behind_one_value", suppressed(expression(ZERO, add, ZERO, add, ZERO)), 30, 4)
    told("values_are_left_behind_64", suppressed(expression(*[ZERO] * 65, *[add] * 60)), 31, 2 + 64 * 2)
    told("operator_without_operands_before_65_values", suppressed(expression(add, *[ZERO] * 66)), 30, 2)
    # Two expressions: each has a fault of its own, and that of the first is told.
    told("expression_before_a_short_operator", suppressed(expression(ZERO, ZERO)) + suppressed(short), 30, 2)


# Strings with a fault, by its cause, and how far behind the package's header it is.
STRINGS = {
    7: (bytes([45, 0, 0, 4]) + bytes(41), 0),
    8: (string_package("en", bytes([0x10])), BLOCKS),
    9: (string_package("en", b"\x14\x41", end=b""), BLOCKS),
    10: (string_package("\x7f", string("A")), LANGUAGE),
}
# No END block: the fault is behind the package, where the next one begins.
STRINGS_WITHOUT_END = string_package("en", b"", end=b""), BLOCKS
WHOLE = held(0, 0)
# Images with a fault, and their lines.
IMAGES = {
    50: (b"HVS9" + WHOLE[4:], 0), 56: (WHOLE[:4] + bytes(16) + WHOLE[20:], 4), 51: (WHOLE[:20] + u16(2) + WHOLE[22:], 20),
    52: (WHOLE[:22] + u16(9) + WHOLE[24:], 22), 53: (WHOLE[:24] + u16(3) + WHOLE[26:], 24), 54: (WHOLE[:27], 26),
    55: (WHOLE + b"\0", 28),
}
# Lists with a fault of the list itself, which hold packages.
LISTS = {
    2: lambda packages: (package_list(packages + END_PACKAGE, 19), 16),
    3: lambda packages: (package_list(packages + b"\3\0\0\xdf"), 20 + len(packages)),
    4: lambda packages: (package_list(packages), 20 + len(packages)),
    5: lambda packages: (package_list(packages + END_PACKAGE + b"\0"), 24 + len(packages)),
}


def one_part_before_another():
    sound = string_package("fr", string("A"))
    for cause in FAULTY:
        opcodes, found = with_faults(cause)
        for number, (stores, _) in IMAGES.items():
            refused("fault_%d_and_%d" % (cause, number), list_of(opcodes), least(*found), stores)
        for number, (source, at) in STRINGS.items():
            behind = package_list(package(opcodes) + sound + source + END_PACKAGE)
            refused("fault_%d_behind_%d" % (number, cause), behind, line_of(number, 20 + 4 + len(opcodes) + len(sound) + at),
                    IMAGES[50][0])
    for number, (source, at) in STRINGS.items():
        refused("fault_%d_and_a_wrong_image" % number, with_strings(ONE_BOX, sound, source),
                line_of(number, 20 + len(sound) + at), b"")
        refused("fault_6_and_%d" % number, with_strings(ONE_BOX, source), line_of(6, 0), b"", ("--forms", "2"))
    wrong, _ = with_faults(26)
    for number, make in LISTS.items():
        list_bytes, place = make(STRINGS[8][0] + package(wrong))
        refused("fault_%d_and_all_others" % number, list_bytes, line_of(number, place), b"", ("--forms", "2"))
    refused("fault_6_and_all_others", with_strings(wrong, STRINGS[8][0]), line_of(6, 0), b"", ("--forms", "2"))


def one_string_package_before_another():
    sources = dict(STRINGS, **{"8_at_its_end": STRINGS_WITHOUT_END})
    for first, (source, at) in sources.items():
        for second, (other, _) in sources.items():
            number = 8 if first == "8_at_its_end" else first
            refused("fault_strings_%s_before_%s" % (first, second), with_strings(ONE_BOX, source, other),
                    line_of(number, 20 + at))
    # Of a package both are told at its byte 46, and a block there has the lesser number. One further behind comes later.
    refused("fault_8_and_10_at_one_byte", with_strings(ONE_BOX, string_package("\x7f", b"", info_offset=LANGUAGE)),
            line_of(8, 20 + LANGUAGE))
    refused("fault_10_before_8", with_strings(ONE_BOX, string_package("\x7f", b"\x10")), line_of(10, 20 + LANGUAGE))
    refused("fault_10_before_9", with_strings(ONE_BOX, string_package("\x7f", b"\x14\x41", end=b"")), line_of(10, 20 + LANGUAGE))
    refused("fault_8_before_9", with_strings(ONE_BOX, string_package("en", b"\x10\x14\x41", end=b"")), line_of(8, 20 + BLOCKS))
    refused("fault_9_before_8", with_strings(ONE_BOX, string_package("en", b"\x14\x41\x10", end=b"")), line_of(9, 20 + BLOCKS))


def one_image_field_before_another():
    """Of an image with several fields of other bytes the first is told."""
    wrong = b"HVS9" + bytes(16) + u16(2) + u16(9) + u16(3) + bytes(3)
    fields = {50: 0, 56: 4, 51: 20, 52: 22, 53: 24}
    for number, at in fields.items():
        refused("fault_%d_before_all_behind_it" % number, ONE_BOX_LIST, line_of(number, at), WHOLE[:at] + wrong[at:])
        refused("fault_%d_before_54" % number, ONE_BOX_LIST, line_of(number, at),
                WHOLE[:at] + wrong[at:at + (16 if number == 56 else 4 if number == 50 else 2)])
        refused("fault_54_in_the_field_of_%d" % number, ONE_BOX_LIST, line_of(54, at), WHOLE[:at] + wrong[at:at + 1])


# Opcodes of a package with a fault at an end, by its cause, and the fault with its place.
FAULTY_ENDS = {
    22: (ONE_BOX[:-len(END)], (22, 4 + len(ONE_BOX) - len(END))),
    24: (GUID + ONE_BOX, (24, 4)),
    25: (ONE_BOX + UNKNOWN, (25, 4 + len(ONE_BOX))),
}


def second_forms_package():
    second = ("--forms", "2")
    shown = TITLE + row(1, 1, "*", " ")
    faulty = {cause: with_faults(cause) for cause in FAULTY} | {cause: (opcodes, [found]) for cause, (opcodes, found) in FAULTY_ENDS.items()}
    for cause, (opcodes, found) in faulty.items():
        good, bad = package(ONE_BOX), package(opcodes)
        refused("fault_%d_in_the_second_forms_package" % cause, package_list(good + bad + END_PACKAGE), least(*found),
                args=second)
        refused("fault_%d_in_both_forms_packages" % cause, package_list(package(with_faults(26)[0]) + bad + END_PACKAGE),
                least(*found), args=second)
        for name, packages, args in (("first", bad + good, second), ("second", good + bad, ())):
            case("accepted_%d_in_the_%s_forms_package" % (cause, name), package_list(packages + END_PACKAGE), ZEROS, b"page\n",
                 shown, held(0, 0), args)
    for number, (source, at) in STRINGS.items():
        packages = package(ONE_BOX) + source + package(ONE_BOX) + END_PACKAGE
        refused("fault_%d_before_the_second_forms_package" % number, package_list(packages),
                line_of(number, 24 + len(ONE_BOX) + at), args=second)
    for number, make in LISTS.items():
        list_bytes, place = make(package(ONE_BOX) * 2)
        refused("fault_%d_behind_the_second_forms_package" % number, list_bytes, line_of(number, place), args=second)
    for number, (stores, at) in IMAGES.items():
        refused("fault_%d_and_the_second_forms_package" % number, package_list(package(ONE_BOX) * 2 + END_PACKAGE),
                line_of(number, at), stores, second)


FAULTS = (what_may_stand_where, operators_outside_of_expressions, opcodes_that_are_too_short, scopes_that_are_not_as_they_must,
          expressions_without_a_shape, numbers_that_are_not_listed, types_that_are_not_listed, types_that_are_listed, list_rows,
          string_headers, string_blocks, blocks_of_ext, framing_rows, first_and_last_opcodes, ids_of_questions_and_stores,
          ids_of_forms, one_before_another, one_at_an_end, one_place, one_expression, one_part_before_another,
          one_string_package_before_another, one_image_field_before_another, second_forms_package)
