"""Worked cases of lists that are refused for an opcode: by itself, for where it stands, or beside others."""
from packages import *
from worked import in_checkbox, in_form, of_form, refused

NUMBER = numeric(2, 1, UNSIGNED, 1, 0, 9)
EFI_STORE = u16(9) + VARSTORE_GUID + u32(7)


def cut(op):
    """An opcode without its last byte, which tells its length so."""
    return opcode(op[0], op[2:-1])


def in_choice(name, opcodes, line):
    """Refused for opcodes that stand at 74, the first in a choice."""
    in_form(name, scoped(one_of(2, 1), opcodes), line)


def in_form_set(name, opcodes, line):
    """Refused for opcodes that stand at 51, behind the store of a form set."""
    refused(name, list_of(form_set() + varstore(1, 2) + opcodes + form(1) + checkbox(1, 0) + END + END), line)


def wrong_opcodes():
    # What is not known, or left out.
    in_form("guid_as_a_condition", suppressed(scoped(opcode(0x5F, bytes(16)))), "30 ExprShape at 00000039")
    in_form("guid_with_a_scope", scoped(opcode(0x5F, bytes(16))), "26 OpOutside at 00000039")
    in_form_set("efi_store_of_24_bytes", opcode(0x26, EFI_STORE), "26 OpOutside at 00000033")
    in_choice("option_of_a_string", option(5, 1, STRING_ID), "26 OpOutside at 0000004a")
    in_checkbox("default_of_an_unknown_type", default(0, 0x0D), "26 OpOutside at 00000047")
    # What is too short.
    for name, op in (("subtitle", subtitle(9)), ("text", text_statement(9, 9)), ("reset_button", reset_button(9)), ("numeric", NUMBER),
                     ("numeric_of_two_bytes", numeric(2, 1, UNSIGNED, 2, 0, 9)), ("one_of", one_of(2, 1)),
                     ("string", string_question(2, 1, 0, 1)), ("password", password(2, 1, 0, 1)), ("ordered_list", ordered_list(2, 1, 1)),
                     ("date", date(2)), ("time", time(2)), ("action", action(2)), ("ref", ref(2, b""))):
        in_form("%s_too_short" % name, cut(op), "27 OpSize at 00000039")
    in_choice("option_too_short", cut(option(5, 1)), "27 OpSize at 0000004a")
    in_choice("option_without_a_type", opcode(0x09, u16(5) + b"\0"), "27 OpSize at 0000004a")
    in_checkbox("default_too_short", cut(default(0, NUMBER_2, u16(1))), "27 OpSize at 00000047")
    in_form_set("default_store_too_short", cut(default_store(9, 0)), "27 OpSize at 00000033")
    in_form_set("store_of_names_too_short", cut(varstore_name_value(5)), "27 OpSize at 00000033")
    in_form_set("efi_store_of_26_bytes", opcode(0x26, EFI_STORE + u16(2)), "27 OpSize at 00000033")
    in_form_set("efi_store_without_the_end_of_its_name", opcode(0x26, EFI_STORE + u16(2) + b"V"), "27 OpSize at 00000033")


def wrong_scopes():
    # What may not stand where it does.
    in_form("option_in_a_form", option(5, 1), "28 Misplaced at 00000039")
    in_form("option_in_a_number", scoped(NUMBER, option(5, 1)), "28 Misplaced at 0000004a")
    in_checkbox("question_in_a_question", checkbox(3, 1), "28 Misplaced at 00000047")
    in_form("default_in_a_text", scoped(text_statement(9, 9), default(0, NUMBER_1, b"\1")), "28 Misplaced at 00000041")
    in_form("default_store_in_a_form", default_store(9, 0), "28 Misplaced at 00000039")
    in_form("store_in_a_form", varstore_efi(9, 2), "28 Misplaced at 00000039")
    in_form_set("question_in_a_form_set", checkbox(2, 1), "28 Misplaced at 00000033")
    in_form("value_in_a_form", value(TRUE), "28 Misplaced at 00000039")
    in_checkbox("second_value", scoped(default(0, OTHER), value(TRUE), value(TRUE)), "28 Misplaced at 00000052")
    # Scope where it may not be, or none where it must.
    in_checkbox("default_with_a_scope", scoped(default(0, BOOLEAN, b"\1")), "29 ScopeBit at 00000047")
    in_checkbox("default_of_a_value_without_a_scope", default(0, OTHER), "29 ScopeBit at 00000047")
    in_form_set("default_store_with_a_scope", scoped(default_store(9, 0)), "29 ScopeBit at 00000033")
    in_form("image_with_a_scope", scoped(opcode(0x04, u16(1))), "29 ScopeBit at 00000039")
    # What a scope is to begin with.
    in_checkbox("default_without_its_value", scoped(default(0, OTHER)), "30 ExprShape at 00000047")
    in_checkbox("default_with_an_expression_alone", scoped(default(0, OTHER), TRUE), "30 ExprShape at 00000047")
    in_checkbox("value_without_an_expression", scoped(default(0, OTHER), scoped(opcode(0x5A))), "30 ExprShape at 0000004c")


def wrong_ids():
    def told(name, opcodes, line):
        refused(name, of_form(opcodes), line)

    told("questions_of_two_kinds_and_one_id", checkbox(1, 0) + date(1), "33 DuplicateQuestion at 00000047")
    told("reference_to_no_form", ref(1, u16(3)), "39 NoForm at 00000039")
    in_form_set("stores_of_two_kinds_and_one_id", varstore_name_value(1), "34 DuplicateVarstore at 00000033")
    in_form_set("efi_store_of_id_0", varstore_efi(0, 2), "34 DuplicateVarstore at 00000033")
    told("date_of_an_unknown_store", date(1, store=9), "35 UnknownVarstore at 00000039")
    told("number_past_its_store", numeric(1, 0, UNSIGNED, 4, 0, 9), "36 FieldOutside at 00000039")
    told("text_past_its_store", string_question(1, 0, 0, 2), "36 FieldOutside at 00000039")
    told("empty_text_past_its_store", string_question(1, 3, 0, 0), "36 FieldOutside at 00000039")
    told("list_past_its_store", scoped(ordered_list(1, 0, 2), option(5, 1, NUMBER_2)), "36 FieldOutside at 00000039")
    large = option(5, 256, NUMBER_2)
    told("option_too_large", scoped(one_of(1, 0, step=0), large), "37 OptionRange at 0000004a")
    told("option_too_large_without_a_store", scoped(one_of(1, 0, store=0), large), "37 OptionRange at 0000004a")
    told("options_of_two_widths", scoped(ordered_list(1, 0, 2, UNIQUE_SET | NO_EMPTY_SET), option(5, 1), option(6, 2, NUMBER_2)),
         "38 MixedOptions at 0000004f")
    told("options_of_two_types", scoped(ordered_list(1, 0, 2), option(5, 1), option(6, 1, BOOLEAN)), "38 MixedOptions at 0000004f")
