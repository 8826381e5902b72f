"""Worked cases of guards, locks and the conditions of questions: what is shown, changed and submitted, and what forbids it."""
from packages import *
from worked import GUARDED_LIST, OK, TITLE, case, denied, held, in_checkbox, in_form, of_form, plain_row, row, talk, with_strings


def inconsistent_if(text, condition):
    return scoped(opcode(0x11, u16(text)), condition)


def no_submit_if(text, condition):
    return scoped(opcode(0x10, u16(text)), condition)


def warning_if(text, condition):
    return scoped(opcode(0x63, u16(text) + b"\0"), condition)


def warned(place, text):
    return "WARNING at %08x %s\n" % (place, text)


def guards_of_statements():
    # A GRAY_OUT_IF at 57 around a SUPPRESS_IF at 65 around question 1, which is hidden before it is grayed out.
    talk("hidden_before_grayed_out", of_form(
        grayed_out(eq_id_val(2, 1), suppressed(eq_id_val(3, 1), checkbox(1, 0))), checkbox(2, 1), checkbox(3, 2), size=3), b"\0\1\1", [
            ("why 1", denied("suppressif", 65)), ("set 3 0", OK), ("why 1", denied("grayoutif", 57)), ("set 1 1", denied("grayoutif", 57)),
            ("page", TITLE + row(1, 1, "!", " ") + row(2, 2, "*", "x") + row(3, 3, "*", " "))])
    talk("outermost_gray_out_is_named", of_form(
        grayed_out(eq_id_val(2, 1), grayed_out(eq_id_val(3, 1), checkbox(1, 0))), checkbox(2, 1), checkbox(3, 2), size=3), b"\0\1\1", [
            ("why 1", denied("grayoutif", 57)), ("set 2 0", OK), ("why 1", denied("grayoutif", 65)), ("set 3 0", OK), ("why 1", OK)])
    # SUBTRACT takes its right operand from the top: 8 - 9 is EQUAL to ONES.
    talk("right_operand_is_the_last", of_form(
        suppressed(expression(uint8(8), uint8(9), operator(0x3B), operator(0x54), operator(0x2F)), checkbox(1, 0))), b"\0\0", [
            ("why 1", denied("suppressif"))])
    talk("undefined_does_not_hold", of_form(suppressed(expression(eq_id_val(9, 0), operator(0x17)), checkbox(1, 0))), b"\0\0", [
        ("why 1", OK)])
    case("any_byte_of_a_checkbox_but_0_is_1", GUARDED_LIST, older_image([(1, b"\0\2")]), b"why 1\n", denied("suppressif"), held(0, 2))
    case("why_names_what_the_last_change_brought", of_form(
        suppressed(eq_id_val(2, 1), checkbox(1, 0)), checkbox(2, 1)), older_image([(1, bytes(2))]), b"why 1\nset 2 1\nwhy 1\nwhy 9\n",
        OK + OK + denied("suppressif") + denied("noquestion", 0), held(0, 0))
    # A field that two questions share: what one is set to hides what the other guards.
    talk("a_shared_field_answers_for_both", of_form(
        suppressed(eq_id_val(2, 1), checkbox(1, 0)), checkbox(2, 1), checkbox(3, 1)), b"\0\0", [
            ("why 1", OK), ("set 3 1", OK), ("why 1", denied("suppressif")), ("submit", "OK 2\nCHANGED 2\nCHANGED 3\n")], b"\0\1")
    # A form in a guard of the form set, at 51: its title is shown, and no row.
    case("a_hidden_form_has_no_rows", list_of(
        form_set() + varstore(1, 2) + scoped(opcode(0x0A), TRUE, scoped(form(1)[:1] + bytes([6]) + form(1)[2:], checkbox(1, 0))) + END),
        older_image([(1, bytes(2))]), b"page\nwhy 1\n", TITLE + denied("suppressif", 51), held(0, 0))


def disabled_scopes():
    list_bytes = of_form(disabled(eq_id_val(2, 1), checkbox(1, 0)), checkbox(2, 1))
    case("disabled_by_the_stores_at_opening", list_bytes, older_image([(1, bytes(2))]), b"set 2 1\nwhy 1\nsubmit\npage\n",
         OK + OK + "OK 1\nCHANGED 2\n" + TITLE + row(1, 1, "*", " ") + row(2, 2, "*", "x"), held(0, 1))
    case("disabled_as_long_as_the_session_lasts", list_bytes, image([(1, b"\0\1")]), b"why 1\nset 2 0\nwhy 1\npage\n",
         denied("disableif") + OK + denied("disableif") + TITLE + row(1, 2, "*", " "), held(0, 1))
    # A SUPPRESS_IF at 57 outside of a DISABLE_IF at 65: the outermost that hides is named.
    talk("outermost_that_hides_is_named", of_form(
        suppressed(eq_id_val(2, 1), disabled(TRUE, checkbox(1, 0))), checkbox(2, 1)), b"\0\0", [
            ("why 1", denied("disableif", 65)), ("set 2 1", OK), ("why 1", denied("suppressif", 57))])


def locks():
    talk("locked_in_the_question", of_form(scoped(checkbox(1, 0), LOCKED)), b"\0\0", [
        ("set 1 1", denied("locked", 71)), ("why 1", denied("locked", 71)), ("page", TITLE + row(1, 1, "!", " "))])
    talk("locked_behind_what_it_locks", of_form(checkbox(1, 0), LOCKED), b"\0\0", [("set 1 1", denied("locked", 71))])
    # Of a LOCKED in the question at 71 and one in its form at 75 that in the outermost scope decides.
    talk("locked_in_the_outermost_scope", of_form(scoped(checkbox(1, 0), LOCKED), LOCKED, LOCKED), b"\0\0", [
        ("set 1 1", denied("locked", 75))])
    talk("locked_in_a_guard_that_does_not_hold", of_form(grayed_out(FALSE, checkbox(1, 0), LOCKED), checkbox(2, 1)), b"\0\0", [
        ("set 1 1", denied("locked", 75)), ("set 2 1", OK)])
    talk("a_locked_text_has_no_mark", of_form(scoped(text_statement(9, 8), LOCKED)), b"\0\0", [
        ("page", TITLE + plain_row(1, " ", 9, "#8"))])
    talk("read_only_is_told_behind_locked", of_form(scoped(checkbox(1, 0, flags=1), LOCKED), checkbox(2, 1, flags=1)), b"\0\0", [
        ("why 1", denied("locked", 71)), ("why 2", denied("readonly", 75))])


def guarded_options():
    # An option of the value 2 in a SUPPRESS_IF at 81.
    talk("a_hidden_option_is_not_chosen", of_form(scoped(
        one_of(1, 0), option(5, 1), suppressed(TRUE, option(6, 2)))), b"\2\0", [
            ("page", TITLE + row(1, 1, "*", "<?>")), ("set 1 2", denied("suppressif", 81)), ("set 1 3", denied("nooption")),
            ("set 1 1", OK), ("page", TITLE + row(1, 1, "*", "<#5>"))])
    # Two options of one value, the first in a GRAY_OUT_IF at 74: one that is open suffices, and both show.
    talk("one_open_option_suffices", of_form(scoped(
        one_of(1, 0), grayed_out(TRUE, option(5, 1)), option(6, 1))), b"\0\0", [
            ("set 1 1", OK), ("page", TITLE + row(1, 1, "*", "<#5>"))])
    talk("first_of_the_closed_options_is_named", of_form(scoped(
        one_of(1, 0), grayed_out(TRUE, option(5, 1)), suppressed(TRUE, option(6, 1)))), b"\0\0", [
            ("set 1 1", denied("grayoutif", 74))])
    # So many options that they are kept by value: the values do not rise, and two come several times.
    many = [option(5, 9), grayed_out(TRUE, option(6, 3)), option(7, 7), suppressed(TRUE, option(8, 5)), option(9, 1),
            suppressed(TRUE, option(10, 3)), option(11, 5), option(12, 8), option(13, 2), option(14, 0)]
    talk("one_of_many_options_is_chosen", of_form(scoped(one_of(1, 0), *many)), b"\2\0", [
        ("set 1 9", OK), ("set 1 0", OK), ("set 1 8", OK), ("set 1 5", OK), ("set 1 4", denied("nooption")),
        ("set 1 10", denied("nooption")), ("set 1 3", denied("grayoutif", 81)), ("page", TITLE + row(1, 1, "*", "<#11>"))])
    talk("a_locked_option_is_not_chosen", of_form(scoped(
        one_of(1, 0), grayed_out(FALSE, option(5, 1), LOCKED), option(6, 2))), b"\2\0", [
            ("set 1 1", denied("locked", 85)), ("set 1 2", OK)])
    talk("each_element_needs_an_open_option", of_form(scoped(
        ordered_list(1, 0, 2), option(5, 1), disabled(TRUE, option(6, 2)))), b"\2\1", [
            ("page", TITLE + row(1, 1, "*", "?, #5")), ("order 1 1,2", denied("disableif", 79)), ("order 1 3,2", denied("nooption")),
            ("order 1 1", OK), ("page", TITLE + row(1, 1, "*", "#5"))])
    # THIS among the options is the choice itself: the value 1 is hidden while the choice is 1.
    talk("this_among_options_is_the_choice", of_form(scoped(
        one_of(1, 0), suppressed(expression(operator(0x58), uint8(1), operator(0x2F)), option(5, 1)), option(6, 2))), b"\0\0", [
            ("set 1 1", OK), ("page", TITLE + row(1, 1, "*", "<?>")), ("set 1 1", denied("suppressif", 74)), ("set 1 2", OK)])


def conditions_of_questions():
    # An INCONSISTENT_IF at 85 in question 2.
    talk("inconsistent_with_the_new_field", of_form(
        checkbox(1, 0), scoped(checkbox(2, 1), inconsistent_if(7, eq_id_val(2, 1)))), b"\0\0", [
            ("set 2 1", denied("inconsistentif", 85).replace("\n", " #7\n")), ("set 2 0", OK), ("set 1 1", OK), ("submit", "OK 1\nCHANGED 1\n")],
        b"\1\0")
    talk("not_inconsistent_with_the_old_field", of_form(scoped(checkbox(1, 0), inconsistent_if(7, eq_id_val(1, 1)))), b"\1\0", [
        ("set 1 1", denied("inconsistentif", 71).replace("\n", " #7\n")), ("set 1 0", OK)])
    talk("other_questions_are_not_asked", of_form(
        checkbox(1, 0), scoped(checkbox(2, 1), inconsistent_if(7, TRUE))), b"\0\0", [("set 1 1", OK)])
    talk("first_inconsistency_is_named", of_form(scoped(
        checkbox(1, 0), inconsistent_if(7, FALSE), inconsistent_if(0, TRUE), inconsistent_if(8, TRUE))), b"\0\0", [
            ("set 1 1", denied("inconsistentif", 79).replace("\n", " \n"))])
    # A NO_SUBMIT_IF at 75 in a question that is hidden counts, one in a removed scope does not.
    hidden = scoped(checkbox(1, 0), no_submit_if(8, eq_id_val(1, 0)))
    talk("submission_denied_by_a_hidden_question", of_form(suppressed(TRUE, hidden)), b"\0\0", [
        ("submit", denied("nosubmitif", 75).replace("\n", " #8\n"))])
    talk("submission_not_denied_by_a_removed_question", of_form(disabled(TRUE, hidden)), b"\0\0", [("submit", "OK 0\n")])
    talk("submission_denied_by_the_first", of_form(
        scoped(checkbox(1, 0), no_submit_if(0, eq_id_val(1, 1))), scoped(date(2), no_submit_if(8, TRUE))), b"\0\0", [
            ("submit", denied("nosubmitif", 99).replace("\n", " #8\n")), ("set 1 1", OK), ("submit", denied("nosubmitif", 71).replace("\n", " \n"))])
    # A WARNING_IF at 71 tells of the stores after the change.
    talk("warned_after_the_change", of_form(scoped(checkbox(1, 0), warning_if(9, eq_id_val(1, 1)))), b"\0\0", [
        ("set 1 1", OK + warned(71, "#9")), ("why 1", OK), ("set 1 0", OK), ("set 1 2", denied("range"))])
    talk("warned_of_each_by_place", of_form(scoped(
        numeric(1, 0, UNSIGNED, 1, 0, 9), warning_if(0, TRUE), warning_if(9, eq_id_val(1, 5)), warning_if(8, TRUE))), b"\0\0", [
            ("set 1 4", OK + warned(74, "") + warned(96, "#8")), ("set 1 5", OK + warned(74, "") + warned(83, "#9") + warned(96, "#8"))])
    # The texts of denials and warnings are those of the chosen language.
    opcodes = (form_set() + varstore(1, 2) + form(1)
               + scoped(checkbox(1, 0), inconsistent_if(4, eq_id_val(1, 0)), warning_if(5, TRUE)) + END + END)
    packages = [string_package(language, strings("", "", "", said, other)) for language, said, other in (("en", "No", "Mind"), ("de", "Nein", "Obacht"))]
    case("denials_and_warnings_in_the_language", with_strings(opcodes, *packages), older_image([(1, bytes(2))]),
         b"set 1 0\nset 1 1\nlang de\nset 1 0\nset 1 1\n",
         denied("inconsistentif", 71).replace("\n", " No\n") + OK + warned(83, "Mind") + OK
         + denied("inconsistentif", 71).replace("\n", " Nein\n") + OK + warned(83, "Obacht"), held(0, 0))


def wrong_conditions():
    """Opcodes of the policy where they may not stand, or cut short."""
    for name, op in (("inconsistent_if", inconsistent_if(7, TRUE)), ("no_submit_if", no_submit_if(7, TRUE)), ("warning_if", warning_if(7, TRUE))):
        in_form("%s_in_a_form" % name, op, "28 Misplaced at 00000039")
        in_form("%s_in_a_text" % name, scoped(text_statement(9, 9), op), "28 Misplaced at 00000041")
        in_checkbox("%s_without_a_scope" % name, bytes([op[0], op[1] & 0x7F]) + op[2:op[1] & 0x7F], "29 ScopeBit at 00000047")
        in_checkbox("%s_without_a_condition" % name, scoped(bytes([op[0], op[1] & 0x7F]) + op[2:op[1] & 0x7F]), "30 ExprShape at 00000047")
        in_form("%s_among_options" % name, scoped(one_of(2, 1), suppressed(TRUE, op)), "28 Misplaced at 0000004e")
    in_form("warning_if_before_a_question", warning_if(9, eq_id_val(1, 1)), "28 Misplaced at 00000039")
    in_checkbox("inconsistent_if_too_short", scoped(opcode(0x11, b"\7"), TRUE), "27 OpSize at 00000047")
    in_checkbox("no_submit_if_too_short", scoped(opcode(0x10, b"\7"), TRUE), "27 OpSize at 00000047")
    in_checkbox("warning_if_too_short", scoped(opcode(0x63, u16(7)), TRUE), "27 OpSize at 00000047")
    in_checkbox("guard_in_a_checkbox", suppressed(TRUE), "28 Misplaced at 00000047")
    in_form("default_among_guarded_options", scoped(one_of(2, 1), suppressed(TRUE, default(0, NUMBER_1, b"\1"))), "28 Misplaced at 0000004e")
    in_form("gray_out_if_without_a_scope", opcode(0x19), "29 ScopeBit at 00000039")
    in_form("disable_if_without_a_condition", scoped(opcode(0x1E)), "30 ExprShape at 00000039")
    in_form("locked_with_a_scope", scoped(LOCKED), "29 ScopeBit at 00000039")
    in_form("locked_in_an_option", scoped(one_of(2, 1), scoped(option(5, 1), LOCKED)), "28 Misplaced at 00000051")
    in_form("locked_as_a_condition", suppressed(LOCKED), "30 ExprShape at 00000039")
