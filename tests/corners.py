"""Worked cases in which two readings of a rule differ that agree in the others."""
from packages import *
from worked import OK, case, counted, denied, held, of_form, prompts, refused, shown_row, talk, with_strings

# Operators (UEFI 2.8, 33.3.8.3).
EQUAL, BITWISE_OR, BITWISE_NOT, LESS_EQUAL, EQ_ID_VAL_LIST = 0x2F, 0x36, 0x37, 0x34, 0x14
# The Type of a DEFAULT that gives nothing (EFI_IFR_TYPE_REF).
REFERENCE = 0x0C


def corners_of_operators():
    hidden = [("why 1", denied("suppressif"))]
    for name, condition in (
            ("least_is_at_most_itself", expression(uint8(2), uint8(2), operator(LESS_EQUAL))),
            ("bits_of_both_stand_in_the_or", expression(uint8(3), uint8(2), operator(BITWISE_OR), uint8(3), operator(EQUAL))),
            ("all_bits_of_0_are_turned", expression(uint8(0), operator(BITWISE_NOT), ONES, operator(EQUAL)))):
        talk(name, of_form(suppressed(condition, checkbox(1, 0))), b"\0\0", hidden)
    # The one value of the list is 263, whose low byte is what question 2 answers.
    listed = operator(EQ_ID_VAL_LIST, u16(2) + u16(1) + u16(263))
    talk("value_of_a_list_has_two_bytes", of_form(suppressed(listed, checkbox(1, 0)), numeric(2, 1, UNSIGNED, 1, 0, 9)), b"\0\7", [
        ("why 1", OK)])


def corners_of_policy():
    talk("grayed_out_before_locked", of_form(grayed_out(TRUE, scoped(checkbox(1, 0), LOCKED))), b"\0\0", [("why 1", denied("grayoutif"))])
    talk("grayed_out_before_read_only", of_form(grayed_out(TRUE, checkbox(1, 0, flags=1))), b"\0\0", [("why 1", denied("grayoutif"))])
    # A LOCKED in the form set, behind the form.
    locked = list_of(base() + checkbox(1, 0) + END + LOCKED + END)
    talk("locked_in_the_form_set", locked, b"\0\0", [("set 1 1", denied("locked", 73))])


def corners_of_values():
    def listed(flags, *options, most=3):
        return of_form(scoped(ordered_list(1, 0, most, flags), *options), size=3)

    both = (option(5, 1), option(6, 2))
    talk("list_that_may_be_empty_but_not_repeat", listed(UNIQUE_SET, *both), bytes(3), [("order 1 1,1", denied("repeat")), ("order 1", OK)])
    talk("list_that_repeats_its_second_element", listed(UNIQUE_SET, *both), bytes(3), [("order 1 1,2,2", denied("repeat"))])
    talk("list_that_may_repeat_but_not_be_empty", listed(NO_EMPTY_SET, *both), bytes(3), [
        ("order 1", denied("emptyset")), ("order 1 1,1", OK)])
    # The second element has no option, and the third comes again.
    talk("first_element_that_may_not_be_is_told", listed(UNIQUE_SET, *both), bytes(3), [("order 1 1,9,1", denied("nooption"))])
    talk("element_of_0_has_no_option", listed(0, option(5, 0), option(6, 1)), bytes(3), [("order 1 0", denied("nooption"))])
    flagged = scoped(one_of(1, 0), option(5, 3, flags=0x10), default(0, REFERENCE))
    talk("default_that_gives_nothing_hides_flags", of_form(flagged), b"\0\0", [("defaults 0", counted(0))])


def corners_of_languages():
    british, american = string_package("en-GB", strings("", "G2", "G3")), string_package("en-US", strings("", "A2", "A3"))
    case("language_by_case_before_primary_subtag", with_strings(prompts(1), british, american), older_image([(1, bytes(2))]), b"page\n",
         "FORM 1 A2\n" + shown_row(1, 1, "A3"), held(0, 0), ("--lang", "EN-us"))


def corners_of_faults():
    # Two stores of one id stand before two forms of one id, which are told.
    forms = form(1) + END + form(1) + END
    refused("same_forms_come_before_same_stores", list_of(form_set() + varstore(1, 2) + varstore(1, 2) + forms + END),
            "32 DuplicateForm at 00000053")
    # A field outside of its store stands before a second store of its id, which is told.
    refused("same_stores_come_before_fields", list_of(base() + checkbox(1, 9) + END + varstore(1, 2) + END),
            "34 DuplicateVarstore at 00000049")


CORNERS = (corners_of_operators, corners_of_policy, corners_of_values, corners_of_languages, corners_of_faults)
