"""Worked cases of statements and questions of all kinds: pages, values that are taken and refused, stores."""
from packages import *
from worked import OK, TITLE, case, denied, of_form, plain_row, refused, row, talk, with_strings

CHANGED_1 = "OK 1\nCHANGED 1\n"
BAD = "REFUSED 70 BadCommand\n"
EQUAL = 0x2F


def page(shown, mark="*"):
    """The page of a form with question 1 alone, which shows this."""
    return "page", TITLE + row(1, 1, mark, shown)


def numbers():
    out = denied("range")
    talk("signed_number", of_form(numeric(1, 0, SIGNED, 1, -128, 127, step=1)), b"\0\0", [
        ("set 1 -128", OK), page("-128"), ("set 1 127", OK), ("set 1 128", out), ("set 1 -129", out), ("set 1 0x80", out),
        ("set 1 0x7f", OK), page("127"), ("submit", CHANGED_1)], b"\x7f\0")
    talk("hexadecimal_number", of_form(numeric(1, 0, HEXADECIMAL, 1, 0, 255, step=1)), b"\x0a\0", [
        page("0x0a"), ("set 1 -1", out), ("set 1 256", out), ("set 1 255", OK), page("0xff")])
    talk("hexadecimal_number_of_four_bytes", of_form(numeric(1, 0, HEXADECIMAL, 4, 0, 2**32 - 1), size=4), b"\x2c\1\0\0", [
        page("0x0000012c"), ("set 1 0xDEADBEEF", OK), page("0xdeadbeef")])
    talk("number_within_its_bounds", of_form(numeric(1, 0, UNSIGNED, 1, 5, 9)), b"\0\0", [
        page("0"), ("set 1 4", out), ("set 1 5", OK), ("set 1 9", OK), ("set 1 10", out), ("set 1 6", OK), ("submit", CHANGED_1)],
        b"\6\0")
    talk("signed_number_of_two_bytes", of_form(numeric(1, 0, SIGNED, 2, -2, 300)), b"\xfe\xff", [
        page("-2"), ("set 1 -3", out), ("set 1 301", out), ("set 1 300", OK), page("300"), ("set 1 -1", OK), page("-1"),
        ("submit", CHANGED_1)], b"\xff\xff")
    talk("signed_number_of_eight_bytes", of_form(numeric(1, 0, SIGNED, 8, -2**63, 2**63 - 1), size=8), bytes(8), [
        ("set 1 -9223372036854775808", OK), page("-9223372036854775808"), ("set 1 9223372036854775808", out),
        ("set 1 -9223372036854775809", out), ("set 1 9223372036854775807", OK), ("submit", CHANGED_1)], b"\xff" * 7 + b"\x7f")
    talk("number_of_eight_bytes", of_form(numeric(1, 0, UNSIGNED, 8, 0, 2**64 - 1), size=8), bytes(8), [
        ("set 1 18446744073709551615", OK), page("18446744073709551615"), ("set 1 -1", out)])
    talk("number_of_an_undefined_display", of_form(numeric(1, 0, 0x30, 1, 0, 255)), b"\xff\0", [page("255"), ("set 1 -1", out)])
    talk("minimum_above_maximum", of_form(numeric(1, 0, UNSIGNED, 1, 5, 4)), b"\0\0", [("set 1 4", out), ("set 1 5", out)])
    talk("number_answers_without_sign", of_form(suppressed(eq_id_val(2, 255), checkbox(1, 0)), numeric(2, 1, SIGNED, 1, -128, 127)),
         b"\0\xff", [("set 1 1", denied("suppressif")), ("set 2 0", OK), ("set 1 1", OK)])
    talk("number_between_others", of_form(numeric(1, 1, UNSIGNED, 2, 0, 65535), size=4), b"\xaa\xbb\xcc\xdd", [
        page("52411"), ("set 1 0x1122", OK), ("submit", CHANGED_1)], b"\xaa\x22\x11\xdd")
    kind = denied("kind")
    talk("number_takes_no_text", of_form(numeric(1, 0, UNSIGNED, 1, 0, 9)), b"\0\0", [
        ("text 1 5", kind), ("order 1 5", kind), ("text 1", kind), ("order 1", kind)])
    talk("checkbox_takes_no_text", of_form(checkbox(1, 0)), b"\0\0", [("text 1 x", kind), ("order 1 1", kind)])
    fixed = denied("readonly")
    talk("read_only_number", of_form(numeric(1, 0, UNSIGNED, 1, 0, 9, flags=1)), b"\3\0", [
        page("3", "!"), ("set 1 10", fixed), ("text 1 x", fixed), ("set 1 4", fixed)])


def choices():
    none, kind = denied("nooption"), denied("kind")
    talk("choice", of_form(scoped(one_of(1, 0), option(5, 1), option(6, 2))), b"\0\0", [
        page("<?>"), ("set 1 2", OK), page("<#6>"), ("set 1 3", none), ("set 1 0", none), ("set 1 -1", none), ("set 1 257", none),
        ("text 1 #5", kind), ("order 1 1", kind), ("set 1 0x1", OK), page("<#5>"), ("submit", CHANGED_1)], b"\1\0")
    talk("first_option_of_a_value_is_shown", of_form(scoped(one_of(1, 0), option(7, 1), option(8, 1), option(0, 2))), b"\1\0", [
        page("<#7>"), ("set 1 2", OK), page("<>")])
    talk("options_of_a_boolean", of_form(scoped(one_of(1, 0), option(5, 0, BOOLEAN), option(6, 1, BOOLEAN))), b"\0\0", [
        page("<#5>"), ("set 1 1", OK), page("<#6>"), ("set 1 2", none)])
    talk("choice_of_two_bytes", of_form(scoped(one_of(1, 0, width=2), option(5, 258, NUMBER_2), option(6, 5))), b"\2\1", [
        page("<#5>"), ("set 1 5", OK), page("<#6>"), ("set 1 2", none), ("submit", CHANGED_1)], b"\5\0")
    talk("choice_without_options", of_form(one_of(1, 0)), b"\0\0", [page("<?>"), ("set 1 0", none)])


def lists():
    none, kind, length = denied("nooption"), denied("kind"), denied("length")
    listed = of_form(scoped(ordered_list(1, 0, 2, UNIQUE_SET | NO_EMPTY_SET), option(5, 1), option(6, 2)))
    talk("ordered_list", listed, b"\0\0", [
        page(""), ("order 1 1,1", denied("repeat")), ("order 1", denied("emptyset")), ("order 1 1,2,1", length), ("order 1 2,1", OK),
        page("#6, #5"), ("submit", CHANGED_1), ("order 1 0", none), ("order 1 3,3", none), ("order 1 1,3", none), ("order 1 3,4,5", length),
        ("order 1 18446744073709551615", none), ("set 1 1", kind), ("text 1 1", kind), ("order 1 01", OK), page("#5")], b"\2\1")
    talk("element_without_an_option", listed, b"\3\1", [page("?, #5")])
    talk("list_that_may_repeat_or_be_empty", of_form(scoped(ordered_list(1, 0, 2), option(5, 1))), b"\0\0", [
        ("order 1 1,1", OK), page("#5, #5"), ("order 1 1,1,1", length), ("order 1", OK), page("")])
    talk("list_ends_at_its_first_zero", of_form(scoped(ordered_list(1, 0, 3), option(5, 1)), size=3), b"\1\0\1", [
        page("#5"), ("order 1 1", OK), ("submit", CHANGED_1)], b"\1\0\0")
    talk("elements_of_two_bytes", of_form(scoped(ordered_list(1, 0, 2), option(5, 258, NUMBER_2), option(6, 1, NUMBER_2)), size=4),
         bytes(4), [("order 1 1,258", OK), page("#6, #5"), ("submit", CHANGED_1)], b"\1\0\2\1")
    talk("list_without_options", of_form(ordered_list(1, 0, 2)), b"\0\0", [page(""), ("order 1", OK), ("order 1 1", none)])
    same = expression(question_ref(2), question_ref(3), operator(EQUAL))
    pair = of_form(suppressed(same, checkbox(1, 0)), scoped(ordered_list(2, 1, 2), option(5, 1)), ordered_list(3, 3, 2), size=5)
    talk("lists_are_compared", pair, b"\0\1\0\1\0", [("set 1 1", denied("suppressif")), ("order 2", OK), ("set 1 1", OK)])
    talk("lists_are_compared_behind_their_ends", pair, b"\0\0\5\0\6", [("set 1 1", OK), ("order 2", OK), ("set 1 0", OK)])


def texts_of_questions():
    length, bad, kind = denied("length"), denied("badtext"), denied("kind")
    talk("text_of_one_character", of_form(string_question(1, 0, 0, 1)), b"\0\0", [
        page(""), ("text 1 \u00e9", OK), page("\u00e9"), ("text 1 ab", length), ("text 1 \U0001f600", bad), (b"text 1 \xff", bad),
        (b"text 1 \xed\xa0\x80", bad), (b"text 1 \0", bad), ("set 1 1", kind), ("order 1 1", kind), ("submit", CHANGED_1),
        ("text 1", OK), page("")], b"\xe9\0")
    talk("text_of_two_to_four_characters", of_form(string_question(1, 0, 2, 4), size=8), bytes(8), [
        ("text 1 a", length), ("text 1", length), ("text 1 ", length), ("text 1 abcd", OK), page("abcd"), ("text 1 abcde", length),
        ("text 1  ab", OK), page(" ab"), ("text 1 ab", OK), ("submit", CHANGED_1)], b"a\0b\0\0\0\0\0")
    talk("text_with_control_characters", of_form(string_question(1, 0, 0, 4), size=8), bytes(8), [
        ("text 1 a\tb\x7f", OK), page("a b "), ("text 1 ab\r", OK), page("ab"), ("text 1 ab\r\r", OK), page("ab "),
        ("submit", CHANGED_1)], b"a\0b\0\r\0\0\0")
    talk("text_ends_at_its_first_zero_unit", of_form(string_question(1, 0, 0, 4), size=8), b"a\0\0\0b\0\0\0", [
        page("a"), ("text 1 a", OK), ("submit", CHANGED_1)], b"a\0\0\0\0\0\0\0")
    talk("surrogates_of_a_store", of_form(string_question(1, 0, 0, 4), size=8), b"\x00\xd8\xf1\xff\x42\0\0\0", [page("\ufffdB")])
    talk("greatest_character", of_form(string_question(1, 0, 0, 1)), b"\0\0", [
        ("text 1 \uffff", OK), page("\uffff"), ("text 1 \U00010000", bad), ("submit", CHANGED_1)], b"\xff\xff")
    talk("text_of_no_character", of_form(string_question(1, 2, 0, 0)), b"\0\0", [
        page(""), ("text 1 a", length), ("text 1", OK), ("submit", "OK 0\n")])
    talk("password", of_form(password(1, 0, 1, 2), size=4), bytes(4), [
        page(""), ("text 1", length), ("text 1 ab", OK), page("****"), ("text 1 abc", length), ("set 1 1", kind), ("submit", CHANGED_1)],
        b"a\0b\0")
    same = expression(question_ref(2), question_ref(3), operator(EQUAL))
    pair = of_form(suppressed(same, checkbox(1, 0)), string_question(2, 2, 0, 2), password(3, 6, 0, 1), size=8)
    talk("texts_are_compared_to_their_ends", pair, b"\0\0a\0\0\0a\0", [("set 1 1", denied("suppressif")), ("text 2 b", OK), ("set 1 1", OK)])


def line_forms():
    lists = ["order", "order ", "order 1 ", "order 1  1", "order 1 1,", "order 1 ,1", "order 1 1,,1", "order 1 1, 1", "order 1 0x1",
             "order 1 -1", "order 1 1 ", "order 1 18446744073709551616", "order 1 000000000000000000001", "order 65536 1", "Order 1 1"]
    listed = of_form(scoped(ordered_list(1, 0, 2), option(5, 1)))
    talk("lines_that_are_no_lists", listed, b"\0\0", [(line, BAD) for line in lists] + [("order 1 00000000000000000001", OK), page("#5")])
    wrong = ["text", "text ", "text  1 x", "text 1\tx", "text x y", "text 65536 x", "Text 1 x", " text 1 x"]
    talk("lines_that_are_no_texts", of_form(string_question(1, 0, 0, 1)), b"\0\0", [(line, BAD) for line in wrong] + [page("")])
    unknown = ["help", "export GUID=", "reroute GUID=", "extract\tGUID="]
    talk("commands_that_are_not_known", of_form(ref(1, u16(1))), b"\0\0", [(line, BAD) for line in unknown])


def pages():
    # The stores end at 77. The questions stand at 100 (1), 114 (2), 128 (3), 141 (4), 156 (5), 169 (6), 202 (7), 217 (8), 231 (9)
    # and 248 (10).
    shown = [subtitle(20), text_statement(21, 22), reset_button(23), date(1), time(2), action(3), ref(4, u16(2)), ref(5, b""),
             ref(6, u16(2) + u16(0) + bytes(16)), ref(7, u16(0)), checkbox(8, 0, store=0), numeric(9, 0, UNSIGNED, 1, 0, 9, store=3),
             string_question(10, 0, 0, 1, flags=1)]
    stores = varstore(1, 2) + varstore_name_value(3)
    kinds = list_of(form_set() + stores + form(1) + b"".join(shown) + END + form(2) + END + END)
    rows = [plain_row(1, " ", 20, ""), plain_row(2, " ", 21, "#22"), plain_row(3, "*", 23, "reset"), row(4, 1, "!", ""),
            row(5, 2, "!", ""), row(6, 3, "!", ""), row(7, 4, "*", "->2"), row(8, 5, "!", "->"), row(9, 6, "!", "->"),
            row(10, 7, "!", "->"), row(11, 8, "!", ""), row(12, 9, "!", ""), row(13, 10, "!", "A")]
    talk("statements_of_many_kinds", kinds, b"A\0", [
        ("page", TITLE + "".join(rows)), ("set 1 1", denied("outside", 100)), ("set 2 1", denied("outside", 114)),
        ("text 3 x", denied("outside", 128)), ("set 4 1", denied("kind", 141)), ("set 5 1", denied("outside", 156)),
        ("set 6 1", denied("outside", 169)), ("set 7 1", denied("outside", 202)), ("set 8 1", denied("outside", 217)),
        ("set 9 1", denied("outside", 231)), ("text 10 B", denied("readonly", 248)), ("submit", "OK 0\n")])
    talk("date_in_a_store", of_form(date(1, store=1)), b"\1\1", [page("", "!"), ("set 1 1", denied("outside")), ("why 1", denied("outside"))])
    talk("read_only_date", of_form(date(1, flags=1)), b"\0\0", [page("", "!"), ("set 1 1", denied("readonly"))])
    nested = of_form(scoped(subtitle(20), checkbox(1, 0), scoped(subtitle(21), checkbox(2, 1))))
    talk("statements_under_a_subtitle", nested, b"\0\0", [("set 2 1", OK), (
        "page", TITLE + plain_row(1, " ", 20, "") + row(2, 1, "*", " ") + plain_row(3, " ", 21, "") + row(4, 2, "*", "x"))])
    guarded = of_form(suppressed(eq_id_val(2, 1), scoped(subtitle(20), checkbox(1, 0)), reset_button(21)), checkbox(2, 1))
    talk("hidden_subtitle_hides_what_is_under_it", guarded, b"\0\1", [
        ("page", TITLE + row(1, 2, "*", "x")), ("set 1 1", denied("suppressif")), ("set 2 0", OK),
        ("page", TITLE + plain_row(1, " ", 20, "") + row(2, 1, "*", " ") + plain_row(3, "*", 21, "reset") + row(4, 2, "*", " "))])
    talk("questions_of_id_0", of_form(checkbox(0, 0), numeric(0, 1, UNSIGNED, 1, 0, 9)), b"\1\7", [
        ("page", TITLE + row(1, 0, "*", "x") + row(2, 0, "*", "7")), ("set 0 1", denied("noquestion", 0))])
    talk("reference_to_its_own_form", of_form(ref(1, u16(1))), b"\0\0", [page("->1")])
    english = string_package("en-US", strings("", "F", "A choice", "b" * 30, "First", "Second"))
    french = string_package("fr", strings("", "", "", "", "Un", "Deux"))
    opcodes = form_set() + varstore(1, 2) + form(1) + text_statement(4, 4) + scoped(one_of(1, 0), option(5, 1), option(6, 2)) + END + END
    first = "FORM 1 F\n  1       - " + "b" * 24 + " [" + "b" * 30 + "]\n  2 *     1 A choice" + " " * 16 + " [<First>]\n"
    other = "FORM 1 \n  1       - " + " " * 24 + " []\n  2 *     1 " + " " * 24 + " [<Deux>]\n"
    case("texts_of_values", with_strings(opcodes, english, french), older_image([(1, b"\1\0")]), b"page\nset 1 2\nlang fr\npage\n",
         first + OK + OK + other, image([(1, b"\1\0")]))


def stores_of_all_kinds():
    boxes = form(1) + checkbox(1, 0) + checkbox(2, 2, store=7) + END + END
    stores = form_set() + varstore(1, 2) + varstore_name_value(5) + suppressed(TRUE, varstore_efi(7, 3))
    case("stores_of_all_kinds", list_of(stores + boxes), older_image([(1, bytes(2)), (7, bytes(3))]), b"set 2 1\nsubmit\n",
         "OK\nOK 1\nCHANGED 2\n", image([(1, bytes(2)), (7, b"\0\0\1")]))
    refused("store_of_names_is_not_in_the_image", list_of(stores + boxes), "51 StoreCount at 00000004",
            older_image([(1, bytes(2)), (5, b""), (7, bytes(3))]))


def what_is_passed_over():
    box = scoped(checkbox(1, 0), opcode(0x04, u16(1)), default(0, BOOLEAN, b"\1"), scoped(default(1, OTHER), value(uint8(1))),
                 opcode(0x1D, b"\5"), opcode(0x62, bytes(16)))
    choice = scoped(one_of(2, 1), scoped(option(5, 1, flags=0x10), opcode(0x1F, u16(1))), default(0, 0x0C))
    opcodes = form_set() + varstore(1, 2) + default_store(9, 0) + opcode(0x5F, bytes(16)) + form(1) + opcode(0x61) + box + choice
    talk("opcodes_that_are_passed_over", list_of(opcodes + END + END), b"\0\0", [
        ("page", TITLE + row(1, 1, "*", " ") + row(2, 2, "*", "<?>")), ("set 1 1", OK), ("set 2 1", OK),
        ("submit", "OK 2\nCHANGED 1\nCHANGED 2\n")], b"\1\1")
