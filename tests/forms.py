"""Worked cases of references, the forms that they have left, buttons and defaults."""
from packages import *
from worked import EIGHT_IDS, OK, TITLE, case, counted, denied, held, of_form, plain_row, refused, row, talk, with_strings

NO_BACK, DEEP, NO_ROW, NO_QUESTION = (denied(kind, 0) for kind in ("noback", "deephistory", "norow", "noquestion"))
ADD, DIVIDE = 0x3A, 0x3D
SECOND = "FORM 2 #9\n"


def valued(number, *expression_of):
    """A default of an expression's value."""
    return scoped(default(number, OTHER), value(expression(*expression_of)))


def two_forms(first, second, size=2):
    """Two forms with these statements. The first statement stands at 57, the second form behind the first's END."""
    return list_of(base(size) + b"".join(first) + END + form(2, 9) + b"".join(second) + END + END)


def references():
    to_second = ref(5, u16(2))
    listed = two_forms([to_second], [reset_button(10), checkbox(1, 0)[:-1] + b"\1"])
    second = SECOND + plain_row(1, "*", 10, "reset") + row(2, 1, "*", "%s")
    talk("form_is_entered_and_left", listed, b"\0\0", [
        ("page", TITLE + row(1, 5, "*", "->2")), ("back", NO_BACK), ("defaults 0", counted(0)), ("go 5", OK), ("page", second % " "),
        ("press 1", counted(1)), ("page", second % "x"), ("press 2", denied("notbutton", 88)), ("press 3", NO_ROW), ("press 0", NO_ROW),
        ("back", OK), ("back", NO_BACK), ("page", TITLE + row(1, 5, "*", "->2")), ("submit", "OK 1\nCHANGED 1\n")], b"\1\0")
    # The prompt of a reference has no number that follows from its id, here the id 8.
    forward = lambda number: statement(0x0F, 8, u16(5) + u16(0) + u16(0) + b"\0" + u16(number))
    forms = lambda number: two_forms([forward(number)], [reset_button(10), checkbox(1, 0)[:-1] + b"\1"])
    talk("to_the_second_form_and_back", forms(2), b"\0\0", [
        ("page", TITLE + "  1 *     5 #8                       [->2]\n"), ("defaults 0", counted(0)), ("go 5", OK), ("page", second % " "),
        ("press 1", counted(1)), ("press 2", denied("notbutton", 88)), ("press 3", NO_ROW), ("back", OK), ("back", NO_BACK)])
    talk("first_of_two_forms_thirty_two_times", forms(1), b"\0\0", [*[("go 5", OK)] * 32, ("go 5", DEEP)])
    refused("reference_to_a_third_of_two_forms", forms(3), "39 NoForm at 00000039")
    talk("thirty_two_forms_are_kept", of_form(ref(5, u16(1))), b"\0\0", [
        *[("go 5", OK)] * 32, ("go 5", DEEP), *[("back", OK)] * 2, *[("go 5", OK)] * 2, ("go 5", DEEP), *[("back", OK)] * 32,
        ("back", NO_BACK)])
    back_and_forth = two_forms([ref(5, u16(2))], [ref(6, u16(1)), ref(7, u16(2))])
    talk("last_form_comes_back_first", back_and_forth, b"\0\0", [
        ("go 5", OK), ("go 7", OK), ("go 6", OK), ("page", TITLE + row(1, 5, "*", "->2")), ("back", OK),
        ("page", SECOND + row(1, 6, "*", "->1") + row(2, 7, "*", "->2")), ("back", OK), ("back", OK),
        ("page", TITLE + row(1, 5, "*", "->2")), ("back", NO_BACK)])
    talk("reference_of_another_form_is_followed", back_and_forth, b"\0\0", [
        ("go 7", OK), ("page", SECOND + row(1, 6, "*", "->1") + row(2, 7, "*", "->2"))])
    kinds = of_form(checkbox(1, 0), ref(2, u16(1)), ref(3, b""), ref(4, u16(0)), scoped(ref(6, u16(1)), opcode(0x0B)),
                    grayed_out(eq_id_val(1, 1), ref(7, u16(1))), suppressed(eq_id_val(1, 1), ref(8, u16(1))))
    talk("references_that_are_not_followed", kinds, b"\1\0", [
        ("go 9", NO_QUESTION), ("go 0", NO_QUESTION), ("go 1", denied("notref")), ("go 3", denied("outside", 86)),
        ("go 4", denied("outside", 99)), ("go 6", denied("locked", 129)), ("go 7", denied("grayoutif", 133)),
        ("go 8", denied("suppressif", 158)), ("back", NO_BACK), ("go 2", OK), ("set 1 0", OK), ("go 7", OK), ("go 8", OK)], b"\1\0")
    hidden_form = list_of(base() + ref(5, u16(2)) + checkbox(1, 0) + END + suppressed(eq_id_val(1, 1), form(2, 9) + ref(6, u16(1)) + END)
                          + END)
    talk("hidden_form_is_not_entered", hidden_form, b"\1\0", [
        ("go 5", denied("suppressif", 88)), ("back", NO_BACK), ("set 1 0", OK), ("go 5", OK), ("set 1 1", OK), ("page", SECOND),
        ("press 1", NO_ROW), ("defaults 0", counted(0)), ("go 6", denied("suppressif", 88)), ("back", OK), ("back", NO_BACK)])
    left_hidden = list_of(form_set() + varstore(1, 2) + suppressed(eq_id_val(1, 1), form(1) + ref(5, u16(2)) + END) + form(2, 9)
                          + checkbox(1, 0) + END + END)
    talk("hidden_form_comes_back", left_hidden, b"\0\0", [
        ("go 5", OK), ("set 1 1", OK), ("page", SECOND + row(1, 1, "*", "x")), ("back", OK), ("page", TITLE)])
    locked_form = list_of(base() + ref(5, u16(2)) + END + form(2, 9) + checkbox(1, 0) + opcode(0x0B) + END + END)
    talk("locked_form_is_entered", locked_form, b"\0\0", [("go 5", OK), ("page", SECOND + row(1, 1, "!", " "))])


def hidden_options():
    """A choice with a shown option, which is the default, at 74, and one in a guard at 81 that holds."""
    choice = question(0x05, 1, 0, bytes([UNSIGNED, 0, 0, 0]))
    form_of_it = base() + scoped(choice, option(5, 1, flags=0x10), suppressed(TRUE, option(6, 2))) + END + END
    script = b"page\nset 1 2\nset 1 3\ndefaults 0\npage\n"
    english = string_package("en-US", b"".join(EIGHT_IDS))
    for name, list_bytes, shown in (("a_default_is", list_of(form_of_it), "#5"),
                                    ("a_default_with_a_text_is", with_strings(form_of_it, english), "\ufffdB")):
        answers = [TITLE + row(1, 1, "*", "<?>"), denied("suppressif", 81), denied("nooption"), counted(1), TITLE + row(1, 1, "*", "<%s>" % shown)]
        case("hidden_option_is_not_chosen_but_" + name, list_bytes, older_image([(1, b"\2\0")]), script, "".join(answers), held(2, 0))


def defaults():
    choice = scoped(one_of(1, 0), option(5, 1, flags=0x10), suppressed(TRUE, option(6, 2)))
    talk("default_of_an_option", of_form(choice), b"\2\0", [
        ("page", TITLE + row(1, 1, "*", "<?>")), ("defaults 1", counted(0)), ("defaults 0", counted(1)),
        ("page", TITLE + row(1, 1, "*", "<#5>")), ("defaults 0", counted(1))])
    talk("default_of_an_option_that_is_fixed", of_form(
        scoped(one_of(1, 0), suppressed(TRUE, option(5, 1, flags=0x10)), option(6, 2, flags=0x10))), b"\2\0", [("defaults 0", counted(0))])
    hidden_options()
    by_class = scoped(one_of(1, 0), option(5, 1, flags=0x30), option(6, 2), default(0, NUMBER_1, b"\2"))
    talk("default_comes_before_flags_of_options", of_form(by_class), b"\0\0", [
        ("defaults 0", counted(1)), ("page", TITLE + row(1, 1, "*", "<#6>")), ("defaults 1", counted(1)),
        ("page", TITLE + row(1, 1, "*", "<#5>")), ("defaults 2", counted(0))])
    sums = scoped(numeric(1, 0, UNSIGNED, 1, 0, 9), default(0, NUMBER_1, b"\5"), valued(1, uint8(4), uint8(3), operator(ADD)),
                  valued(3, uint8(9), uint8(3), operator(ADD)), valued(4, uint8(1), uint8(0), operator(DIVIDE)),
                  default(4, NUMBER_1, b"\1"), valued(5, operator(0x58)), valued(6, TRUE), default(7, BOOLEAN, b"\7"),
                  default(8, 0x05, bytes(3)), default(9, 0x09))
    shown = [("page", TITLE + row(1, 1, "*", n)) for n in "0571"]
    for name, first, count, then in (("", 4, 1, 7), ("_past_the_maximum", 9, 0, 5)):
        added = scoped(numeric(1, 0, UNSIGNED, 1, 0, 9, step=1), default(0, NUMBER_1, b"\5"), valued(1, uint8(first), uint8(3), operator(ADD)))
        talk("default_of_a_sum%s" % name, of_form(added), b"\0\0", [
            ("defaults 0", counted(1)), ("page", TITLE + row(1, 1, "*", "5")), ("defaults 1", counted(count)),
            ("page", TITLE + row(1, 1, "*", str(then))), ("defaults 2", counted(0)), ("submit", "OK 1\nCHANGED 1\n")], bytes([then, 0]))
    talk("defaults_of_a_number", of_form(sums), b"\0\0", [
        shown[0], ("defaults 0", counted(1)), shown[1], ("defaults 5", counted(1)), shown[1], ("defaults 1", counted(1)), shown[2],
        ("defaults 2", counted(0)), ("defaults 3", counted(0)), ("defaults 4", counted(0)), ("defaults 8", counted(0)), ("defaults 9", counted(0)),
        shown[2], ("defaults 6", counted(1)), shown[3], ("defaults 0", counted(1)), ("defaults 7", counted(1)), shown[3]], b"\0\0")
    flags = [checkbox(number, number - 1)[:-1] + bytes([number]) for number in (1, 2)]
    talk("defaults_of_checkboxes", of_form(*flags, scoped(checkbox(3, 2), default(0, BOOLEAN, b"\0")), size=3), b"\0\0\1", [
        ("defaults 0", counted(2)), ("submit", "OK 2\nCHANGED 1\nCHANGED 3\n"), ("defaults 1", counted(1)), ("defaults 2", counted(0)),
        ("submit", "OK 1\nCHANGED 2\n")], b"\1\1\0")
    listed = scoped(ordered_list(1, 0, 3), option(5, 1, NUMBER_2, flags=0x10), option(6, 2, NUMBER_2),
                    default(1, BUFFER, b"\2\0\1\0\0\0\1\0"), default(2, BUFFER, b"\1\0\2\0\1"), default(3, BUFFER, b""))
    talk("defaults_of_a_list", of_form(listed, size=6), bytes(6), [
        ("defaults 0", counted(0)), ("defaults 1", counted(1)), ("page", TITLE + row(1, 1, "*", "#6, #5")), ("defaults 2", counted(1)),
        ("page", TITLE + row(1, 1, "*", "#5, #6")), ("defaults 3", counted(1)), ("page", TITLE + row(1, 1, "*", ""))])
    english = string_package("en-US", strings("", "F", "Name", "one"))
    french = string_package("fr", strings("", "", "", "un"))
    named = scoped(string_question(1, 0, 0, 3), default(0, STRING_ID, u16(4)), default(1, STRING_ID, u16(9)), default(2, STRING_ID, u16(3)),
                   default(3, STRING_ID, u16(0)))
    name = "FORM 1 F\n  1 *     1 Name" + " " * 20 + " [%s]\n"
    nom = "FORM 1 \n  1 *     1 " + " " * 24 + " [%s]\n"
    case("defaults_of_a_text", with_strings(base(6) + named + END + END, english, french), older_image([(1, bytes(6))]),
         b"defaults 0\npage\ndefaults 1\ndefaults 2\ndefaults 3\nlang fr\ndefaults 0\npage\n",
         counted(1) + name % "one" + counted(0) * 3 + OK + counted(1) + nom % "un", image([(1, bytes(6))]))
    talk("defaults_that_do_not_suit", of_form(
        scoped(numeric(1, 0, UNSIGNED, 1, 0, 9), default(0, BUFFER, b"\1"), default(1, STRING_ID, u16(2))),
        scoped(string_question(2, 1, 0, 1), default(0, NUMBER_1, b"\1")), size=3), bytes(3), [("defaults 0", counted(0)), ("defaults 1", counted(0))])


def defaults_of_a_form():
    one_after_the_other = of_form(
        scoped(checkbox(1, 0), default(0, BOOLEAN, b"\1")),
        suppressed(eq_id_val(1, 1), scoped(checkbox(2, 1), default(0, BOOLEAN, b"\1"))),
        suppressed(eq_id_val(1, 0), scoped(checkbox(3, 2), default(0, BOOLEAN, b"\1"))),
        scoped(numeric(4, 3, UNSIGNED, 1, 0, 9), valued(0, question_ref(3), uint8(6), operator(ADD))), size=4)
    talk("defaults_are_set_one_after_the_other", one_after_the_other, bytes(4), [
        ("defaults 0", counted(3)), ("submit", "OK 3\nCHANGED 1\nCHANGED 3\nCHANGED 4\n")], b"\1\0\1\7")
    nested = of_form(scoped(subtitle(20), scoped(checkbox(0, 0), default(0, BOOLEAN, b"\1"))), scoped(checkbox(2, 1), default(0, BOOLEAN, b"\1")))
    talk("defaults_under_a_subtitle_and_of_id_0", nested, bytes(2), [("defaults 0", counted(2)), ("submit", "OK 2\nCHANGED 0\nCHANGED 2\n")],
         b"\1\1")
    inconsistent = scoped(opcode(0x11, u16(7)), eq_id_val(1, 5))
    warning = scoped(opcode(0x63, u16(9) + b"\0"), TRUE)
    denied_default = of_form(scoped(numeric(1, 0, UNSIGNED, 1, 0, 9), inconsistent, default(0, NUMBER_1, b"\5"), default(1, NUMBER_1, b"\4")),
                             scoped(checkbox(2, 1), warning, default(0, BOOLEAN, b"\1")))
    talk("denied_default_is_skipped", denied_default, b"\3\0", [
        ("defaults 0", counted(1)), ("page", TITLE + row(1, 1, "*", "3") + row(2, 2, "*", "x")), ("defaults 1", counted(1)),
        ("set 1 5", "DENIED inconsistentif at %08x #7\n" % 74), ("submit", "OK 2\nCHANGED 1\nCHANGED 2\n")], b"\4\1")
    only_here = two_forms([ref(5, u16(2)), scoped(checkbox(1, 0), default(0, BOOLEAN, b"\1"))], [scoped(checkbox(2, 1), default(0, BOOLEAN, b"\1"))])
    talk("defaults_of_the_current_form_alone", only_here, bytes(2), [
        ("go 5", OK), ("defaults 0", counted(1)), ("back", OK), ("submit", "OK 1\nCHANGED 2\n")], b"\0\1")


def buttons():
    box = scoped(checkbox(1, 0), default(0, BOOLEAN, b"\0"), default(3, BOOLEAN, b"\1"))
    kinds = of_form(box, suppressed(eq_id_val(1, 1), checkbox(2, 1)), reset_button(20, 3), subtitle(21),
                    grayed_out(eq_id_val(1, 1), reset_button(22, 3)), scoped(reset_button(23), opcode(0x0B)))
    rows = [plain_row(3, "*", 20, "reset"), plain_row(4, " ", 21, ""), plain_row(5, "*", 22, "reset"), plain_row(6, "!", 23, "reset")]
    talk("buttons_by_their_rows", kinds, bytes(2), [
        ("page", TITLE + row(1, 1, "*", " ") + row(2, 2, "*", " ") + "".join(rows)), ("press 1", denied("notbutton")),
        ("press 2", denied("notbutton", 93)), ("press 4", denied("notbutton", 117)), ("press 6", denied("locked", 150)), ("press 7", NO_ROW),
        ("press 999999999", NO_ROW), ("press 5", counted(1)), ("press 3", denied("notbutton", 117)), ("press 4", denied("grayoutif", 124)),
        ("press 2", counted(1)), ("submit", "OK 1\nCHANGED 1\n")], b"\1\0")
    kept = of_form(checkbox(1, 0))
    bad = "REFUSED 70 BadCommand\n"
    talk("forms_of_these_lines", kept, bytes(2), [(line, bad) for line in (
        "go", "go ", "go 1 ", "go  1", "go x", "go 65536", "go 000001", "back ", "back 1", "press", "press ", "press 1000000000",
        "press 0000000001", "press -1", "defaults", "defaults ", "defaults 65536", "defaults 0x1", "Go 1", "goto 1")])
