"""Worked cases of limits and of the least and greatest numbers: what is as great as it may be, and what is greater by one.

Those of open scopes, waiting values, depths of rules and kept forms stand beside those of expressions, rules and references.
"""
from configuration import changed, config, extract
from packages import *
from worked import FIRST, OK, ONE_BOX_LIST, TITLE, ZEROS, case, denied, held, of_form, plain_row, refused, row, talk, talk_over

LINE_TOO_LONG, SCRIPT_TOO_LONG = "REFUSED 71 LineTooLong\n", "REFUSED 72 ScriptTooLong\n"
NOT, OR = operator(0x17), operator(0x16)
LINE, SCRIPT, STORE, LAST = 4096, 1048576, 65535, 65535


def weights_of_rules():
    # Each of the ten rules that name the one before twice has three operators more than these two: 4,093 at last.
    named = rule(1, TRUE) + rule(1, expression(rule_ref(1), rule_ref(1), OR)) * 10
    last = lambda nots: rule(1, expression(rule_ref(1), *[NOT] * nots))
    hidden = suppressed(rule_ref(1), checkbox(1, 0))
    talk("rules_of_4096_operators", of_form(named, last(2), hidden), b"\0\0", [
        ("why 1", denied("suppressif", FIRST + len(named) + len(last(2))))])
    refused("rules_of_4097_operators", of_form(named, last(3), hidden), "40 RuleTooLarge at %08x" % (FIRST + len(named)))
    alone = lambda nots: rule(1, expression(TRUE, *[NOT] * nots))
    talk("rule_of_4096_operators", of_form(alone(4095), hidden), b"\0\0", [("why 1", OK)])
    refused("rule_of_4097_operators", of_form(alone(4096), hidden), "40 RuleTooLarge at 00000039")


def open_scopes():
    # The scope of an expression is one, too: that of the last guard's condition is the 65th. The guards have 4 bytes.
    last = suppress_if() + expression(TRUE, NOT)
    guards = (suppress_if() + TRUE) * 61
    refused("sixty_fifth_scope_is_an_expression", of_form(guards, last, END * 62), "23 TooDeep at %08x" % (FIRST + 61 * 4 + 2))
    talk("sixty_fourth_scope_is_an_expression", of_form(guards[4:], last, END * 61, checkbox(1, 0)), b"\0\0", [
        ("page", TITLE + row(1, 1, "*", " "))])


def greatest_lines():
    kind = denied("kind")
    line = lambda length: "text 1 ".ljust(length, "x")
    talk("text_in_a_line_of_the_greatest_length", ONE_BOX_LIST, b"\0\0", [
        (line(LINE), kind), (line(LINE) + "\r", LINE_TOO_LONG), (line(LINE - 1) + "\r", kind), (line(LINE + 1), LINE_TOO_LONG),
        ("set 1 1", OK)])
    # The last line, without an LF.
    for length, answer in ((LINE, kind), (LINE + 1, LINE_TOO_LONG)):
        for name, last in (("", line(length)), ("_with_a_carriage_return", line(length - 1) + "\r")):
            case("last_line_of_%d_bytes%s" % (length, name), ONE_BOX_LIST, ZEROS, last.encode(), answer, held(0, 0))


def greatest_ids():
    """Question, store, form, class and texts have the greatest id. Question 1 is a reference to the form."""
    box = statement(0x06, LAST, u16(LAST) + u16(LAST) + u16(1) + bytes(2))
    guarded = suppressed(eq_id_val(LAST, 2), scoped(box, default(LAST, BOOLEAN, b"\1")))
    first = form_set() + varstore(LAST, 2) + form(1) + ref(1, u16(LAST)) + END
    last = form(LAST, LAST) + guarded + reset_button(LAST, LAST) + END
    button = plain_row(2, "*", LAST, "reset")
    page = lambda mark: ("page", "FORM 65535 #65535\n  1 * 65535 #65535                   [%s]\n" % mark + button)
    talk_over("greatest_ids", list_of(first + last + END), [(LAST, b"\0\0")], [
        ("page", TITLE + row(1, 1, "*", "->65535")), ("go 1", OK), page(" "), ("set 65535 1", OK), ("submit", changed(LAST)),
        ("set 65535 0", OK), ("defaults 65534", "OK 0\n"), ("defaults 65535", "OK 1\n"), page("x"), ("set 65535 0", OK),
        ("press 2", "OK 1\n"), ("why 65535", OK), ("submit", changed()), ("set 65534 1", denied("noquestion", 0)),
        # The question stands behind the first form's END, the second form and a guard with its condition.
        ("go 65535", denied("notref", FIRST + 15 + 2 + 6 + 8))], [(LAST, b"\0\1")])


def least_ids():
    box = statement(0x06, 0, u16(1) + u16(1) + u16(0) + bytes(2))
    nameless = form_set() + varstore(1, 2) + form(0, 0) + box + ref(2, u16(0)) + END + END
    page = "FORM 0 \n  1 *     1 " + " " * 24 + " [ ]\n" + row(2, 2, "!", "->")
    talk("form_of_id_0_without_texts", list_of(nameless), b"\0\0", [
        ("page", page), ("go 2", denied("outside", FIRST + 14)), ("set 1 1", OK)])
    # A rule's id has one byte, and the rule 0 is one like any other. A rule has 11 bytes, and the first guard 21.
    rules = rule(0, eq_id_val(2, 1)) + rule(255, eq_id_val(2, 0))
    guarded = suppressed(rule_ref(0), checkbox(1, 0)) + suppressed(rule_ref(255), checkbox(3, 0))
    by_0, by_255 = denied("suppressif", FIRST + 22), denied("suppressif", FIRST + 22 + 21)
    talk("rules_of_the_least_and_the_greatest_id", of_form(rules, guarded, checkbox(2, 1)), b"\0\0", [
        ("why 1", OK), ("why 3", by_255), ("set 2 1", OK), ("why 1", by_0), ("why 3", OK)])


def longest_list():
    values = range(1, 256)
    options = [option(5, value, NUMBER_8) for value in values[:-1]] + [option(6, 2**64 - 1, NUMBER_8), option(7, 255, NUMBER_8)]
    line = lambda numbers: "order 1 " + ",".join(map(str, numbers))
    left = [2**64 - 1, *values[:-1][::-1]]
    shown = ", ".join(["#6"] + ["#5"] * 254)
    listed = of_form(scoped(ordered_list(1, 0, 255, UNIQUE_SET), *options), size=2040)
    talk("list_of_255_elements_of_8_bytes", listed, bytes(2040), [
        (line(values), OK), (line([*values, 2**64 - 1]), denied("length")), (line([*values[:-1], 1]), denied("repeat")),
        (line([256]), denied("nooption")), (line(left), OK), ("page", TITLE + row(1, 1, "*", shown)), ("submit", changed(1))],
        b"".join(little(value, 8) for value in left))


def stores_without_bytes():
    empty = of_form(string_question(1, 0, 0, 0), size=0)
    talk("field_of_no_bytes_at_the_end_of_an_empty_store", empty, b"", [("page", TITLE + row(1, 1, "*", "")), ("text 1", OK)])
    behind = {"text_behind": string_question(1, 1, 0, 0), "checkbox_in": checkbox(1, 0), "list_behind": ordered_list(1, 1, 0)}
    for name, question in behind.items():
        refused("%s_an_empty_store" % name, of_form(question, size=0), "36 FieldOutside at 00000039")


# Questions by the widths of their fields: what makes one with an offset, and opcodes in its scope.
FIELDS = {
    "checkbox": (1, lambda at: checkbox(1, at), b""),
    "string_of_255": (510, lambda at: string_question(1, at, 0, 255), b""),
    "string_of_0": (0, lambda at: string_question(1, at, 0, 0), b""),
    "password_of_3": (6, lambda at: password(1, at, 0, 3), b""),
    "password_of_32767": (65534, lambda at: password(1, at, 0, 32767), b""),
    "list_of_255_without_options": (255, lambda at: ordered_list(1, at, 255), b""),
    "list_of_255_of_8_bytes": (2040, lambda at: ordered_list(1, at, 255), option(5, 1, NUMBER_8)),
    "list_of_3_of_2_bytes": (6, lambda at: ordered_list(1, at, 3), option(5, 1, NUMBER_2)),
}
for width in (1, 2, 4, 8):
    FIELDS["numeric_of_%d" % width] = width, lambda at, width=width: numeric(1, at, UNSIGNED, width, 0, 9), b""
    FIELDS["one_of_%d" % width] = width, lambda at, width=width: one_of(1, at, width), b""


def field_in(name, at, size, is_inside):
    """A list whose store has so many bytes, and a question with its field at an offset."""
    _, question, inside = FIELDS[name]
    list_bytes, stores = of_form(scoped(question(at), inside), size=size), [(1, bytes(size))]
    case_name = "edge_%s_at_%d_of_%d" % (name, at, size)
    if is_inside:
        case(case_name, list_bytes, older_image(stores), b"", "", image(stores))
    else:
        refused(case_name, list_bytes, "36 FieldOutside at 00000039", older_image(stores))


def fields_at_the_ends_of_stores():
    """A field that ends where its store does, one that ends a byte behind it, and one at the greatest offset."""
    for name, (width, _, _) in FIELDS.items():
        for size in sorted({width, min(width + 9, STORE), STORE}):
            field_in(name, size - width, size, True)
            if size - width + 1 < STORE:
                field_in(name, size - width + 1, size, False)
        field_in(name, STORE, STORE - 1, False)
    # More bytes than any store has.
    refused("edge_password_of_65535", of_form(password(1, STORE, 0, 65535), size=STORE), "36 FieldOutside at 00000039",
            older_image([(1, bytes(STORE))]))


def greatest_store():
    """All bytes of a store of the greatest size are told, and its last one is set."""
    held_bytes = bytes(n % 251 for n in range(STORE))
    whole, outside = config((0, held_bytes)), denied("nofield", 0)
    talk("greatest_store_is_extracted", of_form(checkbox(1, STORE - 1), size=STORE), held_bytes, [
        (extract(), whole), (extract((0, STORE)), whole), (extract((STORE - 1, 1)), config((STORE - 1, held_bytes[-1:]))),
        (extract((STORE - 1, 2)), outside), (extract((STORE, 1)), outside), ("set 1 1", OK), ("submit", changed(1))],
        held_bytes[:-1] + b"\1")


def a_thousand_rows():
    """The numbers of rows are wider from 1000 on."""
    boxes = [checkbox(number, 0) for number in range(1, 1002)]
    rows = "".join(row(number, number, "*", " ") for number in range(1, 1002))
    talk("page_of_1001_rows", of_form(*boxes), b"\0\0", [
        ("page", TITLE + rows), ("press 1001", denied("notbutton", FIRST + 1000 * 14)), ("press 1002", denied("norow", 0))])


def long_script(name, lines, answers, out=None):
    case("script_" + name, ONE_BOX_LIST, ZEROS, lines, answers, out)


def scripts_of_one_line():
    whole = held(0, 0)
    long_script("of_one_line", b"x" * SCRIPT, LINE_TOO_LONG, whole)
    long_script("of_one_line_with_its_end", b"x" * (SCRIPT - 1) + b"\n", LINE_TOO_LONG, whole)
    long_script("of_one_line_past_the_limit", b"x" * (SCRIPT + 1), SCRIPT_TOO_LONG)
    long_script("of_one_line_that_ends_past_the_limit", b"x" * SCRIPT + b"\n", SCRIPT_TOO_LONG)
    long_script("of_one_line_and_a_byte_past_the_limit", b"x" * (SCRIPT - 1) + b"\nx", LINE_TOO_LONG + SCRIPT_TOO_LONG)


def long_scripts():
    whole = held(0, 0)
    filler, no_question = b"\n" * (SCRIPT - 8), denied("noquestion", 0)
    long_script("of_the_greatest_length", b"\n" * SCRIPT, "", whole)
    long_script("past_the_greatest_length", b"\n" * (SCRIPT + 1), SCRIPT_TOO_LONG)
    long_script("whose_last_line_ends_at_the_limit", filler + b"set 9 1\n", no_question, whole)
    long_script("whose_last_line_has_no_end_at_the_limit", filler + b"\nset 9 1", no_question, whole)
    long_script("with_lines_past_the_limit", filler + b"set 9 1\n" + b"page\n", no_question + SCRIPT_TOO_LONG)
    long_script("with_a_line_over_the_limit", filler + b"\nset 9 1\n", SCRIPT_TOO_LONG)
    long_script("with_a_submission_before_the_limit", filler[15:] + b"set 1 1\nsubmit\n" + b"set 9 1\n\n",
                OK + changed(1) + no_question + SCRIPT_TOO_LONG)


KEPT_LIMITS = (weights_of_rules, open_scopes, greatest_lines, greatest_ids, least_ids, longest_list, stores_without_bytes)
LIMITS = (fields_at_the_ends_of_stores, greatest_store, a_thousand_rows, scripts_of_one_line, long_scripts)
