"""Worked cases of the greatest sizes: lists, images and scripts that are as long as they may be (docs/PROFILE.md, Limits), with as many
texts, languages, forms, questions, conditions and stores as they have room or ids for. Their names begin with `large_`.

No contract excludes that a call answers OutOfMemory above some size though no allocation failed. These tell that none does.
"""
from packages import *
from policies import inconsistent_if, no_submit_if, warned, warning_if
from worked import FIRST, OK, ONE_BOX, ONE_BOX_LIST, ZEROS, case, denied, held, of_form, prompts, row, shown_row, talk, with_strings

FILE_LIMIT, SCRIPT_LIMIT = 16777216, 1048576
# The most bytes of a store, and the greatest id.
STORE, LAST = 65535, 65535
# The ids of questions whose prompts are string ids, too, and how many of them stand in a form.
QUESTIONS, IN_FORM = range(1, LAST - 1), 50


def page(number, *rows):
    return "page", "FORM %d #2\n" % number + "".join(rows)


def submitted(*questions):
    return "submit", "OK %d\n" % len(questions) + "".join("CHANGED %d\n" % number for number in questions)


def in_forms(question):
    """The form set, a store of the greatest size, and all questions in forms of fifty. Question n has the byte n + 1."""
    opcodes = [form_set(), varstore(1, STORE)]
    for at in range(0, len(QUESTIONS), IN_FORM):
        opcodes += [form(1 + at // IN_FORM), *map(question, QUESTIONS[at:at + IN_FORM]), END]
    return b"".join(opcodes) + END


def texts():
    """A text for each string id. The list has the greatest length."""
    said = lambda number: "%05d %s" % (number, "x" * 121)
    ids = (1, 2, 253, 254, 32766, 65533)
    blocks = strings(*map(said, range(1, LAST + 1)))
    room = FILE_LIMIT - len(with_strings(prompts(*ids), string_package("en-US", blocks)))
    list_bytes = with_strings(prompts(*ids), string_package("en-US", blocks, end=b"\0" + bytes(room)))
    rows = [shown_row(n, number, said(number + 2)[:24]) for n, number in enumerate(ids, 1)]
    case("large_string_package", list_bytes, ZEROS, b"page\n", "FORM 1 %s\n" % said(2) + "".join(rows), held(0, 0))


def languages():
    """As many string packages as a list has room for, each in a language of its own, with a title for the form."""
    said = lambda number: string_package("l%06d" % number, skip(1) + string("T%06d" % number))
    count = (FILE_LIMIT - len(ONE_BOX_LIST)) // len(said(0))
    shown = lambda number: "FORM 1 T%06d\n" % number + row(1, 1, "*", " ")
    case("large_number_of_languages", with_strings(ONE_BOX, *map(said, range(count))), ZEROS,
         b"page\nlang l000001\npage\nlang L%06d\npage\nlang de\npage\n" % (count - 1),
         shown(count - 2) + OK + shown(1) + OK + shown(count - 1) + OK + shown(0), held(0, 0), ("--lang", "l%06d" % (count - 2)))


def forms_packages():
    """Forms packages that fill a list: one with checkboxes of id 0, one with the shortest opcodes. A checkbox stands behind them."""
    room = FILE_LIMIT - len(of_form(checkbox(1, 1)))
    for name, filler in (("questions_without_an_id", checkbox(0, 0)), ("opcodes", opcode(0x5F))):
        count, rest = divmod(room, len(filler))
        # The last of them is so much longer.
        longer = bytes([filler[0], filler[1] + rest]) + filler[2:] + bytes(rest)
        list_bytes = of_form(filler * (count - 1), longer, checkbox(1, 1))
        assert len(list_bytes) == FILE_LIMIT
        talk("large_number_of_" + name, list_bytes, b"\0\0", [
            ("set 1 2", denied("range", FIRST + room)), ("set 1 1", OK), submitted(1)], b"\0\1")


def forms():
    """A form of each id but 0, and a reference to the last of them."""
    between = b"".join(form(number) + END for number in range(2, LAST))
    opcodes = form_set() + varstore(1, 2) + form(1) + ref(1, u16(LAST)) + END + between + form(LAST) + checkbox(2, 0) + END + END
    first = page(1, row(1, 1, "*", "->%d" % LAST))
    talk("large_number_of_forms", list_of(opcodes), b"\0\0", [
        first, ("go 1", OK), page(LAST, row(1, 2, "*", " ")), ("set 2 1", OK), page(LAST, row(1, 2, "*", "x")), submitted(2), ("back", OK),
        first], b"\1\0")


def questions():
    """All questions are set, up to the last byte of their store. The first one is a reference to the last form."""
    last_form, boxes = 1 + (len(QUESTIONS) - 1) // IN_FORM, QUESTIONS[1:]
    opcodes = in_forms(lambda number: ref(1, u16(last_form)) if number == 1 else checkbox(number, number + 1))
    rows = [row(n, number, "*", "x") for n, number in enumerate(QUESTIONS[(last_form - 1) * IN_FORM:], 1)]
    talk("large_number_of_questions", list_of(opcodes), bytes(STORE), [
        ("go 1", OK), *[("set %d 1" % number, OK) for number in boxes], page(last_form, *rows), submitted(*boxes)],
        bytes(3) + b"\1" * len(boxes))


def conditions():
    """Each question has a guard, a NO_SUBMIT_IF and a WARNING_IF that hold while it is set, and an INCONSISTENT_IF that never does. Every
    other DISABLE_IF holds at opening."""
    def guarded(number):
        is_set = eq_id_val(number, 1)
        box = scoped(checkbox(number, number + 1), inconsistent_if(7, eq_id_val(number, 2)), no_submit_if(8, is_set), warning_if(9, is_set))
        if number % 4 == 3:
            return rule(number % 256, is_set) + suppressed(rule_ref(number % 256), box)
        return (suppressed, grayed_out, disabled)[number % 4](is_set, box)

    opcodes = in_forms(guarded)
    # Where what stands for a question begins. A RULE has 11 bytes, a guard with EQ_ID_VAL 8 and with RULE_REF 5, and a CHECKBOX 14;
    # each further condition of a question has 12.
    at = lambda number: 4 + opcodes.index(guarded(number))
    by_rule, by_suppress, by_gray = 65531, 65532, 65533
    removed, disabled_later = 65530, 65526
    warns = lambda place: OK + warned(place + 14 + 12 + 12, "#9")
    said = [
        submitted(), ("why %d" % removed, denied("disableif", at(removed))),
        ("set %d 1" % disabled_later, warns(at(disabled_later) + 8)), ("set %d 0" % disabled_later, OK),
        ("set %d 1" % by_gray, warns(at(by_gray) + 8)), ("set %d 0" % by_gray, denied("grayoutif", at(by_gray))),
        ("set %d 1" % by_suppress, warns(at(by_suppress) + 8)), ("set %d 0" % by_suppress, denied("suppressif", at(by_suppress))),
        ("submit", "DENIED nosubmitif at %08x #8\n" % (at(by_suppress) + 8 + 14 + 12)),
        ("set %d 1" % by_rule, warns(at(by_rule) + 11 + 5)), ("set %d 0" % by_rule, denied("suppressif", at(by_rule) + 11)),
        ("submit", "DENIED nosubmitif at %08x #8\n" % (at(by_rule) + 11 + 5 + 14 + 12)),
        ("discard", OK), *[("why %d" % number, OK) for number in (disabled_later, by_rule, by_suppress, by_gray)]]
    stored = bytearray(STORE)
    for number in QUESTIONS[1::8]:
        stored[number + 1] = 1
    talk("large_number_of_conditions", list_of(opcodes), bytes(stored), said)


def choices():
    """More options than two bytes can count."""
    options = [option(5, value, NUMBER_4) for value in range(70000)]
    talk("large_number_of_options", of_form(scoped(one_of(1, 0, 4), *options, option(6, 70000, NUMBER_4, 0x10)), size=4), bytes(4), [
        page(1, row(1, 1, "*", "<#5>")), ("set 1 70000", OK), page(1, row(1, 1, "*", "<#6>")), ("set 1 70001", denied("nooption")),
        ("set 1 69999", OK), page(1, row(1, 1, "*", "<#5>")), ("defaults 0", "OK 1\n"), submitted(1)], little(70000, 4))


def stores():
    """A store of the greatest size with a password that is as wide and a checkbox in the last byte; and a store of each id, whose image
    has the greatest length."""
    written = "y" * (4096 - len("text 1 "))
    talk("large_store", of_form(password(1, 0, 0, STORE // 2), checkbox(2, STORE - 1), size=STORE), bytes(STORE), [
        page(1, row(1, 1, "*", ""), row(2, 2, "*", " ")), ("text 1 " + written, OK), ("set 2 1", OK),
        page(1, row(1, 1, "*", "****"), row(2, 2, "*", "x")), submitted(1, 2)],
        written.encode("utf-16-le").ljust(STORE - 1, b"\0") + b"\1")
    held_by = [(number, bytes(252)) for number in range(1, LAST)]
    last = FILE_LIMIT - len(image(held_by + [(LAST, b"")]))
    opcodes = b"".join(varstore(number, len(stored)) for number, stored in held_by) + varstore(LAST, last)
    boxes = checkbox(1, 251) + checkbox(2, last - 1, store=LAST)
    left = [(1, bytes(251) + b"\1")] + held_by[1:] + [(LAST, bytes(last - 1) + b"\1")]
    case("large_number_of_stores", list_of(form_set() + opcodes + form(1) + boxes + END + END), image(held_by + [(LAST, bytes(last))]),
         b"set 1 1\nset 2 1\nsubmit\n", OK + OK + submitted(1, 2)[1], image(left))


def scripts():
    """A script of the greatest length, of lines that are answered."""
    line, more = b"set 1 1\nset 9 1\n", SCRIPT_LIMIT // 16 - 1
    case("large_script", ONE_BOX_LIST, ZEROS, line * more + b"set 1 1\nsubmit\n\n",
         (OK + denied("noquestion", 0)) * more + OK + submitted(1)[1], held(1, 0))


LARGE = (texts, languages, forms_packages, forms, questions, conditions, choices, stores, scripts)
