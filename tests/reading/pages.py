"""PROFILE.md, Pages."""

import unicodedata

from . import questions, references
from .little_endian import number, whole_number
from .questions import HEXADECIMAL, SIGNED_DECIMAL, display
from .stores import read_field
from .texts import shown_units

PROMPT_COLUMNS = 24
NO_ID = {"SUBTITLE", "TEXT", "RESET_BUTTON"}


# Vowels and final consonants of Hangul, which are drawn with the consonant before them.
HANGUL_WITHOUT_WIDTH = {*range(0x1160, 0x1200), *range(0xD7B0, 0xD7C7), *range(0xD7CB, 0xD7FC)}
# Blocks of ideographs, whose unassigned characters are wide as well.
IDEOGRAPHS = {*range(0x3400, 0x4DC0), *range(0x4E00, 0xA000), *range(0xF900, 0xFB00)}
# Characters whose columns `unicode_width` tells otherwise than this Python's edition of Unicode: what joins the character before it
# or is never shown, marks that stand by themselves, what newer editions have made wide, and two vowels of Khmer.
ODD_COLUMNS = {
    0: "05C8-05C9 0897 09BE 09D7 0B3E 0B53-0B54 0B57 0BBE 0BD7 0CC0 0CC2 0CC7-0CC8 0CCA-0CCB 0CD5-0CD6 0D3E 0D4E 0D57 0DCF 0DDF 0ECE "
       "1715 1734 1ACF-1AF0 1B35 1B3B 1B3D 1B43-1B44 1BAA 1BF2-1BF3 2065 302E-302F 3164 A8FA A953 A9C0 FFA0 FFF3-FFF8",
    1: "0600-0604 06DD 2D7F FFF9-FFFB",
    2: "17A4 2630-2637 268A-268F 2FFC-2FFF 31E4-31E5 31EF 4DC0-4DFF",
    3: "17D8",
}


def codes_in(ranges):
    """The codes of characters in ranges of hexadecimal numbers."""
    for part in ranges.split():
        first, _, last = part.partition("-")
        yield from range(int(first, 16), int(last or first, 16) + 1)


ODD = {code: width for width, ranges in ODD_COLUMNS.items() for code in codes_in(ranges)}


def columns(character):
    """The columns that a character takes: by its East Asian Width, none for one without a width."""
    category, code = unicodedata.category(character), ord(character)
    if code in ODD:
        return ODD[code]
    if category == "Cn":
        return 2 if code in IDEOGRAPHS else 1
    if category in ("Mn", "Me", "Cf") or code in HANGUL_WITHOUT_WIDTH:
        return 0
    return 2 if unicodedata.east_asian_width(character) in ("W", "F") else 1


def cut(prompt):
    """The longest front of a prompt that takes at most 24 columns, filled with spaces to 24 columns."""
    taken = 0
    for at, character in enumerate(prompt):
        if taken + columns(character) > PROMPT_COLUMNS:
            prompt = prompt[:at]
            break
        taken += columns(character)
    return prompt + " " * (PROMPT_COLUMNS - taken)


def rows(form, policy):
    """The statements of a form that have a row, by place: none where the form is hidden."""
    if policy.hidden(form.node):
        return []
    return [statement for statement in form.statements if policy.hidden(statement.node) is None]


def page(form, policy, texts):
    """The lines of the page of a form."""
    lines = [f"FORM {form.id} {texts.shown(form.title)}"]
    for at, statement in enumerate(rows(form, policy), 1):
        question_id = "-" if statement.kind in NO_ID else str(statement.id)
        prompt = cut(texts.shown(statement.prompt))
        lines.append(f"{at:3} {mark(statement, policy)} {question_id:>5} {prompt} [{value(statement, policy, texts)}]")
    return lines


def mark(statement, policy):
    if statement.kind in ("SUBTITLE", "TEXT"):
        return " "
    return "*" if policy.fixed(statement) is None else "!"


def value(statement, policy, texts):
    """What stands between the brackets of a row."""
    kind = statement.kind
    if kind == "TEXT":
        return texts.shown(number(statement.node.data, 6))
    if kind == "RESET_BUTTON":
        return "reset"
    if kind == "REF":
        form_id = references.leads_to(statement)
        return "->" if form_id is None else f"->{form_id}"
    if not statement.is_question() or statement.field is None:
        return ""
    return VALUES[kind](statement, read_field(policy.stores, statement.field), policy, texts)


def checkbox(_question, held, _policy, _texts):
    return "x" if held[0] != 0 else " "


def numeric(question, held, _policy, _texts):
    shown = whole_number(held)
    if display(question) == HEXADECIMAL:
        return f"0x{shown:0{2 * len(held)}x}"
    return str(questions.with_sign(shown, len(held)) if display(question) == SIGNED_DECIMAL else shown)


def one_of(question, held, policy, texts):
    return f"<{option_text(question, whole_number(held), policy, texts)}>"


def ordered_list(question, held, policy, texts):
    elements = questions.elements_up_to_0(held, questions.element_width(question))
    return ", ".join(option_text(question, element, policy, texts) for element in elements)


def option_text(question, wanted, policy, texts):
    """The text of the first option by place that has a value and is not hidden, `?` where there is none."""
    for option in question.options:
        if option.value == wanted and policy.hidden(option.node) is None:
            return texts.shown(option.text)
    return "?"


def string(_question, held, _policy, _texts):
    return shown_units(questions.units_up_to_0(held))


def password(_question, held, _policy, _texts):
    return "****" if questions.units_up_to_0(held) else ""


VALUES = {
    "CHECKBOX": checkbox, "NUMERIC": numeric, "ONE_OF": one_of, "ORDERED_LIST": ordered_list, "STRING": string,
    "PASSWORD": password,
}
