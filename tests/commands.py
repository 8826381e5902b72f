"""A worked case with all fourteen commands."""
from configuration import changed, config, extract, route
from packages import *
from worked import OK, TITLE, counted, plain_row, row, talk


def all_commands():
    box = scoped(checkbox(1, 0), default(0, BOOLEAN, b"\1"))
    listed = scoped(ordered_list(2, 1, 2), option(5, 1), option(6, 2))
    first = box + listed + string_question(3, 3, 0, 2) + reset_button(20) + ref(4, u16(2)) + END
    opcodes = base(8) + first + form(2) + checkbox(5, 7) + END + END
    page = lambda *values: ("page", TITLE + "".join(row(n, n, "*", value) for n, value in enumerate(values, 1))
                            + plain_row(4, "*", 20, "reset") + row(5, 4, "*", "->2"))
    left = b"\1\2\1a\0b\0\0"
    talk("all_commands", list_of(opcodes), bytes(8), [
        page(" ", "", ""), ("set 1 1", OK), ("order 2 2,1", OK), ("text 3 ab", OK), ("why 1", OK), ("submit", changed(1, 2, 3)),
        ("press 4", counted(1)), ("defaults 0", counted(1)), ("go 4", OK), (route((7, 1, "1")), counted(1)),
        ("page", "FORM 2 #2\n" + row(1, 5, "*", "x")), (extract(), config((0, left))), ("discard", OK), ("lang de", OK),
        ("back", OK),
        page("x", "#6, #5", "ab")], left)
