"""Cases that aim at one limit each, which chance would seldom meet."""
import packages as p
from packages import END, END_PACKAGE, LOCKED as LOCK, opcode, scoped, u16
from fuzzing import expressions, images, scripts
from fuzzing.cases import Case
from fuzzing.facts import facts_of
from fuzzing.structure import has_scope, split_opcodes
from fuzzing.values import WIDE

BOX_LIST = p.list_of(p.base() + p.checkbox(1, 0) + END + END)
SCRIPT_LIMIT = 1048576
HEADER = "GUID=%s&NAME=0056&PATH=" % p.VARSTORE_GUID.hex()


def over(rng, data, script=None):
    """A case over a list, with an image for it."""
    facts = facts_of(data)
    script = scripts.script_for(rng, facts) if script is None else script
    return Case(data, images.image_for(rng, facts), script)


def of_form(*statements, size=16):
    return p.list_of(p.base(size) + b"".join(statements) + END + END)


def long_script(rng):
    """A script near its greatest length, its last line with LF or without, or across the limit."""
    length = SCRIPT_LIMIT + rng.choice((-1, 0, 1, 1, 2, 3, 600))
    line = b"x" * rng.choice((4095, 4096, 4097)) + b"\n"
    front = b"set 1 1\nsubmit\n"
    last = rng.choice((b"page\n", b"page\n", b"page\r\n", b"page", b"\n"))
    fill = line * ((length - len(front) - len(last)) // len(line))
    return over(rng, BOX_LIST, front + fill + b"\n" * (length - len(front) - len(fill) - len(last)) + last)


def many_scopes(rng):
    """The most open scopes, in subtitles, guards or an expression."""
    count = rng.choice((61, 62, 63, 64))
    head = rng.choice((p.suppress_if() + expressions.FALSE, bytes([0x02, 0x87]) + u16(9) + u16(0) + b"\0"))
    inner = rng.choice((p.checkbox(1, 0), scoped(p.checkbox(1, 0), LOCK), p.suppressed(expressions.FALSE, p.checkbox(1, 0)), b""))
    return over(rng, p.list_of(p.base() + head * count + inner + END * (count + 2)))


def waiting_values(rng):
    """An expression in which 64 or 65 values wait, in a condition, a rule or a VALUE."""
    says = expressions.deep(rng, facts_of(BOX_LIST))
    inner = rng.choice((p.suppressed(says, p.checkbox(1, 0)), p.rule(1, says) + p.suppressed(p.rule_ref(1), p.checkbox(1, 0)),
                        scoped(p.numeric(1, 0, p.UNSIGNED, 8, 0, 2**64 - 1), scoped(p.default(0, p.OTHER), p.value(says)))))
    return over(rng, of_form(inner), b"page\ndefaults 0\npage\nwhy 1\n")


def heavy_rules(rng):
    """Rules near the greatest depth and the greatest weight."""
    names, said = p.rule_ref(1), [p.rule(1, expressions.TRUE)]
    if rng.random() < 0.5:
        said += [p.rule(1, names)] * rng.choice((14, 15, 16))
    else:
        count = rng.choice((2, 3, 16))
        step = p.expression(*[names] * count, *[p.operator(0x16)] * (count - 1))
        said += [p.rule(1, step)] * rng.choice((3, 6, 7, 10, 11))
    return over(rng, of_form(*said, p.suppressed(names, p.checkbox(1, 0))), b"page\nwhy 1\n")


def rules_of_weight(rng):
    """A rule whose weight is just 4,096, or one more or fewer."""
    # A rule of 62 ONEs and 61 ADDs weighs 123, one that names it 32 times and adds 31 ADDs 3,999. BITWISE_NOTs make up the rest.
    base = p.rule(1, p.expression(*[expressions.ONE] * 62, *[p.operator(0x3A)] * 61))
    count, left = 32, 97 + rng.choice((-1, 0, 0, 1, 1))
    pads = [p.operator(0x37)] * left
    return over(rng, of_form(base, p.rule(2, p.expression(*[p.rule_ref(1)] * count, *[p.operator(0x3A)] * (count - 1), *pads)),
                             p.suppressed(p.rule_ref(2), p.checkbox(1, 0))), b"page\nwhy 1\n")


def deep_history(rng):
    """References there and back, more often than the history has room."""
    data = p.list_of(p.base() + p.ref(5, u16(2)) + END + p.form(2, 9) + p.ref(6, u16(1)) + p.checkbox(1, 0) + END + END)
    steps = rng.choice((31, 32, 33, 34))
    lines = ["go 5", "go 6"] * steps + ["page"] + ["back"] * rng.choice((0, 1, 31, 32, 33)) + ["go 5", "page", "back", "page"]
    return over(rng, data, "".join(it + "\n" for it in lines).encode())


def empty_sets(rng):
    """Lists that may not be empty, that may not repeat, and that have no room."""
    options = [p.option(5 + it, value) for it, value in enumerate(rng.sample((0, 1, 2, 3, 255), 4))]
    asked = scoped(p.ordered_list(1, 0, rng.choice((0, 1, 2, 3)), rng.randrange(4)), *options)
    lines = ["order 1", "order 1 1,1", "order 1 1,2,1", "order 1 0", "order 1 1,2,3", "order 1 2,3,4", "order 1 1",
             "order 1 3,255", "set 1 1", "text 1 a", "page"]
    rng.shuffle(lines)
    routes = ["route %s&OFFSET=0&WIDTH=%x&VALUE=%x" % (HEADER, width, rng.randrange(256 ** width)) for width in (1, 2, 3)]
    return over(rng, of_form(asked), "".join(it + "\n" for it in lines + routes + ["page"]).encode())


def locked(op):
    """An opcode with a LOCKED in its scope."""
    ops = split_opcodes(op)[0]
    return b"".join(ops[:-1]) + LOCK + END if has_scope(ops[0]) else scoped(op, LOCK)


def all_in_one_byte(rng):
    """Questions of all kinds with one field, some of them fixed, and texts that route it."""
    around = lambda op: rng.choice((op, op, p.grayed_out(expressions.TRUE, op), p.suppressed(p.eq_id_val(1, 1), op), locked(op)))
    kinds = [p.checkbox(1, 2), p.numeric(2, 2, p.SIGNED, 1, -5, 5), scoped(p.one_of(3, 2), p.option(5, 1), p.option(6, 2)),
             scoped(p.ordered_list(4, 2, 1), p.option(5, 1), p.option(6, 3)), p.checkbox(5, 2, flags=1), p.date(6)]
    if rng.random() < 0.3:
        kinds.append(p.password(7, 2, 0, 0) if rng.random() < 0.5 else p.password(7, 1, 0, 1))
    rng.shuffle(kinds)
    values = (0, 1, 2, 3, 0xFB, 0xFA, 5, 6)
    lines = ["route %s&OFFSET=2&WIDTH=1&VALUE=%x" % (HEADER, value) for value in values] + ["page", "extract " + HEADER]
    rng.shuffle(lines)
    return over(rng, of_form(*map(around, kinds)), "".join(it + "\n" for it in lines + ["submit", "page"]).encode())


def passwords(rng):
    """Passwords that overlap, and requests that meet them."""
    asked = [p.password(number, rng.randrange(6), 0, rng.randrange(4)) for number in range(1, rng.randrange(2, 6))]
    asked.insert(rng.randrange(len(asked)), p.numeric(20, 9, p.UNSIGNED, 2, 0, 65535))
    blocks = lambda: "".join("&OFFSET=%x&WIDTH=%x" % (rng.randrange(14), rng.randrange(1, 5)) for _ in range(rng.randrange(3)))
    lines = ["extract " + HEADER + blocks() for _ in range(12)]
    lines += ["route %s&OFFSET=%x&WIDTH=%x&VALUE=0" % (HEADER, rng.randrange(12), rng.choice((2, 4, 6))) for _ in range(6)]
    return over(rng, of_form(*asked), "".join(it + "\n" for it in lines).encode())


def route_in_steps(rng):
    """Blocks of which one opens or closes the guard of the next, and a wrong one among them."""
    asked = [p.checkbox(1, 0), p.suppressed(p.eq_id_val(1, 0), p.checkbox(2, 1)),
             p.grayed_out(p.eq_id_val(2, 1), p.numeric(3, 2, 0x10, 2, 1, 9)),
             scoped(p.checkbox(4, 4), scoped(opcode(0x11, u16(3)), p.eq_id_val(3, 7)))]
    value = {0: (0, 1, 2), 1: (0, 1), 2: (0, 1, 7, 9, 10), 4: (0, 1)}
    widths = {0: 1, 1: 1, 2: 2, 4: 1}
    block = lambda at: "&OFFSET=%x&WIDTH=%x&VALUE=%x" % (at, widths[at], rng.choice(value[at]))
    lines = ["route " + HEADER + "".join(block(rng.choice((0, 1, 2, 4))) for _ in range(rng.randrange(1, 6))) for _ in range(10)]
    return over(rng, of_form(*asked), "".join(it + "\npage\n" for it in lines).encode() + b"submit\n")


def no_form(rng):
    """A form set without a form, with two forms of one id, or with an id that is there twice."""
    inner = rng.choice((b"", p.varstore(1, 2), p.form(1) + END + p.form(1) + END, p.form(0) + END + p.form(0) + END,
                        p.form(1) + p.checkbox(1, 0, store=0) + END + p.form(2) + p.date(1) + END,
                        p.form(1) + p.ref(1, u16(2)) + END, p.form(1) + p.checkbox(0, 0, store=0) * 2 + END))
    return over(rng, p.list_of(p.form_set() + inner + END))


# Faults of opcodes by themselves, and of what they name. None of them keeps another from being found.
WRONG_OPCODES = (
    opcode(0x99), opcode(0x06, u16(3) + bytes(9)), p.suppress_if() + END, p.varstore(7, 1),
    p.suppressed(p.operator(0x15), p.checkbox(4, 0)),
    scoped(opcode(0x0B)), p.suppressed(p.expression(p.uint8(1), p.uint8(2)), p.checkbox(6, 0)), p.suppressed(opcode(0x99)),
    p.suppressed(opcode(0x0B)),
    scoped(p.checkbox(7, 0), p.option(5, 1)), p.suppressed(p.expression(opcode(0x40, b"\1"), opcode(0x15))),
    scoped(p.text_statement(5, 5), p.rule(1, p.uint8(1))),
    scoped(p.one_of(8, 0), p.option(5, 1, p.STRING_ID)), scoped(p.checkbox(8, 0), p.default(0, p.OTHER)), opcode(0x26, bytes(22)),
    p.rule(1, b""),
)
WRONG_NAMES = (p.checkbox(1, 0), p.date(1), p.ref(2, u16(9)), p.rule(1, p.rule_ref(1)) * 18)
WRONG_FIELDS = (
    p.checkbox(3, 0, store=9), p.checkbox(4, 99), scoped(p.one_of(5, 0), p.option(5, 256, p.NUMBER_2)), p.date(6, store=9),
    scoped(p.ordered_list(7, 0, 1), p.option(5, 1), p.option(6, 1, p.BOOLEAN)),
    scoped(p.ordered_list(8, 15, 1), p.option(5, 1), p.option(6, 1, 1)),
    scoped(p.one_of(9, 99, store=9), p.option(5, 256, p.NUMBER_2)),
)
WRONG_STORES = (p.varstore(1, 2), p.varstore_name_value(1), p.varstore_efi(0, 2), p.varstore(0, 2))
WRONG_FORMS = (p.form(1) + END, p.form(2) + END + p.form(2) + p.checkbox(20, 0) + END)


def two_faults(rng):
    """Faults of several parts in one list: the least of the first part is told."""
    in_form, beside = [p.checkbox(1, 0)], []
    for wrong in rng.sample((WRONG_NAMES, WRONG_FIELDS, WRONG_STORES, WRONG_FORMS), rng.choice((1, 2, 2, 2, 3))):
        to = in_form if wrong in (WRONG_NAMES, WRONG_FIELDS) else beside
        to += rng.sample(wrong, rng.choice((1, 1, 2)))
    rng.shuffle(in_form)
    rng.shuffle(beside)
    count = rng.randrange(len(beside) + 1)
    body = b"".join(beside[:count]) + p.form(1) + b"".join(in_form) + END + b"".join(beside[count:])
    return over(rng, p.list_of(p.form_set() + p.varstore(1, 16) + body + END))


def two_wrong_opcodes(rng):
    """Faults of several opcodes by themselves, and of expressions: that at the lowest place, of several there the least."""
    wrong = rng.sample(WRONG_OPCODES, rng.choice((1, 2, 2, 3)))
    if rng.random() < 0.3:
        at = rng.randrange(len(wrong))
        wrong[at] = rng.choice((scoped(p.checkbox(9, 0), wrong[at]), scoped(p.one_of(9, 0), wrong[at]),
                                p.suppressed(p.uint8(1), wrong[at])))
    return over(rng, of_form(*wrong, p.checkbox(30, 1)))


def two_faults_of_packages(rng):
    """String packages, the forms package and the image are wrong together."""
    good, bad = p.string_package("en", p.strings("a", "b")), p.string_package("fr", b"\x99",
                                                                              info_offset=rng.choice((None, 45, 46, 47)))
    parts = [good, bad, p.string_package("de", b"\x14a\0"), p.string_package("nl", b"", end=b""),
             p.package(p.base() + opcode(0x99) + END + END), p.package(b"")]
    rng.shuffle(parts)
    case = over(rng, p.package_list(b"".join(parts[:rng.randrange(1, 5)]) + END_PACKAGE))
    return case.changed(forms=rng.choice((1, 1, 2, 3)))


def computed(rng):
    """Numbers of eight bytes whose defaults are expressions over others: pages show what they come to."""
    asked = [p.numeric(1, 0, 0x10, 8, 0, 2**64 - 1), p.numeric(2, 8, 0x00, 1, -128, 127), p.checkbox(3, 9),
             p.string_question(4, 10, 0, 2),
             scoped(p.ordered_list(5, 14, 2), p.option(5, 1), p.option(6, 2)), p.string_question(6, 16, 0, 2)]
    facts = facts_of(of_form(*asked, size=40))
    says = lambda: rng.choice((expressions.quantity, expressions.condition))(rng, facts)
    defaults = [scoped(p.default(number, p.OTHER), p.value(says())) for number in range(12)]
    asked.append(scoped(p.numeric(7, 24, 0x20, 8, 0, 2**64 - 1), *defaults))
    lines = [line for number in range(12)
             for line in ("defaults %d" % number, "page" if number % 3 else "set 1 %d" % rng.choice(WIDE))]
    lines += ["set 2 %d" % rng.randrange(-128, 128), "set 3 1", "text 4 a", "text 6 a", "order 5 1,2"]
    return over(rng, of_form(*asked, size=40), "".join(it + "\n" for it in lines + lines[:24]).encode())


def hidden_forms(rng):
    """Forms under guards over a number, and references among them."""
    count, asked = rng.choice((2, 3, 4)), []
    for number in range(1, count + 1):
        refs = [p.ref(10 * number + to, u16(to)) for to in rng.sample(range(1, count + 1), rng.randrange(1, count + 1))]
        guarded = lambda op: rng.choice((p.suppressed, p.grayed_out, p.disabled))(p.eq_id_val(1, rng.randrange(3)), op)
        refs = [guarded(op) if rng.random() < 0.3 else op for op in refs]
        inner = (p.numeric(1, 0, 0x10, 1, 0, 9) if number == 1 else p.checkbox(number, 1)) + b"".join(refs) + p.reset_button(5)
        whole = p.form(number) + inner + (LOCK if rng.random() < 0.1 else b"") + END
        asked.append(guarded(whole) if rng.random() < 0.6 else whole)
    ids = [10 * number + to for number in range(1, count + 1) for to in range(1, count + 1)]
    lines = [rng.choice(("go %d" % rng.choice(ids), "go %d" % rng.choice(ids), "back", "set 1 %d" % rng.randrange(3), "page",
                         "press 2"))
             for _ in range(40)]
    return over(rng, p.list_of(p.form_set() + p.varstore(1, 2) + b"".join(asked) + END),
                "".join(it + "\n" for it in lines).encode())


def same_options(rng):
    """Options of equal values, each under a guard of its own or open, and a question that guards them."""
    around = lambda op: rng.choice((op, p.grayed_out(p.eq_id_val(2, rng.randrange(3)), op),
                                    p.suppressed(p.eq_id_val(2, rng.randrange(3)), op),
                                    p.disabled(p.eq_id_val(2, rng.randrange(2)), op), p.grayed_out(expressions.FALSE, op, LOCK)))
    options = [around(p.option(5 + number, rng.randrange(3), flags=rng.choice((0, 0x10, 0x20))))
               for number in range(rng.randrange(2, 7))]
    asked = scoped(rng.choice((p.one_of(1, 0), p.ordered_list(1, 0, 3))), *options)
    lines = ["set 2 0", "set 2 1", "set 2 2", "set 1 0", "set 1 1", "set 1 2", "order 1 1,2", "order 1 2", "order 1 1",
             "order 1 0", "defaults 0", "defaults 1"]
    said = [line for _ in range(25) for line in (rng.choice(lines), rng.choice(("page", "why 1")))]
    return over(rng, of_form(asked, p.numeric(2, 4, 0x10, 1, 0, 9)), "".join(it + "\n" for it in said).encode())


def widths_of_numbers(rng):
    """Numbers of each width and display, at and beside what fits."""
    asked, lines = [], ["page"]
    for number, width in enumerate((1, 2, 4, 8), 1):
        display = rng.choice((p.SIGNED, p.UNSIGNED, p.HEXADECIMAL, 0x30))
        low, high = (-256 ** width // 2, 256 ** width // 2 - 1) if display == p.SIGNED else (0, 256 ** width - 1)
        least, most = (low, high) if rng.random() < 0.6 else (rng.randint(low, high), rng.randint(low, high))
        values = (low - 1, low, high, high + 1, least, least - 1, most, most + 1, -1, 0, 256 ** width // 2, 256 ** width - 1)
        offered = [(value + rng.choice((0, 0, 256 ** width))) % 2**64 for value in rng.sample(values, 4)]
        given = [p.default(at, p.NUMBER_8, p.little(value, 8)) for at, value in enumerate(offered)]
        asked.append(scoped(p.numeric(number, 2 * (width - 1), display, width, least, most), *given))
        lines += [line for at in range(4) for line in ("defaults %d" % at, "page")]
        lines += ["set %d %d" % (number, max(min(value, 2**64 - 1), 1 - 2**64)) for value in values] + ["page"]
        lines += ["route %s&OFFSET=%x&WIDTH=%x&VALUE=%x" % (HEADER, 2 * (width - 1), width, value % 256 ** width)
                  for value in values] + ["page"]
    return over(rng, of_form(*asked, size=32), "".join(it + "\n" for it in lines).encode())


def long_columns(rng):
    """Prompts around the 24th column."""
    pieces = ("a", "\u4e2d", "\u0301", "\uac00", "b", "\uff21", "\u0308")
    said = ["".join(rng.choice(pieces) for _ in range(rng.choice((12, 20, 23, 24, 25, 30)))) for _ in range(6)]
    said += ["x" * count + "\u4e2d" for count in (21, 22, 23, 24)] + ["x" * 24 + "\u0301\u0301", "x" * 23 + "\u4e2d" + "y"]
    rows = b"".join(p.text_statement(2 + number, rng.randrange(1, 14)) for number in range(len(said)))
    return over(rng, p.package_list(p.string_package("en", p.strings("F", *said)) + p.package(p.base() + rows + END + END)
                                    + END_PACKAGE), b"page\n")


def many_rows(rng):
    """More rows than three digits number, and buttons among them."""
    rows = p.checkbox(0, 0) * rng.choice((8, 98, 998)) + p.reset_button(5) * 3 + p.checkbox(9, 1)
    last = len(rows) // 14
    return over(rng, of_form(rows), "".join("press %d\n" % it for it in range(last - 4, last + 5)).encode() + b"page\n")


def sizes_of_stores(rng):
    """Fields that just fit their store or leave it by a byte, and stores without bytes."""
    size, width = rng.choice((0, 1, 2, 4, 8, 65535)), rng.choice((1, 2, 4, 8))
    offset = max(size - width + rng.choice((-1, 0, 0, 1)), 0)
    asked = rng.choice((p.numeric(1, offset, 0x10, width, 0, 9), p.string_question(1, offset, 0, width // 2),
                        p.checkbox(1, max(size - 1, 0)),
                        scoped(p.ordered_list(1, offset, width), p.option(5, 1)), p.date(1, store=1),
                        p.password(1, max(size - 2, 0), 0, 1)))
    facts_script = ("extract %s\nextract %s&OFFSET=%x&WIDTH=1\nextract %s&OFFSET=%x&WIDTH=%x\npage\n"
                    % (HEADER, HEADER, max(size - 1, 0), HEADER, offset,
                       width)).encode() if size < 100 else b"page\nset 1 5\nsubmit\n"
    return over(rng, of_form(asked, size=size), facts_script)


TARGETS = (
    (1, "scripts of the greatest length", long_script),
    (2, "the most scopes", many_scopes),
    (2, "the most values that wait", waiting_values),
    (2, "the deepest and heaviest rules", heavy_rules),
    (2, "rules of the greatest weight", rules_of_weight),
    (2, "the longest history", deep_history),
    (3, "lists of other lengths", empty_sets),
    (4, "questions of one byte", all_in_one_byte),
    (2, "passwords that overlap", passwords),
    (3, "blocks that open each other", route_in_steps),
    (2, "ids of forms and questions", no_form),
    (4, "two faults of what is named", two_faults),
    (4, "two faults of opcodes", two_wrong_opcodes),
    (3, "two faults in packages", two_faults_of_packages),
    (4, "numbers of all widths", widths_of_numbers),
    (2, "prompts of many columns", long_columns),
    (1, "many rows", many_rows),
    (2, "sizes of stores", sizes_of_stores),
    (4, "computed numbers", computed),
    (4, "options of equal values", same_options),
    (3, "forms that hide", hidden_forms),
)
