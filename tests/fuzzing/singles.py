"""Cases that aim at one opcode by itself: in each scope, of each length, with each Type of value."""
import packages as p
from packages import END, opcode, scoped, u16
from fuzzing import expressions
from fuzzing.structure import CONDITIONS, GUARDS, IGNORED, STORES, has_scope, mended, split_opcodes
from fuzzing.targets import LOCK, over

# What may stand in a form, in a form set and in a question, and what may stand nowhere or in all of them.
IN_FORM = (
    p.subtitle(5), p.text_statement(5, 6), p.reset_button(5), p.checkbox(2, 0), p.numeric(2, 0, 0x10, 1, 0, 9), p.one_of(2, 0),
    p.string_question(2, 0, 0, 1), p.password(2, 0, 0, 1), p.ordered_list(2, 0, 1), p.date(2), p.time(2), p.action(2),
    p.ref(2, u16(1)), p.rule(1, expressions.ONE), p.suppressed(expressions.ONE), p.grayed_out(expressions.ONE),
    p.disabled(expressions.ONE), LOCK,
)
IN_FORM_SET = (p.varstore(5, 1), p.varstore_efi(5, 1), p.varstore_name_value(5), p.default_store(5, 0), p.form(7) + END)
CONDITIONED = tuple(scoped(opcode(code, bytes(3)), expressions.ONE) for code in CONDITIONS)
VALUED = scoped(p.default(0, p.OTHER), p.value(expressions.ONE))
IN_QUESTION = (p.option(5, 1), p.default(0, p.NUMBER_1, b"\1"), VALUED, p.value(expressions.ONE), *CONDITIONED)
# One or more opcodes of each class of scopes.
PARENTS = {
    "form set": (b"",), "form": (p.form(7) + END, p.subtitle(5)), "text": (p.text_statement(5, 6), p.reset_button(5)),
    "question": (p.checkbox(2, 0), p.numeric(2, 0, 0x10, 1, 0, 9), p.string_question(2, 0, 0, 1), p.password(2, 0, 0, 1),
                 p.date(2), p.time(2), p.action(2), p.ref(2, u16(1))),
    "choice": (p.one_of(2, 0), p.ordered_list(2, 0, 1)), "option": (p.option(5, 1),), "default": (VALUED,),
    "expression": (p.rule(1, expressions.ONE), p.value(expressions.ONE), *CONDITIONED),
    "none": (LOCK, p.varstore(5, 1), p.default_store(5, 0), p.default(0, p.NUMBER_1, b"\1"), expressions.ONE,
             *map(opcode, IGNORED)),
}
# One or more opcodes of each kind that the classes tell apart.
CHILDREN = (
    IN_FORM[:13], (LOCK,), tuple(map(opcode, IGNORED)), IN_QUESTION[:1], IN_QUESTION[1:3], (p.value(expressions.ONE),),
    CONDITIONED,
    IN_FORM[13:14], IN_FORM[14:17], IN_FORM_SET[:3], IN_FORM_SET[3:4], IN_FORM_SET[4:], (p.form_set() + END,),
    (expressions.ONE, p.eq_id_val(1, 1), p.operator(0x17)), (opcode(0x99), scoped(opcode(0x98))),
)


def with_child(rng, op, child):
    """Subtrees of one opcode with a child more, behind the others or in front."""
    ops = split_opcodes(op)[0]
    if not has_scope(ops[0]):
        return scoped(op, child)
    return b"".join(ops[:-1]) + child + END if rng.random() < 0.7 else ops[0] + child + b"".join(ops[1:])


def any_child(rng):
    """An opcode of any kind in a scope of any class, directly or in a guard."""
    around = rng.choice([*PARENTS, "text", "option"])
    child = rng.choice(rng.choice(CHILDREN))
    if rng.random() < 0.2:
        child = scoped(opcode(rng.choice(GUARDS)), expressions.FALSE, child)
    parent = rng.choice(PARENTS[around])
    op = with_child(rng, parent, child) if parent else child
    if around in ("option", "default"):
        op = scoped(rng.choice((p.one_of(3, 0), p.ordered_list(3, 0, 1))), op)
    elif parent[:1] in (b"\x5a", b"\x11", b"\x10", b"\x63", b"\x5b"):
        op = scoped(p.checkbox(3, 0), scoped(p.default(0, p.OTHER), op) if parent[0] == 0x5A else op)
    in_form_set = around == "form set" or parent[:1] in (b"\x01", b"\x24", b"\x5c")
    beside, inner = (op, b"") if in_form_set else (b"", op)
    return over(rng, p.list_of(p.base(16)[:-6] + beside + p.form(1) + p.checkbox(1, 0) + inner + END + END))


def any_scope_bit(rng):
    """An opcode in its place whose Scope bit is turned, its END mended or not."""
    ops = split_opcodes(rng.choice(IN_FORM + IN_FORM_SET + IN_QUESTION + tuple(map(opcode, IGNORED))))[0]
    at = rng.choice([at for at, op in enumerate(ops) if op != END])
    opens = has_scope(ops[at])
    ops[at] = bytes([ops[at][0], ops[at][1] ^ 0x80]) + ops[at][2:]
    if rng.random() < 0.8:
        ops[at + 1:] = ops[at + 1:-1] if opens else [END] + ops[at + 1:]
    op = b"".join(ops)
    return beside_a_box(rng, op if op[:1] not in {it[:1] for it in IN_QUESTION} else scoped(p.one_of(3, 0), op))


def beside_a_box(rng, op):
    """A case with subtrees of one opcode, which stand in the form set or in a form, beside a checkbox."""
    beside, inner = (op, b"") if op[0] in STORES + (0x5C, 0x01) else (b"", op)
    return over(rng, p.list_of(p.base(16)[:-6] + beside + p.form(1) + p.checkbox(1, 0) + inner + END + END))


def least_lengths(rng):
    """An opcode that is a byte shorter or longer than its fields, each in its place."""
    width = rng.choice((1, 2, 4, 8))
    asked = (p.numeric(2, 0, 0x10, width, 0, 9), p.one_of(2, 0, width), p.ref(2, bytes(rng.randrange(26))),
             p.ref(2, u16(1) + bytes(rng.randrange(24))), p.suppressed(operator_of(rng)), p.action(2),
             scoped(p.one_of(2, 0), rng.choice(IN_QUESTION)))
    ops = split_opcodes(rng.choice(asked if rng.random() < 0.5 else IN_FORM + IN_FORM_SET))[0]
    at = rng.choice([at for at, op in enumerate(ops) if op != END])
    if rng.random() < 0.7:
        ops[at] = mended(ops[at] + b"\1") if rng.random() < 0.3 else mended(ops[at][:-1]) if len(ops[at]) > 2 else ops[at]
    return beside_a_box(rng, b"".join(ops))


def types_of_values(rng):
    """Options and defaults of all Types and lengths, in questions of all kinds."""
    width, kind = rng.choice((1, 2, 4, 8)), rng.choice((rng.randrange(0x0E), 4, 5, 6, 7, 0x0B, 0x0D))
    kinds = rng.choice(([kind] * 2, [kind] * 2, [rng.randrange(0x0E), kind, kind], [p.NUMBER_1, p.BOOLEAN],
                        [p.BOOLEAN, p.NUMBER_1]))
    held = bytes(rng.choice((0, 0, 1, 2)) for _ in range(rng.randrange(9)))
    option = lambda kind: opcode(0x09, u16(5) + bytes([rng.choice((0, 0x10)), kind]) + held)
    inner = [option(kind) if rng.random() < 0.6 else opcode(0x5B, u16(0) + bytes([kind]) + held) for kind in kinds]
    asked = rng.choice((p.one_of(2, 0, width), p.one_of(2, 0, width), p.ordered_list(2, 0, 2), p.ordered_list(2, 0, 2),
                        p.numeric(2, 0, 0x10, width, 0, 9), p.checkbox(2, 0), p.string_question(2, 0, 0, 2), p.date(2)))
    case = beside_a_box(rng, scoped(asked, *inner))
    return case.changed(script=case.script + b"page\ndefaults 0\npage\n")


def operator_of(rng):
    """An operator without operands, with fields of any values and of a length that may be wrong."""
    code, length = rng.choice(((0x12, 4), (0x13, 4), (0x14, 4), (0x14, 6), (0x14, 8), (0x3F, 1), (0x40, 2), (0x42, 1), (0x43, 2),
                               (0x44, 4), (0x45, 8)))
    return opcode(code, bytes(rng.randrange(3) for _ in range(max(length + rng.choice((-1, 0, 0, 1, 2)), 0))))


SINGLE = (
    (20, "an opcode in each scope", any_child),
    (6, "each Scope bit", any_scope_bit),
    (6, "least lengths", least_lengths),
    (6, "Types of values", types_of_values),
)
