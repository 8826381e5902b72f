"""Random opcodes that are accepted where they belong: questions and what stands in them, guards, rules, stores."""
import packages as p
from packages import LOCKED as LOCK, opcode, scoped, u16
from fuzzing.expressions import condition, quantity, rule as rule_named
from fuzzing.facts import Question
from fuzzing.structure import (ACTION, BOX, DATE, IGNORED, LISTED, NUMERIC, ONE_OF, PASSWORD, REF, STRING, TIME, WITH_FIELD,
                               with_number)
from fuzzing.values import as_signed, value_for

KINDS = (BOX, BOX, BOX, NUMERIC, NUMERIC, NUMERIC, NUMERIC, ONE_OF, ONE_OF, ONE_OF, STRING, STRING, PASSWORD, LISTED, LISTED,
         LISTED)
DISPLAYS = (p.SIGNED, p.SIGNED, p.UNSIGNED, p.HEXADECIMAL, 0x30)
OPTION_TYPES = (p.NUMBER_1, p.NUMBER_1, p.NUMBER_2, p.NUMBER_4, p.NUMBER_8, p.BOOLEAN)
# An opcode has 127 bytes at most.
LONGEST_BUFFER = 100


def some_string(rng):
    """The id of a string: mostly of one that is there."""
    return rng.choice((0, 1, 2, 0x7FFF, 0xFFFF)) if rng.random() < 0.1 else rng.randrange(1, 17)


def prompted(rng, op):
    """A statement with another prompt and help."""
    return op[:2] + u16(some_string(rng)) + u16(some_string(rng)) + op[6:]


def planned(rng, code, number):
    """A question without a store and an offset, with bounds and values of its kind."""
    it = Question(code, number)
    if code == BOX:
        it.width = 1
    elif code == NUMERIC:
        it.width, it.display = rng.choice((1, 1, 1, 2, 4, 8)), rng.choice(DISPLAYS)
        it.least, it.most = bounds(rng, it)
    elif code == ONE_OF:
        it.width = rng.choice((1, 1, 2, 4, 8))
        it.values = [rng.choice((rng.randrange(4), rng.randrange(256 ** it.width), 256 ** it.width - 1))
                     for _ in range(rng.randrange(5))]
        it.values += it.values[:1] * (rng.random() < 0.3)
    elif code in (STRING, PASSWORD):
        it.least, it.most = sorted((rng.choice((0, 0, 1, 2)), rng.choice((0, 1, 2, 3, 5, 30))))
        it.width = 2 * it.most
    elif code == LISTED:
        plan_list(rng, it)
    return it


def bounds(rng, it):
    """A minimum and a maximum, as they stand in the opcode."""
    whole = 256 ** it.width
    if rng.random() < 0.3:
        return (whole // 2, whole // 2 - 1) if it.is_signed else (0, whole - 1)
    ends = rng.choice((0, 1, 5, whole // 2 - 1, whole // 2, whole - 2, whole - 1)), rng.randrange(whole)
    signed = (lambda n: as_signed(n, it.width)) if it.is_signed else int
    return sorted(ends, key=signed) if rng.random() < 0.95 else ends


def plan_list(rng, it):
    it.element, it.most = rng.choice((1, 1, 2, 4, 8)), rng.choice((0, 1, 2, 3, 3, 4, 5))
    it.values = [rng.choice((rng.randrange(5), rng.randrange(256 ** it.element))) for _ in range(rng.randrange(6))]
    if not it.values:
        it.element = 1
    it.width = it.most * it.element


def flags(rng):
    return rng.choice((0, 0, 0, 0, 0, 0, 4, 0x10, 1, 0xFE)) if rng.random() < 0.8 else 0


def question(rng, it):
    """The opcode of a question that was planned."""
    said = dict(store=it.store, flags=flags(rng))
    if it.code == BOX:
        op = p.question(BOX, it.number % 0xFFFE, it.offset, bytes([rng.choice((0, 1, 2, 3, 0xFC))]), **said)
    elif it.code in (NUMERIC, ONE_OF):
        width = rng.choice((0x00, 0x40, 0x80)) | it.display | {1: 0, 2: 1, 4: 2, 8: 3}[it.width]
        ends = it.least.to_bytes(it.width, "little") + it.most.to_bytes(it.width, "little") + p.little(rng.randrange(3), it.width)
        op = p.question(it.code, it.number % 0xFFFE, it.offset, bytes([width]) + ends, **said)
    elif it.code == STRING:
        op = p.string_question(it.number % 0xFFFE, it.offset, it.least, it.most, **said)
    elif it.code == PASSWORD:
        op = p.password(it.number % 0xFFFE, it.offset, it.least, it.most, **said)
    elif it.code == LISTED:
        op = p.question(LISTED, it.number % 0xFFFE, it.offset, bytes([it.most, rng.choice((0, 0, 1, 2, 3, 0xFC))]), **said)
    else:
        op = without_field(rng, it, said)
    return with_number(prompted(rng, op), 6, it.number)


def without_field(rng, it, said):
    """A question that never has a field."""
    tail = {DATE: b"\0", TIME: b"\0", ACTION: rng.choice((b"", u16(3))), REF: b""}[it.code]
    if it.code == REF:
        tail = rng.choice((u16(it.most), u16(it.most), u16(it.most) + u16(7), u16(it.most) + bytes(17), b"", b"\0", bytes(2),
                           u16(it.most) + bytes(18), u16(it.most) + bytes(20)))
    return p.question(it.code, it.number % 0xFFFE, it.offset, tail, **said)


def option(rng, it, value):
    """An option with this value, of a Type that suits."""
    fitting = {1: p.NUMBER_1, 2: p.NUMBER_2, 4: p.NUMBER_4, 8: p.NUMBER_8}
    if it.code == LISTED:
        kind = fitting[it.element] if it.element > 1 or any(number > 1 for number in it.values) else p.BOOLEAN
    else:
        kind = rng.choice([kind for kind in OPTION_TYPES if value < 256 ** p.WIDTHS[kind]])
    op = p.option(some_string(rng), value, kind, rng.choice((0, 0, 0, 0x10, 0x20, 0x30, 0xCF)))
    if rng.random() < 0.04:
        op = scoped(op, *[ignored(rng) for _ in range(rng.randrange(3))])
    return op


def options(rng, it, facts):
    """The options of a question, some of them under guards."""
    ops = [option(rng, it, value) for value in it.values]
    for _ in range(rng.choice((0, 0, 1, 1, 2)) if ops else 0):
        first = rng.randrange(len(ops))
        last = rng.randrange(first, len(ops)) + 1
        inner = ops[first:last] + ([LOCK] if rng.random() < 0.2 else []) + ([guard(rng, facts, [])] if rng.random() < 0.05
                                                                            else [])
        ops[first:last] = [guard(rng, facts, inner)]
    return ops


def ignored(rng):
    return opcode(rng.choice(IGNORED), bytes(rng.randrange(256) for _ in range(rng.randrange(6))))


def guard(rng, facts, inner):
    """A guard around these opcodes."""
    return scoped(opcode(rng.choice((0x0A, 0x0A, 0x19, 0x19, 0x1E)), b"\0" if rng.random() < 0.03 else b""),
                  condition(rng, facts), *inner)


def conditioned(rng, facts):
    """An INCONSISTENT_IF, a NO_SUBMIT_IF or a WARNING_IF."""
    code = rng.choice((0x11, 0x11, 0x10, 0x63, 0x63))
    return scoped(opcode(code, u16(some_string(rng)) + (b"\0" if code == 0x63 else b"")), condition(rng, facts))


def default(rng, it, facts):
    """A DEFAULT of any Type, mostly one that the question takes."""
    number, kind = rng.choice((0, 0, 1, 1, 2, 3, 0xFFFF)), rng.random()
    if kind < 0.25:
        return scoped(p.default(number, p.OTHER), p.value(quantity(rng, facts) if rng.random() < 0.7 else condition(rng, facts)))
    if kind < 0.35:
        return p.default(number, rng.choice((5, 6, 9, 0x0A, 0x0C)), bytes(rng.choice((3, 4, 4, 8))))
    if it.code in (STRING, PASSWORD) and kind < 0.85:
        return p.default(number, p.STRING_ID, u16(some_string(rng)))
    if it.code == LISTED and kind < 0.85:
        values = [value_for(rng, it) % 256 ** it.element for _ in range(rng.randrange(it.most + 2))]
        held = b"".join(v.to_bytes(it.element, "little") for v in values)
        return p.default(number, p.BUFFER, held[:LONGEST_BUFFER] + bytes(rng.choice((0, 0, 1, 3))))
    if kind > 0.97:
        return p.default(number, rng.choice((p.STRING_ID, p.BUFFER)), u16(some_string(rng)))
    kind = rng.choice(OPTION_TYPES)
    value = value_for(rng, it) + rng.choice((0, 0, 0, 0, 256 ** it.width))
    return p.default(number, kind, (value % 256 ** p.WIDTHS[kind]).to_bytes(p.WIDTHS[kind], "little"))


def whole_question(rng, it, facts):
    """A question with what stands in it."""
    op, inner = question(rng, it), []
    if it.code in (ONE_OF, LISTED):
        inner += options(rng, it, facts)
    inner += [default(rng, it, facts) for _ in range(rng.choice((0, 0, 0, 1, 1, 2, 4))) if it.code in WITH_FIELD
              or rng.random() < 0.1]
    inner += [conditioned(rng, facts) for _ in range(rng.choice((0, 0, 0, 0, 1, 2)))]
    inner += [LOCK] if rng.random() < 0.03 else []
    inner += [ignored(rng)] if rng.random() < 0.05 else []
    if rng.random() < 0.2:
        rng.shuffle(inner)
    return scoped(op, *inner) if inner or rng.random() < 0.05 else op


def plain(rng):
    """A TEXT, a SUBTITLE without children, or a RESET_BUTTON."""
    kind = rng.random()
    if kind < 0.35:
        op = p.text_statement(some_string(rng), some_string(rng))
    elif kind < 0.6:
        return p.subtitle(some_string(rng))
    else:
        op = p.reset_button(some_string(rng), rng.choice((0, 0, 1, 1, 2, 3)))
    return scoped(op, *[rng.choice((LOCK, ignored(rng))) for _ in range(rng.randrange(2))]) if rng.random() < 0.1 else op


def rule(rng, facts, number):
    says = condition(rng, facts) if rng.random() < 0.6 else quantity(rng, facts)
    return p.rule(number, rule_named(rng, facts) if rng.random() < 0.1 else says)
