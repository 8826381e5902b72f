"""Random expressions over the questions and rules that there are: mostly defined ones, and some that are wrong."""
from packages import (END, FALSE, ONE, ONES, THIS, TRUE, UNDEFINED, ZERO, eq_id_val, expression, operator, question_ref, rule_ref, u16,
                      uint8)
from fuzzing.structure import BINARY, BOX, NUMERIC, ONE_OF, OPERATORS, UNARY, mended, with_scope
from fuzzing.values import WIDE, WORDS, value_for

AND, OR, NOT, EQUAL, NOT_EQUAL, BITWISE_NOT = 0x15, 0x16, 0x17, 0x2F, 0x30, 0x37
COMPARED = (0x2F, 0x30, 0x31, 0x32, 0x33, 0x34)
COMPUTED = (0x35, 0x36, 0x38, 0x39, 0x3A, 0x3B, 0x3C, 0x3D, 0x3E)


def some_question(rng, facts):
    """The id of a question, at times of one that is not there."""
    return rng.choice(facts.numbers) if facts.numbers and rng.random() < 0.95 else rng.choice((0, 1, 99, 0xFFFF))


def question_of(facts, number):
    return next((it for it in facts.questions if it.number == number), None)


def constant(rng, facts, number):
    """A value that the answer of a question may have."""
    question = question_of(facts, number)
    if question is None or rng.random() < 0.1:
        return rng.choice(WORDS)
    return value_for(rng, question) % 0x10000


def comparison(rng, facts):
    """One operator that compares answers."""
    number = some_question(rng, facts)
    kind = rng.random()
    if kind < 0.7:
        return eq_id_val(number, constant(rng, facts, number))
    if kind < 0.85:
        return operator(0x13, u16(number) + u16(some_question(rng, facts)))
    values = [constant(rng, facts, number) for _ in range(rng.randrange(5))]
    told = len(values) if rng.random() < 0.75 else rng.randrange(len(values) + 1) if rng.random() < 0.95 else 5
    return operator(0x14, u16(number) + u16(told) + b"".join(map(u16, values)) + (b"\0" if rng.random() < 0.1 else b""))


def literal(rng):
    """A number that stands in its operator."""
    code, width = rng.choice(((0x42, 1), (0x43, 2), (0x44, 4), (0x45, 8)))
    number = rng.choice((rng.randrange(8), rng.randrange(64, 66), rng.choice(WIDE), rng.randrange(2**64))) % 256 ** width
    return operator(code, number.to_bytes(width, "little"))


def rule(rng, facts):
    return rule_ref(rng.choice(facts.rules) if facts.rules and rng.random() < 0.9 else rng.randrange(256))


def anything(rng, facts, depth):
    """An operator of any kind, with operands of any kind."""
    kind = rng.random()
    if depth <= 0 or kind < 0.3:
        return [rng.choice((UNDEFINED, THIS, ONES, TRUE, ZERO, question_ref(some_question(rng, facts)), rule(rng, facts)))]
    if kind < 0.4:
        return anything(rng, facts, depth - 1) + [operator(rng.choice(UNARY))]
    return anything(rng, facts, depth - 1) + anything(rng, facts, depth - 1) + [operator(rng.choice(BINARY))]


def number(rng, facts, depth):
    """Operators that mostly give a number."""
    kind = rng.random()
    if kind < 0.05:
        return anything(rng, facts, depth)
    if depth <= 0 or kind < 0.4:
        numbers = [it.number for it in facts.of_code(NUMERIC, ONE_OF, BOX)] or [0]
        return [rng.choice((literal(rng), uint8(rng.randrange(6)), ZERO, ONE, ONES, THIS, question_ref(rng.choice(numbers)),
                            rule(rng, facts)))]
    if kind < 0.5:
        return number(rng, facts, depth - 1) + [operator(BITWISE_NOT)]
    return number(rng, facts, depth - 1) + number(rng, facts, depth - 1) + [operator(rng.choice(COMPUTED))]


def boolean(rng, facts, depth):
    """Operators that mostly give a Boolean."""
    kind = rng.random()
    if kind < 0.04:
        return anything(rng, facts, depth)
    if kind < 0.08:
        one = rng.choice(facts.questions) if facts.questions else None
        alike = [it.number for it in facts.questions if it.code == one.code and it.width == one.width]
        refs = [question_ref(rng.choice(alike) if alike and rng.random() < 0.9 else some_question(rng, facts)) for _ in range(2)]
        return refs + [operator(rng.choice((EQUAL, NOT_EQUAL)))]
    if depth <= 0 or kind < 0.5:
        return [rng.choice((TRUE, FALSE, rule(rng, facts)))] if rng.random() < 0.15 else [comparison(rng, facts)]
    if kind < 0.6:
        return boolean(rng, facts, depth - 1) + [operator(NOT)]
    if kind < 0.8:
        return number(rng, facts, depth - 1) + number(rng, facts, depth - 1) + [operator(rng.choice(COMPARED))]
    return boolean(rng, facts, depth - 1) + boolean(rng, facts, depth - 1) + [operator(rng.choice((AND, OR)))]


def condition(rng, facts):
    """An expression that mostly gives a Boolean."""
    return expression(*boolean(rng, facts, rng.choice((0, 0, 1, 1, 2, 3))))


def quantity(rng, facts):
    """An expression that mostly gives a number."""
    return expression(*number(rng, facts, rng.choice((0, 1, 2, 3))))


def deep(rng, facts):
    """An expression near the most values that may wait."""
    count = rng.choice((63, 64, 64, 65, 65, 66))
    return expression(*[rng.choice((ZERO, ONE, TRUE, comparison(rng, facts))) for _ in range(count)],
                      *[operator(rng.choice((AND, OR, EQUAL, 0x3A))) for _ in range(count - 1)])


OTHERS = tuple(map(operator, (0x0B, 0x5F, 0x0A, 0x02, 0x99, 0x01, 0x5A, 0x4E)))
# What gives an expression another shape: one operator fewer, more or twice, one with Scope, what is none among them or first.
SHAPES = (
    lambda rng, facts, ops, at: ops[:at] + ops[at + 1:],
    lambda rng, facts, ops, at: ops[:at] + [operator(rng.choice(OPERATORS))] + ops[at:],
    lambda rng, facts, ops, at: ops[:at] + [ops[at]] + ops[at:],
    lambda rng, facts, ops, at: ops + [with_scope(rng.choice((TRUE, comparison(rng, facts)))), END],
    lambda rng, facts, ops, at: ops[:at] + [ops[at][:-1]] + ops[at + 1:] if len(ops[at]) > 2 else ops,
    lambda rng, facts, ops, at: ops + [rng.choice(OTHERS)],
    lambda rng, facts, ops, at: [rng.choice(OTHERS)] + ops[1:],
    lambda rng, facts, ops, at: rng.sample(ops, len(ops)),
)


def misshaped(rng, facts):
    """An expression of which one or two things are wrong."""
    ops = boolean(rng, facts, rng.choice((0, 1, 2)))
    for _ in range(rng.choice((1, 1, 2))):
        ops = rng.choice(SHAPES)(rng, facts, ops, rng.randrange(len(ops))) if ops else ops
    return expression(*[mended(op) for op in ops]) if ops else b""
