"""Mutations that put opcodes in: guards around siblings, expressions, options, defaults, conditions, rules, questions, forms."""
import packages as p
from packages import END, opcode, u16
from fuzzing import expressions, statements
from fuzzing.facts import Question
from fuzzing.opcodewise import is_opening, of_class
from fuzzing.structure import (ACTION, BOX, CLASSES, CONDITIONS, DATE, GUARDS, LISTED, QUESTIONS, REF, RULE, TIME, VALUE,
                               WITH_FIELD, has_scope, number_at, parents, spans, split_opcodes, with_scope)
from fuzzing.values import near


def siblings(rng, ops, *wanted):
    """Where a run of siblings begins and ends, or None."""
    places = of_class(ops, *wanted)
    if not places:
        return None
    first, ends = rng.choice(places), spans(ops)
    last = first
    for _ in range(rng.choice((0, 1, 1, 2, 3))):
        if last < len(ops) and ops[last] != END:
            last = ends[last]
    return first, last


def guarded(rng, ops, facts, others):
    """A guard stands around a run of siblings."""
    run = siblings(rng, ops,
                   *rng.choice((("form",), ("form",), ("form set",), ("choice",), ("form", "choice", "form set", "question"))))
    if run is None:
        return ops
    head = opcode(rng.choice(GUARDS))
    return ops[:run[0]] + [with_scope(head),
                           *split_opcodes(expressions.condition(rng, facts))[0]] + ops[run[0]:run[1]] + [END] + ops[run[1]:]


def unguarded(rng, ops, facts, others):
    """A guard and its condition are gone, and what it covered stays."""
    at = [at for at, op in enumerate(ops) if op[0] in GUARDS]
    if not at:
        return ops
    at = rng.choice(at)
    ends = spans(ops)
    start = ends[at + 1] if at + 1 < len(ops) else at + 1
    return ops[:at] + ops[start:ends[at] - 1] + ops[ends[at]:]


def with_expression(make):
    """A mutation that puts another expression into a guard, a condition, a rule or a VALUE."""
    def mutate(rng, ops, facts, others):
        at = [at for at, op in enumerate(ops) if op[0] in GUARDS + CONDITIONS + (RULE, VALUE) and is_opening(op)]
        if not at:
            return ops
        at = rng.choice(at) + 1
        new = split_opcodes(make(rng, facts))[0]
        end = spans(ops)[at] if at < len(ops) and ops[at] != END else at
        return ops[:at] + new + ops[end:]
    return mutate


def put(ops, at, *new):
    return ops[:at] + split_opcodes(b"".join(new))[0] + ops[at:]


def added(wanted, make):
    """A mutation that puts in what may stand in a scope of one of these classes. It is made for the question around it."""
    def mutate(rng, ops, facts, others):
        if rng.random() < 0.4:
            ops = with_open_scope(rng, ops, wanted)
        places = of_class(ops, *wanted)
        if not places:
            return ops
        at = rng.choice(places)
        return put(ops, at, make(rng, facts, question_around(ops, at, facts)))
    return mutate


def with_open_scope(rng, ops, wanted=None):
    """One of the opcodes that may open a scope of one of these classes, or one of all, opens an empty one if it has none."""
    at = [at for at, op in enumerate(ops) if not has_scope(op) and op != END and (wanted is None or CLASSES.get(op[0]) in wanted)]
    if not at:
        return ops
    at = rng.choice(at)
    return ops[:at] + [with_scope(ops[at]), END] + ops[at + 1:]


def misplaced(rng, ops, facts, others):
    """An opcode of any kind stands in any scope, mostly in one that may be open."""
    if rng.random() < 0.5:
        ops = with_open_scope(rng, ops, ("form", "text", "question", "choice", "option") if rng.random() < 0.8 else None)
    if not ops:
        return ops
    at, it = rng.randrange(len(ops)), rng.choice(facts.questions or [Question(BOX, 1, width=1)])
    make = rng.choice([make for _, _, make in ADDED]
                      + [lambda *_: p.value(expressions.condition(rng, facts)), lambda *_: expressions.ONE])
    return put(ops, at, make(rng, facts, it))


def question_around(ops, at, facts):
    """The question in whose scope a position is, or some other."""
    above, near_at = parents(ops), at
    while near_at >= 0 and ops[near_at][0] not in QUESTIONS:
        near_at = above[near_at] if near_at < len(above) else -1
    number = number_at(ops[near_at], 6) if near_at >= 0 else None
    return next((it for it in facts.questions if it.number == number), Question(BOX, 1, width=1))


def new_option(rng, facts, it):
    """An option with a value that there is, a new one or one that is too wide, mostly of the Type that others have."""
    kind = rng.choice((p.NUMBER_1, p.NUMBER_1, p.NUMBER_2, p.NUMBER_4, p.NUMBER_8, p.BOOLEAN, p.STRING_ID))
    if it.code == LISTED and rng.random() < 0.8:
        kind = p.BOOLEAN if rng.random() < 0.1 else {1: p.NUMBER_1, 2: p.NUMBER_2, 4: p.NUMBER_4, 8: p.NUMBER_8}[it.element]
    value = rng.choice(it.values + [0, 1, 2, 3, 256 ** max(it.width, 1) - 1, 256 ** max(it.width, 1)]) % 256 ** p.WIDTHS[kind]
    return p.option(statements.some_string(rng), value, kind, rng.choice((0, 0, 0x10, 0x20, 0x30)))


def new_question(rng, facts, it):
    """A question of any kind over a store that there is, on the field of another or anywhere."""
    new = statements.planned(rng, rng.choice(statements.KINDS + (DATE, TIME, ACTION, REF)), rng.randrange(40, 0x100))
    new.store = rng.choice([it.number for it in facts.stores] + [0])
    new.most = rng.choice(facts.forms or [1]) if new.code == REF else new.most
    fields = [it for it in facts.questions if it.store == new.store and it.code in WITH_FIELD]
    size = next((it.size for it in facts.held if it.number == new.store), 0)
    new.offset = rng.choice(fields).offset if fields and rng.random() < 0.6 else max(0, near(rng, size - new.width))
    return statements.whole_question(rng, new, facts)


def new_form(rng, facts, it):
    return p.form(rng.randrange(1, 0x1000), statements.some_string(rng)) + b"".join(
        [new_question(rng, facts, it) for _ in range(rng.randrange(3))] + [END])


def new_store(rng, facts, it):
    number, size = rng.choice((4, 5, 6, 7, 0x20)), rng.choice((0, 1, 2, 8))
    return rng.choice((p.varstore(number, size, b"W"), p.varstore_efi(number, size, b"V"), p.varstore_name_value(number)))


def new_reference(rng, facts, it):
    target = u16(rng.choice(facts.forms or [1]))
    fields = rng.choice((target, target, target + u16(3), target + bytes(17), target + bytes(18), target + bytes(20), b"", b"\1",
                         u16(0)))
    return p.ref(rng.randrange(40, 0x100), fields)


ADDED = (
    ("LOCKED", ("form set", "form", "question", "choice", "text", "form", "question"), lambda rng, facts, it: statements.LOCK),
    ("an option", ("choice",), new_option),
    ("options under a guard", ("choice",), lambda rng, facts, it: statements.guard(
        rng, facts, [new_option(rng, facts, it) for _ in range(rng.randrange(3))] + [statements.LOCK] * (rng.random() < 0.2))),
    ("a DEFAULT", ("question", "choice"), lambda rng, facts, it: statements.default(rng, it, facts)),
    ("a condition of a question", ("question", "choice"), lambda rng, facts, it: statements.conditioned(rng, facts)),
    ("a RULE", ("form",), lambda rng, facts, it: statements.rule(rng, facts, rng.randrange(1, 6))),
    ("a REF", ("form",), new_reference),
    ("a RESET_BUTTON or a text", ("form",), lambda rng, facts, it: statements.plain(rng)),
    ("a question", ("form",), new_question),
    ("a form", ("form set",), new_form),
    ("a store", ("form set",), new_store),
    ("a DEFAULTSTORE", ("form set",), lambda rng, facts, it: p.default_store(statements.some_string(rng), rng.randrange(3))),
    ("an ignored opcode", ("form set", "form", "question", "choice", "text", "option"), lambda rng, facts,
     it: statements.ignored(rng)),
)


def deep_scopes(rng, ops, facts, others):
    """So many guards stand around a run of siblings that the most scopes are open, or one more."""
    run = siblings(rng, ops, "form", "choice")
    if run is None:
        return ops
    count = rng.choice((58, 59, 60, 61, 62, 63, 64))
    head = [with_scope(opcode(rng.choice(GUARDS))),
            rng.choice((expressions.FALSE, expressions.FALSE, expressions.comparison(rng, facts)))]
    return ops[:run[0]] + head * count + ops[run[0]:run[1]] + [END] * count + ops[run[1]:]


def chained_rules(rng, ops, facts, others):
    """Rules that name each other up to the greatest depth or weight, and a guard that names the last."""
    places = of_class(ops, "form")
    if not places:
        return ops
    at, number = rng.choice(places), rng.choice((1, 2, 5))
    names = p.rule_ref(number)
    if rng.random() < 0.6:
        step, count = p.rule(number, names), rng.choice((14, 15, 16, 17))
    else:
        step, count = p.rule(number, p.expression(names, names, p.operator(0x16))), rng.choice((9, 10, 11))
    guard = p.suppressed(names, statements.plain(rng))
    return put(ops, at, p.rule(number, rng.choice((expressions.TRUE, expressions.condition(rng, facts)))), step * count, guard)


ADDITIONS = (
    (5, "a guard around siblings", guarded),
    (1, "a guard that is gone", unguarded),
    (4, "another condition", with_expression(expressions.condition)),
    (2, "another number as a condition", with_expression(expressions.quantity)),
    (1, "a deep expression", with_expression(expressions.deep)),
    (1, "an expression of another shape", with_expression(expressions.misshaped)),
    (2, "an opcode in any scope", misplaced),
    (1, "deep scopes", deep_scopes),
    (1, "chained rules", chained_rules),
) + tuple((2, "%s put in" % name, added(wanted, make)) for name, wanted, make in ADDED)
