"""Mutations of the opcodes of a forms package: moved, cut, repeated, exchanged, of other lengths, with other scopes.

Each takes a random source, opcodes, facts and opcodes of another case, and gives opcodes. An opcode is its bytes, an END among
them, so that scopes are what the bytes say.
"""
import packages as p
from packages import END, opcode
from fuzzing.fields import changed_field
from fuzzing.structure import (FORM, FORM_SET, GUARDS, LISTED_CODES, OPERATORS, QUESTIONS, REF, classes, first_children,
                               has_scope, mended, number_at, parents, spans, with_number, with_scope)
from fuzzing.values import BYTES


def is_opening(op):
    return op != END and has_scope(op)


def some_subtree(rng, ops, wanted=None):
    """Where a subtree begins and ends, mostly no expression, that of the form set left out. It may have to be of a class."""
    starts = [at for at, op in enumerate(ops) if op != END and op[0] != FORM_SET
              and (op[0] not in OPERATORS or rng.random() < 0.03)]
    if wanted:
        found = classes(ops)
        starts = [at for at in starts if found[at] == wanted]
    if not starts:
        return 0, 0
    at = rng.choice(starts)
    return at, spans(ops)[at]


def of_class(ops, *wanted):
    """The positions at which what stands in a scope of one of these classes may be put."""
    firsts = first_children(ops)
    above = parents(ops)
    return [at for at, (it, _) in enumerate(classes(ops)) if it in wanted and not (at in firsts and ops[above[at]][0] in GUARDS)]


def same_class(rng, ops, wanted):
    """A position of the same class as another, or any."""
    places = of_class(ops, wanted[0]) if rng.random() < 0.8 else []
    return rng.choice(places) if places else rng.randrange(len(ops) + 1)


def moved(rng, ops, facts, others):
    """A subtree stands elsewhere, mostly where it may."""
    if not ops:
        return ops
    at, end = some_subtree(rng, ops)
    wanted, rest = classes(ops)[at], ops[:at] + ops[end:]
    to = same_class(rng, rest, wanted) if rest else 0
    return rest[:to] + ops[at:end] + rest[to:]


def cut_subtree(rng, ops, facts, others):
    at, end = some_subtree(rng, ops)
    return ops[:at] + ops[end:]


def cut_opcode(rng, ops, facts, others):
    """One opcode is gone, with the END of its scope or without."""
    if not ops:
        return ops
    at = rng.randrange(len(ops))
    end = spans(ops)[at]
    inner = ops[at + 1:end]
    if is_opening(ops[at]) and rng.random() < 0.7 and inner and inner[-1] == END:
        inner = inner[:-1]
    return ops[:at] + inner + ops[end:]


def renumbered(rng, inner, facts):
    """Subtrees whose questions, forms and stores have other ids than those that there are."""
    taken, said = set(facts.numbers), []
    for op in inner:
        if op[0] in QUESTIONS and number_at(op, 6):
            new = rng.randrange(1, 0x200)
            while new in taken:
                new = rng.randrange(1, 0x10000)
            taken.add(new)
            op = with_number(op, 6, new)
        elif op[0] == FORM:
            op = with_number(op, 2, rng.randrange(1, 0x1000))
        said.append(op)
    return said


def repeated(rng, ops, facts, others):
    """A subtree is there twice, mostly with other ids."""
    if not ops:
        return ops
    at, end = some_subtree(rng, ops)
    inner = renumbered(rng, ops[at:end], facts) if rng.random() < 0.8 else ops[at:end]
    to = at if rng.random() < 0.6 else same_class(rng, ops, classes(ops)[at])
    return ops[:to] + inner + ops[to:]


def swapped(rng, ops, facts, others):
    """Two subtrees that stand apart change places."""
    if not ops:
        return ops
    one = some_subtree(rng, ops)
    (a, a_end), (b, b_end) = sorted((one, some_subtree(rng, ops, classes(ops)[one[0]] if rng.random() < 0.8 else None)))
    return ops if a_end > b else ops[:a] + ops[b:b_end] + ops[a_end:b] + ops[a:a_end] + ops[b_end:]


def spliced(rng, ops, facts, others):
    """A subtree of another case is put in, or stands in place of one."""
    if not others or not ops:
        return ops
    at, end = some_subtree(rng, others)
    inner = others[at:end]
    wanted = classes(others)[at]
    if rng.random() < 0.8:
        inner = with_known_stores(rng, renumbered(rng, inner, facts), facts)
    to = same_class(rng, ops, wanted)
    return ops[:to] + inner + ops[spans(ops)[to] if to < len(ops) and rng.random() < 0.3 and ops[to] != END else to:]


def with_known_stores(rng, inner, facts):
    """Questions and references of another form set, over stores and forms that there are."""
    stores = [it.number for it in facts.stores] or [0]
    held = {it.number: it.size for it in facts.held}
    said = []
    for op in inner:
        if op[0] in QUESTIONS:
            store = rng.choice(stores)
            op = with_number(with_number(op, 8, store), 10, rng.randrange(max(held.get(store, 0) - 7, 1)))
        if op[0] == REF and facts.forms:
            op = with_number(op, 13, rng.choice(facts.forms))
        said.append(op)
    return said


def swapped_for_other(rng, ops, facts, others):
    """An opcode's fields are those of an opcode of the same number in another case."""
    codes = {op[0] for op in others if op != END}
    at = [at for at, op in enumerate(ops) if op[0] in codes]
    if not at:
        return ops
    at = rng.choice(at)
    new = rng.choice([op for op in others if op[0] == ops[at][0]])
    return ops[:at] + [with_scope(new, has_scope(ops[at]))] + ops[at + 1:]


def other_length_byte(rng, ops, facts, others):
    """The length byte alone is another, so that the rest is read otherwise."""
    if not ops:
        return ops
    at = rng.randrange(len(ops))
    op = ops[at]
    length = (op[1] & 0x7F) + rng.choice((-1, 1, -2, 2)) if rng.random() < 0.6 else rng.choice((0, 1, 2, 3, 0x7F))
    return ops[:at] + [bytes([op[0], length & 0x7F | op[1] & 0x80]) + op[2:]] + ops[at + 1:]


def shorter(rng, ops, facts, others):
    """An opcode has fewer bytes, and tells so."""
    at = [at for at, op in enumerate(ops) if len(op) > 2]
    if not at:
        return ops
    at = rng.choice(at)
    count = rng.choice((1, 1, 1, 2, 3, 4, 8, 20))
    return ops[:at] + [mended(ops[at][:max(2, len(ops[at]) - count)])] + ops[at + 1:]


def longer(rng, ops, facts, others):
    """An opcode has more bytes than it needs, and tells so."""
    if not ops:
        return ops
    at = rng.randrange(len(ops))
    more = bytes(rng.choice(BYTES) for _ in range(rng.choice((1, 1, 2, 3, 8, 20))))
    return ops[:at] + [mended(ops[at] + more)] + ops[at + 1:]


def other_scope_bit(rng, ops, facts, others):
    """The Scope bit of an opcode is turned, its END mended or not."""
    if not ops:
        return ops
    at, end = rng.randrange(len(ops)), None
    op, mend = ops[at], rng.random() < 0.6
    turned = bytes([op[0], op[1] ^ 0x80]) + op[2:]
    end = spans(ops)[at]
    inner = ops[at + 1:end]
    if mend and is_opening(op) and inner and inner[-1] == END:
        inner = inner[:-1]
    elif mend and op != END:
        inner = inner + [END]
    return ops[:at] + [turned] + inner + ops[end:]


def opened(rng, ops, facts, others):
    """An opcode without Scope opens one over what follows it."""
    at = [at for at, op in enumerate(ops) if op != END and not has_scope(op)]
    if not at:
        return ops
    at = rng.choice(at)
    end, above = at + 1, parents(ops)
    ends = spans(ops)
    for _ in range(rng.randrange(3)):
        if end < len(ops) and above[end] == above[at] and ops[end] != END:
            end = ends[end]
    return ops[:at] + [with_scope(ops[at])] + ops[at + 1:end] + [END] * (rng.random() < 0.9) + ops[end:]


def closed(rng, ops, facts, others):
    """An END more, one fewer, or one that is longer or has Scope."""
    ends = [at for at, op in enumerate(ops) if op == END]
    if not ends:
        return ops + [END]
    at, kind = rng.choice(ends), rng.randrange(5)
    if kind == 0:
        return ops[:at] + ops[at + 1:]
    if kind == 1:
        at = rng.randrange(len(ops) + 1)
        return ops[:at] + [END] + ops[at:]
    if kind == 2:
        return ops[:at] + [rng.choice((b"\x29\x03\0", b"\x29\x82", b"\x29\x01", b"\x29\x00"))] + ops[at + 1:]
    return ops + [rng.choice((END, opcode(0x5F), opcode(0x99), p.form(9), b"\x29", b"\0"))] if kind == 3 else ops[:-1]


def other_number(rng, ops, facts, others):
    """An opcode has another number: one that is listed, or any."""
    if not ops:
        return ops
    at = rng.randrange(len(ops))
    new = rng.choice(LISTED_CODES) if rng.random() < 0.8 else rng.randrange(256)
    return ops[:at] + [bytes([new]) + ops[at][1:]] + ops[at + 1:]


MOVES = (
    (6, "a field of another value", changed_field),
    (2, "a moved subtree", moved),
    (2, "a cut subtree", cut_subtree),
    (1, "a cut opcode", cut_opcode),
    (3, "a repeated subtree", repeated),
    (2, "swapped subtrees", swapped),
    (4, "a subtree of another case", spliced),
    (2, "an opcode of another case", swapped_for_other),
    (2, "another length byte", other_length_byte),
    (1, "a shorter opcode", shorter),
    (2, "a longer opcode", longer),
    (1, "another Scope bit", other_scope_bit),
    (1, "a scope that is opened", opened),
    (1, "an END more or fewer", closed),
    (1, "an opcode of another number", other_number),
)
