"""The fields of opcodes, and a mutation that gives one of them a value of interest."""
from fuzzing import statements
from fuzzing.structure import (ACTION, BOX, DATE, DEFAULT, FORM, FORM_SET, LISTED, NUMERIC, ONE_OF, OPTION, PASSWORD, REF, RULE,
                               STRING, TIME, WITH_FIELD, with_number)
from fuzzing.values import BYTES, WIDE, WORDS, near

# The fields of opcodes: offset, width, and what they hold.
STATEMENT = ((2, 2, "string"), (4, 2, "string"))
QUESTION = STATEMENT + ((6, 2, "question"), (8, 2, "store"), (10, 2, "offset"), (12, 1, "flags"))
FIELDS = {
    FORM_SET: ((2, 1, "byte"), (17, 1, "byte"), (18, 2, "string"), (22, 1, "byte")),
    FORM: ((2, 2, "form"), (2, 2, "form"), (4, 2, "string")),
    0x02: STATEMENT + ((6, 1, "byte"),), 0x03: STATEMENT + ((6, 2, "string"),), 0x0D: STATEMENT + ((6, 2, "class"),),
    BOX: QUESTION + ((13, 1, "flags"),),
    NUMERIC: QUESTION + ((13, 1, "display"), (14, 1, "byte"), (15, 1, "byte"), (16, 1, "byte")),
    ONE_OF: QUESTION + ((13, 1, "display"),), STRING: QUESTION + ((13, 1, "count"), (14, 1, "count")),
    PASSWORD: QUESTION + ((13, 2, "count"), (15, 2, "count")), LISTED: QUESTION + ((13, 1, "count"), (14, 1, "count")),
    DATE: QUESTION, TIME: QUESTION, ACTION: QUESTION + ((13, 2, "string"),), REF: QUESTION
    + ((13, 2, "reference"), (13, 2, "reference")),
    OPTION: ((2, 2, "string"), (4, 1, "flags"), (5, 1, "type"), (6, 1, "byte"), (7, 1, "byte")),
    DEFAULT: ((2, 2, "class"), (4, 1, "type"), (5, 1, "byte"), (5, 2, "string")), 0x5C: ((2, 2, "string"), (4, 2, "class")),
    0x24: ((2, 1, "byte"), (18, 2, "store"), (20, 2, "size"), (20, 2, "size"), (22, 1, "byte")),
    0x26: ((2, 2, "store"), (4, 1, "byte"), (24, 2, "size"), (24, 2, "size"), (26, 1, "byte")), 0x25: ((2, 2, "store"),),
    0x11: ((2, 2, "string"),), 0x10: ((2, 2, "string"),), 0x63: ((2, 2, "string"), (4, 1, "byte")), RULE: ((2, 1, "rule"),),
    0x12: ((2, 2, "question"), (4, 2, "word")), 0x13: ((2, 2, "question"), (4, 2, "question")),
    0x14: ((2, 2, "question"), (4, 2, "count"), (6, 2, "word")), 0x3F: ((2, 1, "rule"),), 0x40: ((2, 2, "question"),),
    0x42: ((2, 1, "byte"),), 0x43: ((2, 2, "word"),), 0x44: ((2, 4, "wide"),), 0x45: ((2, 8, "wide"),),
}


def interesting(rng, kind, facts):
    """A value of interest for a field of this kind."""
    ids = {"question": facts.numbers, "form": facts.forms, "store": [it.number for it in facts.stores], "rule": facts.rules}
    if kind in ids:
        return rng.choice(ids[kind] + [rng.choice(WORDS), rng.randrange(1, 40)]) if rng.random() < 0.9 else 0
    if kind == "reference":
        return rng.choice(facts.forms * 4 + [0, 0, 7])
    if kind in ("offset", "size"):
        return near(rng, end_of_interest(rng, facts, kind)) % 0x10000
    made = {"string": lambda: statements.some_string(rng),
            "flags": lambda: rng.choice((0, 1, 2, 3, 4, 0x10, 0x20, 0x30, 0xFE, 0xFF)),
            "byte": lambda: rng.choice(BYTES), "class": lambda: rng.choice((0, 1, 2, 0xFFFF)),
            "type": lambda: rng.randrange(0x0E),
            "display": lambda: rng.choice((0, 0x10, 0x20, 0x30)) | rng.randrange(4) | rng.choice((0, 0, 0x40, 0x80, 4)),
            "count": lambda: rng.choice((0, 1, 2, 3, 4, 0x7F, 0x80, 0xFF)), "word": lambda: rng.choice(WORDS),
            "wide": lambda: rng.choice(WIDE)}
    return made[kind]()


def end_of_interest(rng, facts, kind):
    """An offset at which a field begins or ends, or up to which one would just fit a store."""
    places = [0] + [it.offset for it in facts.questions] + [it.offset + it.width for it in facts.questions
                                                            if it.code in WITH_FIELD]
    if kind == "offset":
        places += [store.size - it.width for store in facts.held for it in facts.questions if it.store == store.number] + [0xFFFF]
    return rng.choice(places + [store.size for store in facts.held])


def changed_field(rng, ops, facts, others):
    """A field of an opcode has another value."""
    at = [at for at, op in enumerate(ops) if op[0] in FIELDS and len(op) > 2]
    if not at:
        return ops
    at = rng.choice(at)
    offset, width, kind = rng.choice(FIELDS[ops[at][0]])
    return ops[:at] + [with_number(ops[at], offset, interesting(rng, kind, facts), width)] + ops[at + 1:]
