"""Cases with many questions, conditions, rules, fields or texts each: what is kept of them between commands must stay right."""
import packages as p
from packages import END, END_PACKAGE, scoped, u16
from fuzzing import expressions, images, scripts, statements, texts
from fuzzing.cases import Case
from fuzzing.facts import Question, facts_of
from fuzzing.structure import NUMERIC, WITH_FIELD

SIZE = 12


def case_of(rng, data, lines):
    """A case over a list, with an image for it and lines as bytes or texts."""
    lines = [line.encode() if isinstance(line, str) else line for line in lines]
    return Case(data, images.image_for(rng, facts_of(data)), b"".join(line + b"\n" for line in lines))


def of_forms(stores, forms):
    """A list with these stores, and forms that are numbered from 1."""
    whole = b"".join(p.form(number, number) + b"".join(inner) + END for number, inner in enumerate(forms, 1))
    return p.list_of(p.form_set() + b"".join(stores) + whole + END)


def plan(rng, count, size=SIZE, stores=(1,)):
    """Questions of all kinds with fields anywhere in a small store, across each other."""
    asked = []
    while len(asked) < count:
        it = statements.planned(rng, rng.choice(statements.KINDS), len(asked) + 1)
        if it.width <= size:
            it.store, it.offset = rng.choice(stores), rng.randrange(size - it.width + 1)
            asked.append(it)
    return asked


def facts_for(asked, rules=()):
    """Facts of the questions that are planned."""
    found = facts_of(p.list_of(p.form_set() + END))
    found.questions, found.rules, found.forms = list(asked), list(rules), [1]
    return found


def kept_conditions(rng):
    """Boxes under conditions over questions that share bytes, directly and through rules, and changes between pages."""
    asked = plan(rng, rng.choice((4, 6, 9)))
    facts = facts_for(asked, (1, 2, 3))
    rules = [statements.rule(rng, facts, number) for number in (1, 2, 3, rng.randrange(1, 4))]
    boxes = []
    for number in range(30, 30 + rng.choice((4, 8, 12))):
        guarded = rng.choice((p.suppressed, p.suppressed, p.grayed_out, p.disabled))
        boxes.append(guarded(expressions.condition(rng, facts), p.checkbox(number, rng.randrange(SIZE))))
    inner = rules + [statements.whole_question(rng, it, facts) for it in asked] + boxes
    if rng.random() < 0.3:
        rng.shuffle(inner)
    data = of_forms([p.varstore(1, SIZE)], [inner])
    facts = facts_of(data)
    lines = [line for _ in range(30) for line in (scripts.line_for(rng, facts), b"page")]
    return case_of(rng, data, lines + ["submit", "page"])


def many_rules(rng):
    """Rules of few ids in several forms, in guards and subtitles, and boxes between them whose guards name them."""
    facts, number = facts_for([Question(NUMERIC, it, 1, it, 1, 0, 9) for it in range(1, 4)], (1, 2)), 40
    forms = []
    for form in range(rng.choice((1, 2, 3))):
        inner = [p.numeric(it, it, 0x10, 1, 0, 9) for it in range(1, 4)] if form == 0 else []
        for _ in range(rng.choice((3, 6, 10))):
            new = statements.rule(rng, facts, rng.choice((1, 1, 2, 3)))
            if rng.random() < 0.4:
                number += 1
                new = rng.choice((p.suppressed, p.grayed_out))(p.rule_ref(rng.choice((1, 2))), p.checkbox(number, 0))
            inner.append(rng.choice((new, new, p.suppressed(p.rule_ref(1), new), scoped(p.subtitle(5), new))))
        forms.append(inner)
    data = of_forms([p.varstore(1, 8)], forms)
    lines = [line for _ in range(12) for line in (
        "set %d %d" % (rng.randrange(1, 4), rng.randrange(4)), "page", "why %d" % rng.randrange(41, number + 2))]
    return case_of(rng, data, lines)


def header(name):
    return "GUID=%s&NAME=%s&PATH=" % (p.VARSTORE_GUID.hex(), "".join("%04x" % byte for byte in name))


def many_fields(rng):
    """Many questions with fields across each other in stores of neighbouring ids, and texts over their bytes."""
    names, size = {1: b"V", 2: b"W", 3: b"X", 0xFFFF: b"Y"}, rng.choice((4, 12, 40))
    asked = plan(rng, rng.choice((8, 16, 30)), size, tuple(names))
    facts = facts_for(asked)
    inner = [statements.question(rng, it) if it.code not in (0x05, 0x23) else statements.whole_question(rng, it, facts)
             for it in asked]
    inner = [p.grayed_out(p.eq_id_val(1, 0), op) if rng.random() < 0.2 else op for op in inner]
    data = of_forms([p.varstore(number, size, name) for number, name in names.items()], [inner])
    lines = []
    for _ in range(40):
        it = rng.choice([it for it in asked if it.code in WITH_FIELD])
        at, width = (it.offset, it.width) if rng.random() < 0.8 else (rng.randrange(size + 1), rng.randrange(1, 5))
        block = "&OFFSET=%x&WIDTH=%x" % (at, max(width, 1))
        value = int.from_bytes(images.field_bytes(rng, it, facts), "little") % 256 ** max(width, 1)
        lines.append(rng.choice(("extract %s%s" % (header(names[it.store]), block),
                                 "route %s%s&VALUE=%x" % (header(names[it.store]), block, value))))
    return case_of(rng, data, lines + ["page", "submit", "page"] + ["extract " + header(name) for name in names.values()])


def many_passwords(rng):
    """Many passwords that lie across each other, and requests for single bytes and for runs of them."""
    size = rng.choice((8, 20, 60))
    asked, number = [], 0
    for number in range(1, rng.choice((3, 8, 20, 40))):
        most = rng.choice((0, 1, 1, 2, 3, size // 4))
        asked.append(p.password(number, rng.randrange(size - 2 * most + 1), 0, most, store=rng.choice((1, 1, 1, 2))))
    data = of_forms([p.varstore(1, size), p.varstore(2, size, b"W")], [asked])
    blocks = [(at, 1) for at in range(size)] + [(rng.randrange(size), rng.randrange(1, size + 1)) for _ in range(20)]
    lines = ["extract %s&OFFSET=%x&WIDTH=%x" % (header(rng.choice((b"V", b"W"))), at, width) for at, width in blocks]
    return case_of(rng, data, lines)


def many_texts(rng):
    """Prompts of ids at the ends of blocks, skipped ones, and ids past 65,535."""
    blocks, ids, number = [], {0, 1, 0xFFFF}, 1
    for _ in range(rng.choice((3, 6, 12))):
        if rng.random() < 0.3:
            count = rng.choice((0, 1, 2, 255, 256, 1000, 0xFFFE - number, 0xFFFF - number, 0xFFFF)) % 0x10000
            blocks.append(b"\x21" + u16(count) if count > 255 or rng.random() < 0.5 else bytes([0x22, count]))
        else:
            new, count = texts.block(rng, number)
            blocks.append(new)
        ids |= {it % 0x10000 for it in (number - 1, number, number + 1, number + count - 1, number + count)}
        number += count
    rows = b"".join(p.text_statement(it, rng.choice(sorted(ids))) for it in sorted(ids))
    body = b"".join(blocks)
    other = p.string_package("en-US", p.skip(rng.randrange(4)) + p.strings("one", "two", "three"))
    strings = [p.string_package("fr", body), other] if rng.random() < 0.5 else [other, p.string_package("fr", body)]
    data = p.package_list(b"".join(strings) + p.package(p.form_set() + p.form(1, 1) + rows + END + END) + END_PACKAGE)
    return case_of(rng, data, ["page", "lang fr", "page", "lang en", "page"])


SESSIONS = (
    (8, "conditions that are kept", kept_conditions),
    (4, "many rules", many_rules),
    (4, "many fields", many_fields),
    (3, "many passwords", many_passwords),
    (3, "many texts", many_texts),
)
