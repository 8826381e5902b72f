"""Whole lists that are accepted, written from nothing: form sets with stores, questions of all kinds, guards and texts."""
import packages as p
from packages import END, scoped
from fuzzing import statements, texts
from fuzzing.facts import Facts, Store
from fuzzing.structure import ACTION, DATE, DEVICE_PATH, END_KIND, FORMS, REF, STRINGS, TIME, WITH_FIELD, Packages, join_list

NAMES = (b"V", b"Setup", b"V", b"", b"v", b"V\xe9", b"Nv")
GUIDS = (p.VARSTORE_GUID, p.VARSTORE_GUID, bytes(range(0xA0, 0xB0)))
PATHS = (b"", b"\x7f\xff\4\0", bytes.fromhex("02010c00d041030a000000007fff0400"))


class Plan:
    """The stores, questions, rules and forms of a form set, before they are written."""

    def __init__(self, rng):
        self.rng, self.facts = rng, Facts()
        self.plan_stores()
        self.facts.forms = rng.sample((1, 2, 3, 4, 0x1000, 0xFFFF), rng.choice((1, 1, 2, 2, 3)))
        if rng.random() < 0.05:
            self.facts.forms[-1] = 0
        self.facts.rules = [rng.randrange(1, 6) for _ in range(rng.choice((0, 0, 1, 2, 3)))]
        self.plan_questions()
        for store in self.facts.held:
            ends = [it.offset + it.width for it in self.facts.questions if it.store == store.number and it.code in WITH_FIELD]
            store.size = max(ends, default=0) + rng.choice((0, 0, 0, 1, 2, 5))

    def plan_stores(self):
        rng = self.rng
        for number in rng.sample((1, 2, 3, 0x10, 0xFFFF), rng.choice((1, 1, 2, 2, 3))):
            self.facts.stores.append(Store(number, 0, rng.choice(GUIDS), rng.choice(NAMES), rng.random() < 0.85))

    def plan_questions(self):
        rng, count = self.rng, self.rng.choice((1, 2, 3, 4, 5, 6, 8, 10, 12))
        numbers = rng.sample(range(1, 40), count)
        for number in numbers:
            number = 0 if rng.random() < 0.08 else 0xFFFF if number == 39 else number
            self.facts.questions.append(self.planned(number))

    def planned(self, number):
        """A question with a store and an offset: behind the others, on one of them, or across some."""
        rng, facts = self.rng, self.facts
        code = rng.choice(statements.KINDS) if rng.random() < 0.85 else rng.choice((DATE, TIME, ACTION, REF, REF, REF))
        it = statements.planned(rng, code, number)
        it.store = rng.choice(facts.stores).number if rng.random() < 0.93 else 0
        if code == REF:
            it.most = rng.choice(facts.forms) if rng.random() < 0.95 else 0
        there = [other for other in facts.questions if other.store == it.store and other.code in WITH_FIELD]
        same = [other for other in there if other.width == it.width]
        if same and rng.random() < 0.2:
            it.offset = rng.choice(same).offset
        elif there and rng.random() < 0.1:
            it.offset = rng.randrange(max(other.offset + other.width for other in there) + 1)
        else:
            it.offset = max((other.offset + other.width for other in there), default=0) + rng.choice((0, 0, 0, 0, 1))
        return it


class Writer:
    """Writes the opcodes of a plan."""

    def __init__(self, rng):
        self.rng = rng
        self.facts = Plan(rng).facts
        self.left = list(self.facts.questions)
        self.rules = list(self.facts.rules)

    def form_set(self):
        rng = self.rng
        inner = [self.store(store) for store in self.facts.stores]
        inner += [p.default_store(statements.some_string(rng), rng.randrange(3)) for _ in range(rng.choice((0, 0, 1, 2)))]
        forms = [self.form(number, at == len(self.facts.forms) - 1) for at, number in enumerate(self.facts.forms)]
        if rng.random() < 0.25:
            at = rng.randrange(len(forms))
            forms[at:] = [statements.guard(rng, self.facts, forms[at:at + 1])] + forms[at + 1:]
        if rng.random() < 0.05:
            forms.insert(rng.randrange(len(forms) + 1), statements.LOCK)
        if rng.random() < 0.1:
            forms.insert(rng.randrange(len(forms) + 1), statements.ignored(rng))
        inner += forms
        if rng.random() < 0.05:
            rng.shuffle(inner)
        return p.form_set() + b"".join(inner) + END

    def store(self, store):
        if not store.has_bytes:
            return p.varstore_name_value(store.number)
        make = self.rng.choice((p.varstore, p.varstore, p.varstore_efi))
        op = make(store.number, store.size, store.name, store.guid)
        return op if self.rng.random() < 0.95 else statements.guard(self.rng, self.facts, [op])

    def form(self, number, is_last):
        """A form with some of the questions that are left, the last one with all of them."""
        rng = self.rng
        count = len(self.left) if is_last else rng.randrange(len(self.left) + 1)
        mine, self.left = self.left[:count], self.left[count:]
        return p.form(number, statements.some_string(rng)) + b"".join(self.run(mine, 0)) + END

    def run(self, mine, depth):
        """A run of statements, some of them in guards and subtitles."""
        rng, said = self.rng, []
        while mine:
            if depth < 4 and rng.random() < 0.25:
                count = rng.randrange(1, len(mine) + 1)
                inner, mine = self.run(mine[:count], depth + 1), mine[count:]
                said.append(self.around(inner))
            else:
                said.append(statements.whole_question(rng, mine[0], self.facts))
                mine = mine[1:]
            said += self.beside()
        return self.beside() + said

    def around(self, inner):
        if self.rng.random() < 0.2:
            return scoped(p.subtitle(statements.some_string(self.rng)), *inner)
        return statements.guard(self.rng, self.facts, inner)

    def beside(self):
        """What may stand beside questions."""
        rng, said = self.rng, []
        if self.rules and rng.random() < 0.5:
            said.append(statements.rule(rng, self.facts, self.rules.pop()))
        if rng.random() < 0.2:
            said.append(statements.plain(rng))
        if rng.random() < 0.03:
            said.append(statements.LOCK)
        if rng.random() < 0.05:
            said.append(statements.ignored(rng))
        return said


def generated(rng):
    """A list that is accepted, but for rare excesses."""
    whole = Packages()
    whole.packages = [(FORMS, Writer(rng).form_set())]
    if rng.random() < 0.1:
        whole.packages.insert(rng.randrange(2), (FORMS, Writer(rng).form_set()))
    for language in rng.sample(texts.LANGUAGES, rng.choice((0, 1, 1, 2, 2, 2, 3))):
        whole.packages.insert(rng.randrange(len(whole.packages) + 1), (STRINGS, texts.package(rng, language)))
    for path in rng.sample(PATHS, rng.choice((0, 0, 0, 1, 1, 2))):
        whole.packages.insert(rng.randrange(len(whole.packages) + 1), (DEVICE_PATH, path))
    if rng.random() < 0.1:
        whole.packages.insert(rng.randrange(len(whole.packages) + 1),
                              (rng.choice((0x01, 0x05, 0x07, 0xE0)), bytes(rng.randrange(6))))
    whole.packages.append((END_KIND, b""))
    whole.behind = bytes(rng.randrange(3)) if rng.random() < 0.1 else b""
    return join_list(whole)
