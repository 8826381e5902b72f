"""How a case is made: a list from a case that is known or from nothing, some mutations, an image and a script that suit it."""
from fuzzing import grammar, images, scripts, texts
from fuzzing.additions import ADDITIONS
from fuzzing.bytewise import BYTE_MUTATIONS, PACKAGE_MUTATIONS
from fuzzing.cases import Case
from fuzzing.facts import facts_of
from fuzzing.opcodewise import MOVES
from fuzzing.sessions import SESSIONS
from fuzzing.singles import SINGLE
from fuzzing.structure import FORMS, STRINGS, join_list, split_list, split_opcodes
from fuzzing.targets import TARGETS

LARGEST_LIST = 20000


def forms_body(whole, forms):
    """The number of the package that is opened, or None."""
    found = whole.of_kind(FORMS)
    return found[forms - 1] if 0 < forms <= len(found) else found[0] if found else None


def opcodes_of(case):
    whole = split_list(case.list)
    at = forms_body(whole, case.forms)
    return split_opcodes(whole.packages[at][1])[0] if at is not None else []


def with_opcodes(rng, case, name, change, other):
    """A mutation of the opcodes, all lengths mended."""
    whole = split_list(case.list)
    at = forms_body(whole, case.forms)
    if at is None:
        return case
    ops, rest = split_opcodes(whole.packages[at][1])
    body = b"".join(change(rng, ops, facts_of(case.list, case.forms), opcodes_of(other))) + rest
    whole.packages[at] = FORMS, body
    return case.after(name, list=join_list(whole)) if len(body) < 2 * LARGEST_LIST else case


def with_strings(rng, case, name, change):
    """A mutation of one string package, or a new one where there is none."""
    whole = split_list(case.list)
    found = whole.of_kind(STRINGS)
    if not found or rng.random() < 0.2:
        whole.packages.insert(0, (STRINGS, texts.package(rng)))
        found = [0]
    at = rng.choice(found)
    whole.packages[at] = STRINGS, change(rng, whole.packages[at][1])
    return case.after(name, list=join_list(whole))


def with_list(rng, case, name, change):
    """A mutation of the bytes of the list."""
    return case.after(name, list=change(rng, case.list))


def with_image(rng, case, name, change):
    return case.after(name, stores=change(rng, case.stores, facts_of(case.list, case.forms)))


def with_script(rng, case, name, change):
    lines = case.script.split(b"\n")
    last = lines.pop()
    lines = change(rng, lines, facts_of(case.list, case.forms))
    return case.after(name, script=b"".join(line + b"\n" for line in lines) + last)


def other_forms(rng, case, name, change):
    """Another forms package is opened."""
    return case.after(name, forms=rng.choice((1, 1, 2, 2, 3, 65535)))


def other_language(rng, case, name, change):
    known = [it.decode("ascii", "replace") for it in facts_of(case.list).languages] + ["en", "fr", "de-AT", "en_US", "é", "-x",
                                                                                       "x" * 70, "EN"]
    return case.after(name, language=rng.choice(known).replace("\0", "") or "en")


OPCODES = [(weight, name, with_opcodes, change) for weight, name, change in MOVES + ADDITIONS]
SCRIPTS = [(1, name, with_script, change) for name, change in scripts.SCRIPT_MUTATIONS]
IMAGES = [(1, name, with_image, change) for name, change in images.IMAGE_MUTATIONS]
TEXTS = [(1, name, with_strings, change) for name, change in texts.STRING_MUTATIONS]
BYTES = [(1, name, with_list, change) for name, change in BYTE_MUTATIONS]
PACKAGES = [(1, name, with_list, change) for name, change in PACKAGE_MUTATIONS]
AIMED = TARGETS + SINGLE + SESSIONS
ARGUMENTS = [(2, "another forms package", other_forms, None), (2, "another language of the run", other_language, None)]


def one(rng, case, table, other):
    """The case that one mutation of a table makes."""
    _, name, around, change = rng.choices(table, [row[0] for row in table])[0]
    made = around(rng, case, name, change, other) if around is with_opcodes else around(rng, case, name, change)
    return made if len(made.list) <= LARGEST_LIST or len(made.list) <= len(case.list) else case


def suited(rng, case):
    """The case with an image and a script for its list."""
    facts = facts_of(case.list, case.forms)
    if sum(it.size for it in facts.held) > LARGEST_LIST:
        return case
    return case.changed(stores=images.image_for(rng, facts), script=scripts.script_for(rng, facts))


def from_nothing(rng):
    case = Case(grammar.generated(rng), b"", b"", trail=("a generated list",))
    count = len(split_list(case.list).of_kind(FORMS))
    return suited(rng, case.changed(forms=rng.choice((1, count)), language=rng.choice(("en-US", "en-US", "fr", "de", "EN"))))


def from_known(rng, known):
    """A case of the pool, with its own image and script or with new ones."""
    name, case = rng.choice(known)
    case = case.changed(trail=("case " + name,))
    kind = rng.random()
    if kind < 0.6:
        return suited(rng, case)
    return case if kind < 0.8 else with_script(rng, case, "a new script", scripts.from_other_script)


def mutated_list(rng, case, known):
    """The list is changed a little; its image and its script are made anew, mostly."""
    steps = rng.choice((1, 1, 1, 1, 2, 2, 3))
    for _ in range(steps):
        case = one(rng, case, OPCODES, rng.choice(known)[1])
    return again(rng, case)


def again(rng, case):
    """The image is made again for the stores that there are now, mostly, and often the script as well."""
    if rng.random() < 0.5:
        return suited(rng, case)
    return case.changed(stores=images.image_again(case.stores, facts_of(case.list, case.forms))) if rng.random() < 0.8 else case


def make(rng, known):
    """One case. `known` are the cases to begin with, by name."""
    kind = rng.random()
    if kind < 0.15:
        _, name, change = rng.choices(AIMED, [row[0] for row in AIMED])[0]
        return change(rng).after(name)
    case = from_nothing(rng) if rng.random() < 0.5 else from_known(rng, known)
    if kind < 0.55:
        case = mutated_list(rng, case, known)
    elif kind < 0.58:
        case = one(rng, case, BYTES, None)
    elif kind < 0.63:
        case = again(rng, one(rng, case, TEXTS, None))
    elif kind < 0.67:
        case = one(rng, case, PACKAGES, None)
    elif kind < 0.71:
        case = one(rng, case, IMAGES, None)
    if rng.random() < 0.3:
        for _ in range(rng.choice((1, 1, 2, 4))):
            case = one(rng, case, SCRIPTS, None)
    if rng.random() < 0.05:
        case = one(rng, case, ARGUMENTS, None)
    return case
