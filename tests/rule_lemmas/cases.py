"""A case as a definition and a lemma: what is given and what the run leaves, and that the rules give exactly this."""
import re

from rule_lemmas.images import image_lines, is_newer, stores_term
from rule_lemmas.lists import list_lines
from rule_lemmas.meaning import held, held_as_said
from rule_lemmas.said import quoted, said_lines
from rule_lemmas.terms import COLUMNS
from running import read

REFUSED = re.compile(r"REFUSED [0-9]+ (\w+) at ([0-9a-f]{8})\n")


class Given:
    """What a case gives and leaves: bytes, and the number and the language if they are given."""

    def __init__(self, case):
        self.name, self.script = case.name, case.script
        self.list, self.image = read(case.list), read(case.stores)
        _, self.answers, self.left = case.expected
        args = dict(zip(case.args[::2], case.args[1::2]))
        self.number, self.language = args.get("--forms"), args.get("--lang")

    def list_lines(self):
        return held(self.name, list_lines(self.list), self.list)

    def image_lines(self, image):
        return held(self.name, image_lines(image), image)

    def said_lines(self):
        return held_as_said(self.name, said_lines(self.script, self.answers), self.script, self.answers)

    def refusal(self):
        """The cause and the place by which the case is refused. None where it is run."""
        return None if self.left is not None else REFUSED.fullmatch(self.answers.decode()).groups()


def record(head, fields):
    """A record, each field a name and the lines of its term."""
    lines = [head + " {"]
    for name, term in fields:
        whole = ["  %s = %s" % (name, term[0])] + ["      " + line for line in term[1:]]
        lines += whole[:-1] + [whole[-1] + ";"]
    return lines + ["}"]


def definition(name, kind, base, fields):
    return ["abbrev pub %s : %s" % (name, kind)] + record("%s = record%s" % (name, base), fields)


def lemma(name, statement, proof):
    return ["%s-holds : %s %s" % (name, statement, name), "unfolding computing"] + proof


def run(given):
    """A case that is run."""
    optional = ([("number", [given.number])] if given.number else []) + ([("language", [quoted(given.language)])] if given.language else [])
    fields = [("list", given.list_lines()), *optional, ("image", given.image_lines(given.image)), ("said", given.said_lines()),
              ("left", given.image_lines(given.left))]
    form = "inl" if is_newer(given.image) else "inr"
    proof = [("stores", [stores_term(given.image)]),
             ("opened", ["record { sound = refl; spelled = record { form = %s refl; laid = refl } }" % form]),
             ("answers", ["refl"]), ("ended", ["refl"]), ("image", ["refl"])]
    return definition(given.name, "Case", " usual", fields), lemma(given.name, "Holds", record("%s-holds = record" % given.name, proof))


def refused(given, cause, place):
    """A case that is refused."""
    fields = [("list", given.list_lines()), ("number", [given.number or "1"]), ("image", given.image_lines(given.image)),
              ("line", [quoted(given.answers.decode())])]
    head = given.name + "-holds ="
    body = "refuses %s (record { cause = %s; place = 0x%x }) refl refl" % (given.name, cause, int(place, 16))
    proof = [head + " " + body] if len(head + body) < COLUMNS else [head, "    " + body]
    return definition(given.name, "Refusal", "", fields), lemma(given.name, "IsRefusal", proof)


def case_text(given):
    """The definition and the lemma of a case."""
    parts = refused(given, *given.refusal()) if given.refusal() else run(given)
    return "\n\n".join("\n".join(lines) for lines in parts)
