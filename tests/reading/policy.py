"""PROFILE.md, What is seen, and what may be changed."""

from . import opcodes, questions, references
from .expressions import Answers
from .little_endian import number
from .questions import Denied
from .stores import with_field


class Policy:
    """What is hidden, locked and fixed over the stores of a moment. Removed are the places of DISABLE_IFs."""

    def __init__(self, form_set, removed, stores):
        self.form_set = form_set
        self.removed = removed
        self.stores = stores
        self.answers = Answers(form_set, stores)

    def hidden(self, node):
        """The denial of a statement, an option or a form that is hidden, by the outermost such guard; else None."""
        for around in node.path():
            kind = opcodes.name(around)
            if kind == "SUPPRESS_IF" and self.answers.holds(around):
                return Denied("suppressif", around.place)
            if kind == "DISABLE_IF" and around.place in self.removed:
                return Denied("disableif", around.place)
        return None

    def grayed_out(self, node):
        for around in node.path():
            if opcodes.name(around) == "GRAY_OUT_IF" and self.answers.holds(around):
                return Denied("grayoutif", around.place)
        return None

    def locked(self, node):
        """The LOCKED in the outermost scope decides, then the first by place."""
        for around in node.path():
            if around.place in self.form_set.locks:
                return Denied("locked", self.form_set.locks[around.place].place)
        return None

    def fixed(self, statement):
        """The denial of a statement that may not be changed, None where it may."""
        denied = self.fixed_option(statement)
        if denied is None and statement.is_question() and statement.flags & questions.READ_ONLY:
            denied = Denied("readonly", statement.node.place)
        if denied is None and statement.is_question() and is_outside(statement):
            denied = Denied("outside", statement.node.place)
        return denied

    def fixed_option(self, option):
        """The denial of an option that may not be chosen, None where it may. Of a statement, its first three reasons."""
        return self.hidden(option.node) or self.grayed_out(option.node) or self.locked(option.node)

    def change(self, question, offer):
        """The stores with what is offered in the field of a question. Denied as a `set` is."""
        denied = self.fixed(question)
        if denied:
            raise denied
        held = questions.taken(question, offer)
        self.ask_options(question, held)
        changed = with_field(self.stores, question.field, held)
        self.ask_inconsistent(question, changed)
        return changed

    def ask_options(self, question, held):
        """Each value that is chosen needs an option that is not fixed; else the first of the value by place denies."""
        for value in questions.values_of(question, held):
            denials = [self.fixed_option(option) for option in question.options if option.value == value]
            if all(denials):
                raise denials[0]

    def ask_inconsistent(self, question, changed):
        answers = Answers(self.form_set, changed)
        for node in question.children("INCONSISTENT_IF"):
            if answers.holds(node):
                raise Denied("inconsistentif", node.place, text_id(node))

    def warnings(self, question):
        """The WARNING_IFs of a question that hold, by place."""
        return [node for node in question.children("WARNING_IF") if self.answers.holds(node)]

    def ask_submission(self):
        """Denied by the first NO_SUBMIT_IF by place that holds, but for a removed DISABLE_IF on its path."""
        for question in self.form_set.questions:
            if any(around.place in self.removed for around in question.node.path()):
                continue
            for node in question.children("NO_SUBMIT_IF"):
                if self.answers.holds(node):
                    raise Denied("nosubmitif", node.place, text_id(node))


def text_id(node):
    """The string id of the text of an INCONSISTENT_IF, NO_SUBMIT_IF or WARNING_IF."""
    return number(node.data, 2)


def is_outside(question):
    """Whether a question is shown and never changed, since its value or its form is not here."""
    if question.kind == "REF":
        return references.leads_to(question) is None
    return question.field is None


def removed(form_set, stores):
    """The places of the DISABLE_IFs whose conditions hold over the stores."""
    answers = Answers(form_set, stores)
    return {node.place for node in disable_ifs(form_set.node) if answers.holds(node)}


def disable_ifs(node):
    found = []
    for child in node.children:
        if opcodes.name(child) == "DISABLE_IF":
            found.append(child)
        found += disable_ifs(child)
    return found
