"""PROFILE.md, State and Commands: a session, and what each command answers."""

from . import configuration, defaults, pages, questions, references
from .little_endian import number
from .policy import Policy, removed, text_id
from .questions import Denied
from .stores import read_field

MOST_HISTORY = 32


class Session:
    """The committed and the working stores, the current form, the history, and the texts that are shown."""

    def __init__(self, form_set, device_path, texts, stores):
        self.form_set = form_set
        self.device_path = device_path
        self.texts = texts
        self.committed = stores
        self.current = form_set.forms[0]
        self.history = []
        self.removed = removed(form_set, stores)
        self.work_on(stores)

    def work_on(self, stores):
        """Make these the working stores, over which conditions are evaluated."""
        self.policy = Policy(self.form_set, self.removed, stores)

    def run(self, command):
        """The lines of the answer to a command. Where it is denied or refused, all stays as before."""
        return COMMANDS[command.name](self, command)

    def question(self, question_id):
        question = self.form_set.question(question_id)
        if question is None:
            raise Denied("noquestion")
        return question


def page(session, _command):
    return pages.page(session.current, session.policy, session.texts)


def change(session, command):
    """`set`, `order` and `text`."""
    question = session.question(command.number)
    session.work_on(session.policy.change(question, command.offer))
    warnings = session.policy.warnings(question)
    return ["OK"] + [f"WARNING at {node.place:08x} {session.texts.shown(text_id(node))}" for node in warnings]


def go(session, command):
    question = session.question(command.number)
    if question.kind != "REF":
        raise Denied("notref", question.node.place)
    denied = session.policy.fixed(question)
    if denied is None:
        form = session.form_set.forms_by_id[references.leads_to(question)]
        denied = session.policy.hidden(form.node)
    if denied is None and len(session.history) == MOST_HISTORY:
        denied = Denied("deephistory")
    if denied:
        raise denied
    session.history.append(session.current)
    session.current = form
    return ["OK"]


def back(session, _command):
    if not session.history:
        raise Denied("noback")
    session.current = session.history.pop()
    return ["OK"]


def press(session, command):
    rows = pages.rows(session.current, session.policy)
    if not 1 <= command.number <= len(rows):
        raise Denied("norow")
    button = rows[command.number - 1]
    if button.kind != "RESET_BUTTON":
        raise Denied("notbutton", button.node.place)
    denied = session.policy.fixed(button)
    if denied:
        raise denied
    return set_defaults(session, number(button.node.data, 6))


def defaults_of_class(session, command):
    return set_defaults(session, command.number)


def set_defaults(session, class_id):
    """Set each question of the current form that has a default of the class; what is denied is passed over."""
    count = 0
    for question in session.current.statements:
        if not question.is_question():
            continue
        offer = defaults.default(question, class_id, session.policy.answers, session.texts)
        if offer is None:
            continue
        try:
            session.work_on(session.policy.change(question, offer))
        except Denied:
            continue
        count += 1
    return [f"OK {count}"]


def extract(session, command):
    response = configuration.extract(session.form_set, session.device_path, session.committed, command.word)
    return ["CONFIG " + response.decode("ascii")]


def route(session, command):
    text = configuration.read(command.word, True)
    store = configuration.named_store(session.form_set, session.device_path, text)
    policy = session.policy
    for block in text.blocks:
        question = configuration.named_question(session.form_set, store, block, policy)
        if question.kind == "PASSWORD":
            raise Denied("password", question.node.place)
        changed = policy.change(question, questions.offer_of_field(question, block.value))
        policy = Policy(session.form_set, session.removed, changed)
    session.policy = policy
    return [f"OK {len(text.blocks)}"]


def why(session, command):
    denied = session.policy.fixed(session.question(command.number))
    if denied:
        raise denied
    return ["OK"]


def submit(session, _command):
    session.policy.ask_submission()
    working = session.policy.stores
    changed = [question.id for question in session.form_set.questions if question.field is not None
               and read_field(working, question.field) != read_field(session.committed, question.field)]
    session.committed = working
    return [f"OK {len(changed)}"] + [f"CHANGED {question_id}" for question_id in changed]


def discard(session, _command):
    session.work_on(session.committed)
    return ["OK"]


def lang(session, command):
    session.texts.choose(command.word)
    return ["OK"]


COMMANDS = {
    "page": page, "set": change, "order": change, "text": change, "go": go, "back": back, "press": press,
    "defaults": defaults_of_class, "extract": extract, "route": route, "why": why, "submit": submit,
    "discard": discard, "lang": lang,
}
