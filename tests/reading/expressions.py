"""FORMATS.md, section 3, Expressions and Rules: the values of expressions over the stores."""

from . import opcodes, operators, questions
from .little_endian import number

BITS_64 = 2 ** 64


class Answers:
    """What conditions ask of the stores. Conditions and rules are evaluated once over the same stores."""

    def __init__(self, form_set, stores):
        self.form_set = form_set
        self.stores = stores
        self.held = {}
        self.rules = {}

    def answer(self, question_id):
        """The answer of the question of an id, None (undefined) where it has none."""
        return questions.answer(self.form_set.question(question_id), self.stores)

    def holds(self, node):
        """Whether the condition holds that is the first child of a node: true, or a number other than 0."""
        if node.place not in self.held:
            result = self.value(node.children[0])
            self.held[node.place] = isinstance(result, int) and result != 0
        return self.held[node.place]

    def rule(self, rule):
        """The value of a rule; None (undefined) where there is no rule."""
        if rule is None:
            return None
        if rule.node.place not in self.rules:
            self.rules[rule.node.place] = self.value(rule.node.children[0])
        return self.rules[rule.node.place]

    def value(self, expression):
        """The value: None for undefined, a bool, an int of 64 bits without sign, a tuple of units, or bytes."""
        this = self.question_around(expression)
        waiting = []
        for node in operators.sequence(expression):
            operands = operators.OPERATORS[node.number].operands
            behind = len(waiting) - operands
            waiting[behind:] = [self.operate(node, waiting[behind:], this)]
        return waiting[0]

    def question_around(self, node):
        """The question in whose scope a node stands, None where there is none or its id is 0, which has no answer."""
        for around in node.path():
            question = self.form_set.questions_by_place.get(around.place)
            if question is not None:
                return question if question.id != 0 else None
        return None

    def operate(self, node, operands, this):
        """The value of one operator."""
        kind, data = opcodes.name(node), node.data
        if kind in CONSTANTS:
            return CONSTANTS[kind]
        if kind.startswith("UINT"):
            return number(data, 2, int(kind[4:]) // 8)
        if kind == "RULE_REF":
            return self.rule(self.form_set.named_rules.get(node.place))
        if kind == "THIS":
            return questions.answer(this, self.stores)
        if kind == "QUESTION_REF1":
            return self.answer(number(data, 2))
        if kind.startswith("EQ_ID"):
            return self.compare_answers(kind, data)
        if kind in ("AND", "OR", "NOT"):
            return logic(kind, operands)
        if kind in ("EQUAL", "NOT_EQUAL"):
            return equality(kind, operands)
        return arithmetic(kind, operands)

    def compare_answers(self, kind, data):
        """EQ_ID_VAL, EQ_ID_ID and EQ_ID_VAL_LIST compare answers as numbers."""
        left = as_number(self.answer(number(data, 2)))
        if left is None:
            return None
        if kind == "EQ_ID_VAL":
            return left == number(data, 4)
        if kind == "EQ_ID_VAL_LIST":
            return left in [number(data, 6 + 2 * at) for at in range(number(data, 4))]
        right = as_number(self.answer(number(data, 4)))
        return None if right is None else left == right


CONSTANTS = {"TRUE": True, "FALSE": False, "ZERO": 0, "ONE": 1, "ONES": BITS_64 - 1, "UNDEFINED": None}


def as_number(value):
    """A Boolean counts as 0 or 1; None where a value is no number."""
    return int(value) if isinstance(value, int) else None


def logic(kind, operands):
    if not all(isinstance(operand, bool) for operand in operands):
        return None
    if kind == "NOT":
        return not operands[0]
    return all(operands) if kind == "AND" else any(operands)


def equality(kind, operands):
    """Two numbers, two texts or two buffers are equal or not."""
    left, right = operands
    numbers = isinstance(left, int) and isinstance(right, int)
    texts = isinstance(left, tuple) and isinstance(right, tuple)
    buffers = isinstance(left, bytes) and isinstance(right, bytes)
    if not (numbers or texts or buffers):
        return None
    return (left == right) == (kind == "EQUAL")


def arithmetic(kind, operands):
    """The operators that want numbers."""
    numbers = [as_number(operand) for operand in operands]
    if None in numbers:
        return None
    if kind == "BITWISE_NOT":
        return BITS_64 - 1 - numbers[0]
    left, right = numbers
    if kind in COMPARISONS:
        return COMPARISONS[kind](left, right)
    if kind in ("DIVIDE", "MODULO") and right == 0:
        return None
    if kind in ("SHIFT_LEFT", "SHIFT_RIGHT") and right >= 64:
        return 0
    return NUMBERS[kind](left, right) % BITS_64


COMPARISONS = {
    "GREATER_THAN": lambda left, right: left > right,
    "GREATER_EQUAL": lambda left, right: left >= right,
    "LESS_THAN": lambda left, right: left < right,
    "LESS_EQUAL": lambda left, right: left <= right,
}
NUMBERS = {
    "BITWISE_AND": lambda left, right: left & right,
    "BITWISE_OR": lambda left, right: left | right,
    "SHIFT_LEFT": lambda left, right: left << right,
    "SHIFT_RIGHT": lambda left, right: left >> right,
    "ADD": lambda left, right: left + right,
    "SUBTRACT": lambda left, right: left - right,
    "MULTIPLY": lambda left, right: left * right,
    "DIVIDE": lambda left, right: left // right,
    "MODULO": lambda left, right: left % right,
}
