"""FORMATS.md, section 3, Expressions: the operators and their order."""

from dataclasses import dataclass

from .little_endian import number

MOST_VALUES = 64


@dataclass(frozen=True)
class Operator:
    """A row of the table: the name, the least length in bytes, and the number of operands."""

    name: str
    least: int
    operands: int


OPERATORS = {
    0x12: Operator("EQ_ID_VAL", 6, 0),
    0x13: Operator("EQ_ID_ID", 6, 0),
    0x14: Operator("EQ_ID_VAL_LIST", 6, 0),
    0x15: Operator("AND", 2, 2),
    0x16: Operator("OR", 2, 2),
    0x17: Operator("NOT", 2, 1),
    0x2F: Operator("EQUAL", 2, 2),
    0x30: Operator("NOT_EQUAL", 2, 2),
    0x31: Operator("GREATER_THAN", 2, 2),
    0x32: Operator("GREATER_EQUAL", 2, 2),
    0x33: Operator("LESS_THAN", 2, 2),
    0x34: Operator("LESS_EQUAL", 2, 2),
    0x35: Operator("BITWISE_AND", 2, 2),
    0x36: Operator("BITWISE_OR", 2, 2),
    0x37: Operator("BITWISE_NOT", 2, 1),
    0x38: Operator("SHIFT_LEFT", 2, 2),
    0x39: Operator("SHIFT_RIGHT", 2, 2),
    0x3A: Operator("ADD", 2, 2),
    0x3B: Operator("SUBTRACT", 2, 2),
    0x3C: Operator("MULTIPLY", 2, 2),
    0x3D: Operator("DIVIDE", 2, 2),
    0x3E: Operator("MODULO", 2, 2),
    0x3F: Operator("RULE_REF", 3, 0),
    0x40: Operator("QUESTION_REF1", 4, 0),
    0x42: Operator("UINT8", 3, 0),
    0x43: Operator("UINT16", 4, 0),
    0x44: Operator("UINT32", 6, 0),
    0x45: Operator("UINT64", 10, 0),
    0x46: Operator("TRUE", 2, 0),
    0x47: Operator("FALSE", 2, 0),
    0x52: Operator("ZERO", 2, 0),
    0x53: Operator("ONE", 2, 0),
    0x54: Operator("ONES", 2, 0),
    0x55: Operator("UNDEFINED", 2, 0),
    0x58: Operator("THIS", 2, 0),
}


def least_length(node):
    """The least length of an operator in bytes. An EQ_ID_VAL_LIST has two more for each value."""
    row = OPERATORS[node.number]
    if row.name == "EQ_ID_VAL_LIST" and len(node.data) >= row.least:
        return row.least + 2 * number(node.data, 4)
    return row.least


def sequence(expression):
    """The opcodes of an expression in their order, which is postfix."""
    return [expression] + expression.children


def first_fault_of_order(nodes):
    """The first fault 30 or 31 of operators in postfix order, as a list of one pair of place and number or of none."""
    waiting = 0
    for node in nodes:
        operands = OPERATORS[node.number].operands
        if operands > waiting:
            return [(node.place, 30)]
        waiting += 1 - operands
        if waiting > MOST_VALUES:
            return [(node.place, 31)]
    return [(nodes[0].place, 30)] if waiting != 1 else []
