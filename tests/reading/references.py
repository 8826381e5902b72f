"""FORMATS.md, section 3, Ids, REF by its length and Rules: forms, questions, references and rules (pass 3)."""

from . import opcodes, operators
from .faults import refuse_least
from .little_endian import number

MOST_DEPTH = 16
MOST_WEIGHT = 4096


def leads_to(reference):
    """The id of the form to which a REF leads, None where it leads nowhere here."""
    data = reference.node.data
    if not 15 <= len(data) <= 32:
        return None
    return number(data, 13) or None


def check(form_set):
    """Tell the least fault of pass 3, and find what rules name."""
    measure_rules(form_set)
    refuse_least(faults(form_set))


def faults(form_set):
    found = [] if form_set.forms else [(4, 39)]
    earlier = set()
    for form in form_set.forms:
        if form.id in earlier:
            found.append((form.node.place, 32))
        earlier.add(form.id)
    earlier = set()
    for question in form_set.questions:
        if question.id != 0 and question.id in earlier:
            found.append((question.node.place, 33))
        earlier.add(question.id)
        form_id = leads_to(question) if question.kind == "REF" else None
        if form_id is not None and form_id not in form_set.forms_by_id:
            found.append((question.node.place, 39))
    for form in form_set.forms:
        found += [(rule.node.place, 40) for rule in form.rules
                  if rule.depth > MOST_DEPTH or rule.weight > MOST_WEIGHT]
    return found


def measure_rules(form_set):
    """Find which rule each RULE_REF names, and the depth and weight of each rule, by place."""
    for form in form_set.forms:
        for reference in references_below(form.node):
            form_set.named_rules[reference.place] = named_rule(form, reference)
        for rule in form.rules:
            expression = operators.sequence(rule.node.children[0])
            named = [form_set.named_rules[node.place] for node in expression if opcodes.name(node) == "RULE_REF"]
            named = [other for other in named if other is not None]
            rule.depth = 1 + max([other.depth for other in named], default=0)
            rule.weight = len(expression) + sum(other.weight for other in named)


def references_below(node):
    """The RULE_REFs below a node, by place."""
    found = []
    for child in node.children:
        if opcodes.name(child) == "RULE_REF":
            found.append(child)
        found += references_below(child)
    return found


def named_rule(form, reference):
    """The last rule of the form with the id of a RULE_REF that ends before it, None where there is none."""
    found = None
    for rule in form.rules:
        if rule.id == reference.data[2] and rule.node.end <= reference.place:
            found = rule
    return found
