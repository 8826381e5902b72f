"""Which of some lines of the reading a case executes: a wrong reading whose lines are not executed cannot be seen."""
import ast
import sys

FUNCTIONS = (ast.FunctionDef, ast.Lambda)


def contains(node, line):
    return node.lineno <= line <= node.end_lineno


def lines_of(text, old):
    """The lines of the statement or lambda in which a text begins, up to its end; None where it stands in no function."""
    first = text[:text.index(old) + len(old) - len(old.lstrip())].count("\n") + 1
    last = first + old.strip().count("\n")
    around = [node for node in ast.walk(ast.parse(text)) if isinstance(node, FUNCTIONS) and contains(node, first)]
    if not around:
        return None
    inner = max(around, key=lambda node: node.lineno)
    if isinstance(inner, ast.FunctionDef):
        inner = max((it for it in ast.walk(inner) if isinstance(it, ast.stmt) and contains(it, first)), key=lambda it: it.lineno)
    return range(inner.lineno, last + 1)


class Watch:
    """Watches lines of files while something is called."""

    def __init__(self, watched):
        """`watched` are pairs of a path and lines."""
        self.lines, self.known, self.met = {}, {}, set()
        for path, lines in watched:
            self.lines.setdefault(path, set()).update(lines)

    def on_call(self, frame, event, arg):
        code = frame.f_code
        if code not in self.known:
            wanted = self.lines.get(code.co_filename, ())
            self.known[code] = any(line in wanted for _, _, line in code.co_lines())
        return self.on_line if self.known[code] else None

    def on_line(self, frame, event, arg):
        self.met.add((frame.f_code.co_filename, frame.f_lineno))
        return self.on_line

    def over(self, call, *arguments):
        """What a call gives, and the lines that it met."""
        self.met = set()
        sys.settrace(self.on_call)
        try:
            return call(*arguments), self.met
        finally:
            sys.settrace(None)
