"""What a term means, so that each is held against the bytes for which it stands."""
import re

from rule_lemmas.lists import END_PACKAGE, FORMS
from rule_lemmas.said import ESCAPES, HEADER

TOKEN = re.compile(r'\s*(?:--[^\n]*\n\s*)*("(?:[^"\\]|\\.)*"|[()∷]|\+\+|\[\]|\w+)')
ESCAPED = re.compile(r"\\u\{([0-9a-f]+)\}|\\.")
PLAIN = {shown: plain for plain, shown in ESCAPES.items()}


def text_in(token):
    return ESCAPED.sub(lambda found: chr(int(found[1], 16)) if found[1] else PLAIN[found[0]], token[1:-1])


def packed(kind, body):
    return (len(body) + 4).to_bytes(3, "little") + bytes([kind]) + body


def package_list(packages):
    return b"\x11" * 16 + (len(packages) + 24).to_bytes(4, "little") + packages + packed(END_PACKAGE, b"")


def forms_list(opcodes):
    return package_list(packed(FORMS, opcodes))


def opening(size):
    return bytes.fromhex("0e97 %s 0100 0000 00 2418 %s 0100" % ("22" * 16, "33" * 16)) + size.to_bytes(2, "little") \
        + bytes.fromhex("5600 0186 0100 0200")


def line_of(text):
    return text.replace("@", HEADER).encode() + b"\n"


# The words of a term, each with the number of its operands. What is said has the bytes of the script and those of the answers.
WORDS = {
    "hex": (1, bytes.fromhex), "hexes": (1, lambda texts: b"".join(map(bytes.fromhex, texts))), "codes": (1, str.encode),
    "times": (2, lambda count, what: what * count), "packed": (2, packed), "package_list": (1, package_list), "forms_list": (1, forms_list),
    "opening": (1, opening), "asks": (1, lambda text: (line_of(text), b"")), "tells": (1, lambda text: (b"", line_of(text))),
    "sends": (1, lambda data: (data, b"")),
}


class Reader:
    """Reads a term from the text of its lines."""

    def __init__(self, lines):
        self.tokens = TOKEN.findall("\n".join(lines) + "\n")[::-1]

    def term(self):
        """Calls with `++` or `∷` between them, which take what is behind them first."""
        first = self.call()
        if not self.tokens or self.tokens[-1] == ")":
            return first
        sign, rest = self.tokens.pop(), self.term()
        return [first] + (rest or []) if sign == "∷" else first + (rest or first[:0])

    def call(self):
        token = self.tokens.pop()
        if token == "(":
            inner = self.term()
            self.tokens.pop()
            return inner
        if token == "[]":
            return b""
        if token[0] == '"' or token.isdigit():
            return text_in(token) if token[0] == '"' else int(token)
        count, means = WORDS[token]
        return means(*[self.call() for _ in range(count)])


def meaning(lines):
    return Reader(lines).term()


def held(name, lines, wanted):
    """The lines of a term, which is to mean these bytes."""
    assert meaning(lines) == wanted, name
    return lines


def held_as_said(name, lines, script, answers):
    """The lines of what is said, which is to mean this script and these answers."""
    said = meaning(lines) or []
    assert (b"".join(part for part, _ in said), b"".join(part for _, part in said)) == (script, answers), name
    return lines
