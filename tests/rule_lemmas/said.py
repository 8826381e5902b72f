"""What is said as a term: the lines of a script, each with its answers."""
import re

from rule_lemmas.terms import COLUMNS, in_call, joined

# Answers that go on from the one in front: questions that were changed, warnings, the rows of a page.
GOES_ON = re.compile(r"CHANGED |WARNING | *[0-9]+ [ *!] +([0-9]+|-) ")
ESCAPES = {"\n": "\\n", "\r": "\\r", "\t": "\\t", "\\": "\\\\", '"': '\\"', "\0": "\\0"}
# The header of a configuration text that names the store 1 of most cases. A line has `@` in its place.
HEADER = "GUID=" + "33" * 16 + "&NAME=0056&PATH="
# The parts of a line that is no text: a byte that comes 64 times or more, texts, any other byte.
RUN, TEXT, BYTE = re.compile(rb"(.)\1{63,}", re.DOTALL), re.compile(rb"(?:([ -~\n])(?!\1{63}))+"), re.compile(rb".", re.DOTALL)


def quoted(text):
    return '"%s"' % "".join(ESCAPES.get(c, c if c.isprintable() else "\\u{%x}" % ord(c)) for c in text)


def line_text(text):
    assert "@" not in text, text
    return quoted(text.replace(HEADER, "@"))


def parts_of(line):
    """The term of a line that is no text."""
    terms, at = [], 0
    while at < len(line):
        part = (RUN.match(line, at) or TEXT.match(line, at) or BYTE.match(line, at))[0]
        if RUN.match(part):
            terms.append("times %d (%s)" % (len(part), parts_of(part[:1])))
        else:
            terms.append("codes " + quoted(part.decode()) if TEXT.match(part) else 'hex "%s"' % part.hex())
        at += len(part)
    return " ++ ".join(terms)


def asked(line):
    """A line of a script with what ends it."""
    try:
        text = line.decode()
    except UnicodeDecodeError:
        text = ""
    return "asks " + line_text(text[:-1]) if text.endswith("\n") and not RUN.search(line) else "sends (%s)" % parts_of(line)


def talk(script, answers):
    """The lines of a script, each with its answers: one, and those that go on from it. An empty line has none."""
    left, said = answers.decode().split("\n")[:-1], []
    for line in re.findall(rb"[^\n]*\n|[^\n]+", script):
        count = 0 if line.rstrip(b"\n") in (b"", b"\r") else 1
        while 0 < count < len(left) and GOES_ON.match(left[count]):
            count += 1
        said.append((line, left[:count]))
        left = left[count:]
    assert not left, left
    return said


def exchange(line, answers):
    """A line and its answers, on one line where there is room."""
    items = [asked(line)] + ["tells " + line_text(answer) for answer in answers]
    whole = " ∷ ".join(items)
    return [whole] if len(whole) < COLUMNS - 10 else [items[0]] + ["∷ " + item for item in items[1:]]


def in_list(lines):
    return ["(" + lines[0]] + lines[1:] + ["∷ [])"]


def said_lines(script, answers):
    """The term of a script and its answers. What comes four times or more is written once."""
    said, terms, group = talk(script, answers), [], []
    while said:
        count = next((at for at in range(len(said)) if said[at] != said[0]), len(said))
        once = exchange(*said[0])
        if count < 4:
            for _ in range(count):
                group += ["∷ " + once[0]] + once[1:] if group else once
        else:
            terms += ([in_list(group)] if group else []) + [in_call("times %d" % count, once[:-1] + [once[-1] + " ∷ []"])]
            group = []
        said = said[count:]
    if not terms:
        return group + ["∷ []"] if group else ["[]"]
    return joined(terms + ([in_list(group)] if group else []))
