"""Scripts: lines that name what a list has, and lines that are none."""
from fuzzing.configuration_texts import text_for
from fuzzing.structure import BOX, LISTED, NUMERIC, ONE_OF, PASSWORD, REF, STRING
from fuzzing.values import WIDE, WORDS, value_for

TEXTS = (
    b"", b"a", b"ab", b"abc", b" x", b"two words", b"x ", b"\t", b"a\rb", b"\0", b"a\0b", b"x" * 30, b"x" * 31, "é".encode(),
    "中文".encode(), "\uffff".encode(), "\U00010000".encode(), "a\U0001F600".encode(), "\ufeffa".encode(), "\x7f".encode(),
    "\u0301".encode(), b"\xff", b"\xc3", b"\xc0\x80", b"\xed\xa0\x80", b"\xe4\xb8", b"\xe0\x80\x80", b"\xf4\x90\x80\x80",
)
NUMBERS = (
    b"+1", b"0X1", b"-0x1", b"0x", b"-", b"", b"-0", b"--1", b"1,2", b"1 ", b" 1", b"1\r", b"0x1g", b"0x0123456789abcdefF",
    b"0xfffffffffffffffF", b"18446744073709551615", b"18446744073709551616", b"-18446744073709551615", b"-18446744073709551616",
    b"00000000000000000001", b"000000000000000000001", b"0x00000000000000001",
)
LISTS = (
    b"1,", b",1", b"1,,2", b"-1", b"0x1", b"1, 2", b"01,1", b"", b" ", b"18446744073709551615", b"18446744073709551616",
    b"000000000000000000001", b"00000000000000000001",
)
# Lines that are no commands, or that are just so.
JUNK = tuple(b"set 1 " + it for it in NUMBERS) + tuple(b"order 1 " + it for it in LISTS) + (
    b" ", b"\r", b"\r\r", b"pages", b"PAGE", b"page ", b" page", b"page\t", b"page\r\r", b"page\0", b"\xef\xbb\xbfpage",
    b"back ", b"back x", b"submit ", b"discard x",
    b"set", b"set 1", b"set  1 1", b"set 00001 0", b"set 000001 0", b"set 65536 0", b"set x 1", b"set 0x1 1", b"set -1 0",
    b"set 0 0",
    b"order", b"order ", b"order 1", b"text", b"text ", b"text x", b"text  1", b"text 1", b"text 1 ", b"text 1 x\r",
    b"go", b"go 1 ", b"go 1 1", b"go -1", b"go 0", b"why", b"why 1 1", b"why 0",
    b"press", b"press -1", b"press x", b"press 1234567890", b"press 123456789", b"press 000000001",
    b"defaults", b"defaults x", b"defaults 65536", b"defaults 123456",
    b"lang", b"lang ", b"lang -", b"lang en-", b"lang a_b", b"lang a b", b"lang \xc3\xa9", b"lang " + b"x" * 63, b"lang "
    + b"x" * 64,
    b"extract", b"extract ", b"extract a b", b"extract  x", b"extract x ", b"route", b"route ", b"route x", b"route \xff",
)


def shown_number(rng, value):
    """A number as a script may write it."""
    if value < 0:
        return "%d" % value
    return rng.choice(("%d", "%d", "%d", "0x%x", "0x%X", "%02d", "0x%04x")) % value


def question_id(rng, questions, facts):
    """The id of one of these questions, at times of another, at times with zeros in front."""
    kind = rng.random()
    if questions and kind < 0.85:
        number = rng.choice(questions).number
    elif facts.questions and kind < 0.95:
        number = rng.choice(facts.questions).number
    else:
        number = rng.choice(WORDS)
    return "%0*d" % (rng.choice((1, 1, 1, 1, 3, 5)), number)


def picked(rng, facts, *codes):
    """A question of these kinds, or None."""
    questions = facts.of_code(*codes) if rng.random() < 0.9 else facts.questions
    return rng.choice(questions) if questions else None


def set_line(rng, facts):
    it = picked(rng, facts, BOX, NUMERIC, ONE_OF)
    if it is None or rng.random() < 0.03:
        return "set %s %s" % (question_id(rng, [], facts), shown_number(rng, rng.choice(WIDE)))
    value = value_for(rng, it)
    return "set %d %s" % (it.number, shown_number(rng, max(min(value, 2**64 - 1), 1 - 2**64)))


def order_line(rng, facts):
    it = picked(rng, facts, LISTED)
    if it is None:
        return "order %s 1,2" % question_id(rng, [], facts)
    values = list(it.values)
    rng.shuffle(values)
    values = values[:rng.randrange(min(it.most, len(values)) + 2)]
    if rng.random() < 0.25:
        values.insert(rng.randrange(len(values) + 1), rng.choice((rng.choice(values or [0]), 0, rng.choice(WIDE))))
    said = ",".join(rng.choice(("%d", "%d", "%02d")) % value for value in values)
    return "order %d" % it.number + (" " + said if said else "")


def text_line(rng, facts):
    it = picked(rng, facts, STRING, PASSWORD)
    number = it.number if it else 1
    repeated = rng.choice((b"a", "é".encode(), "中".encode())) * rng.randrange((it.most if it else 3) % 40 + 2)
    text = rng.choice(TEXTS) if rng.random() < 0.6 else repeated
    return b"text %d" % number + (b" " + text if text or rng.random() < 0.5 else b"")


def go_line(rng, facts):
    return "go " + question_id(rng, facts.of_code(REF), facts)


def why_line(rng, facts):
    return "why " + question_id(rng, facts.questions, facts)


def press_line(rng, facts):
    most = max(facts.rows.values(), default=1)
    return "press %s" % rng.choice((rng.randrange(most + 2), rng.randrange(most + 2), rng.randrange(most + 2), 0, 999999999, "01",
                                    "000000001"))


def defaults_line(rng, facts):
    return "defaults %d" % rng.choice(facts.classes + [0, 0, 1, 1, 2, 0xFFFF])


def lang_line(rng, facts):
    known = [it.decode("ascii", "replace") for it in facts.languages] or ["en"]
    language = rng.choice(known + ["en", "fr", "de-AT", "EN-us", "FR", "x", "zz", "-", "-en"])
    return "lang " + rng.choice((language, language, language.upper(), language.split("-")[0] or "en", language + "-x"))


def extract_line(rng, facts):
    return "extract " + text_for(rng, facts, "extract")


def route_line(rng, facts):
    return "route " + text_for(rng, facts, "route")


def junk_line(rng, facts):
    """A line that is none, or that is one just so, with the id of a question in place of 1."""
    line = rng.choice(JUNK)
    if facts.questions and rng.random() < 0.5:
        line = line.replace(b" 1", b" %d" % rng.choice(facts.numbers), 1)
    return line


LINES = (
    (10, lambda rng, facts: "page"), (22, set_line), (8, order_line), (8, text_line), (9, go_line),
    (5, lambda rng, facts: "back"),
    (8, why_line), (6, press_line), (6, defaults_line), (3, lang_line), (7, extract_line), (12, route_line),
    (7, lambda rng, facts: "submit"), (3, lambda rng, facts: "discard"), (6, junk_line), (1, lambda rng, facts: ""),
)
WEIGHTS = [weight for weight, _ in LINES]


def line_for(rng, facts):
    """A line as bytes, without its LF."""
    make = rng.choices(LINES, WEIGHTS)[0][1]
    line = make(rng, facts)
    line = line.encode() if isinstance(line, str) else line
    return line + b"\r" if rng.random() < 0.02 else line


def script_for(rng, facts):
    """A script of some lines, which mostly begins with a page and shows at its end what was changed."""
    lines = [line_for(rng, facts) for _ in range(rng.choice((3, 8, 15, 25, 40)))]
    first, last = [b"page"] if rng.random() < 0.8 else [], [b"page", b"submit", b"page"] if rng.random() < 0.8 else []
    return b"".join(line + b"\n" for line in first + lines + last)


# Mutations of a script. Each takes and gives lines without their LF.

def one_more_line(rng, lines, facts):
    at = rng.randrange(len(lines) + 1)
    return lines[:at] + [line_for(rng, facts) for _ in range(rng.choice((1, 1, 3)))] + lines[at:]


def repeated_lines(rng, lines, facts):
    if not lines:
        return lines
    at = rng.randrange(len(lines))
    count = rng.randrange(1, 4)
    return lines[:at] + lines[at:at + count] * rng.choice((2, 2, 3, 5)) + lines[at + count:]


def swapped_lines(rng, lines, facts):
    return rng.sample(lines, len(lines)) if rng.random() < 0.3 else lines[1:] + lines[:1]


def cut_lines(rng, lines, facts):
    at = rng.randrange(len(lines) + 1)
    return lines[:at] + lines[at + rng.randrange(1, 4):]


def other_byte(rng, lines, facts):
    """A byte of a line is another, or gone, or there twice."""
    if not lines:
        return lines
    at = rng.randrange(len(lines))
    line = lines[at]
    if not line:
        return lines
    place = rng.randrange(len(line))
    new = rng.choice((bytes([rng.randrange(256)]), b"", line[place:place + 1] * 2, b" ", b"\r", b"0", b"9", b"-", b","))
    return lines[:at] + [line[:place] + new.replace(b"\n", b"") + line[place + 1:]] + lines[at + 1:]


def other_number(rng, lines, facts):
    """A word of digits is another number."""
    at = rng.randrange(len(lines)) if lines else 0
    words = lines[at].split(b" ") if lines else []
    numbers = [number for number, word in enumerate(words) if word.isdigit()]
    if not numbers:
        return lines
    words[rng.choice(numbers)] = b"%d" % rng.choice(WIDE + tuple(facts.numbers))
    return lines[:at] + [b" ".join(words)] + lines[at + 1:]


def carriage_returns(rng, lines, facts):
    return [line + b"\r" if rng.random() < 0.7 else line for line in lines]


def empty_lines(rng, lines, facts):
    return [part for line in lines for part in ([b""] * rng.randrange(3) + [line])]


def long_line(rng, lines, facts):
    """A line near the greatest length: a text, a list, a value of a configuration text, or no command."""
    length = rng.choice((4095, 4096, 4096, 4097, 4097, 4098, 8200))
    it = rng.choice(facts.numbers) if facts.numbers else 1
    start = rng.choice((b"text %d " % it, b"order %d 1" % it, b"set %d 0" % it, b"route GUID=", b"lang ", b"", b"page",
                        b"extract " + b"0" * 20))
    if rng.random() < 0.3:
        start = b"route " + text_for(rng, facts, "route").encode()
    fill = b",1" if start.startswith(b"order") else rng.choice((b"0", b"x", b"\xc3\xa9"))
    line = (start + fill * length)[:length]
    if rng.random() < 0.2:
        line = line[:-1] + b"\r"
    at = rng.randrange(len(lines) + 1)
    return lines[:at] + [line] + lines[at:]


def deep_history(rng, lines, facts):
    """A reference is followed more often than the history has room."""
    refs = facts.of_code(REF)
    if not refs:
        return lines
    steps = [b"go %d" % rng.choice(refs).number if rng.random() < 0.95 else b"back"
             for _ in range(rng.choice((31, 32, 33, 40, 60)))]
    backs = [b"back"] * rng.choice((0, 1, 5, 32, 33, 40))
    at = rng.randrange(len(lines) + 1)
    return lines[:at] + steps + [b"page"] + backs + [b"page"] + lines[at:]


def from_other_script(rng, lines, facts):
    """A new script for the list."""
    return script_for(rng, facts).split(b"\n")


def full_walk(rng, lines, facts):
    """Each question is asked for, and each form with a reference looked at."""
    asked = [b"why %d" % number for number in facts.numbers]
    pages = [line for it in facts.of_code(REF) for line in (b"go %d" % it.number, b"page", b"back")]
    return lines + asked + pages


SCRIPT_MUTATIONS = (
    ("one more line", one_more_line),
    ("repeated lines", repeated_lines),
    ("swapped lines", swapped_lines),
    ("cut lines", cut_lines),
    ("another byte in a line", other_byte),
    ("another number in a line", other_number),
    ("lines with CR", carriage_returns),
    ("empty lines", empty_lines),
    ("a long line", long_line),
    ("a deep history", deep_history),
    ("a new script", from_other_script),
    ("a walk over all questions", full_walk),
)
