"""Lists and scripts of which two parts grow at once, for bench/hostile.

A part has a limit, which it reaches at N = 8,000: elements of a list, guards around a statement, blocks of a line, operators of a rule and
bytes of a field have that of the rules, and the others one by which a run takes about a second. What is counted is what a script takes
beyond what one without its last lines takes, or what opening takes beyond that of a list of one checkbox.
"""
from collections import namedtuple

from packages import *

# What a product is made of (string packages, opcodes, stores), what is run before the lines that are counted, these, and how the answers end. Where one part is gone through
# for each of the other, `steps` tells how often: what is counted may then grow as they do.
Product = namedtuple("Product", "texts opcodes held before lines ends steps")
# What makes a product of its parts, and how many instructions each of its steps takes at most; or of an audit, by the command, each step or
# each byte that is given or told: where rows tell of each guard around them, what is told grows as rows x guards, and what is counted may
# then grow as it does.
Made = namedtuple("Made", "make each")
BYTE, STEP = "byte given or told", "step"
# What is run by setup, and over what the commands of the second program go.
PRODUCTS, AUDITED = {}, {}

WIDE, ELEMENTS, GIVEN, GUARDS, BLOCKS, DOUBLED = 64000, 255, 122, 60, 150, 1024
# As many steps as guards that are asked take the rest of a line, and the rest of what an audit tells of a question or an option.
LINE, REST = 20, 10
NOT, EQUAL, OR = operator(0x17), operator(0x2F), operator(0x16)
HEADER = b"route GUID=%s&NAME=0056&PATH=" % VARSTORE_GUID.hex().encode()


def product(name, each=None, among=PRODUCTS):
    """Keeps what makes a product, given what tells how many of a part there are, by the most of them."""
    def kept(make):
        among[name] = Made(make, each)
        return make
    return kept


def of_lines(opcodes, held, lines, ends=b"OK\n", before=b"", texts=b"", steps=None):
    return Product(texts, opcodes, [(1, held)], before, lines, ends, steps)


def of_opening(opcodes, held, steps=None):
    return Product(b"", opcodes, [(1, held)], None, b"", b"", steps)


def over(held, *parts):
    """A form over a store of so many bytes."""
    return base(held) + b"".join(parts) + END + END


def nested(count, inner, innermost=eq_id_val(1, 77), outermost=None):
    """What stands in so many guards."""
    conditions = [outermost or innermost] + [innermost] * (count - 1)
    return b"".join(suppress_if() + each for each in conditions) + inner + END * count


def no_submit(condition):
    return scoped(opcode(0x10, u16(0)), condition)


# ---- texts

def conditions_on_a_text(part, count, letter, *others):
    """Conditions that name a wide text, which holds a letter again and again, and other questions beside it."""
    width = part(WIDE // 2) * 2
    guards = suppressed(eq_id_val(1, 7), subtitle(0)) * part(count)
    return over(width + 1, password(1, 0, 0, width // 2), checkbox(2, width), *others, guards), letter * (width // 2) + b"\0"


@product("open: conditions x a wide text")
def _(part):
    return of_opening(*conditions_on_a_text(part, 4000, b"a\0"))


# Each byte is compared: at the speed at which memory is compared.
@product("open: conditions that compare texts x wide texts", 4)
def _(part):
    units, count = part(WIDE // 4), part(4000)
    both = password(1, 0, 0, units), password(2, 2 * units, 0, units)
    equal = expression(question_ref(1), question_ref(2), EQUAL)
    opcodes = over(4 * units, *both, suppressed(equal, subtitle(0)) * count)
    return of_opening(opcodes, (b"a\0" * (units - 1) + b"b\0") * 2, 2 * units * count)


@product("discard: conditions x a wide text")
def _(part):
    return of_lines(*conditions_on_a_text(part, 4000, b"\0\0"), b"discard\n", before=b"set 2 1\n")


@product("page: PASSWORDs x a wide field")
def _(part):
    units = part(WIDE // 2)
    return of_lines(over(2 * units, password(0, 0, 0, units) * part(4000)), b"a\0" * units, b"page\n", b"[****]\n")


@product("submit: PASSWORDs x a wide field")
def _(part):
    units = part(WIDE // 2)
    return of_lines(over(2 * units, password(0, 0, 0, units) * part(16000)), b"a\0" * units, b"submit\n", b"OK 0\n")


# ---- rules

def with_a_rule(part, *parts):
    """Over a rule that names the one before it twice, and so on: its operators double with each."""
    doubled = rule(1, expression(rule_ref(1), rule_ref(1), OR))
    return over(2, rule(1, eq_id_val(1, 7)), doubled * (part(DOUBLED).bit_length() - 1), *parts), bytes(2)


def in_a_question(part, condition):
    return with_a_rule(part, scoped(checkbox(1, 0), condition * part(16000)))


@product("open: conditions x a rule")
def _(part):
    return of_opening(*with_a_rule(part, checkbox(1, 0), suppressed(rule_ref(1)) * part(16000)))


@product("set: conditions x a rule")
def _(part):
    return of_lines(*with_a_rule(part, checkbox(1, 0), suppressed(rule_ref(1)) * part(16000)), b"set 1 1\n")


# Each of at most 62 guards is asked.
@product("why: lines x guards that name a rule", 40)
def _(part):
    count = part(4000)
    opcodes, held = with_a_rule(part, checkbox(1, 0), nested(part(GUARDS), checkbox(2, 1), rule_ref(1)))
    return of_lines(opcodes, held, b"why 2\n" * count, steps=count * (part(GUARDS) + LINE))


@product("set: INCONSISTENT_IFs x a rule")
def _(part):
    return of_lines(*in_a_question(part, scoped(opcode(0x11, u16(0)), rule_ref(1))), b"set 1 1\n")


@product("set: WARNING_IFs x a rule")
def _(part):
    return of_lines(*in_a_question(part, scoped(opcode(0x63, u16(0) + bytes([0])), rule_ref(1))), b"set 1 1\n")


@product("submit: NO_SUBMIT_IFs x a rule")
def _(part):
    return of_lines(*in_a_question(part, no_submit(rule_ref(1))), b"submit\n", b"OK 0\n")


# ---- options

def list_over(part, options):
    """A list of many elements over some options."""
    most = part(ELEMENTS)
    return over(most, scoped(ordered_list(1, 0, most), options))


def last_of(count):
    """Options of which the last alone has the value 1."""
    return option(5, 2) * (count - 1) + option(5, 1)


@product("order: elements x options")
def _(part):
    order = b"order 1 " + b",".join([b"1"] * part(ELEMENTS)) + b"\n"
    return of_lines(list_over(part, last_of(part(80000))), bytes(part(ELEMENTS)), order)


@product("order: elements x elements")
def _(part):
    """Each element has an option, and a hundred lines give all of them."""
    most = part(ELEMENTS)
    options = [option(0, number) for number in range(1, most + 1)]
    line = b"order 1 " + b",".join(b"%d" % number for number in range(most, 0, -1)) + b"\n"
    return of_lines(over(most, scoped(ordered_list(1, 0, most, UNIQUE_SET), *options)), bytes(most), line * 100)


@product("page: elements x options")
def _(part):
    return of_lines(list_over(part, last_of(part(80000))), b"\1" * part(ELEMENTS), b"page\n", b"]\n")


@product("route: elements x options")
def _(part):
    most = part(ELEMENTS)
    line = HEADER + b"&OFFSET=0&WIDTH=%x&VALUE=" % most + b"01" * most + b"\n"
    return of_lines(list_over(part, last_of(part(80000))), bytes(most), line, b"OK 1\n")


@product("defaults: elements of a DEFAULT x options")
def _(part):
    given = default(0, BUFFER, b"\1" * part(GIVEN))
    opcodes = over(ELEMENTS, scoped(ordered_list(1, 0, ELEMENTS), last_of(part(80000)), given))
    return of_lines(opcodes, bytes(ELEMENTS), b"defaults 0\n", b"OK 1\n")


# The option of a value is looked up.
@product("set: lines x options of a ONE_OF")
def _(part):
    count = part(4000)
    options = [option(0, number, NUMBER_4) for number in range(count)]
    lines = b"set 1 %d\n" % (count - 1) * count
    return of_lines(over(4, scoped(one_of(1, 0, 4), *options)), bytes(4), lines)


def options_in_guards(part):
    """Before the option that is shown stand others of its value, which the outermost of their guards hides."""
    hidden = nested(part(GUARDS), option(5, 1) * part(32000), FALSE, TRUE)
    return list_over(part, hidden + option(5, 1)), b"\1" * part(ELEMENTS)


@product("page: elements x options x guards that hide")
def _(part):
    return of_lines(*options_in_guards(part), b"page\n", b"]\n")


@product("order: elements x options x guards that hide")
def _(part):
    return of_lines(*options_in_guards(part), b"order 1 " + b",".join([b"1"] * part(ELEMENTS)) + b"\n")


# ---- guards

def questions_in_guards(part, count):
    boxes = b"".join(checkbox(number, 0) for number in range(1, count + 1))
    return over(1, nested(part(GUARDS), boxes)), bytes(1)


@product("open: questions x guards")
def _(part):
    return of_opening(*questions_in_guards(part, part(16000)))


@product("page: questions x guards")
def _(part):
    return of_lines(*questions_in_guards(part, part(16000)), b"page\n", b"[ ]\n")


# Each of at most 62 guards is asked.
@product("why: lines x guards", 40)
def _(part):
    count = part(16000)
    lines = b"".join(b"why %d\n" % number for number in range(1, count + 1))
    return of_lines(*questions_in_guards(part, count), lines, steps=count * (part(GUARDS) + LINE))


@product("submit: NO_SUBMIT_IFs x guards")
def _(part):
    question = scoped(checkbox(1, 0), no_submit(eq_id_val(1, 7)) * part(32000))
    return of_lines(over(1, nested(part(GUARDS), question)), bytes(1), b"submit\n", b"OK 0\n")


@product("submit: lines x NO_SUBMIT_IFs")
def _(part):
    question = scoped(checkbox(1, 0), no_submit(eq_id_val(1, 7)) * part(16000))
    return of_lines(over(1, question), bytes(1), b"submit\n" * part(16000), b"OK 0\n")


# ---- questions over one byte

# Each condition that names the byte is renewed for each default that is given to it, and is counted.
@product("defaults: questions x conditions on their byte", 500)
def _(part):
    count = part(2000)
    given = checkbox(0, 0)[:-1] + bytes([1])
    opcodes = over(2, checkbox(1, 0), given * count, suppressed(eq_id_val(1, 7)) * count)
    return of_lines(opcodes, bytes(2), b"defaults 0\n", b"OK %d\n" % count, steps=count * count)


def blocks_over_a_byte(part, questions):
    blocks = part(BLOCKS)
    line = HEADER + b"&OFFSET=0&WIDTH=1&VALUE=1" * blocks + b"\n"
    return of_lines(over(1, questions, checkbox(1, 0)), bytes(1), line, b"OK %d\n" % blocks)


# Each of at most 150 blocks goes over the questions of its field up to one that is not fixed.
@product("route: blocks x READ_ONLY questions", 60)
def _(part):
    count = part(32000)
    made = blocks_over_a_byte(part, checkbox(0, 0, flags=1) * count)
    return made._replace(steps=part(BLOCKS) * count)


@product("route: blocks x grayed questions", 200)
def _(part):
    count = part(32000)
    made = blocks_over_a_byte(part, grayed_out(TRUE, checkbox(0, 0) * count))
    return made._replace(steps=part(BLOCKS) * count)


# Each of at most 150 blocks renews the conditions on its field, and is counted.
@product("route that is denied: blocks x conditions x a wide text", 700)
def _(part):
    blocks, width = part(BLOCKS - 10), part(WIDE // 2) * 2
    places = range(width - blocks, width)
    opcodes, held = conditions_on_a_text(part, 8000, b"\0\0", *[checkbox(0, at) for at in places])
    route = HEADER + b"".join(b"&OFFSET=%x&WIDTH=1&VALUE=1" % at for at in places)
    lines = route + b"&OFFSET=FFFF&WIDTH=1&VALUE=1\n"
    return of_lines(opcodes, held, lines, b"DENIED nofield at 00000000\n", steps=blocks * part(8000))


@product("extract: blocks x PASSWORDs")
def _(part):
    count = part(16000)
    passwords = [password(0, 2 * at, 0, 1) for at in range(count)]
    header = HEADER.replace(b"route", b"extract")
    line = header + b"&OFFSET=0&WIDTH=%x" % (2 * count) * part(BLOCKS) + b"\n"
    return of_lines(over(2 * count, *passwords), bytes(2 * count), line, None)


# ---- languages

@product("lang: lines x string packages")
def _(part):
    count = part(16000)
    texts = b"".join(string_package("l%06d" % number, strings("", "T")) for number in range(count))
    return of_lines(over(1, checkbox(1, 0)), bytes(1), b"lang L%06d\n" % (count - 1) * count, texts=texts)


# ---- audits: of the question 1, and of all

@product("audit: questions x guards that name a rule", {"report": (BYTE, 100)}, AUDITED)
def _(part):
    boxes = b"".join(checkbox(number, 0) for number in range(1, part(4000) + 1))
    return of_opening(*with_a_rule(part, nested(part(GUARDS), boxes, rule_ref(1))))


# The guards around each question are gone through for whether it depends on the question 1.
@product("audit: questions x guards over a wide text", {"questions": (BYTE, 64), "report": (BYTE, 72), "question": (STEP, 140)}, AUDITED)
def _(part):
    count, width = part(4000), part(WIDE // 2) * 2
    boxes = b"".join(checkbox(number, width) for number in range(1, count + 1))
    text = password(count + 1, 0, 0, width // 2)
    opcodes = over(width + 1, text, nested(part(GUARDS), boxes, eq_id_val(count + 1, 7)))
    return of_opening(opcodes, b"a\0" * (width // 2) + b"\0", count * (part(GUARDS) + REST))


@product("audit: conditions x a rule", among=AUDITED)
def _(part):
    return of_opening(*with_a_rule(part, checkbox(1, 0), suppressed(rule_ref(1)) * part(16000)))


@product("audit: INCONSISTENT_IFs x a rule", among=AUDITED)
def _(part):
    return of_opening(*in_a_question(part, scoped(opcode(0x11, u16(0)), rule_ref(1))))


# The guards around each option are gone through for what denies it.
@product("audit: options x guards", {"question": (STEP, 270), "report": (STEP, 270)}, AUDITED)
def _(part):
    count = part(16000)
    options = b"".join(option(5, number, NUMBER_4) for number in range(count))
    return of_opening(over(4, scoped(one_of(1, 0, 4), nested(part(GUARDS), options))), bytes(4), count * (part(GUARDS) + REST))


@product("audit: LOCKEDs x questions", among=AUDITED)
def _(part):
    boxes = b"".join(checkbox(number, 0) for number in range(1, part(4000) + 1))
    return of_opening(over(1, LOCKED * part(4000), boxes), bytes(1))
