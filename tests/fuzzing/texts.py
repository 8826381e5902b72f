"""Random string packages: texts of all kinds in each kind of block."""
from packages import string_package, strings, text, u16, u32
from fuzzing.values import BYTES, WORDS

LANGUAGES = ("en-US", "en", "fr", "fr-FR", "de", "de-DE", "EN-us", "x", "e", "", "-x", "fr-ca", "i-mandarin")
# Of one column, of two, of none, and those that show as something else.
WORDS_SHOWN = ("Mode", "On", "Off", "Measure interval", "A text of more than twenty-four columns", "exactly twenty-four cols", "",
               "a b", "é", "Ωλ")
WIDE_UNITS = (0x4E2D, 0x6587, 0xAC00, 0xFF21, 0x3042)
UNUSUAL_UNITS = (0x0301, 0x0308, 0xD800, 0xDFFF, 0x0001, 0x001F, 0x007F, 0x009F, 0xFFF0, 0xFFF2, 0x0020, 0x00A0, 0x000A, 0x005D,
                 0xFFFD)


def characters(units):
    """Units as they stand in a text, with the unit 0."""
    return b"".join(map(u16, units)) + bytes(2)


def some_text(rng):
    """A text with its unit 0."""
    kind = rng.random()
    if kind < 0.8:
        return text(rng.choice(WORDS_SHOWN))
    units = [rng.choice(WIDE_UNITS + UNUSUAL_UNITS + (0x61, 0x62, 0x63) * 3)
             for _ in range(rng.choice((1, 2, 3, 12, 23, 24, 25, 26)))]
    return characters(units)


def block(rng, number):
    """A block that stands at this id, and of how many ids it says something."""
    kind, count = rng.randrange(12), rng.randrange(4)
    if kind < 4:
        return b"\x14" + some_text(rng), 1
    if kind == 4:
        return b"\x15" + bytes([rng.choice(BYTES)]) + some_text(rng), 1
    if kind == 5:
        return b"\x16" + u16(count) + b"".join(some_text(rng) for _ in range(count)), count
    if kind == 6:
        return b"\x17\1" + u16(count) + b"".join(some_text(rng) for _ in range(count)), count
    if kind == 7:
        return b"\x20" + u16(rng.choice((0, 1, number - 1, number, number + 1, rng.randrange(1, 20), 0xFFFF)) % 65536), 1
    if kind == 8:
        return b"\x21" + u16(count), count
    if kind == 9:
        return b"\x22" + bytes([count]), count
    return extension(rng), 0


def extension(rng):
    """An EXT block, which says nothing of an id."""
    code, width = rng.choice(((0x30, 1), (0x31, 2), (0x32, 4)))
    body = bytes(rng.randrange(256) for _ in range(rng.randrange(5)))
    return bytes([code, rng.choice(BYTES)]) + (2 + width + len(body)).to_bytes(width, "little") + body


def blocks(rng):
    """Blocks for some twenty ids."""
    said, number = [], 1
    while number < 18:
        if rng.random() < 0.4:
            new, count = strings(*[rng.choice(WORDS_SHOWN) for _ in range(4)]), 4
        else:
            new, count = block(rng, number)
        said.append(new)
        number += count
    return said


def package(rng, language=None):
    """A string package that is accepted. Returns its body."""
    language = rng.choice(LANGUAGES) if language is None else language
    end = b"\0" + bytes(rng.choice(BYTES) for _ in range(rng.choice((0, 0, 0, 1, 5))))
    between = bytes(rng.choice((0, 0, 0, 1, 4)))
    offset = 46 + len(language) + 1 + len(between)
    return string_package(language, between + b"".join(blocks(rng)), offset, end)[4:]


def with_unknown_block(rng, body):
    """The number of a block is another."""
    at = min(int.from_bytes(body[4:8], "little") - 4, len(body) - 1)
    return body[:at] + bytes([rng.choice((0x10, 0x11, 0x12, 0x13, 0x18, 0x40, 0x33, 0xFF))]) + body[at + 1:] if at >= 0 else body


def with_other_block(rng, body):
    """One more block in front of the others."""
    at = int.from_bytes(body[4:8], "little") - 4
    return body[:at] + block(rng, 1)[0] + body[at:] if 0 <= at <= len(body) else body


def with_cut_block(rng, body):
    """The last bytes of the package are gone, or its END."""
    return body[:-rng.choice((1, 1, 2, 3, 5, 9))] if rng.random() < 0.7 else body[:rng.randrange(len(body) + 1)]


def with_cut_extension(rng, body):
    """An EXT whose length is too small or too great comes first."""
    at = int.from_bytes(body[4:8], "little") - 4
    code, width = rng.choice(((0x30, 1), (0x31, 2), (0x32, 4)))
    length = rng.choice((0, 1, 2, 3, 4, 5, 6, 7, len(body) + 3 - at, len(body) + 4 - at, len(body) + 5 - at,
                         0xFFFFFFFF)) % 256 ** width
    return body[:at] + bytes([code, 1]) + length.to_bytes(width, "little") + body[at:] if 0 <= at <= len(body) else body


def with_endless_text(rng, body):
    """The package ends in a text, at times in half a unit 0."""
    at = int.from_bytes(body[4:8], "little") - 4
    first = rng.choice((b"\x14", b"\x15\1", b"\x16\1\0", b"\x17\1\1\0"))
    rest = rng.choice((b"", b"a\0b\0", b"a\0\0", b"\0", b"a\0\0a\0\0", b"\0a\0\0"))
    return body[:at] + first + rest if at >= 0 else body


def with_other_offset(rng, body):
    """StringInfoOffset is another."""
    if len(body) < 8:
        return body
    old = int.from_bytes(body[4:8], "little")
    new = rng.choice((0, 45, 46, 47, old - 1, old + 1, len(body) + 3, len(body) + 4, len(body) + 5, 0xFFFFFFFF, 0x80000000))
    return body[:4] + u32(new % 2**32) + body[8:]


def with_other_language(rng, body):
    """A byte of the language is another: one above 0x7E, none that ends it."""
    end = int.from_bytes(body[4:8], "little") - 4
    if not 42 < end <= len(body):
        return body
    at = rng.choice((42, end - 1, rng.randrange(42, end)))
    return body[:at] + bytes([rng.choice((0, 0x2D, 0x41, 0x7E, 0x7F, 0x80, 0xFF, 0x61))]) + body[at + 1:]


def with_short_header(rng, body):
    """A package near its least length."""
    return body[:rng.choice((0, 4, 8, 40, 41, 42, 43, 44))]


def with_word(rng, body):
    """Two bytes anywhere are others."""
    at = rng.randrange(len(body)) if body else 0
    return body[:at] + u16(rng.choice(WORDS)) + body[at + 2:]


STRING_MUTATIONS = (
    ("a string block of another number", with_unknown_block),
    ("one more string block", with_other_block),
    ("a cut string package", with_cut_block),
    ("an EXT block of a wrong length", with_cut_extension),
    ("a text without an end", with_endless_text),
    ("another StringInfoOffset", with_other_offset),
    ("another language", with_other_language),
    ("a short string package", with_short_header),
    ("two other bytes in a string package", with_word),
)
