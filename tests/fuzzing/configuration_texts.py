"""Configuration texts for the stores of a list: right ones, and ones that are broken in one place."""
from fuzzing.images import field_bytes
from fuzzing.structure import PASSWORD, WITH_FIELD

NUMBERS = ("", "0", "00", "1", "00000001", "000000001", "0000000000000001", "FFFF", "10000", "0000FFFF", "00010000", "ffffffff",
           "g", "1 ", "-1", "0x1")
KEYS = ("OFFSET", "WIDTH", "VALUE", "offset", "Width", "GUID", "NAME", "PATH", "ALTCFG", "X", "")


def any_case(rng, text):
    """Hex digits in lower case, in capitals, or in both."""
    kind = rng.random()
    if kind < 0.6:
        return text
    return text.upper() if kind < 0.8 else "".join(rng.choice((it, it.upper())) for it in text)


def header(rng, store, path):
    """What names a store, at times one that is not there."""
    guid, name = store.guid, store.name
    kind = rng.random()
    if kind < 0.03:
        guid = bytes([guid[0] ^ 1]) + guid[1:] if guid else guid
    elif kind < 0.06:
        name = rng.choice((name + b"x", name[:-1], name[::-1], name.swapcase(), b"\xff" + name))
    elif kind < 0.09:
        path = rng.choice((b"", path + b"\0", path[:-1], b"\x7f\xff\4\0"))
    wide = "%02x" % (1 if rng.random() < 0.02 else 0)
    said = "".join(wide + "%02x" % byte for byte in name)
    said = said[:-rng.randrange(1, 4)] if rng.random() < 0.02 else said
    return "GUID=%s&NAME=%s&PATH=%s" % tuple(any_case(rng, it) for it in (guid.hex(), said, path.hex()))


def number_of(rng, number):
    """A number with any number of digits."""
    return any_case(rng, "%0*x" % (rng.choice((1, 1, 2, 4, 4, 8, 8, 9 if rng.random() < 0.05 else 1)), number))


def block_place(rng, facts, store):
    """The offset and the width of a block: mostly the field of a question."""
    fields = [it for it in facts.questions if it.store == store.number and it.code in WITH_FIELD and it.width > 0]
    open_fields = [it for it in fields if it.code != PASSWORD] if rng.random() < 0.85 else fields
    if open_fields and rng.random() < 0.85:
        it = rng.choice(open_fields)
        return it, it.offset, it.width
    size = store.size
    offset = rng.choice((0, 0, size - 1, size, size + 1, rng.randrange(size + 1), 0xFFFF))
    width = rng.choice((1, 1, 2, size, size - offset, size - offset + 1, rng.randrange(1, size + 2), 0xFFFF))
    return None, max(offset, 0), max(0 if rng.random() < 0.1 else 1, min(width, 0xFFFF))


def request_blocks(rng, facts, store):
    blocks = [block_place(rng, facts, store) for _ in range(rng.choice((0, 1, 1, 1, 2, 3, 5)))]
    return "".join("&OFFSET=%s&WIDTH=%s" % (number_of(rng, at), number_of(rng, width)) for _, at, width in blocks)


def response_blocks(rng, facts, store):
    return "".join(response_block(rng, facts, store) for _ in range(rng.choice((0, 1, 1, 1, 1, 2, 3, 5))))


def response_block(rng, facts, store):
    question, at, width = block_place(rng, facts, store)
    held = field_bytes(rng, question, facts) if question and rng.random() < 0.9 else bytes(rng.randrange(256)
                                                                                           for _ in range(min(width, 40)))
    digits = "%x" % int.from_bytes(held, "little")
    kind = rng.random()
    if kind < 0.5:
        digits = held[::-1].hex() or "0"
    elif kind < 0.6:
        digits = "0" * rng.choice((1, 2, 40)) + held[::-1].hex()
    elif kind < 0.63:
        digits = rng.choice("0123456789abcdef") + held[::-1].hex()
    elif kind < 0.65:
        digits = "1" + "00" * len(held)
    return "&OFFSET=%s&WIDTH=%s&VALUE=%s" % (number_of(rng, at), number_of(rng, width), any_case(rng, digits))


def part_with(rng, parts, change):
    """A text of which one part is changed."""
    at = rng.randrange(len(parts))
    return "&".join(parts[:at] + [change(*parts[at].partition("=")[::2])] + parts[at + 1:])


def without_part(rng, parts):
    at = rng.randrange(len(parts))
    return "&".join(parts[:at] + parts[at + 1:])


def with_another_part(rng, parts):
    at = rng.randrange(len(parts) + 1)
    return "&".join(parts[:at] + [rng.choice(parts)] + parts[at:])


def with_other_byte(rng, parts):
    text = "&".join(parts)
    at = rng.randrange(len(text)) if text else 0
    return text[:at] + rng.choice("0gG&= =fF/:@`-") + text[at + rng.randrange(2):]


def with_other_value(rng, parts):
    new = "VALUE=" + rng.choice(("", "0" * 64, "1" + "0" * 16, "g", "0g", "00001"))
    return "&".join(parts).replace("VALUE=", new, 1)


TAILS = ("&", "&&", "&ALTCFG=0001", "&GUID=", "&OFFSET=0", "&OFFSET=0&WIDTH=1", "&VALUE=0", "&X=0", "=", "0", "g")
# What breaks a text of these parts.
BREAKS = (
    without_part,
    with_another_part,
    with_other_byte,
    with_other_value,
    lambda rng, parts: part_with(rng, parts, lambda key, value: rng.choice(KEYS) + "=" + value),
    lambda rng, parts: part_with(rng, parts, lambda key, value: key + "=" + rng.choice(NUMBERS)),
    lambda rng, parts: part_with(rng, parts, lambda key, value: key + rng.choice(("", "==", " =", ":")) + value),
    lambda rng, parts: "&".join(parts[:rng.randrange(len(parts))]),
    lambda rng, parts: "&".join(rng.sample(parts, len(parts))),
    lambda rng, parts: "&".join(parts) + rng.choice(TAILS),
)


def broken(rng, text):
    """A text with one part or character that is wrong."""
    return rng.choice(BREAKS)(rng, text.split("&"))


def text_for(rng, facts, command):
    """A request or a response, mostly a right one."""
    stores = facts.held if facts.held and rng.random() < 0.97 else facts.stores
    if not stores:
        return "GUID=%s&NAME=&PATH=" % ("0" * 32)
    store = rng.choice(stores)
    make = request_blocks if (command == "extract") == (rng.random() < 0.97) else response_blocks
    text = header(rng, store, facts.path) + make(rng, facts, store)
    return broken(rng, text) if rng.random() < 0.15 else text
