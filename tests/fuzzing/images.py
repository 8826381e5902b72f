"""Images of the stores of a list, whose values satisfy its conditions or break them, and images that are wrong."""
import packages as p
from packages import u16
from fuzzing.structure import LISTED, PASSWORD, STRING, WITH_FIELD
from fuzzing.values import BYTES, value_for

UNITS = (0x41, 0x42, 0x43, 0x0A, 0x4E2D, 0xD800, 0xFFF1, 0x0301, 0)


def field_bytes(rng, question, facts):
    """Bytes for the field of a question, of the width that it has."""
    if question.code in (STRING, PASSWORD):
        held = b"".join(u16(rng.choice(UNITS)) for _ in range(rng.randrange(question.most + 1)))
    elif question.code == LISTED:
        held = b"".join((value_for(rng, question) % 256 ** question.element).to_bytes(question.element, "little")
                        for _ in range(rng.randrange(question.most + 1)))
    else:
        constants = facts.constants.get(question.number)
        value = rng.choice(constants) if constants and rng.random() < 0.6 else value_for(rng, question)
        held = (value % 256 ** question.width).to_bytes(question.width, "little") if question.width else b""
    return held[:question.width].ljust(question.width, b"\0")


def contents(rng, facts):
    """The bytes of each store by its id."""
    fill = rng.choice((0, 0, 0, 0, 0xFF, None))
    make = lambda size: bytearray(rng.randrange(256) if fill is None else fill for _ in range(size))
    held = {it.number: make(it.size) for it in facts.held}
    for it in facts.questions:
        if it.store in held and it.code in WITH_FIELD and it.offset + it.width <= len(held[it.store]) and rng.random() < 0.8:
            held[it.store][it.offset:it.offset + it.width] = field_bytes(rng, it, facts)
    return [(it.number, bytes(held[it.number])) for it in facts.held]


def image_for(rng, facts):
    """An image that the list takes."""
    stores = contents(rng, facts)
    return p.image(stores, facts.guid) if rng.random() < 0.85 else p.older_image(stores)


def stores_in(data, older):
    """The stores of an image by their ids, as far as it goes."""
    found, at = {}, 6 if older else 22
    while at + 4 <= len(data):
        size = int.from_bytes(data[at + 2:at + 4], "little")
        found[int.from_bytes(data[at:at + 2], "little")] = data[at + 4:at + 4 + size]
        at += 4 + size
    return found


def image_again(data, facts):
    """The image of these stores with the bytes that another image has of them."""
    older = data[:4] == b"HVS1"
    old = stores_in(data, older)
    stores = [(it.number, old.get(it.number, b"")[:it.size].ljust(it.size, b"\0")) for it in facts.held]
    return p.older_image(stores) if older else p.image(stores, facts.guid)


def other_mark(rng, data, facts):
    return rng.choice((b"HVS1", b"HVS2", b"HVS3", b"HVS", b"hvs2", b"\0\0\0\0")) + data[4:]


def other_guid(rng, data, facts):
    if data[:4] != b"HVS2":
        return data
    at = rng.randrange(4, 20)
    return data[:at] + bytes([data[at] ^ 1 << rng.randrange(8)]) + data[at + 1:] if len(data) > at else data


def other_count(rng, data, facts):
    at = 4 if data[:4] == b"HVS1" else 20
    return data[:at] + u16(rng.choice((0, 1, 2, 3, 0xFFFF, len(facts.held) + 1))) + data[at + 2:]


def other_field(rng, data, facts):
    """An id or a size of one store is another, its bytes mended or not."""
    stores, wrong = contents(rng, facts), rng.randrange(4)
    if not stores:
        return data
    at = rng.randrange(len(stores))
    number, held = stores[at]
    if wrong == 0:
        stores[at] = ((number + rng.choice((1, 0x100, -1))) % 0x10000, held)
    elif wrong == 1:
        stores[at] = (number, held + bytes(rng.randrange(1, 3)))
    elif wrong == 2:
        stores[at] = (number, held[:-1])
    else:
        rng.shuffle(stores)
    return p.image(stores, facts.guid)


def cut_image(rng, data, facts):
    """An image that ends in or between its fields."""
    return data[:rng.choice((rng.randrange(len(data) + 1), rng.randrange(8), rng.randrange(16, 30), max(len(data) - 1, 0)))]


def trailing_bytes(rng, data, facts):
    return data + bytes(rng.choice(BYTES) for _ in range(rng.choice((1, 1, 2, 5))))


def repeated_store(rng, data, facts):
    """A store more than there are, or one fewer."""
    stores = contents(rng, facts)
    stores = stores + stores[:1] if rng.random() < 0.5 else stores[:-1]
    return p.image(stores, facts.guid) if rng.random() < 0.7 else p.older_image(stores)


def flipped_image(rng, data, facts):
    if not data:
        return data
    at = rng.randrange(len(data))
    return data[:at] + bytes([data[at] ^ 1 << rng.randrange(8)]) + data[at + 1:]


IMAGE_MUTATIONS = (
    ("an image of another mark", other_mark),
    ("an image of another GUID", other_guid),
    ("an image of another count", other_count),
    ("an image of another id or size", other_field),
    ("a cut image", cut_image),
    ("bytes behind the image", trailing_bytes),
    ("a store more or fewer in the image", repeated_store),
    ("a flipped bit in the image", flipped_image),
)
