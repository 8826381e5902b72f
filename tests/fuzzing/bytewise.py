"""Mutations of bytes: of a whole list, or of one package whose length is mended."""
from packages import u32
from fuzzing.structure import END_KIND, FORMS, join_list, join_package, split_list
from fuzzing.values import BYTES, WORDS


def place(rng, data):
    return rng.randrange(len(data)) if data else 0


def flip(rng, data):
    """A bit is turned, at times in several bytes."""
    for _ in range(rng.choice((1, 1, 1, 2, 4))):
        at = place(rng, data)
        data = data[:at] + bytes(byte ^ 1 << rng.randrange(8) for byte in data[at:at + 1]) + data[at + 1:]
    return data


def random_byte(rng, data):
    at = place(rng, data)
    return data[:at] + bytes([rng.randrange(256)]) + data[at + 1:]


def interesting_byte(rng, data):
    at = place(rng, data)
    return data[:at] + bytes([rng.choice(BYTES)]) + data[at + 1:]


def interesting_word(rng, data):
    at = place(rng, data)
    word = rng.choice(WORDS + (len(data), len(data) - 4)) % 0x10000
    return data[:at] + word.to_bytes(2, "little") + data[at + 2:]


def insert(rng, data):
    at = rng.randrange(len(data) + 1)
    return data[:at] + bytes(rng.choice(BYTES + (rng.randrange(256),)) for _ in range(rng.choice((1, 1, 2, 4)))) + data[at:]


def remove(rng, data):
    at = place(rng, data)
    return data[:at] + data[at + rng.choice((1, 1, 2, 4)):]


def repeat(rng, data):
    """Some bytes stand there twice."""
    at, size = place(rng, data), rng.choice((1, 2, 4, 8, 20))
    return data[:at + size] + data[at:]


def cut(rng, data):
    return data[:rng.randrange(len(data) + 1)]


PIECES = (("a flipped bit", flip), ("a random byte", random_byte), ("an interesting byte", interesting_byte),
          ("an interesting word", interesting_word), ("inserted bytes", insert), ("removed bytes", remove),
          ("repeated bytes", repeat), ("cut bytes", cut))


def in_list(change):
    """A mutation of the whole list, whose lengths stay as they are."""
    return lambda rng, data: change(rng, data)


def in_list_mended(change):
    """A mutation of the whole list, whose own length is mended."""
    def mutate(rng, data):
        data = change(rng, data)
        return data[:16] + u32(len(data)) + data[20:] if len(data) >= 20 else data
    return mutate


def in_package(change):
    """A mutation of the body of one package, all lengths mended."""
    def mutate(rng, data):
        whole = split_list(data)
        if not whole.packages:
            return data
        at = rng.choice(whole.of_kind(FORMS) * 3 + list(range(len(whole.packages))))
        kind, body = whole.packages[at]
        whole.packages[at] = kind, body if kind == END_KIND and rng.random() < 0.9 else change(rng, body)
        return join_list(whole)
    return mutate


BYTE_MUTATIONS = tuple(("%s in %s" % (name, where), around(change)) for name, change in PIECES for where, around in (
    ("the list", in_list), ("the list, its length mended", in_list_mended), ("a package", in_package)))


# Mutations of the packages of a list.

def other_length(rng, data):
    """PackageLength of the list is another."""
    length = len(data)
    return data[:16] + u32(rng.choice((0, 19, 20, 21, 23, 24, length - 5, length - 4, length - 1, length, length + 1, 2**32 - 1))
                           % 2**32) + data[20:]


def short_list(rng, data):
    return data[:rng.choice((0, 1, 15, 16, 18, 19, 20, 21, 23, 24))]


def other_package_length(rng, data):
    """The length of one package is another."""
    whole = split_list(data)
    at, places = 20, []
    for _, body in whole.packages:
        places.append(at)
        at += 4 + len(body)
    at = rng.choice(places or [20])
    old = int.from_bytes(data[at:at + 3], "little")
    new = rng.choice((0, 1, 3, 4, 5, old - 1, old + 1, old + 4, len(data) - at, len(data) - at + 1, 0xFFFFFF)) % 2**24
    return data[:at] + new.to_bytes(3, "little") + data[at + 3:]


def changed_packages(change):
    """A mutation of the packages, whose lengths are mended."""
    def mutate(rng, data):
        whole = split_list(data)
        change(rng, whole)
        return join_list(whole)
    return mutate


def other_end(rng, whole):
    """No end package, two of them, one with a body, or bytes behind it that count."""
    ends, kind = whole.of_kind(END_KIND), rng.randrange(5)
    if ends and kind == 0:
        del whole.packages[ends[-1]]
    elif kind == 1:
        whole.packages.append((END_KIND, b""))
    elif ends and kind == 2:
        whole.packages[ends[-1]] = END_KIND, bytes(rng.randrange(1, 5))
    elif kind == 3:
        whole.packages.append((rng.choice((FORMS, 0x04, 0x08, 0x11)), bytes(rng.randrange(6))))
    else:
        whole.packages.insert(rng.randrange(len(whole.packages) + 1), (END_KIND, bytes(rng.choice((0, 0, 1)))))


def moved_package(rng, whole):
    if len(whole.packages) > 2:
        it = whole.packages.pop(rng.randrange(len(whole.packages) - 1))
        whole.packages.insert(rng.randrange(len(whole.packages)), it)


def cut_package(rng, whole):
    if whole.packages:
        del whole.packages[rng.randrange(len(whole.packages))]


def repeated_package(rng, whole):
    if whole.packages:
        whole.packages.insert(rng.randrange(len(whole.packages)), rng.choice(whole.packages))


def other_kind(rng, whole):
    """A package has another Type."""
    if whole.packages:
        at = rng.randrange(len(whole.packages))
        whole.packages[at] = rng.choice((0x00, 0x01, 0x02, 0x03, 0x04, 0x05, 0x08, 0xDE, 0xDF, 0xE0)), whole.packages[at][1]


def one_more_package(rng, whole):
    """A package that is empty or small, a device path among them."""
    kind, body = rng.choice(((0x08, b""), (0x08, b"\x7f\xff\4\0"), (0x08, b"\0"), (0x05, b"abc"), (0x01, b""), (FORMS, b""),
                             (FORMS, b"\x29\x02")))
    whole.packages.insert(rng.randrange(len(whole.packages) + 1) if rng.random() < 0.1 else 0, (kind, body))


def bytes_behind(rng, whole):
    whole.behind = rng.choice((b"", b"\0", join_package(FORMS, b""), bytes([4, 0, 0, 0xDF])))


PACKAGE_MUTATIONS = (
    ("another length of the list", other_length),
    ("a short list", short_list),
    ("another length of a package", other_package_length),
    ("another end of the list", changed_packages(other_end)),
    ("a moved package", changed_packages(moved_package)),
    ("a cut package", changed_packages(cut_package)),
    ("a repeated package", changed_packages(repeated_package)),
    ("a package of another Type", changed_packages(other_kind)),
    ("one more package", changed_packages(one_more_package)),
    ("bytes behind the list", changed_packages(bytes_behind)),
)
