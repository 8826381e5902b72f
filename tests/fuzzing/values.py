"""Values that are of interest: near the bounds of a question or of a width."""
from fuzzing.structure import BOX, LISTED, NUMERIC, ONE_OF

BYTES = (0, 1, 2, 0x7F, 0x80, 0xFE, 0xFF)
WORDS = (0, 1, 2, 0xFF, 0x100, 0x7FFF, 0x8000, 0xFFFE, 0xFFFF)
WIDE = (0, 1, 2, 0x7F, 0x80, 0xFF, 0x100, 0x7FFF, 0x8000, 0xFFFF, 0x10000, 2**31 - 1, 2**31, 2**32 - 1, 2**32, 2**63 - 1, 2**63,
        2**64 - 1)


def near(rng, number):
    return number + rng.choice((-1, 0, 0, 0, 1))


def as_signed(number, width):
    """A number of so many bytes as two's complement."""
    return number - 256 ** width if number >= 256 ** width // 2 else number


def value_for(rng, question):
    """A number that a question may take, or one beside it."""
    width = max(question.width, 1)
    if question.code == BOX:
        return rng.choice((0, 1, 1, 1, 2, 0xFF))
    if question.code in (ONE_OF, LISTED) and question.values and rng.random() < 0.85:
        return rng.choice(question.values)
    if question.code == NUMERIC and rng.random() < 0.7:
        return number_for(rng, question)
    return rng.choice((0, 1, 3, 256 ** width - 1, 256 ** width, 256 ** width // 2, rng.randrange(256 ** min(width, 8)), -1,
                       rng.choice(WIDE)))


def number_for(rng, question):
    """A number at, between or beside the bounds of a NUMERIC."""
    width = question.width
    least, most = (as_signed(it, width) if question.is_signed else it for it in (question.least, question.most))
    between = rng.randint(least, most) if least <= most else least
    edges = (-256 ** width // 2, 256 ** width // 2 - 1, 0, 256 ** width - 1)
    return rng.choice((least, most, between, between, near(rng, least), near(rng, most), near(rng, rng.choice(edges))))
