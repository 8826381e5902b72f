"""Images as terms, and the stores that they spell."""
from rule_lemmas.said import quoted
from rule_lemmas.terms import ROW_DIGITS, hexes, joined, little, rows_of, spaced


def is_newer(image):
    """Whether the form set's GUID stands behind the mark."""
    return image[:4] == b"HVS2"


def stores_in(image):
    """The stores of an image, each with its id and its size in front."""
    at, found = 22 if is_newer(image) else 6, []
    while at < len(image):
        size = 4 + little(image[at + 2:at + 4])
        found.append(image[at:at + size])
        at += size
    return found


def image_lines(image):
    """The term of an image: the mark, then the GUID and the number of stores, then each store."""
    head = spaced(image[4:22], (16,)) if is_newer(image) else image[4:6].hex()
    texts = [head] + [spaced(store, (2, 2)) for store in stores_in(image)]
    if len(" ".join(texts)) <= ROW_DIGITS:
        texts = [" ".join(texts)]
    return joined([["codes " + quoted(image[:4].decode())], hexes([row for text in texts for row in rows_of(text)])])


def stores_term(image):
    """What the stores of an image hold, by their ids."""
    held = [(little(store[:2]), " ".join(hexes(rows_of(store[4:].hex())))) for store in stores_in(image)]
    return "".join("(%d, %s) ∷ " % store for store in held) + "[]"
