"""FORMATS.md: numbers in bytes are little-endian."""


def number(data, at=0, size=2):
    """The number without sign of so many bytes at an offset."""
    return int.from_bytes(data[at:at + size], "little")


def whole_number(data):
    """The number without sign that all of the bytes are."""
    return int.from_bytes(data, "little")


def two_bytes(value):
    return value.to_bytes(2, "little")
