"""Terms of bytes: rows of hex, each with a comment beside it, and how they are put together."""

COLUMNS = 120
# How many digits and spaces a row has at most.
ROW_DIGITS = 88


def little(data):
    return int.from_bytes(data, "little")


def joined(terms):
    """Terms with `++` between them, the first on one line with the next where there is room."""
    lines = []
    for term in terms:
        if len(lines) == 1 and len(lines[0]) + len(term[0]) < COLUMNS - 20:
            lines = [lines[0] + " ++ " + term[0]] + term[1:]
        else:
            lines += (["++ " + term[0]] if lines else [term[0]]) + term[1:]
    return lines


def in_call(function, lines):
    """A function of a term."""
    lines = [function + " (" + lines[0]] + lines[1:]
    return lines[:-1] + [lines[-1] + ")"]


def spaced(data, widths):
    """Bytes in hex, in parts of these widths and what is behind them, as far as they reach."""
    parts, at = [], 0
    for width in widths:
        parts.append(data[at:at + width])
        at += width
    return " ".join(part.hex() for part in parts + [data[at:]] if part)


def rows_of(text, comment=""):
    """A text of hex in rows, the comment beside the first."""
    if len(text) <= ROW_DIGITS:
        return [(text, comment)] if text else []
    at = text.rfind(" ", ROW_DIGITS // 2, ROW_DIGITS) + 1 or ROW_DIGITS
    return [(text[:at].rstrip(), comment)] + rows_of(text[at:])


def hexes(rows):
    """The bytes of rows."""
    if not rows:
        return ["[]"]
    if len(rows) == 1 and not rows[0][1]:
        return ['hex "%s"' % rows[0][0]]
    lines = ['∷ "%s"%s' % (text, "  -- " + comment if comment else "") for text, comment in rows]
    return ["hexes", lines[0].replace("∷ ", "(", 1)] + lines[1:] + ["∷ [])"]


def terms_of(pieces):
    """Rows that follow one another are one term; any other piece is a term already."""
    terms, rows = [], []
    for piece in pieces + [None]:
        if isinstance(piece, tuple):
            rows.append(piece)
        else:
            terms += ([hexes(rows)] if rows else []) + ([piece] if piece else [])
            rows = []
    return terms or [["[]"]]
