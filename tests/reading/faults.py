"""FORMATS.md, section 7: the faults by number, and the least fault of a part."""

NAMES = {
    1: "ListShort", 2: "ListLength", 3: "PackageLength", 4: "NoEnd", 5: "AfterEnd", 6: "NoForms",
    7: "StringHeader", 8: "StringBlock", 9: "StringText", 10: "LanguageText",
    20: "OpLength", 21: "EndExtra", 22: "ScopeOpen", 23: "TooDeep",
    24: "NotFormSet", 25: "AfterFormSet", 26: "OpOutside", 27: "OpSize", 28: "Misplaced", 29: "ScopeBit",
    30: "ExprShape", 31: "ExprDepth",
    32: "DuplicateForm", 33: "DuplicateQuestion", 39: "NoForm", 40: "RuleTooLarge",
    34: "DuplicateVarstore", 35: "UnknownVarstore", 36: "FieldOutside", 37: "OptionRange", 38: "MixedOptions",
    50: "StoreMagic", 51: "StoreCount", 52: "StoreId", 53: "StoreSize", 54: "StoreShort", 55: "StoreTrailing",
    56: "StoreFormSet",
    70: "BadCommand", 71: "LineTooLong", 72: "ScriptTooLong", 73: "FileTooLong",
    80: "BadHeader", 81: "BadElement", 82: "BadNumber", 83: "ValueWidth",
}


class Refused(Exception):
    """Bytes are refused: the number of the fault, and its place in bytes, None where it has none."""

    def __init__(self, cause, place=None):
        super().__init__(cause, place)
        self.cause = cause
        self.place = place

    def line(self):
        """The line of the answers that tells this fault, without its LF."""
        told = f"REFUSED {self.cause} {NAMES[self.cause]}"
        return told if self.place is None else f"{told} at {self.place:08x}"


def refuse_least(faults):
    """Raise the least of the faults of a part, pairs of place and number, where there is one."""
    if faults:
        place, cause = min(faults)
        raise Refused(cause, place)
