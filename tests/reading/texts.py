"""PROFILE.md, Texts and languages."""


def chosen(string_packages, language):
    """The string package that a language chooses, in bytes; None where the list has none."""
    wanted = language.lower()
    for package in string_packages:
        if package.language.lower() == wanted:
            return package
    for package in string_packages:
        if primary_subtag(package.language.lower()) == primary_subtag(wanted):
            return package
    return string_packages[0] if string_packages else None


def primary_subtag(language):
    """The part before the first hyphen, or all of it."""
    return language.partition(b"-")[0]


class Texts:
    """The texts of a list's string ids in a language."""

    def __init__(self, string_packages, language):
        self.packages = string_packages
        self.choose(language)

    def choose(self, language):
        self.chosen = chosen(self.packages, language)

    def units(self, string_id):
        """The units of an id's text in the chosen string package or else the first, None where there is no text."""
        for package in (self.chosen, *self.packages[:1]):
            if package is not None and string_id in package.texts:
                return package.texts[string_id]
        return None

    def shown(self, string_id):
        """The characters that are shown of an id."""
        if string_id == 0:
            return ""
        units = self.units(string_id)
        return f"#{string_id}" if units is None else shown_units(units)


def shown_units(units):
    """The characters that units of two bytes show as."""
    return "".join(shown_unit(unit) for unit in units)


def shown_unit(unit):
    if 0xD800 <= unit <= 0xDFFF:
        return "\uFFFD"
    if unit < 0x20 or 0x7F <= unit <= 0x9F:
        return " "
    if 0xFFF0 <= unit <= 0xFFF2:
        return ""
    return chr(unit)
