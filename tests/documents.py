"""What the documents list, read from them: the causes of refusals, their parts, and the kinds of denials."""
import os
import re

DOCS = os.path.join(os.path.dirname(os.path.dirname(os.path.abspath(__file__))), "docs")
# Rows of the table of faults: numbers, names, and when they are told.
ROW = re.compile(r"^\| (\d+(?:, \d+)*) \| (\w+(?:, \w+)*) \| (.*) \|$", re.MULTILINE)
WITHOUT_A_PLACE = "without a place"
# The causes of each part of FORMATS.md, section 7, in the order in which the parts are told.
PARTS = ((1, 2, 3, 4, 5), (6,), (7, 8, 9, 10), (20, 21, 22, 23), (24, 25, 26, 27, 28, 29, 30, 31), (32, 33, 39, 40), (34,),
         (35, 36, 37, 38), (50, 51, 52, 53, 54, 55, 56))


def text_of(name):
    with open(os.path.join(DOCS, name), encoding="utf-8") as f:
        return f.read()


def faults():
    """The name of each cause by its number, and whether it is told with a place."""
    found = {}
    for numbers, names, when in ROW.findall(text_of("FORMATS.md").partition("## 7. Faults")[2].partition("\n## ")[0]):
        for number, name in zip(numbers.split(", "), names.split(", "), strict=True):
            found[int(number)] = name, WITHOUT_A_PLACE not in when
    return found


FAULTS = faults()


def line_of(cause, place):
    """The cause, its name and its place, as a refusal tells them."""
    return "%d %s at %08x" % (cause, FAULTS[cause][0], place)


def least(*found):
    """What is told of faults, each a cause and its place: the least by part, then by place, then by number. Those of string
    packages are to be of one package, since each is a part of its own."""
    part = lambda cause: next(number for number, causes in enumerate(PARTS) if cause in causes)
    return line_of(*min(found, key=lambda fault: (part(fault[0]), fault[1], fault[0])))
