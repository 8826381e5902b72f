"""Runs of setup_audit over the examples, whose answers and images stand in examples/audit, and over files that are made for them."""
import os
import re

from packages import END, FALSE, LOCKED, TRUE, form, form_set, grayed_out, image, list_of, one_of, option, rule, rule_ref, scoped, suppressed, varstore
from running import EXAMPLES, OUT_OF_MEMORY, read

AUDIT = os.path.join(EXAMPLES, "audit")
DUMP = os.path.join(AUDIT, "both.dump")
OUT_OF_MEMORY_OBJECT = b'{"kind":"refused","cause":60,"name":"OutOfMemory"}\n'
# The lists of the dump, in its order.
NAMES = ["station", "rules"]


class AuditRun:
    """What a run of setup_audit is given, and the expected answers, status and file of `--out`."""

    script, is_large, is_one_of_many = b"", False, False

    def __init__(self, name, command, answers, image=None, writes=False):
        self.name, self.command, self.writes = "audit " + name, command, writes
        self.expected = 0, answers, image

    def words(self, out):
        return self.command + (["--out", out] if self.writes else [])

    def is_out_of_memory(self, run):
        """Whether a run says that it is out of memory, behind a front of its answers, and has written no file."""
        status, answers, image = run
        fronts = [answers.removesuffix(ending) for ending in (OUT_OF_MEMORY[1], OUT_OF_MEMORY_OBJECT) if answers.endswith(ending)]
        return status == 4 and image is None and any(self.expected[1].startswith(front) for front in fronts)


def told(name):
    return read(os.path.join(AUDIT, name))


def write(path, content):
    """Writes a file, and gives its path."""
    with open(path, "wb") as f:
        f.write(content)
    return path


def splits():
    """The lists of the dump: all of them told, and each taken out."""
    lines = told("both.split").splitlines(keepends=True)
    yield AuditRun("split", ["split", "--dump", DUMP], b"".join(lines))
    yield AuditRun("split as objects", ["split", "--dump", DUMP, "--json"], told("both.split.json"))
    for number, name in enumerate(NAMES, 1):
        words = ["split", "--dump", DUMP, "--take", str(number)]
        yield AuditRun("split, list %d" % number, words, lines[number - 1], read(os.path.join(EXAMPLES, name, "list")), True)


def of_example(name):
    """The stores that a list declares, its opcodes, an image of zeros for it, and its questions over that image: all of them, and each that is told."""
    words = ["--list", os.path.join(EXAMPLES, name, "list")]
    image = name + ".zero.image"
    yield AuditRun("opcodes of " + name, ["opcodes", *words], told(name + ".opcodes"))
    if name == "rules":
        yield AuditRun("opcodes of rules as objects", ["opcodes", *words, "--json"], told("rules.opcodes.json"))
    yield AuditRun("stores of " + name, ["stores", *words], told(name + ".stores"))
    yield AuditRun("image for " + name, ["image", *words, "--zero"], told(name + ".image"), told(image), True)
    words += ["--stores", os.path.join(AUDIT, image)]
    yield AuditRun("questions of " + name, ["questions", *words], told(name + ".questions"))
    if name == "rules":
        yield AuditRun("questions of rules as objects", ["questions", *words, "--json"], told("rules.questions.json"))
    else:
        yield AuditRun("question 33 as an object", ["question", *words, "--id", "33", "--json"], told("station.question.33.json"))
    ids = [file.rsplit(".", 1)[1] for file in os.listdir(AUDIT) if re.fullmatch(name + r"\.question\.\d+", file)]
    for id in sorted(ids, key=int):
        yield AuditRun("question %s of %s" % (id, name), ["question", *words, "--id", id], told("%s.question.%s" % (name, id)))


def of_dump():
    """Each list of the dump is opened by its number as it is alone; the bytes of a question are then those of the dump."""
    for number, name in enumerate(NAMES, 1):
        words = ["--list", DUMP, "--take", str(number)]
        zeros = os.path.join(AUDIT, name + ".zero.image")
        yield AuditRun("stores of list %d" % number, ["stores", *words], told(name + ".stores"))
        yield AuditRun("image for list %d" % number, ["image", *words, "--zero"], told(name + ".image"), read(zeros), True)
        yield AuditRun("questions of list %d" % number, ["questions", *words, "--stores", zeros], told(name + ".questions"))
    for file, options in ("station.stores.json", ["--json"]), ("station.headers.json", ["--headers", "--json"]):
        yield AuditRun(file, ["stores", "--list", DUMP, "--take", "1", *options], told(file))
    yield AuditRun("headers of list 1", ["stores", "--list", DUMP, "--take", "1", "--headers"], told("station.headers"))
    begin = len(read(os.path.join(EXAMPLES, NAMES[0], "list")))
    byte = lambda found: b"byte %x%s" % (int(found[1], 16) + begin, found[2].replace(b"list", b"dump"))
    alone = told("rules.question.19")
    words = ["question", *words, "--stores", zeros, "--id", "0x13"]
    yield AuditRun("question 19 of list 2", words, re.sub(rb"byte ([0-9a-f]+)(\)| of the list)", byte, alone))


def image_of_stores(*stores):
    """An image of the stores of the station."""
    return image(list(zip((16, 17), stores)), told("station.zero.image")[4:20])


def of_text():
    """An image of a configuration text: a block over another, an alternative, and a store under another name."""
    words = ["image", "--list", os.path.join(EXAMPLES, "station", "list"), "--config", os.path.join(AUDIT, "station.config")]
    lines = b"STORE 16 Station 72 config\nSTORE 17 StationNv 4 config, where its name is Nv\n"
    yield AuditRun("image of a configuration text", words, lines, image_of_stores(b"\1\1" + bytes(70), b"\1\2\3\4"), True)


def of_defaults():
    """An image of zeros over which the standard defaults are laid."""
    words = ["image", "--list", os.path.join(EXAMPLES, "station", "list"), "--zero", "--defaults", "0"]
    yield AuditRun("image of defaults", words, told("station.image") + b"DEFAULTS 11 of class 0\n", told("station.defaults.image"), True)


def images_of_files(folder):
    """Images of the stores of the station: the bytes of both stand in files, and those of the first in the file of a variable behind its
    attributes, where the second, which has none, is zeros."""
    held = bytes(range(1, 73)), b"\1\2\3\4"
    file = lambda name, content: write(os.path.join(folder, name), content)
    first, second = file("Station.bin", held[0]), file("StationNv.bin", held[1])
    variable = file("Station-6d1e5a10-7c4b-4e0a-9a31-225c60880f01", b"\7\0\0\0" + held[0])
    words = ["image", "--list", os.path.join(EXAMPLES, "station", "list")]
    lines = lambda *sources: ("STORE 16 Station 72 %s\nSTORE 17 StationNv 4 %s\n" % sources).encode()
    yield AuditRun("image of files", words + ["--store", "16=" + first, "--store", "17=" + second], lines(first, second), image_of_stores(*held), True)
    yield AuditRun("image of variables", words + ["--efivars", folder, "--zero"], lines(variable, "zeros"), image_of_stores(held[0], bytes(4)), True)


def of_closed():
    """What opens the questions of the station that may not be changed, and how the lists of the dump stand over zeros."""
    words = ["unlock", *(word for name in ("list", "stores") for word in ("--" + name, os.path.join(EXAMPLES, "station", name)))]
    yield AuditRun("what opens questions", words, told("station.unlock"))
    yield AuditRun("what opens questions, as objects", [*words, "--json"], told("station.unlock.json"))
    survey = ["survey", "--dump", DUMP, "--zero", "--find", "fan"]
    yield AuditRun("survey of a dump", survey, told("both.survey"))
    yield AuditRun("survey of a dump as objects", [*survey, "--json"], told("both.survey.json"))


def reports():
    """Pages on the station, before and behind its script, and on rules."""
    for name, file in ("station", "stores"), ("station", "image"), ("rules", "stores"):
        words = ["report", "--list", os.path.join(EXAMPLES, name, "list"), "--stores", os.path.join(EXAMPLES, name, file)]
        page = "%s.%sreport.html" % (name, "" if file == "stores" else file + ".")
        yield AuditRun("page on %s over %s" % (name, file), words, b"", told(page), True)


def of_images():
    """What the stores of the station hold behind its script: the bytes of the first, and what is other than before."""
    list_, before, after = (os.path.join(EXAMPLES, "station", name) for name in ("list", "stores", "image"))
    words = ["--list", list_, "--stores"]
    held = read(after)[26:98]
    yield AuditRun("export of a store", ["export", *words, after, "--id", "16"], b"STORE 16 Station 72\n", held, True)
    yield AuditRun("lines of fields", ["export", *words, after, "--lines", "--with", before], told("station.lines"))
    yield AuditRun("diff of images", ["diff", *words, before, "--with", after], told("station.diff"))
    yield AuditRun("diff of images as objects", ["diff", *words, before, "--with", after, "--json"], told("station.diff.json"))


def reasons(folder):
    """A choice that is hidden, grayed out, locked three times and read-only, with options that are denied by themselves; and rules, of which
    the first is named by the second alone, and the third by none."""
    options = [option(3, 0), LOCKED, grayed_out(TRUE, option(4, 1), LOCKED, suppressed(TRUE, option(5, 2)), option(6, 3)),
               suppressed(FALSE, LOCKED, option(7, 4))]
    guarded = suppressed(rule_ref(2), grayed_out(TRUE, scoped(one_of(5, 0, flags=1), *options), LOCKED))
    rules = rule(1, TRUE), rule(2, rule_ref(1)), rule(3, FALSE)
    opcodes = form_set() + varstore(1, 2) + scoped(form(1), *rules, guarded, LOCKED) + END
    given = write(os.path.join(folder, "reasons"), list_of(opcodes)), write(os.path.join(folder, "no value"), image([(1, bytes(2))]))
    yield AuditRun("all reasons", ["question", "--list", given[0], "--stores", given[1], "--id", "5"], b"""\
QUESTION 5 (0x5) #7
form     1 #2
opcode   ONE_OF at 00000058, byte 6c of the list
field    V:0x0(1), varstore 1 33333333-3333-3333-3333-333333333333
flags    readonly
value    0 #3
verdict  suppressif at 0000004f
also     grayoutif at 00000054
also     locked at 000000ac
also     locked at 000000a6
also     locked at 00000070
also     readonly at 00000058
guard    SUPPRESS_IF at 0000004f (byte 63) holds: ruleref(2)
guard    GRAY_OUT_IF at 00000054 (byte 68) holds: TRUE
rule     1 at 00000039 (byte 4d): TRUE
rule     2 at 00000040 (byte 54): ruleref(1)
option   0 #3: as the question
option   1 #4: grayoutif at 00000072: TRUE
option   2 #5: suppressif at 0000007f: TRUE
option   3 #6: grayoutif at 00000072
option   4 #7: locked at 00000099
""")


def audit_runs(folder):
    """All runs. The folder is for the files that are made for them."""
    runs = [*splits(), *of_dump(), *of_text(), *of_defaults(), *images_of_files(folder), *of_closed(), *of_images(), *reports(), *reasons(folder)]
    for name in NAMES:
        runs += of_example(name)
    station = os.path.join(EXAMPLES, "station")
    words = ["questions", "--list", os.path.join(station, "list"), "--stores", os.path.join(station, "stores"), "--lang", "de-DE"]
    return runs + [AuditRun("questions of station in German", words, told("station.questions.de-DE"))]
