"""Series of lists, packages and images that are cut to each length. What they expect is computed by the rules of
docs/FORMATS.md."""
from documents import line_of
from listed import CODES, LISTED, OPERATORS, QUESTIONS, whole
from packages import *
from worked import EIGHT_IDS, ONE_BOX, ONE_BOX_LIST, ZEROS, case, held, prompts, refused, with_strings


def cut_lists():
    """The list cut to each length, with its header as it was, and with a header that tells that length."""
    for size in range(99):
        refused("list_cut_to_%02d_bytes" % size, ONE_BOX_LIST[:size], line_of(1, 0) if size < 20 else line_of(2, 16))
    for size in range(20, 99):
        # The forms package stands at 20, the end package at 95. Where none begins there is no end package.
        package_at = 20 if size < 95 else 95
        line = line_of(4, size) if size in (20, 95) else line_of(3, package_at)
        refused("list_told_to_have_%02d_bytes" % size, package_list(ONE_BOX_LIST[20:size]), line)


def places_of(opcodes):
    """Where each opcode begins."""
    places, at = [], 0
    while at < len(opcodes):
        places.append(4 + at)
        at += opcodes[at + 1] & 0x7F
    return places


def cut_forms_package(name, opcodes):
    """A forms package cut to each length, with lengths that tell so: a cut inside of an opcode is told at it, and one before an
    opcode as the scopes that are open."""
    places = places_of(opcodes)
    for size in range(5, 4 + len(opcodes)):
        line = line_of(22, size) if size in places else line_of(20, max(place for place in places if place < size))
        refused("%s_cut_to_%03d_bytes" % (name, size), list_of(opcodes[:size - 4]), line)


IN_A_CHECKBOX = ("default", "default_of_a_value", "inconsistent_if", "no_submit_if", "warning_if")
IN_A_FORM_SET = ("default_store", "varstore_efi", "varstore_name_value")
IN_A_FORM = ("guid", "image", "animation", "refresh", "refresh_id", "modal_tag", "locked", "suppress_if", "gray_out_if",
             "disable_if", "rule", "subtitle", "text", "reset_button", "numeric", "string", "password", "ordered_list", "date",
             "time", "action", "ref")


def nameless(name, op):
    """The opcode, with the id 0 where it is a question."""
    return op[:6] + u16(0) + op[8:] if name in QUESTIONS else op


def each_opcode():
    """Opcodes of all numbers that are listed."""
    listed = lambda names: b"".join(nameless(name, whole(LISTED[name])) for name in names)
    box, choice = (nameless(name, LISTED[name].op) for name in ("checkbox", "one_of"))
    guards = [suppressed(expression(*[ZERO] * operands, op)) for op, operands in OPERATORS.values()]
    statements = listed(IN_A_FORM) + scoped(box, listed(IN_A_CHECKBOX)) + scoped(choice, listed(["option"])) + b"".join(guards)
    return form_set() + varstore(1, 2) + listed(IN_A_FORM_SET) + form(1) + statements + END + END


def cut_packages():
    refused("package_cut_to_004_bytes", list_of(b""), line_of(24, 4))
    cut_forms_package("package", ONE_BOX)
    opcodes = each_opcode()
    assert {opcodes[place - 4] for place in places_of(opcodes)} == CODES
    stores = [(1, bytes(2)), (7, bytes(2))]
    case("accepted_all_opcodes", list_of(opcodes), older_image(stores), b"", "", image(stores))
    cut_forms_package("fault_all_opcodes", opcodes)


def cut_strings():
    """A string package cut to each length, with lengths that tell so. Its language ends at 52. Behind it stand the blocks of a
    text, of a skip, of a text, of two duplicates, and the end."""
    source = string_package("en-US", b"".join(EIGHT_IDS))
    places = [52 + sum(map(len, EIGHT_IDS[:n])) for n in range(len(EIGHT_IDS) + 1)]
    for size in range(4, len(source)):
        if size < 52:
            # The fixed part is cut, or StringInfoOffset is past the package.
            fault = 7, 20
        elif size in places:
            fault = 8, 20 + size
        else:
            block = max(place for place in places if place < size)
            fault = 9 if source[block] == 0x14 else 8, 20 + block
        cut = size.to_bytes(3, "little") + source[3:size]
        refused("strings_cut_to_%02d_bytes" % size, with_strings(prompts(1), cut), line_of(*fault))


def cut_image(name, list_bytes, stores, widths):
    """An image of fields of these widths cut to each length: the first field that is not whole is told."""
    assert sum(widths) == len(stores)
    for size in range(len(stores)):
        field = next(sum(widths[:n]) for n in range(len(widths)) if sum(widths[:n + 1]) > size)
        refused("%s_cut_to_%02d_bytes" % (name, size), list_bytes, line_of(54, field), stores[:size])


def cut_images():
    cut_image("older_image", ONE_BOX_LIST, ZEROS, [4, 2, 2, 2, 2])
    cut_image("image", ONE_BOX_LIST, held(0, 0), [4, 16, 2, 2, 2, 2])
    three = list_of(form_set() + varstore(1, 2) + varstore(9, 0) + varstore_efi(7, 3) + form(1) + checkbox(1, 0) + END + END)
    stores = [(1, b"\1\2"), (9, b""), (7, b"\3\4\5")]
    cut_image("older_image_of_three_stores", three, older_image(stores), [4, 2, 2, 2, 2, 2, 2, 0, 2, 2, 3])
    cut_image("image_of_three_stores", three, image(stores), [4, 16, 2, 2, 2, 2, 2, 2, 0, 2, 2, 3])


CUTS = (cut_lists, cut_packages, cut_strings, cut_images)
