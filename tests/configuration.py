"""Worked cases of configuration texts: what `extract` tells, what `route` changes, and what is denied and refused."""
from packages import *
from policies import inconsistent_if, warned, warning_if
from worked import GUARDED_LIST, OK, ONE_BOX_LIST, TITLE, counted, denied, of_form, row, talk, talk_over

BAD_COMMAND, LINE_TOO_LONG, BAD_HEADER, BAD_ELEMENT, BAD_NUMBER, VALUE_WIDTH = ("REFUSED %s\n" % cause for cause in (
    "70 BadCommand", "71 LineTooLong", "80 BadHeader", "81 BadElement", "82 BadNumber", "83 ValueWidth"))
NO_STORE, NO_FIELD = denied("nostore", 0), denied("nofield", 0)
HEADER = "GUID=33333333333333333333333333333333&NAME=0056&PATH="
LETTERS = bytes(range(0xA0, 0xB0))
# The root bridge of a PCI bus, and the end of the path.
PATH = bytes.fromhex("02010c00d041030a000000007fff0400")


def header(name=b"V", guid=VARSTORE_GUID, path=b""):
    """What names a store: its GUID, its name, and the device path of its list."""
    return "GUID=%s&NAME=%s&PATH=%s" % (guid.hex(), "".join("%04x" % byte for byte in name), path.hex())


def extract(*blocks, of=HEADER):
    """A line that asks for blocks, each by its offset and its width."""
    return "extract " + of + "".join("&OFFSET=%x&WIDTH=%x" % block for block in blocks)


def config(*blocks, of=HEADER):
    """The answer with blocks, each by its offset and its bytes. The lowest byte stands last."""
    told = ["&OFFSET=%04x&WIDTH=%04x&VALUE=%s" % (offset, len(held), held[::-1].hex()) for offset, held in blocks]
    return "CONFIG %s%s\n" % (of, "".join(told))


def route(*blocks, of=HEADER):
    """A line that gives blocks, each by its offset, its width and its digits."""
    return "route " + of + "".join("&OFFSET=%x&WIDTH=%x&VALUE=%s" % block for block in blocks)


def changed(*questions):
    """The answer to `submit`."""
    return "OK %d\n" % len(questions) + "".join("CHANGED %d\n" % question for question in questions)


def extracted_blocks():
    talk("store_is_extracted", ONE_BOX_LIST, b"\1\2", [
        (extract(), "CONFIG GUID=33333333333333333333333333333333&NAME=0056&PATH=&OFFSET=0000&WIDTH=0002&VALUE=0201\n"),
        (extract((1, 2)), NO_FIELD), ("extract x", BAD_HEADER), (extract(of=header(guid=bytes(16))), NO_STORE)])
    six = bytes([0xA1, 0xB2, 0xC3, 0xD4, 0xE5, 0xF6])
    talk("blocks_are_extracted_in_their_order", of_form(checkbox(1, 0), size=6), six, [
        (extract((4, 2)), config((4, b"\xe5\xf6"))), (extract((3, 1), (0, 1), (3, 1)), config((3, b"\xd4"), (0, b"\xa1"), (3, b"\xd4"))),
        (extract((0, 4), (2, 4)), config((0, six[:4]), (2, six[2:]))), (extract((0, 6)), config((0, six))), (extract(), config((0, six)))])
    talk("blocks_that_leave_their_store", of_form(checkbox(1, 0), size=6), six, [
        (extract(block), NO_FIELD) for block in ((0, 7), (5, 2), (6, 1), (0, 0xFFFF), (0xFFFF, 1), (0xFFFF, 0xFFFF))]
        + [(extract((0, 1), (6, 1)), NO_FIELD), (extract((5, 1)), config((5, b"\xf6")))])
    talk("what_was_submitted_is_extracted", ONE_BOX_LIST, b"\0\0", [
        ("set 1 1", OK), (extract(), config((0, b"\0\0"))), ("submit", changed(1)), (extract(), config((0, b"\1\0"))),
        (route((0, 1, "0")), counted(1)), (extract(), config((0, b"\1\0"))), ("discard", OK), (extract(), config((0, b"\1\0")))], b"\1\0")
    talk("store_without_bytes", of_form(checkbox(1, 0, store=0), size=0), b"", [
        (extract(), "CONFIG %s\n" % HEADER), (extract((0, 1)), NO_FIELD), (route(), counted(0)), (route((0, 1, "0")), NO_FIELD)])
    twelve = bytes(range(12))
    talk("digits_of_numbers", of_form(checkbox(1, 0), numeric(2, 10, UNSIGNED, 2, 0, 65535), size=12), twelve, [
        ("extract %s&OFFSET=%s&WIDTH=%s" % (HEADER, offset, width), config((10, b"\x0a\x0b"))) for offset, width in (
            ("a", "2"), ("A", "2"), ("00a", "02"), ("0000000A", "00000002"))]
        + [("route %s&OFFSET=0000000A&WIDTH=00000002&VALUE=aBc" % HEADER, counted(1)), ("submit", changed(2)),
           (extract((10, 2)), config((10, b"\xbc\x0a")))], twelve[:10] + b"\xbc\x0a")


def named_stores():
    opcodes = (form_set() + varstore(1, 2) + varstore_name_value(2) + varstore_efi(3, 2) + varstore_efi(4, 2, b"jk") + varstore(5, 1, guid=LETTERS)
               + varstore(6, 1, b"") + varstore(7, 1, b"V\xe9") + form(1) + checkbox(1, 1, store=3) + checkbox(2, 1, store=4)
               + checkbox(3, 0, store=5) + END + END)
    stores = [(1, b"\1\2"), (3, b"\3\0"), (4, b"\5\0"), (5, b"\0"), (6, b"\7"), (7, b"\x08")]
    efi, lettered = header(b"jk"), header(guid=LETTERS)
    said = [
        # Two stores of one GUID and one name: the first by place is named.
        (extract(), config((0, b"\1\2"))), (route((1, 1, "1")), NO_FIELD),
        (extract(of=efi), config((0, b"\5\0"), of=efi)), (route((1, 1, "1"), of=efi.upper()), counted(1)),
        (extract(of=lettered.upper()), config((0, b"\0"), of=lettered)), (route((0, 1, "1"), of=lettered), counted(1)),
        (extract(of=header(b"")), config((0, b"\7"), of=header(b""))),
        (extract(of=header(b"V\xe9").upper()), config((0, b"\x08"), of=header(b"V\xe9")))]
    said += [(extract(of=header(name)), NO_STORE) for name in (b"W", b"v", b"VV", b"j", b"kj")]
    # Characters that are no bytes.
    said += [(extract(of=header().replace("0056", wide)), NO_STORE) for wide in ("0156", "5600", "00560000")]
    said += [(extract(of=header(path=b"\0")), NO_STORE), (extract(of=header(b"jk", LETTERS)), NO_STORE)]
    said += [(route((0, 1, "1"), of=header(b"W")), NO_STORE), (route(of=header(b"W")), NO_STORE), ("submit", changed(2, 3))]
    talk_over("stores_by_their_names", list_of(opcodes), stores, said,
              [(1, b"\1\2"), (3, b"\3\0"), (4, b"\5\1"), (5, b"\1"), (6, b"\7"), (7, b"\x08")])
    forms = package(base() + checkbox(1, 0) + END + END)
    pathed = header(path=PATH)
    talk("stores_by_the_path_of_the_list", package_list(forms + device_path(PATH) + device_path(b"\x7f\xff\4\0") + END_PACKAGE), b"\1\2", [
        (extract(of=pathed), config((0, b"\1\2"), of=pathed)), (extract(of=pathed.upper()), config((0, b"\1\2"), of=pathed)),
        (route((0, 1, "0"), of=pathed), counted(1)), ("submit", changed(1)),
        *[(line(of=header(path=path)), NO_STORE) for line in (extract, route)
          for path in (b"", PATH[:-1], PATH + b"\0", b"\x7f\xff\4\0", PATH + b"\x7f\xff\4\0")]], b"\0\2")
    talk("first_path_of_the_list_is_empty", package_list(device_path(b"") + forms + device_path(PATH) + END_PACKAGE), b"\1\2", [
        (extract(), config((0, b"\1\2"))), (extract(of=pathed), NO_STORE)])


def extracted_passwords():
    # Question 2 lies before question 1 in the store, and behind it in the form. The passwords stand at 57 and 74.
    talk("passwords_are_not_told", of_form(password(1, 4, 0, 1), password(2, 1, 0, 1), size=8), bytes(range(8)), [
        (extract(), denied("password", 57)), (extract((0, 1), (3, 1), (6, 2)), config((0, b"\0"), (3, b"\3"), (6, b"\6\7"))),
        (extract((0, 2)), denied("password", 74)), (extract((2, 2)), denied("password", 74)), (extract((2, 3)), denied("password", 57)),
        (extract((5, 1)), denied("password", 57)), (extract((3, 5)), denied("password", 57)), (extract((0, 3), (4, 1)), denied("password", 74)),
        (extract((4, 1), (8, 1)), denied("password", 57)), (extract((8, 1), (4, 1)), NO_FIELD), (extract((4, 9)), NO_FIELD)])
    talk("password_alone_is_not_told", of_form(password(1, 0, 0, 1)), b"\1\2", [(extract(), denied("password"))])
    for name, guarded in (("hidden", suppressed), ("grayed_out", grayed_out), ("disabled", disabled)):
        talk("password_that_is_%s_is_not_told" % name, of_form(guarded(TRUE, password(1, 0, 0, 1))), b"\1\2", [(extract(), denied("password", 61))])
    talk("passwords_that_meet_no_block", of_form(password(1, 1, 0, 0), password(2, 0, 0, 1, store=0)), b"\1\2", [
        (extract(), config((0, b"\1\2"))), (extract((1, 1)), config((1, b"\2")))])
    two = form_set() + varstore(1, 2) + varstore(2, 2, b"W") + form(1) + password(1, 0, 0, 1, store=2) + END + END
    talk_over("password_in_another_store", list_of(two), [(1, b"\1\2"), (2, b"\3\4")], [
        (extract(), config((0, b"\1\2"))), (extract(of=header(b"W")), denied("password", 81))])


def refused_texts():
    lines = lambda command, texts, answer: [(command + b" " + (it if isinstance(it, bytes) else it.encode()), answer) for it in texts]
    headers = [
        "x", "=", "GUID", "GUID=", "&" + HEADER, HEADER[1:], HEADER[:-1], HEADER[:-6], HEADER + "0", HEADER + "000", HEADER + "0g",
        HEADER + "x", HEADER + "00=", HEADER.lower(), HEADER.replace("GUID", "guid"), HEADER.replace("GUID=", "GUID=0"),
        HEADER.replace("GUID=3", "GUID="), HEADER.replace("GUID=3", "GUID=g"), HEADER.replace("0056", "056"), HEADER.replace("0056", "00056"),
        HEADER.replace("0056", "005g"), HEADER.replace("0056", "+056"), HEADER.replace("&NAME=0056", ""), HEADER.replace("&PATH", "PATH"),
        HEADER.replace("NAME=0056&PATH=", "PATH=&NAME=0056"), HEADER.replace("NAME=", "NAME:"), "CONFIG", b"\xff", b"\0", HEADER.encode() + b"\xff",
        HEADER + "?OFFSET=0&WIDTH=1", HEADER + "OFFSET=0&WIDTH=1", "GUID=33&OFFSET=0&WIDTH=1"]
    talk("texts_without_a_header", ONE_BOX_LIST, b"\1\2", lines(b"extract", headers, BAD_HEADER) + lines(b"route", headers, BAD_HEADER))
    elements = [HEADER + it for it in (
        "&", "&&", "&OFFSET", "&OFFSET0&WIDTH=1", "&OFFSETS=0&WIDTH=1", "&OFFSET=0", "&OFFSET=0&", "&OFFSET=0&WIDTH", "&OFFSET=0&OFFSET=0",
        "&WIDTH=1", "&WIDTH=1&OFFSET=0", "&offset=0&WIDTH=1", "&OFFSET=0&width=1", "&&OFFSET=0&WIDTH=1", "&OFFSET=0&&WIDTH=1", "&VALUE=1",
        "&ALTCFG=0000", "&" + HEADER)]
    asked = [HEADER + "&OFFSET=0&WIDTH=1" + it for it in ("&", "&OFFSET", "&OFFSET=0", "&WIDTH=1", "&VALUE=1", "&ALTCFG=0000", "&" + HEADER)]
    given = [HEADER + "&OFFSET=0&WIDTH=1" + it for it in (
        "", "&", "&VALUE", "&value=1", "&OFFSET=0", "&VALUE=1&", "&VALUE=1&VALUE=1", "&VALUE=1&OFFSET=0&WIDTH=1", "&VALUE=1&ALTCFG=0000",
        "&VALUE=1&" + HEADER)]
    talk("keys_that_are_not_wanted", ONE_BOX_LIST, b"\1\2", lines(b"extract", elements + asked, BAD_ELEMENT)
         + lines(b"route", elements + given, BAD_ELEMENT) + [(extract((0, 1)), config((0, b"\1")))])
    numbers = [HEADER + it for it in (
        "&OFFSET=", "&OFFSET=&WIDTH=1", "&OFFSET=g&WIDTH=1", "&OFFSET=0x1&WIDTH=1", "&OFFSET=-1&WIDTH=1", "&OFFSET=0=&WIDTH=1",
        "&OFFSET=10000&WIDTH=1", "&OFFSET=ffffffff&WIDTH=1", "&OFFSET=000000001&WIDTH=1", "&OFFSET=0&WIDTH=", "&OFFSET=0&WIDTH=0",
        "&OFFSET=0&WIDTH=00000000", "&OFFSET=0&WIDTH=10000", "&OFFSET=0&WIDTH=000000001", "&OFFSET=0&WIDTH=0000000000000001", "&OFFSET=0&WIDTH=1g")]
    values = [HEADER + "&OFFSET=0&WIDTH=1&VALUE=" + it for it in ("", "&OFFSET=0", "g", "-1", "0x1", "1=", "100g", "g100")]
    talk("numbers_that_are_refused", ONE_BOX_LIST, b"\1\2", lines(b"extract", numbers, BAD_NUMBER) + lines(b"route", numbers + values, BAD_NUMBER)
         + lines(b"route", [HEADER + "&OFFSET=%s&WIDTH=%s&VALUE=1" % it for it in (("0", "0"), ("000000001", "1"))], BAD_NUMBER)
         + [("extract %s&OFFSET=0&WIDTH=ffff" % HEADER, NO_FIELD)])
    wide = [HEADER + "&OFFSET=0&WIDTH=" + it for it in ("1&VALUE=100", "1&VALUE=f00", "1&VALUE=00100", "2&VALUE=10000", "2&VALUE=800000000000000000")]
    talk("values_that_are_too_wide", ONE_BOX_LIST, b"\1\2", lines(b"route", wide, VALUE_WIDTH) + [
        (route((0, 1, "001")), counted(1)), (route((0, 1, "0" * 60)), counted(1)), ("submit", changed(1))], b"\0\2")
    # The first fault from the left is told, and any before what a store denies.
    unknown = header(b"W")
    talk("leftmost_fault_is_told", ONE_BOX_LIST, b"\1\2", [("%s %s" % (command, text), answer) for command, text, answer in (
        ("extract", HEADER + "&OFFSET=g", BAD_NUMBER), ("extract", HEADER + "&OFFSET=0&WIDTH=0&OFFSET", BAD_NUMBER),
        ("extract", HEADER + "&OFFSET=0&WIDTH=1&WIDTH=g", BAD_ELEMENT), ("extract", "x&OFFSET=g", BAD_HEADER),
        ("route", HEADER + "&OFFSET=0&WIDTH=1&VALUE=100&OFFSET=g", VALUE_WIDTH), ("route", HEADER + "&OFFSET=0&WIDTH=1&VALUE=1&OFFSET=g", BAD_NUMBER),
        ("route", HEADER + "&OFFSET=g&WIDTH=1&VALUE=100", BAD_NUMBER), ("route", HEADER + "&OFFSET=0&WIDTH=1&VALUE=100&", VALUE_WIDTH),
        ("route", HEADER + "&OFFSET=0&WIDTH=1&VALUE=1&&OFFSET=0&WIDTH=1&VALUE=100", BAD_ELEMENT),
        ("extract", unknown + "&OFFSET=g&WIDTH=1", BAD_NUMBER), ("extract", HEADER + "&OFFSET=9&WIDTH=1&", BAD_ELEMENT),
        ("route", unknown + "&OFFSET=0&WIDTH=1&VALUE=100", VALUE_WIDTH), ("route", HEADER + "&OFFSET=9&WIDTH=1&VALUE=1&OFFSET=0", BAD_ELEMENT))]
        + [(extract((9, 1), of=unknown), NO_STORE), (route((9, 1, "1"), of=unknown), NO_STORE)])


def configuration_lines():
    bad = ["extract", "extract ", "extract  " + HEADER, "extract %s " % HEADER, "extract %s x" % HEADER, "Extract " + HEADER, " extract " + HEADER,
           "route", "route ", "route  " + HEADER, "route %s " % HEADER, "route %s x" % HEADER, "Route " + HEADER, "extracts " + HEADER]
    # Lines of the greatest length, 4096 bytes.
    longest = extract(*[(0, 1)] * 237)
    fill, zeros = 4096 - len(longest), "0" * (4096 - len(route((0, 1, ""))))
    talk("lines_of_configuration_texts", ONE_BOX_LIST, b"\1\2", [(line, BAD_COMMAND) for line in bad] + [
        (extract() + "\r", config((0, b"\1\2"))), (longest, config(*[(0, b"\1")] * 237)), (longest + "&" * fill, BAD_ELEMENT),
        (longest + "&" * (fill + 1), LINE_TOO_LONG), ("extract " + "x" * 4088, BAD_HEADER), ("extract " + "x" * 4089, LINE_TOO_LONG),
        (route((0, 1, zeros)), counted(1)), (route((0, 1, zeros + "0")), LINE_TOO_LONG), ("submit", changed(1))], b"\0\2")


def routed_as_a_whole():
    talk("denied_route_changes_nothing", of_form(checkbox(1, 0), scoped(checkbox(2, 1), inconsistent_if(7, eq_id_val(2, 1)))), b"\0\0", [
        (route((0, 1, "1"), (1, 1, "1")), denied("inconsistentif", 85).replace("\n", " #7\n")), ("submit", changed()),
        (route((0, 1, "01")), counted(1)), (route(), counted(0)), (route((0, 1, "100")), VALUE_WIDTH), (route((0, 2, "1")), NO_FIELD)], b"\0\0")
    boxes = of_form(checkbox(1, 0), checkbox(2, 1), scoped(checkbox(3, 2), inconsistent_if(7, TRUE)), size=3)
    inconsistent = denied("inconsistentif", 99).replace("\n", " #7\n")
    shown = lambda *marks: TITLE + "".join(row(n, n, "*", mark) for n, mark in enumerate(marks, 1))
    talk("denied_route_keeps_what_was_set_before", boxes, bytes(3), [
        ("set 1 1", OK), (route((0, 1, "0"), (1, 1, "1"), (0, 1, "1"), (2, 1, "1")), inconsistent), ("page", shown("x", " ", " ")),
        (route((1, 1, "1"), (0, 1, "0"), (3, 1, "1")), NO_FIELD), ("page", shown("x", " ", " ")), ("submit", changed(1)),
        (route((0, 1, "0"), (0, 1, "1"), (1, 1, "1")), counted(3)), ("submit", changed(2)),
        (route((0, 1, "0"), (1, 1, "0"), (2, 1, "0")), inconsistent), ("page", shown("x", "x", " ")), ("discard", OK), ("submit", changed()),
        (route((0, 1, "0"), (2, 1, "100")), VALUE_WIDTH), ("submit", changed())], b"\1\1\0")
    talk("denied_image_is_that_from_before", boxes, b"\0\1\0", [(route((0, 1, "1"), (1, 1, "0"), (2, 1, "1")), inconsistent), ("submit", changed())])
    talk("blocks_are_set_one_after_the_other", GUARDED_LIST, b"\0\0", [
        ("why 1", OK), (route((1, 1, "1"), (0, 1, "1")), denied("suppressif")), ("why 1", OK), ("set 2 1", OK), ("set 2 1", OK),
        ("why 1", denied("suppressif")), ("discard", OK), ("why 1", OK), (route((0, 1, "1"), (1, 1, "1")), counted(2)),
        ("why 1", denied("suppressif")), (route((1, 1, "0"), (0, 1, "0")), counted(2)), (route((0, 1, "1"), (1, 1, "1")), counted(2)),
        ("submit", changed(1, 2))], b"\1\1")
    talk("route_gives_no_warning", of_form(scoped(checkbox(1, 0), warning_if(9, eq_id_val(1, 1)))), b"\0\0", [
        ("set 1 1", OK + warned(71, "#9")), ("set 1 0", OK), (route((0, 1, "1")), counted(1)), ("submit", changed(1))], b"\1\0")


def routed_questions():
    # Question 3 has the field of question 1.
    shared = lambda flags: of_form(suppressed(eq_id_val(2, 1), checkbox(1, 0)), checkbox(3, 0, flags=flags), checkbox(2, 1))
    talk("first_question_that_is_not_fixed_is_set", shared(0), b"\0\1", [(route((0, 1, "1")), counted(1)), ("submit", changed(1, 3))], b"\1\1")
    talk("first_question_denies_where_all_are_fixed", shared(1), b"\0\1", [(route((0, 1, "1")), denied("suppressif")), ("submit", changed())])
    # Numbers of one field at 65 and 84: the value is that of the one which is set.
    talk("question_that_is_set_judges_the_value", of_form(
        grayed_out(eq_id_val(3, 1), numeric(1, 0, UNSIGNED, 1, 0, 5)), numeric(2, 0, UNSIGNED, 1, 0, 9), checkbox(3, 1)), b"\0\0", [
            (route((0, 1, "7")), denied("range", 65)), (route((0, 1, "5")), counted(1)), ("set 3 1", OK), (route((0, 1, "7")), counted(1)),
            (route((0, 1, "a")), denied("range", 84)), ("set 3 0", OK), (route((0, 1, "7")), denied("range", 65)),
            (route((1, 1, "1"), (0, 1, "9")), counted(2)), (route((1, 1, "0"), (0, 1, "9")), denied("range", 65)),
            ("submit", changed(1, 2, 3))], b"\x09\1")
    talk("first_question_is_set_though_another_is_fixed", of_form(
        numeric(1, 0, UNSIGNED, 1, 0, 5), numeric(2, 0, UNSIGNED, 1, 0, 9, flags=1)), b"\0\0", [
            (route((0, 1, "7")), denied("range")), (route((0, 1, "5")), counted(1)), ("submit", changed(1, 2))], b"\5\0")
    fixed = of_form(checkbox(1, 0, flags=1), disabled(TRUE, checkbox(2, 1)), scoped(checkbox(3, 2), opcode(0x0B)), checkbox(4, 3, store=0),
                    date(5, store=1), grayed_out(eq_id_val(1, 0), checkbox(6, 4)), size=5)
    talk("routed_questions_that_are_fixed", fixed, bytes(5), [
        (route((0, 1, "1")), denied("readonly")), (route((1, 1, "1")), denied("disableif", 71)), (route((2, 1, "1")), denied("locked", 105)),
        (route((3, 1, "1")), NO_FIELD), (route((4, 1, "1")), denied("grayoutif", 137)), (route((0, 1, "x")), BAD_NUMBER), ("submit", changed())])
    overlapping = of_form(numeric(1, 0, UNSIGNED, 2, 0, 65535), numeric(2, 1, UNSIGNED, 2, 0, 65535), string_question(3, 3, 0, 0), size=4)
    talk("field_of_exactly_this_place_and_width", overlapping, bytes(4), [
        (route((0, 2, "0201")), counted(1)), (route((1, 2, "0403")), counted(1)), ("submit", changed(1, 2)),
        *[(route(block + ("1",)), NO_FIELD) for block in ((0, 1), (1, 1), (0, 3), (2, 1), (2, 2), (3, 1), (0xFFFF, 2), (0, 0xFFFF))],
        (extract(), config((0, b"\1\3\4\0")))], b"\1\3\4\0")
    nameless = list_of(base() + checkbox(0, 0) + END + suppressed(eq_id_val(0, 0), form(2) + checkbox(2, 1) + END) + END)
    talk("questions_without_an_id_and_of_other_forms", nameless, bytes(2), [
        (route((0, 1, "1"), (1, 1, "1")), counted(2)), ("submit", changed(0, 2))], b"\1\1")


def routed_types():
    out, none = denied("range"), denied("nooption")
    page = lambda value: ("page", TITLE + row(1, 1, "*", value))
    talk("routed_number", of_form(numeric(1, 1, HEXADECIMAL, 2, 0x10, 0x2000), size=4), b"\xaa\0\0\xdd", [
        (route((1, 2, "1122")), counted(1)), page("0x1122"), (route((1, 2, "2001")), out), (route((1, 2, "f")), out), (route((1, 2, "10")), counted(1)),
        page("0x0010"), (route((1, 2, "001fF0")), counted(1)), ("submit", changed(1))], b"\xaa\xf0\x1f\xdd")
    talk("routed_number_of_eight_bytes", of_form(numeric(1, 0, UNSIGNED, 8, 0, 2**64 - 1), size=8), bytes(8), [
        (route((0, 8, "f" * 16)), counted(1)), page("18446744073709551615"), (route((0, 8, "123456789abcdef0")), counted(1)), ("submit", changed(1))],
        bytes.fromhex("f0debc9a78563412"))
    talk("routed_signed_number", of_form(numeric(1, 0, SIGNED, 1, -2, 9)), b"\0\0", [
        (route((0, 1, "fe")), counted(1)), page("-2"), (route((0, 1, "fd")), out), (route((0, 1, "80")), out), (route((0, 1, "a")), out),
        (route((0, 1, "9")), counted(1)), page("9"), ("submit", changed(1))], b"\x09\0")
    # Any bits but 0 are true, and are written as 1.
    talk("routed_checkbox", of_form(checkbox(1, 0)), b"\0\0", [
        (route((0, 1, "2")), counted(1)), page("x"), ("submit", changed(1)), (route((0, 1, "0")), counted(1)), page(" "),
        (route((0, 1, "FF")), counted(1)), ("submit", changed())], b"\1\0")
    talk("routed_choice", of_form(scoped(one_of(1, 0, 2), option(5, 0x102, NUMBER_2), suppressed(TRUE, option(6, 2, NUMBER_2)))), b"\0\0", [
        (route((0, 2, "3")), none), (route((0, 2, "2")), denied("suppressif", 85)), (route((0, 2, "102")), counted(1)), page("<#5>"),
        (route((0, 2, "0")), none), ("submit", changed(1))], b"\2\1")
    length = denied("length")
    talk("routed_text", of_form(string_question(1, 0, 1, 3), size=6), bytes(6), [
        (route((0, 6, "690048")), counted(1)), page("Hi"), (route((0, 6, "004300420041")), counted(1)), page("ABC"), (route((0, 6, "0")), length),
        # The units up to the first zero unit, whatever stands behind it.
        (route((0, 6, "004300000000")), length), (route((0, 6, "004200000041")), counted(1)), page("A"), ("submit", changed(1)),
        (route((0, 6, "d800")), counted(1)), page("\ufffd"), (route((0, 6, "1000000000000")), VALUE_WIDTH)], b"A\0\0\0\0\0")
    listed = scoped(ordered_list(1, 0, 3, UNIQUE_SET | NO_EMPTY_SET), option(5, 1), option(6, 2), suppressed(TRUE, option(7, 3)))
    talk("routed_list", of_form(listed, size=3), bytes(3), [
        (route((0, 3, "0102")), counted(1)), page("#6, #5"), (route((0, 3, "101")), denied("repeat")), (route((0, 3, "0")), denied("emptyset")),
        (route((0, 3, "10000")), denied("emptyset")), (route((0, 3, "4")), none), (route((0, 3, "301")), denied("suppressif", 86)),
        (route((0, 3, "20001")), counted(1)), page("#5"), ("submit", changed(1))], b"\1\0\0")
    wide = scoped(ordered_list(1, 0, 2), option(5, 0x102, NUMBER_2), option(6, 1, NUMBER_2))
    talk("routed_list_of_two_bytes_an_element", of_form(wide, size=4), bytes(4), [
        (route((0, 4, "10102")), counted(1)), page("#5, #6"), (route((0, 4, "201")), none), ("submit", changed(1))], b"\2\1\1\0")
    widest = scoped(ordered_list(1, 0, 255), option(5, 1, NUMBER_8))
    talk("routed_list_of_the_greatest_width", of_form(widest, size=2040), bytes(2040), [
        (route((0, 2040, "1")), counted(1)), page("#5"), (route((0, 2040, "0000000000000001" * 250)), counted(1)), ("submit", changed(1)),
        (route((0, 2041, "1")), NO_FIELD), (route((0, 2039, "1")), NO_FIELD)], b"\1\0\0\0\0\0\0\0" * 250 + bytes(40))


def routed_passwords():
    talk("routed_password", of_form(password(1, 0, 0, 2), size=4), bytes(4), [
        (route((0, 4, "41")), denied("password")), (route((0, 2, "41")), NO_FIELD), (route((0, 4, "100000000")), VALUE_WIDTH), ("submit", changed())])
    talk("routed_password_that_is_fixed", of_form(suppressed(TRUE, password(1, 0, 0, 2, flags=1)), size=4), bytes(4), [
        (route((0, 4, "41")), denied("password", 61))])
    talk("routed_password_that_is_wide", of_form(password(1, 0, 0, 2000), size=4000), bytes(4000), [
        (route((0, 4000, "41")), denied("password")), (route((0, 2040, "41")), NO_FIELD)])
    text = lambda **header: string_question(1, 0, 0, 2, **header)
    secret = lambda **header: password(2, 0, 0, 2, **header)
    said = [(route((0, 4, "41")), counted(1)), ("submit", changed(1, 2))]
    # A text and a password of one field: the first that is not fixed, or the first, decides. The first stands at 57.
    talk("password_behind_a_text", of_form(text(), secret(), size=4), bytes(4), said, b"A\0\0\0")
    talk("password_behind_a_fixed_text", of_form(text(flags=1), secret(), size=4), bytes(4), [(route((0, 4, "41")), denied("password", 73))])
    talk("fixed_password_behind_a_fixed_text", of_form(text(flags=1), secret(flags=1), size=4), bytes(4), [(route((0, 4, "41")), denied("readonly"))])
    talk("password_before_a_text", of_form(secret(), text(), size=4), bytes(4), [(route((0, 4, "41")), denied("password"))])
    said = [(route((0, 4, "41")), counted(1)), ("submit", changed(2, 1))]
    talk("fixed_password_before_a_text", of_form(secret(flags=1), text(), size=4), bytes(4), said, b"A\0\0\0")
    talk("fixed_password_before_a_fixed_text", of_form(secret(flags=1), text(flags=1), size=4), bytes(4), [(route((0, 4, "41")), denied("password"))])
    talk("password_behind_other_blocks", of_form(checkbox(1, 4), password(2, 0, 0, 2), size=5), bytes(5), [
        (route((4, 1, "1"), (0, 4, "0")), denied("password", 71)), (route((0, 4, "0"), (9, 1, "1")), denied("password", 71)),
        (route((9, 1, "1"), (0, 4, "0")), NO_FIELD), ("submit", changed())])
