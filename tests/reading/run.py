"""PROFILE.md, Program: a whole run, and what it leaves."""

from dataclasses import dataclass, field

from . import form_set, framing, opcodes, package_list, questions, references, script, stores, string_packages
from .commands import Session
from .faults import Refused
from .questions import Denied
from .texts import Texts

MOST_FILE = 16_777_216


@dataclass
class Run:
    """What a run gives: its status, its answers, the written image, and what it told."""

    status: int = 0
    answers: bytes = b""
    image: bytes | None = None
    causes: list = field(default_factory=list)
    denials: list = field(default_factory=list)
    commands: int = 0
    accepted: bool = False



def answer(list_bytes, image_bytes, script_bytes, forms=1, language="en-US"):
    """The run of the program over a package list, an image of stores and a script, all in bytes."""
    run, told = Run(), []
    try:
        if max(len(list_bytes), len(image_bytes)) > MOST_FILE:
            raise Refused(73)
        session = opened(bytes(list_bytes), bytes(image_bytes), forms, language.encode("utf-8", "surrogateescape"))
        run.accepted = True
        run_script(run, told, session, bytes(script_bytes))
        run.image = stores.written_image(session.form_set, session.committed)
    except Refused as fault:
        run.status = 1
        refuse(run, told, fault)
    run.answers = "".join(line + "\n" for line in told).encode("utf-8")
    return run


def refuse(run, told, fault):
    run.causes.append(fault.cause)
    told.append(fault.line())


def opened(list_bytes, image_bytes, forms, language):
    """The session over a list and an image. The first part that has a fault tells its least fault."""
    found = package_list.packages(list_bytes)
    package = package_list.forms_package(found, forms)
    strings = string_packages.string_packages(found)
    roots = framing.forest(package.data)
    opcodes.check(roots)
    forms_of_package = form_set.form_set(roots[0])
    references.check(forms_of_package)
    stores.check(forms_of_package)
    questions.check(forms_of_package)
    held = stores.read_image(forms_of_package, image_bytes)
    return Session(forms_of_package, package_list.device_path(found), Texts(strings, language), held)


def run_script(run, told, session, data):
    """Run the lines of a script, and add to the lines told. Of a long one those whose LF is among its first bytes are run."""
    is_too_long = len(data) > script.MOST_SCRIPT
    if is_too_long:
        data = data[:data.rfind(b"\n", 0, script.MOST_SCRIPT) + 1]
    for line in script.lines(data):
        run_line(run, told, session, line)
    if is_too_long:
        raise Refused(72)


def run_line(run, told, session, line):
    """Run a line. A refused line and a denied command leave the run going."""
    try:
        command = script.read_line(line)
        if command is None:
            return
        run.commands += 1
        told += session.run(command)
    except Denied as denied:
        run.denials.append(denied.kind)
        text = "" if denied.text is None else " " + session.texts.shown(denied.text)
        told.append(f"DENIED {denied.kind} at {denied.place:08x}{text}")
    except Refused as fault:
        refuse(run, told, fault)
