"""Cases: what a run is given. They are read from folders, and those with a difference are kept in one."""
import os
import shutil
from dataclasses import dataclass, replace

from running import read


@dataclass(frozen=True)
class Case:
    """A list, an image and a script as bytes, the two arguments, and the names of the mutations that made it."""
    list: bytes
    stores: bytes
    script: bytes
    forms: int = 1
    language: str = "en-US"
    trail: tuple = ()

    def after(self, name, **changes):
        """The case that a mutation of this name makes."""
        return replace(self, trail=self.trail + (name,), **changes)

    def changed(self, **changes):
        return replace(self, **changes)

    @property
    def words(self):
        """The arguments that differ from what is taken without them."""
        words = ["--forms", str(self.forms)] if self.forms != 1 else []
        return words + (["--lang", self.language] if self.language != "en-US" else [])


@dataclass(frozen=True)
class Run:
    """What a run gives: its status, its answers, and the image or None."""
    status: object
    answers: bytes
    image: object


def arguments(words):
    """The number of the forms package and the language that the words of a command line give."""
    given = dict(zip(words[0::2], words[1::2]))
    return {"forms": int(given.get("--forms", 1)), "language": given.get("--lang", "en-US")}


def case_in(folder, names=("list.bin", "stores.bin", "script.bin")):
    """The case of a folder, or None where one of its files is missing."""
    paths = [os.path.join(folder, name) for name in names]
    if not all(map(os.path.isfile, paths)):
        return None
    args = os.path.join(folder, "args")
    words = [it for it in read(args).decode().split("\n") if it] if os.path.isfile(args) else []
    return Case(*map(read, paths), **arguments(words))


def cases_below(folder):
    """The cases in or below a folder, by name, and whether each should end well. An example has files with other names."""
    for root, folders, _ in os.walk(folder):
        folders.sort()
        found = case_in(root) or case_in(root, ("list", "stores", "script"))
        if found:
            status = os.path.join(root, "status")
            yield os.path.basename(root), found, not os.path.isfile(status) or read(status).strip() == b"0"


def write(folder, name, content):
    with open(os.path.join(folder, name), "wb") as file:
        file.write(content)


def keep(folder, case, expected, seen):
    """Writes a case with what is expected of it, and what was seen."""
    shutil.rmtree(folder, ignore_errors=True)
    os.makedirs(folder)
    for name, content in (("list.bin", case.list), ("stores.bin", case.stores), ("script.bin", case.script)):
        write(folder, name, content)
    if case.words:
        write(folder, "args", "".join(word + "\n" for word in case.words).encode())
    if expected:
        write(folder, "answers", expected.answers)
        write(folder, "status", b"%d\n" % expected.status)
        if expected.image is not None:
            write(folder, "out.bin", expected.image)
    write(folder, "seen", seen)
