"""Runs of the program that replace the file of `--out`: through links, beside other names, under kills, where there is no room, and
two at once. At each moment the old bytes or the new ones stand under the name, and no other file is left behind."""
import os
import random
import re
import shutil
import signal
import stat
import subprocess
import threading
import time

from packages import END, checkbox, form, form_set, image, list_of, varstore
from running import SECONDS, read
from streams import Runs, limit_files

KILLS = 200
# A new file beside the one that it was to replace, left by a run that was killed.
NEW = re.compile(r"\Aimage\.new\d+\Z")
MANY_STORES, FEW_WRITES = 60000, 1000


def image_of(count, size):
    """A list of so many stores of so many bytes, with a checkbox over the first byte of the first, and images in which it is 0
    and 1."""
    opcodes = form_set() + b"".join(varstore(number, size) for number in range(1, count + 1))
    list_bytes = list_of(opcodes + form(1) + checkbox(1, 0) + END + END)
    old = [(number, bytes(size)) for number in range(1, count + 1)]
    return list_bytes, image(old), image([(1, b"\1" + bytes(size - 1))] + old[1:])


def writes_of(line, script):
    """How many writes a run makes."""
    with subprocess.Popen(line, stdin=subprocess.PIPE, stdout=subprocess.DEVNULL) as process:
        process.stdin.write(script)
        process.stdin.close()
        os.waitid(os.P_PID, process.pid, os.WEXITED | os.WNOWAIT)
        with open("/proc/%d/io" % process.pid, encoding="utf-8") as f:
            return int(re.search(r"^syscw: (\d+)$", f.read(), re.M)[1])


class Replaced(Runs):
    """Runs whose image takes the place of a file, or leaves it as it was."""

    def left(self, what, status):
        """Each part looks at its own file."""

    def wrong(self, what):
        self.faults.append("the file of --out: " + what)

    def links(self):
        """What a link names is replaced, or made where it names nothing, and the link stays. Another name of the old file keeps the
        old bytes."""
        status, answers, written = self.case.expected
        for name, named in (("link", "named"), ("link to a link", "link"), ("dangling link", "to be made")):
            path = self.path(name)
            os.symlink(named, path)
            if name != "dangling link":
                self.file("named", b"old")
            self.expect_line(name, status, answers, b"", self.words({"--out": path}))
            if not os.path.islink(path) or read(path) != written:
                self.wrong("%s is no link to the image" % name)
        twin, out = self.path("twin"), self.file("of two names", b"old")
        os.link(out, twin)
        self.expect_line("a file of two names", status, answers, b"", self.words({"--out": out}))
        if read(out) != written or read(twin) != b"old":
            self.wrong("of two names one has the new bytes, the other the old ones")

    def kinds(self):
        """What is no regular file is written as it stands, and keeps its kind. Permissions stay."""
        status, answers, written = self.case.expected
        pipe, got = self.path("pipe"), []
        os.mkfifo(pipe)
        reader = threading.Thread(target=lambda: got.append(read(pipe)))
        reader.start()
        self.expect_line("a named pipe", status, answers, b"", self.words({"--out": pipe}))
        reader.join(SECONDS)
        if got != [written] or not stat.S_ISFIFO(os.stat(pipe).st_mode):
            self.wrong("a named pipe gives the image")
        self.expect_line("standard output", status, answers + written, b"", self.words({"--out": "/dev/stdout"}))
        for mode in (0o600, 0o640, 0o755):
            out = self.file("of a mode", b"old")
            os.chmod(out, mode)
            self.expect_line("a file of mode %o" % mode, status, answers, b"", self.words({"--out": out}))
            if stat.S_IMODE(os.stat(out).st_mode) != mode or read(out) != written:
                self.wrong("mode %o stays" % mode)

    def list_as_out(self):
        """The list is not overwritten, under any of its names."""
        given = read(self.case.list)
        path, link, twin = self.file("list", given), self.path("link to the list"), self.path("twin of the list")
        os.symlink("list", link)
        os.link(path, twin)
        for out in (path, link, twin, self.path("./list")):
            line = self.words({"--list": path, "--out": out, "--stores": self.path("missing")})
            self.expect_line("the list as --out", 2, b"", re.compile(rb"\Aerror: .*--out.*--list"), line)
        if read(path) != given:
            self.wrong("the list stays")

    def full(self):
        """Where there is no room for the image the old bytes stay."""
        _, answers, written = self.case.expected
        for size in range(len(written)):
            out = self.file("image of old bytes", b"old")
            self.expect_line("an image in a file of %d bytes" % size, 3, answers, b"FAULT write out\n",
                             self.words({"--out": out}), preexec_fn=limit_files(size), restore_signals=False)
            if read(out) != b"old":
                self.wrong("with room for %d bytes the old bytes stay" % size)

    def full_disk(self):
        """The same in a file system of one page, which the old bytes take; where none may be mounted, nothing is looked at."""
        disk = self.path("disk")
        os.mkdir(disk)
        mount = ["mount", "-t", "tmpfs", "-o", "size=4k", "tmpfs", disk]
        if shutil.which("mount") and subprocess.run(mount, stderr=subprocess.DEVNULL).returncode == 0:
            try:
                out = self.file("disk/image", b"old")
                self.expect_line("an image on a full disk", 3, self.case.expected[1], b"FAULT write out\n", self.words({"--out": out}))
                if read(out) != b"old" or os.listdir(disk) != ["image"]:
                    self.wrong("on a full disk the old bytes stay alone")
            finally:
                subprocess.run(["umount", disk], check=True)
        os.rmdir(disk)

    def no_new_file(self):
        left = [name for name in os.listdir(self.scratch) if ".new" in name]
        if left:
            self.wrong("%r is left" % left)

    def first_free_name(self):
        """A new file has a name that no file has, and files of such names stay."""
        status, answers, written = self.case.expected
        out, others = self.file("taken", b"old"), [self.file("taken.new%d" % number, b"another") for number in range(3)]
        self.expect_line("names that are taken", status, answers, b"", self.words({"--out": out}))
        if read(out) != written or any(read(path) != b"another" for path in others):
            self.wrong("files of other names stay")
        for path in others:
            os.remove(path)

    def kills(self):
        """At each moment of a run the old image or the new one stands there."""
        list_bytes, old, new = image_of(255, 65000)
        folder = self.path("killed")
        os.mkdir(folder)
        list_path, out = self.file("list of 255 stores", list_bytes), os.path.join(folder, "image")
        line = [self.program, "--list", list_path, "--stores", out, "--out", out]
        script, found = b"set 1 1\nsubmit\n", {old: 0, new: 0}
        choice = random.Random(48)
        longest = 0.0
        for number in range(KILLS + 1):
            with open(out, "wb") as f:
                f.write(old)
            begun = time.monotonic()
            with subprocess.Popen(line, stdin=subprocess.PIPE, stdout=subprocess.DEVNULL, stderr=subprocess.DEVNULL) as process:
                process.stdin.write(script)
                process.stdin.close()
                if number:
                    time.sleep(choice.uniform(0, longest * 1.05))
                    process.send_signal(signal.SIGKILL)
                process.wait(SECONDS)
            longest = longest or time.monotonic() - begun
            left = read(out)
            if left not in found:
                self.wrong("kill %d leaves %d bytes of neither image" % (number, len(left)))
                continue
            found[left] += 1
            names = [name for name in os.listdir(folder) if name != "image"]
            if not all(map(NEW.match, names)):
                self.wrong("kill %d leaves %r" % (number, names))
            for name in names:
                os.remove(os.path.join(folder, name))
        self.count += KILLS
        if found[old] < KILLS // 20 or found[new] < 2:
            self.wrong("kills come too early or too late: %r" % list(found.values()))
        shutil.rmtree(folder)

    def two_at_once(self):
        """Two runs into one file leave the image of one of them."""
        list_bytes, old, new = image_of(64, 65000)
        list_path, stores, out = self.file("list of 64 stores", list_bytes), self.file("stores", old), self.path("of two runs")
        line = [self.program, "--list", list_path, "--stores", stores, "--out", out]
        for _ in range(20):
            runs = [subprocess.Popen(line, stdin=subprocess.PIPE, stdout=subprocess.DEVNULL) for _ in range(2)]
            for run, script in zip(runs, (b"", b"set 1 1\nsubmit\n")):
                run.stdin.write(script)
            for run in runs:
                run.stdin.close()
            self.count += 1
            if any(run.wait(SECONDS) for run in runs) or read(out) not in (old, new):
                self.wrong("two runs leave a mixed image")

    def few_writes(self):
        """An image of many stores takes few writes."""
        list_bytes, old, _ = image_of(MANY_STORES, 1)
        list_path, stores = self.file("list of many stores", list_bytes), self.file("many stores", old)
        line = [self.program, "--list", list_path, "--stores", stores, "--out", self.path("image of many stores")]
        writes = writes_of(line, b"page\n")
        self.count += 1
        if writes >= FEW_WRITES or read(self.path("image of many stores")) != old:
            self.wrong("an image of %d stores takes %d writes" % (MANY_STORES, writes))

    def all(self):
        for part in (self.links, self.kinds, self.list_as_out, self.full, self.full_disk, self.first_free_name, self.kills,
                     self.two_at_once, self.few_writes):
            part()
            self.no_new_file()
        return self.faults, self.count
