"""Runs of the program with files, readers and writers that fail, that are slow, or that are interrupted.

In each the status and the texts are those of docs/PROFILE.md (Program), and the file of `--out` is as it was before, where the
image is not written.
"""
import contextlib
import fcntl
import os
import re
import resource
import select
import shutil
import signal
import socket
import struct
import subprocess
import tempfile
import termios
import threading
import time

from running import FILE_TOO_LONG, SECONDS, read, read_or_none

# What help says: something of the program, of each option and of each status, in this order.
HELP = re.compile(
    rb"\A\w.*\n\nUsage: setup \[OPTIONS\] --list <F> --stores <F> --out <F>\n"
    + b"".join(rb".*\n +%s +\w" % option for option in (b"--list <F>", b"--stores <F>", b"--out <F>", b"--forms <N>",
                                                        b"--lang <L>"))
    + rb".*\nStatuses:\n" + b"".join(b"  %d  .*\n" % status for status in range(5)) + rb"\Z", re.DOTALL)
FILE_LIMIT = 16777216
# What stands in the file of `--out` before: nothing, or more bytes than the image has.
OLDER = b"as it was before " * 100
# A user who owns nothing.
NOBODY = 65534


def is_as_expected(got, expected):
    """Whether bytes are those that are expected, or match a pattern. None is any bytes."""
    return expected is None or (bool(expected.search(got)) if isinstance(expected, re.Pattern) else got == expected)


def is_unread(writer):
    """Whether a pipe has bytes, and a reader for them."""
    waiting, = struct.unpack("i", fcntl.ioctl(writer, termios.FIONREAD, bytes(4)))
    poll = select.poll()
    poll.register(writer, 0)
    return waiting > 0 and not any(event & select.POLLERR for _, event in poll.poll(0))


def write_slowly(writer, content):
    """Writes bytes one by one, each when the one before was read."""
    with contextlib.suppress(BrokenPipeError):
        for at in range(len(content)):
            os.write(writer, content[at:at + 1])
            while is_unread(writer):
                time.sleep(0.0001)
    os.close(writer)


@contextlib.contextmanager
def slow_reader(content):
    """The reading end of a pipe that gives one byte at a time."""
    reader, writer = os.pipe()
    feeder = threading.Thread(target=write_slowly, args=(writer, content))
    feeder.start()
    try:
        yield reader
    finally:
        os.close(reader)
        feeder.join()


@contextlib.contextmanager
def broken_reader(content):
    """A stream that gives these bytes, and then fails: its other end is closed with a byte that nobody has read."""
    reader, other = socket.socketpair()
    with reader:
        reader.send(b".")
        other.sendall(content)
        other.close()
        yield reader


def wait_for(process, state):
    """Waits until a run is in this state, as it is shown in /proc, or has ended."""
    until = time.monotonic() + SECONDS
    while process.poll() is None and time.monotonic() < until:
        with open("/proc/%d/stat" % process.pid, encoding="utf-8") as f:
            if f.read().rpartition(") ")[2][0] == state:
                return
        time.sleep(0.0001)


def become_nobody():
    os.setgroups([])
    os.setgid(NOBODY)
    os.setuid(NOBODY)


def limit_files(size):
    """What a process does before it starts, so that its files may have so many bytes. It is to ignore the signal that tells
    so."""
    return lambda: resource.setrlimit(resource.RLIMIT_FSIZE, (size, size))


class Runs:
    """Runs of one case, and what was wrong."""

    def __init__(self, program, case, scratch):
        self.program, self.case, self.scratch, self.faults, self.count = program, case, scratch, [], 0
        self.older = None

    def path(self, name):
        return os.path.join(self.scratch, name)

    def file(self, name, content):
        with open(self.path(name), "wb") as f:
            f.write(content)
        return self.path(name)

    def words(self, others=None):
        """The words of a run with other values for some options, or without those whose value is None."""
        words = self.case.words(self.path("image"))
        given = {**dict(zip(words[0::2], words[1::2])), **(others or {})}
        return [word for option, value in given.items() if value is not None for word in (option, value)]

    def expect(self, what, status, answers, told, others=None, **streams):
        self.expect_line(what, status, answers, told, self.words(others), **streams)

    def expect_line(self, what, status, answers, told, line, **streams):
        if "stdin" not in streams:
            streams["input"] = self.case.script
        streams.setdefault("stdout", subprocess.PIPE)
        self.put_older()
        try:
            done = subprocess.run([self.program] + line, stderr=subprocess.PIPE, timeout=SECONDS, **streams)
        except subprocess.TimeoutExpired:
            self.ended(what, None, None)
        else:
            self.ended(what, (done.returncode, done.stdout, done.stderr), (status, answers, told))

    def put_older(self):
        """Makes what the file of `--out` has before, or takes it away."""
        out = self.path("image")
        if os.path.lexists(out):
            os.remove(out)
        if self.older is not None:
            self.file("image", self.older)

    def ended(self, what, got, expected):
        """Looks at the status, the answers and the text of a run that has ended, and at what it leaves."""
        self.count += 1
        if got is None:
            self.faults.append("%s: no end in %d seconds" % (what, SECONDS))
            return
        if not all(map(is_as_expected, got, expected)):
            self.faults.append("%s: %r, not %r" % (what, got, expected))
        if got[0] == 2 and not got[2]:
            self.faults.append("%s: no text" % what)
        self.left(what, got[0])

    def left(self, what, status):
        """Looks at the file of `--out` of a run that ended with this status."""
        left = read_or_none(self.path("image"))
        if left != (self.case.expected[2] if status == 0 else self.older):
            self.faults.append("%s: the file of --out is %r" % (what, left))


class Failing(Runs):
    """Runs with a file, a reader or a writer that fails."""

    def usage(self):
        self.expect("forms 0", 2, b"", None, {"--forms": "0"})
        self.expect("forms 65536", 2, b"", None, {"--forms": "65536"})
        self.expect("forms that is no number", 2, b"", None, {"--forms": "one"})
        self.expect("unknown option", 2, b"", None, {"--page": "1"})
        self.expect("forms 0 and a missing list", 2, b"", None, {"--forms": "0", "--list": self.path("missing")})
        self.expect("no UTF-8", 2, b"", None, {"--lang": b"\xff"})
        for name in ("--list", "--stores", "--out"):
            self.expect("no %s" % name, 2, b"", None, {name: None})
        self.expect_line("no words", 2, b"", None, [])
        for line in (["--help"], ["-h"]):
            self.expect_line("the line %r" % line, 2, b"", HELP, line)

    def inputs(self):
        missing, folder = self.path("missing"), self.scratch
        whole = self.file("whole", bytes(FILE_LIMIT))
        long = self.file("long", bytes(FILE_LIMIT + 1))
        for name, option in (("list", "--list"), ("stores", "--stores")):
            fault = b"FAULT read %s\n" % name.encode()
            self.expect("a missing %s" % name, 3, b"", fault, {option: missing})
            self.expect("a folder as %s" % name, 3, b"", fault, {option: folder})
            self.expect("a %s that is too long" % name, 1, FILE_TOO_LONG, b"", {option: long})
            line = b"REFUSED 2 ListLength at 00000010\n" if name == "list" else b"REFUSED 50 StoreMagic at 00000000\n"
            self.expect("a %s of the greatest length" % name, 1, line, b"", {option: whole})
        self.expect("a missing list and missing stores", 3, b"", b"FAULT read list\n", {"--list": missing, "--stores": missing})
        self.expect("a long list and missing stores", 1, FILE_TOO_LONG, b"", {"--list": long, "--stores": missing})
        self.expect("an empty list and missing stores", 3, b"", b"FAULT read stores\n",
                    {"--list": "/dev/null", "--stores": missing})
        script = os.open(folder, os.O_RDONLY)
        self.expect("a folder as script", 3, b"", b"FAULT read script\n", stdin=script)
        os.close(script)

    def broken_scripts(self):
        """A script of which the reader fails behind some bytes: the lines that were whole are answered."""
        for size in range(len(self.case.script) + 1):
            given = self.case.script[:size]
            with broken_reader(given) as script:
                self.expect("a script that breaks off behind %d bytes" % size, 3, self.answers_to(given.count(b"\n")),
                            b"FAULT read script\n", stdin=script)

    def answers_to(self, count):
        """What is answered to so many lines of the script, each of which is whole."""
        answers, lines = self.case.expected[1].splitlines(True), self.case.script.splitlines(True)
        # The page has a title and one row, and the submission names one question.
        lengths = {b"page": 2, b"set 1 1": 1, b"submit": 2}
        return b"".join(answers[:sum(lengths[line.strip()] for line in lines[:count])])

    def outputs(self):
        answers = self.case.expected[1]
        fault = b"FAULT write out\n"
        for what, out in (("in a missing folder", self.path("missing/image")), ("in a file as folder", self.path("whole/image")),
                          ("that is a folder", self.scratch), ("on a full device", "/dev/full"), ("without a name", "")):
            self.expect("an image " + what, 3, answers, fault, {"--out": out})
        fault = b"FAULT write answers\n"
        empty = self.file("empty", b"")
        with open("/dev/full", "wb") as full:
            self.expect("answers on a full device", 3, None, fault, stdout=full)
            self.expect("a refused list on a full device", 3, None, fault, {"--list": empty}, stdout=full)
            self.expect("a long list on a full device", 3, None, fault, {"--list": self.path("long")}, stdout=full)
        reader, writer = os.pipe()
        os.close(reader)
        self.expect("answers into a closed pipe", 3, None, fault, stdout=writer)
        self.expect("a refused list into a closed pipe", 3, None, fault, {"--list": empty}, stdout=writer)
        os.close(writer)

    def full_files(self):
        """Answers in files that may not be as long: what they have is a first part."""
        _, answers, _ = self.case.expected
        for size in range(len(answers)):
            what = "answers in a file of %d bytes" % size
            with open(self.path("answers"), "wb") as f:
                self.expect(what, 3, None, b"FAULT write answers\n", stdout=f, preexec_fn=limit_files(size),
                            restore_signals=False)
            self.is_a_first_part(what, self.path("answers"), answers, size)

    def is_a_first_part(self, what, path, content, size):
        left = read(path)
        if len(left) > size or not content.startswith(left):
            self.faults.append("%s: it has %r" % (what, left))

    def closed_midway(self):
        """The answers' reader goes away behind the first line of the script."""
        self.put_older()
        first, rest = self.case.script.split(b"\n", 1)
        page = self.answers_to(1)
        with self.started() as process:
            os.write(process.stdin.fileno(), first + b"\n")
            got = b""
            while len(got) < len(page):
                got += os.read(process.stdout.fileno(), len(page) - len(got)) or b"?" * len(page)
            process.stdout.close()
            os.write(process.stdin.fileno(), rest)
            process.stdin.close()
            told = process.stderr.read()
            self.ended("answers into a pipe that is closed", (process.wait(SECONDS), got, told),
                       (3, page, b"FAULT write answers\n"))

    def started(self):
        """A run that takes the script from a pipe."""
        line = [self.program] + self.words()
        return subprocess.Popen(line, stdin=subprocess.PIPE, stdout=subprocess.PIPE, stderr=subprocess.PIPE, bufsize=0)

    def forbidden(self):
        """Files that may not be read or made. Where this user may read all, it is another user who runs the program."""
        with tempfile.TemporaryDirectory() as folder:
            os.chmod(folder, 0o755)
            self.copies(folder)
            streams = {"preexec_fn": become_nobody} if os.geteuid() == 0 else {}
            try:
                subprocess.run(["/bin/true"], cwd=folder, check=True, **streams)
            except (OSError, subprocess.SubprocessError):
                print("files that may not be read: skipped, since no other user may be had")
                return
            self.forbidden_files(folder, streams)

    def copies(self, folder):
        """Copies of the program and of the case's files, and what may not be read, written or entered."""
        list_bytes, stores = self.case.list, self.case.stores
        for name, source, mode in (("program", self.program, 0o755), ("list", list_bytes, 0o644), ("stores", stores, 0o644),
                                   ("secret", list_bytes, 0o000), ("kept", stores, 0o444)):
            shutil.copyfile(source, os.path.join(folder, name))
            os.chmod(os.path.join(folder, name), mode)
        for name, mode in (("locked", 0o555), ("closed", 0o000)):
            os.mkdir(os.path.join(folder, name), mode)

    def forbidden_files(self, folder, streams):
        at = lambda name: os.path.join(folder, name)
        answers, kept = self.case.expected[1], read(self.case.stores)
        good = {"--list": at("list"), "--stores": at("stores"), "--out": at("locked/image")}
        program, self.program = self.program, at("program")
        for name, option in (("list", "--list"), ("stores", "--stores")):
            fault = b"FAULT read %s\n" % name.encode()
            for what in ("secret", "closed/file"):
                self.expect("a %s that may not be read" % name, 3, b"", fault, good | {option: at(what)}, **streams)
        for what in ("locked/image", "closed/image", "kept"):
            self.expect("an image that may not be made", 3, answers, b"FAULT write out\n", good | {"--out": at(what)}, **streams)
        self.program = program
        if read(at("kept")) != kept or os.listdir(at("locked")):
            self.faults.append("an image was made that may not be made")

    def all(self):
        for self.older in (None, OLDER):
            self.usage()
            self.inputs()
            self.broken_scripts()
            self.outputs()
            self.full_files()
            self.closed_midway()
            self.forbidden()
        return self.faults, self.count


class Slow(Runs):
    """Runs that read one byte at a time, are interrupted while they wait, or are looked at write by write, and are as they would be else."""

    def bytes_by_bytes(self):
        status, answers, _ = self.case.expected
        with slow_reader(self.case.script) as script:
            self.expect("a script that comes byte by byte", status, answers, b"", stdin=script)
        for name, path in (("list", self.case.list), ("stores", self.case.stores)):
            with slow_reader(read(path)) as reader:
                self.expect("a %s that comes byte by byte" % name, status, answers, b"", {"--" + name: "/dev/fd/%d" % reader},
                            pass_fds=(reader,))

    def interrupted(self):
        """Signals that stop and continue the run, and that it ignores, while it waits for the next bytes of a line."""
        self.put_older()
        line = [self.program] + self.words()
        answers = self.file("answers", b"")
        with open(answers, "wb") as out, subprocess.Popen(line, stdin=subprocess.PIPE, stdout=out, stderr=subprocess.PIPE,
                                                          bufsize=0) as process:
            for part in re.findall(rb".{1,4}", self.case.script, re.DOTALL):
                self.give(process, part)
            process.stdin.close()
            told = process.stderr.read()
            status = process.wait(SECONDS)
        self.ended("a script between signals", (status, read(answers), told), (*self.case.expected[:2], b""))

    def give(self, process, part):
        """Gives a part of the script, and signals when the run waits for more."""
        with contextlib.suppress(BrokenPipeError):
            os.write(process.stdin.fileno(), part)
        while is_unread(process.stdin.fileno()) and process.poll() is None:
            time.sleep(0.0001)
        wait_for(process, "S")
        process.send_signal(signal.SIGSTOP)
        wait_for(process, "T")
        for number in (signal.SIGCONT, signal.SIGWINCH, signal.SIGURG, signal.SIGCHLD):
            process.send_signal(number)

    def beside_itself(self):
        """The image is written where it was read."""
        self.older = read(self.case.stores)
        self.expect("an image in the place of the stores", *self.case.expected[:2], b"", {"--stores": self.path("image")})

    def in_few_writes(self):
        """The answers come in few pieces: a socket gives each write by itself, and ten lines and more have one."""
        status, answers, _ = self.case.expected
        self.put_older()
        reader, writer = socket.socketpair(socket.AF_UNIX, socket.SOCK_SEQPACKET)
        with reader, subprocess.Popen([self.program] + self.words(), stdin=subprocess.PIPE, stdout=writer, stderr=subprocess.PIPE) as process:
            writer.close()
            try:
                _, told = process.communicate(self.case.script, SECONDS)
            except subprocess.TimeoutExpired:
                # The socket takes a few hundred writes that nobody reads.
                process.kill()
                self.ended("answers in pieces", None, None)
                return
            pieces = list(iter(lambda: reader.recv(len(answers) + 1), b""))
        self.ended("answers in pieces", (process.returncode, b"".join(pieces), told), (status, answers, b""))
        if len(pieces) * 10 > max(answers.count(b"\n"), 100):
            self.faults.append("answers in pieces: %d writes" % len(pieces))

    def all(self):
        for self.older in (None, OLDER):
            self.bytes_by_bytes()
            self.interrupted()
        self.beside_itself()
        self.in_few_writes()
        return self.faults, self.count
