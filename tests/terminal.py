"""What a person at a terminal is told on standard error: how a script is given, and which file a fault was of. In a pipe nothing of it
appears. And what is told of the programs themselves, and of wrong usage that people make."""
import contextlib
import os
import pty
import re
import subprocess

from running import HERE, SECONDS, read
from streams import HELP, Runs

GREETING = b"setup: one command a line, --help lists them; Ctrl-D ends and writes --out, Ctrl-C ends without it\r\n"
SCRIPT_IS_INPUT = re.compile(rb"\Aerror: .*\n.*^the script is standard input: setup .. < script\n\Z", re.DOTALL | re.MULTILINE)
VERSION = read(os.path.join(os.path.dirname(HERE), "VERSION")).strip()


def waiting(terminal):
    """What was written to a terminal and not read yet."""
    os.set_blocking(terminal, False)
    told = b""
    with contextlib.suppress(BlockingIOError):
        while more := os.read(terminal, 65536):
            told += more
    return told


def at_terminal(line, script, is_input, is_errors):
    """The status, the answers and what stands on standard error of a run whose standard input, or standard error, is a terminal."""
    master, slave = pty.openpty()
    try:
        stdin, stderr = slave if is_input else subprocess.PIPE, slave if is_errors else subprocess.PIPE
        with subprocess.Popen(line, stdin=stdin, stdout=subprocess.PIPE, stderr=stderr) as process:
            if is_input:
                # Behind a line, Ctrl-D ends the input.
                os.write(master, script + b"\4")
                answers, told = process.communicate(timeout=SECONDS)
            else:
                answers, told = process.communicate(script, timeout=SECONDS)
        return process.returncode, answers, waiting(master) if is_errors else told
    finally:
        os.close(master)
        os.close(slave)


class Terminal(Runs):
    """Runs at a terminal, and without one."""

    def left(self, what, status):
        """What is written is looked at elsewhere."""

    def told(self, what, line, is_input, is_errors, expected):
        self.count += 1
        status, answers, told = at_terminal(line, self.case.script, is_input, is_errors)
        if (status, answers) != expected[:2] or not (told == expected[2] if isinstance(expected[2], bytes) else expected[2].search(told)):
            self.faults.append("%s at a terminal: %r, not %r" % (what, (status, answers, told), expected))

    def greeting(self):
        status, answers, _ = self.case.expected
        line = [self.program] + self.words()
        self.told("a script", line, True, True, (status, answers, re.compile(re.escape(GREETING))))
        self.told("a script, errors in a pipe", line, True, False, (status, answers, GREETING.replace(b"\r", b"")))
        self.told("a script from a pipe", line, False, True, (status, answers, b""))

    def reasons(self):
        missing = self.path("missing")
        for name, fault in (("--list", b"read list"), ("--stores", b"read stores")):
            reason = b"FAULT %s\r\n%s: No such file or directory (os error 2)\r\n" % (fault, os.fsencode(missing))
            line = [self.program] + self.words({name: missing})
            self.told("a missing file of " + name, line, False, True, (3, b"", reason))
            self.expect_line("a missing file of %s in a pipe" % name, 3, b"", b"FAULT %s\n" % fault, line[1:])
        line = [self.program] + self.words({"--out": "/dev/full"})
        reason = b"FAULT write out\r\n/dev/full: No space left on device (os error 28)\r\n"
        self.told("an image on a full device", line, False, True, (3, self.case.expected[1], reason))

    def usage(self):
        for line in (["--version"], ["-V"]):
            self.expect_line("the line %r" % line, 0, b"setup %s\n" % VERSION, b"", line)
        self.expect_line("--help", 2, b"", HELP, ["--help"])
        words = self.words()
        for what, line in (("a script by name", words + ["script"]), ("--script", words + ["--script", "script"]),
                           ("--script=F", words + ["--script=script"]), ("files alone", ["list", "stores", "out"])):
            self.expect_line(what, 2, b"", SCRIPT_IS_INPUT, line)
        self.expect_line("another option", 2, b"", re.compile(rb"\Aerror: (?!.*standard input: setup)", re.DOTALL), words + ["--page", "1"])

    def all(self):
        self.greeting()
        self.reasons()
        self.usage()
        return self.faults, self.count
