"""A case that differs, made smaller as long as it differs: fewer lines, packages, opcodes and texts, zeros in the image."""
import time

from fuzzing import images
from fuzzing.facts import facts_of
from fuzzing.structure import END, FORMS, STRINGS, has_scope, join_list, mended, spans, split_list, split_opcodes


# What of a string package is not left out, and the greatest length at which bytes are.
HEADER, LONGEST_TEXTS = 42, 3000


class Smaller:
    """Tries smaller cases until none differs any more, or the time is over."""

    def __init__(self, case, differs, seconds=60):
        self.case, self.differs, self.end = case, differs, time.monotonic() + seconds

    def accepts(self, case):
        """Takes a smaller case if it differs."""
        if time.monotonic() > self.end or not self.differs(case):
            return False
        self.case = case
        return True

    def fewer(self, items, make):
        """Leaves out runs of items, large ones first, as long as what is made of the others differs."""
        size = max(len(items) // 2, 1)
        while size and items and time.monotonic() < self.end:
            at = 0
            while at < len(items):
                left = items[:at] + items[at + size:]
                if self.accepts(make(left)):
                    items = left
                else:
                    at += size
            size //= 2
        return items

    def run(self):
        """The smallest case that was found."""
        before = None
        while before != self.case and time.monotonic() < self.end:
            before = self.case
            self.script()
            self.packages()
            self.opcodes()
            self.texts()
            self.script_lines()
            self.image()
            self.arguments()
        return self.case

    def script(self):
        lines = self.case.script.split(b"\n")
        self.fewer(lines, lambda left: self.case.changed(script=b"\n".join(left)))

    def script_lines(self):
        """Cuts the lines of a short script word by word, or in halves."""
        lines = self.case.script.split(b"\n")
        for at, line in enumerate(lines[:20]):
            parts = line.split(b"&") if b"&" in line else [line[:len(line) // 2], line[len(line) // 2:]] if len(line) > 40 else []
            glue = b"&" if b"&" in line else b""
            make = lambda left: self.case.changed(script=b"\n".join(lines[:at] + [glue.join(left)] + lines[at + 1:]))
            if parts:
                lines[at] = glue.join(self.fewer(parts, make))

    def packages(self):
        whole = split_list(self.case.list)
        if join_list(whole) != self.case.list:
            self.accepts(self.case.changed(list=join_list(whole)))
        if whole.behind:
            whole.behind = b""
            self.accepts(self.case.changed(list=join_list(whole)))
        whole = split_list(self.case.list)

        def make(left):
            new = whole.copy()
            new.packages = left
            return self.case.changed(list=join_list(new))
        self.fewer(whole.packages, make)

    def with_opcodes(self, number, ops, rest):
        """The case with these opcodes, and the image of the stores that they leave."""
        whole = split_list(self.case.list)
        whole.packages[number] = FORMS, b"".join(ops) + rest
        data = join_list(whole)
        old, new = facts_of(self.case.list, self.case.forms), facts_of(data, self.case.forms)
        case = self.case.changed(list=data)
        return case if old.stores == new.stores else case.changed(stores=images.image_again(case.stores, new))

    def opcodes(self):
        for number in split_list(self.case.list).of_kind(FORMS):
            self.subtrees(number)
            self.scopes(number)
            self.bytes_of_opcodes(number)

    def read(self, number):
        packages = split_list(self.case.list).packages
        return split_opcodes(packages[number][1]) if number < len(packages) else ([], b"")

    def subtrees(self, number):
        """Leaves out subtrees, those in the outermost scopes first, then runs of opcodes."""
        at = 0
        while True:
            ops, rest = self.read(number)
            if at >= len(ops) or time.monotonic() > self.end:
                break
            if ops[at] == END or not self.accepts(self.with_opcodes(number, ops[:at] + ops[spans(ops)[at]:], rest)):
                at += 1
        ops, rest = self.read(number)
        if rest:
            self.accepts(self.with_opcodes(number, ops, b""))
        self.fewer(ops, lambda left: self.with_opcodes(number, left, rest))

    def scopes(self, number):
        """Leaves out opcodes with their ENDs, so that what stands in their scopes stays."""
        at = 0
        while True:
            ops, rest = self.read(number)
            if at >= len(ops) or time.monotonic() > self.end:
                break
            end = spans(ops)[at]
            opens = ops[at] != END and has_scope(ops[at]) and ops[end - 1] == END
            if not opens or not self.accepts(self.with_opcodes(number, ops[:at] + ops[at + 1:end - 1] + ops[end:], rest)):
                at += 1

    def bytes_of_opcodes(self, number):
        """Cuts opcodes at their ends, and makes their bytes zeros."""
        ops, rest = self.read(number)
        for at, op in enumerate(ops):
            for new in (mended(op[:-1]) if len(op) > 2 else op, op[:2] + bytes(2) + op[4:] if len(op) > 4 else op):
                changed = ops[:at] + [new] + ops[at + 1:]
                if new != op and self.accepts(self.with_opcodes(number, changed, rest)):
                    ops = changed
                    break

    def texts(self):
        """Leaves out bytes of string packages behind their headers."""
        for number in split_list(self.case.list).of_kind(STRINGS):
            whole = split_list(self.case.list)
            if number >= len(whole.packages) or len(whole.packages[number][1]) > LONGEST_TEXTS:
                continue
            body = whole.packages[number][1]

            def make(left):
                whole.packages[number] = STRINGS, body[:HEADER] + bytes(left)
                return self.case.changed(list=join_list(whole))
            self.fewer(list(body[HEADER:]), make)

    def image(self):
        """Makes the contents of the image zeros, as a whole or store by store."""
        facts = facts_of(self.case.list, self.case.forms)
        zeros = images.p.image([(it.number, bytes(it.size)) for it in facts.held], facts.guid)
        if self.case.stores != zeros and not self.accepts(self.case.changed(stores=zeros)):
            data = self.case.stores
            for at in [at for at in range(22, min(len(data), 200)) if data[at]]:
                self.accepts(self.case.changed(stores=self.case.stores[:at] + b"\0" + self.case.stores[at + 1:]))

    def arguments(self):
        for changes in ({"language": "en-US"}, {"forms": 1}):
            if self.case.changed(**changes) != self.case:
                self.accepts(self.case.changed(**changes))
