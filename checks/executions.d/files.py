"""The files of executions (docs/formats.md) and what `dethart check` has to print of one, apart from the program."""

import os
import sys
from dataclasses import dataclass

from harts import ALL_ONES, Guest, Hart, Stopped
from rvwmo import Model

sys.path.insert(0, os.path.join(os.path.dirname(os.path.dirname(os.path.abspath(__file__))), "lines.d"))
import rules  # noqa: E402

# No file of the checks has harts that do more steps: one that would is passed over.
MOST_STEPS = 10_000

# The harts of a file do so many steps together at most.
MOST_STEPS_SAID = 2**24


class TooLong(Exception):
    """The harts of a file may do more steps than are tried here."""


class Refused(Exception):
    """By which number a text is refused, and in which line."""


@dataclass
class Part:
    """What a file says of a hart."""

    steps: int
    code: int
    value: int
    reads: list


@dataclass
class File:
    """What a file says. A turn is a hart, and a number or none."""

    flat: int
    pages: int
    image: bytes
    input: bytes
    harts: list
    calls: list
    order: list

    def text(self):
        """The one text of an execution."""
        lines = ["execution 1", f"flat {self.flat}", f"pages {self.pages}"]
        for name, given in (("image", self.image), ("input", self.input)):
            lines += [f"{name} {len(given)}"] + [given[at : at + 32].hex() for at in range(0, len(given), 32)]
        lines.append(f"harts {len(self.harts)}")
        for hart, part in enumerate(self.harts):
            value = "" if part.value is None else f" {part.value}"
            lines += [f"hart {hart} steps {part.steps} stop {part.code}{value}", " ".join(["read", *map(str, part.reads)])]
        for name, turns in (("calls", self.calls), ("order", self.order)):
            lines.append(" ".join([name, *(str(hart) if number is None else f"{hart}:{number}" for hart, number in turns)]))
        return "".join(line + "\n" for line in lines).encode()


class Reader:
    """A text, taken part by part: the first cause that is met refuses it."""

    def __init__(self, text):
        self.text, self.at = text, 0

    def refuse(self, number):
        raise Refused(number, self.text.count(b"\n", 0, self.at) + 1)

    def word(self, word, short=83, wrong=84):
        for byte in word:
            if self.at == len(self.text):
                self.refuse(short)
            if self.text[self.at] != byte:
                self.refuse(wrong)
            self.at += 1

    def number(self, high):
        end = self.at
        while self.text[end : end + 1].isdigit():
            end += 1
        digits = self.text[self.at : end]
        if not digits or digits[:1] == b"0" and len(digits) > 1:
            self.refuse(83 if self.at == len(self.text) else 84)
        if int(digits) > high:
            self.refuse(85)
        self.at = end
        return int(digits)

    def byte(self):
        two = self.text[self.at : self.at + 2]
        if len(two) < 2:
            self.refuse(83)
        if not all(it in b"0123456789abcdef" for it in two):
            self.refuse(84)
        self.at += 2
        return int(two, 16)

    def bytes(self):
        count, found = self.number(ALL_ONES), []
        self.word(b"\n")
        while len(found) < count:
            found.append(self.byte())
            if len(found) == count or len(found) % 32 == 0:
                self.word(b"\n")
        return bytes(found)

    def after(self, mark):
        """A number behind a mark, if this stands there."""
        if self.text[self.at : self.at + 1] != mark:
            return None
        self.at += 1
        return self.number(ALL_ONES)

    def listed(self, one):
        found = []
        while self.text[self.at : self.at + 1] == b" ":
            self.at += 1
            found.append(one())
        self.word(b"\n")
        return found

    def turn(self):
        return self.number(255), self.after(b":")

    def part(self, hart):
        self.word(b"hart %d steps " % hart)
        steps = self.number(ALL_ONES)
        self.word(b" stop ")
        code, value = self.number(255), self.after(b" ")
        self.word(b"\nread")
        return Part(steps, code, value, self.listed(lambda: self.number(ALL_ONES)))

    def parts(self):
        began, count, found = self.at, self.number(ALL_ONES), []
        self.word(b"\n")
        while len(found) < count:
            found.append(self.part(len(found)))
        if sum(part.steps for part in found) > MOST_STEPS_SAID:
            self.at = began
            self.refuse(89)
        return found

    def file(self):
        self.word(b"execution ", 81, 81)
        self.word(b"1\n", 82, 82)
        found = []
        for word, take in (
            (b"flat ", lambda: self.number(1)), (b"\npages ", lambda: self.number(2**32 - 1)), (b"\nimage ", self.bytes),
            (b"input ", self.bytes), (b"harts ", self.parts),
            (b"calls", lambda: self.listed(self.turn)), (b"order", lambda: self.listed(self.turn)),
        ):  # fmt: skip
            self.word(word)
            found.append(take())
        if self.at != len(self.text):
            self.refuse(86)
        return File(*found)


def opening_refusal(file):
    """By which number the program refuses what a file begins with, or 0."""
    memory = 4096 * file.pages
    if not 1 <= len(file.harts) <= 64:
        return 51
    if not 1 <= file.pages <= 16_384:
        return 52
    if not file.flat:
        return rules.header_refusal(file.image) or rules.segments_refusal(file.image, memory)
    return rules.least([(8, len(file.image) > memory), (12, len(file.image) == 0 or len(file.image) % 4 != 0)])


class Misfit(Exception):
    """Which step of which hart isn't as a file says, and why."""


class Execution:
    """The harts of a file on their way."""

    def __init__(self, file):
        self.file, self.guest, self.steps, self.round = file, Guest(file.image, file.pages, file.input), [], 0
        self.harts = [Hart([0] * 10 + [hart, len(file.harts)] + [0] * 20, 0) for hart in range(len(file.harts))]
        self.used = [0] * len(file.harts)

    def misfit(self, hart, words, step=None):
        done = self.harts[hart].done if hart < len(self.harts) else 0
        raise Misfit(f"step {done if step is None else step} of hart {hart}: {words}")

    def said(self, hart):
        reads = self.file.harts[hart].reads
        return reads[self.used[hart]] if self.used[hart] < len(reads) else None

    def step(self, hart):
        """The next step of a hart: whether it is a call whose place counts. Raises `Stopped` where the hart stops."""
        if len(self.steps) > MOST_STEPS:
            raise TooLong
        said, state = self.said(hart), self.harts[hart]
        call = state.x[17]
        before = state.done
        step = self.guest.step(hart, state, said, self.round)
        read = step.number_read
        if read is not None:
            if said is None:
                self.misfit(hart, "it reads a number, and its line has no more", before)
            if said != read:
                self.misfit(hart, f"it reads {read}, and its line has {said}", before)
            self.used[hart] += 1
        self.steps.append(step)
        return step.instruction.kind == "ecall" and 1 <= call <= 3

    def call(self, hart, number):
        """A hart's steps up to its next call, and this, in the round of a number."""
        if number is not None:
            if number >= 2**32 or number < self.round:
                self.misfit(hart, "the round of its call is before that of an earlier one, or too large")
            self.round = number
        if hart < len(self.harts):
            while self.harts[hart].done < self.file.harts[hart].steps:
                try:
                    if self.step(hart):
                        return
                except Stopped:
                    self.misfit(hart, "the hart stops here")
        self.misfit(hart, "the hart makes no further call, and the calls have one")

    def finish(self, hart):
        """A hart's other steps, and its stop."""
        part, state = self.file.harts[hart], self.harts[hart]
        if part.code == 0 and part.value is not None:
            self.misfit(hart, "the hart is to run on, and its line has the value of an exit call")
        while state.done < part.steps:
            try:
                self.step(hart)
            except Stopped:
                self.misfit(hart, "the hart stops here")
        if part.code:
            try:
                self.step(hart)
                self.misfit(hart, "the hart doesn't stop here", state.done - 1)
            except Stopped as stopped:
                state.stop = stopped.args
            code, *value = state.stop
            if (code, value) != (part.code, [] if part.value is None else [part.value]):
                what = "exits" if value else "stops"
                end = " ".join(["stop", *map(str, [code, *value])])
                self.misfit(hart, f"the hart {what} here, and its line has another end than '{end}'")
        if self.said(hart) is not None:
            self.misfit(hart, "the hart is done, and its line has more numbers")

    def follow(self):
        for hart, number in self.file.calls:
            self.call(hart, number)
        for hart in range(len(self.harts)):
            self.finish(hart)

    def order(self):
        """The order of the file, as places."""
        operations = [[] for _ in self.harts]
        for place, step in enumerate(self.steps):
            if step.is_operation:
                operations[step.hart].append(place)
        order = []
        for hart, number in self.file.order:
            own = operations[hart] if hart < len(operations) else []
            left = [place for place in own if place not in order] if number is None else own[number : number + 1]
            if not left:
                self.misfit(hart, "the hart does no further memory operation, and the order has one", number or 0)
            order.append(left[0])
        return order

    def told(self, place):
        hart = self.steps[place].hart
        return sum(step.hart == hart for step in self.steps[:place]), hart

    def verdict(self):
        """Why the model refuses the execution in the file's order, in words, or none."""
        order = self.order()
        tell = lambda place: "step {} of hart {}".format(*self.told(place))  # noqa: E731
        twice = next((place for at, place in enumerate(order) if place in order[:at]), None)
        if twice is not None:
            return f"the order has {tell(twice)} twice"
        model = Model(self.steps, self.file.image)
        left_out = next((place for place in model.operations if place not in order), None)
        if left_out is not None:
            return f"the order leaves out {tell(left_out)}"
        kind, *rest = model.refusal(order) or [None]
        if kind == "rule":
            number, first, second = rest
            step = self.told(second)[0]
            return f"rule {number}, {NAMES[number]}: {tell(first)} comes before its step {step}, and the order has step {step} first"
        if kind == "byte":
            return f"the byte at {rest[1]:016x} that {tell(rest[0])} read is not the one that its source wrote"
        return kind and f"another hart stores between {tell(rest[0])} and {tell(rest[1])}"

    def report(self):
        """The lines of the harts at the end."""
        for number, hart in enumerate(self.harts):
            code, *value = hart.stop or [0]
            state = "running" if code == 0 else f"exit {value[0]:016x}" if code == 1 else f"stop {code}"
            yield f"hart {number} pc {hart.pc:016x} done {hart.done} {state}"
            yield from (f"x{register} {hart.x[register]:016x}" for register in range(1, 32) if hart.x[register])


# How the program tells each rule of preserved program order.
NAMES = {
    1: "a store to a byte of an earlier operation",
    2: "two loads of a byte from different stores",
    3: "a load of what an AMO or SC wrote",
    4: "a fence between them",
    5: "an acquire",
    6: "a release",
    7: "acquires and releases",
    8: "an LR and its SC",
    9: "an address dependency",
    10: "a data dependency",
    11: "a control dependency",
    12: "a load of a store that depends on the first",
    13: "an address between them that depends on the first",
}


def outcome(text):
    """The exit status, the lines and the refusal that `dethart check` has to give of a text."""
    try:
        file = Reader(text).file()
    except Refused as refused:
        number, line = refused.args
        return 1, [], (number, line)
    number = opening_refusal(file)
    if number:
        return 1, [], (number, None)
    execution = Execution(file)
    try:
        execution.follow()
        why = execution.verdict()
    except Misfit as misfit:
        why = misfit.args[0]
    return (3, ["refused", why], None) if why else (0, ["allowed", *execution.report()], None)
