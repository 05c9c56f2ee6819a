"""Reads the tables of lines. README.md beside it says how they are written."""

import ast
import dataclasses
import glob
import itertools
import os
import re
import shlex

import rules

# What stands for any lines in a wanted text.
GAP = b"...\n"


class Differs(Exception):
    """What comes of a step isn't what is wanted."""


class BadTable(Exception):
    """A line of a table that can't be read."""


@dataclasses.dataclass
class Line:
    """A line that is run, and what has to come of it."""

    words: list
    place: str
    status: int = 0
    error: int = 0
    out: list = dataclasses.field(default_factory=list)
    out_file: str = ""
    counts: list = dataclasses.field(default_factory=list)
    kept: str = ""
    told: list | None = dataclasses.field(default_factory=list)
    told_counts: list = dataclasses.field(default_factory=list)
    until: bytes = b""
    is_full: bool = False
    limit: int = 0

    @property
    def ending(self):
        """The exit status."""
        return 1 if self.error else self.status

    def refused_by(self, number):
        """The same line where it is refused by a number."""
        return dataclasses.replace(self, error=number, told=None)


@dataclasses.dataclass
class FileStep:
    """A step that makes a file, or compares one."""

    act: callable
    words: list
    place: str

    def take(self, folder):
        if answer := self.act(folder, *self.words):
            raise Differs(f"{self.place}: {answer}")


@dataclasses.dataclass
class Case:
    """Steps that are taken in one folder, with these files. Where `each` is given, they are taken for each variant of a file."""

    name: str
    place: str
    steps: list = dataclasses.field(default_factory=list)
    files: dict = dataclasses.field(default_factory=dict)
    each: tuple = ()


# Bytes


def quoted(text):
    """The bytes between quotes, as Python writes them."""
    return ast.literal_eval("b" + text.strip())


def bytes_of_hex(words):
    """The bytes of words of hexadecimal digits; DIGITS*N is N times the same."""
    parts = (word.partition("*") for word in words)
    return b"".join(bytes.fromhex(digits) * int(times or 1) for digits, _, times in parts)


def patched(text, patches):
    """A text with other bytes. A patch is PLACE:NEW or PLACE:OLD=NEW, in hexadecimal but for PLACE."""
    text = bytearray(text)
    for patch in patches:
        place, _, change = patch.partition(":")
        old, _, new = change.rpartition("=")
        place, old, new = int(place), bytes.fromhex(old), bytes.fromhex(new)
        if text[place : place + len(old)] != old or place + len(new) > len(text):
            raise Differs(f"there isn't {patch}")
        text[place : place + len(new)] = new
    return bytes(text)


# Files of a table


def file_of(kind, words, body, files):
    """The bytes of a file, by what its first line says, and the lines below it."""
    if kind == "words":
        return b"".join(int(line.split()[0], 16).to_bytes(4, "little") for line in body)
    if kind == "hex":
        return bytes_of_hex(word for line in body for word in line.partition("#")[0].split())
    if kind == "text":
        return b"".join(line.encode() + b"\n" for line in body)
    if kind == "of":
        return patched(files[words[0]], words[1:])
    if kind == "rule":
        return getattr(rules, words[0])(*map(int, words[1:]))
    raise BadTable(f"no kind of file {kind}")


# Steps with files


def read(folder, name):
    with open(os.path.join(folder, name), "rb") as file:
        return file.read()


def write(folder, name, text):
    with open(os.path.join(folder, name), "wb") as file:
        file.write(text)


def write_step(folder, name, text):
    write(folder, name, quoted(text))


def patch_step(folder, name, source, *patches):
    write(folder, name, patched(read(folder, source), patches))


def replace_step(folder, name, source, old, new):
    text, old = read(folder, source), quoted(old)
    if text.count(old) != 1:
        return f"there isn't one {old} in {source}"
    write(folder, name, text.replace(old, quoted(new)))


def has_step(folder, name, *parts):
    text = read(folder, name)
    for place, _, digits in (part.partition(":") for part in parts):
        found = text[int(place) :][: len(digits) // 2].hex()
        if found != digits:
            return f"wanted {digits} from byte {place} of {name} on, found {found}"


def size_step(folder, name, size):
    found = os.path.getsize(os.path.join(folder, name))
    return found != int(size) and f"wanted {size} bytes in {name}, found {found}"


def same_step(folder, one, other):
    return read(folder, one) != read(folder, other) and f"{one} isn't {other}"


def absent_step(folder, name):
    return os.path.exists(os.path.join(folder, name)) and f"there is a file {name}"


FILE_STEPS = {
    "write": write_step, "patch": patch_step, "replace": replace_step,
    "has": has_step, "size": size_step, "same": same_step, "absent": absent_step,
}


# Variants of a file


def beginnings(text):
    """Each beginning of a text, the whole one too."""
    return [(text[:length], f"the first {length} bytes") for length in range(len(text) + 1)]


def changes(text, values):
    """A text with each byte in turn changed to each of these."""
    pairs = itertools.product(range(len(text)), values)
    return [(text[:place] + bytes([value]) + text[place + 1 :], f"byte {place} is {value:02x}") for place, value in pairs]


def answer_of(text, rule):
    """By which number a text is refused: what a rule says, or the first NUMBER of 'NUMBER to LENGTH' that isn't passed."""
    if rule in rules.RULES:
        return rules.RULES[rule](text)
    spans = [span.split(" to ") for span in rule.split(", ")]
    return next(int(answer) for answer, length in spans if len(text) <= int(length))


EACH = re.compile(r"(?:(beginning)|byte ([0-9a-f ]+)) of (\S+) as (\S+) by (.+)")


def variants_of(case):
    """The variants of a file: its name, its bytes, the number by which they are refused, and what they are."""
    _, values, source, name, rule = case.each
    text = case.files[source]
    texts = changes(text, bytes.fromhex(values)) if values else beginnings(text)
    return [(name, variant, answer_of(variant, rule), f"{source}, {what}") for variant, what in texts]


# Lines


def word_of(word):
    r"""A word of a line; \xNN in it is a byte."""
    if "\\x" not in word:
        return word
    return re.sub(rb"\\x(..)", lambda found: bytes.fromhex(found[1].decode()), word.encode())


def lines_of(text, place):
    """The lines that are run: one for each word, or words in quotes, between braces."""
    parts = re.split(r"\{([^{}]*)\}", text)
    choices = [shlex.split(part, posix=False) if place % 2 else [part] for place, part in enumerate(parts)]
    return [Line([*map(word_of, shlex.split("".join(choice)))], place) for choice in itertools.product(*choices)]


def wanted(lines, mark, rest):
    """Adds to what is wanted of the lines. Answers whether the mark is one of theirs."""
    for line in lines:
        if mark == ">":
            line.out.append(rest.encode() + b"\n")
        elif mark == "...":
            line.out.append(GAP)
        elif mark == ">>":
            line.out.append(quoted(rest))
        elif mark == ">=":
            line.out_file = rest
        elif mark == ">+":
            count, _, beginning = rest.partition(" ")
            line.counts.append((int(count), beginning.encode()))
        elif mark == "keep":
            line.kept = rest
        elif mark == "!":
            line.told = [*(line.told or []), GAP if rest == "..." else rest.encode() + b"\n"]
        elif mark == "!+":
            count, _, beginning = rest.partition(" ")
            line.told_counts.append((int(count), beginning.encode()))
            line.told = line.told or [GAP]
        elif mark == "status":
            line.status, line.told = int(rest), None if rest == "2" else line.told
        elif mark == "error":
            line.error, line.told = int(rest), None
        elif mark == "until":
            line.until = rest.encode()
        elif mark == "full":
            line.is_full = True
        elif mark == "limit":
            line.limit = int(rest)
        else:
            return False
    return bool(lines)


# Tables


class Reader:
    """Reads one table after another. A table sees the files of those before it, and each name is that of one file."""

    def __init__(self):
        self.files, self.places, self.cases, self.lines = {}, {}, [], []

    def table(self, path):
        with open(path, encoding="utf-8") as file:
            texts = file.read().split("\n")
        for number, text in enumerate(texts, 1):
            try:
                self.text(text, texts[number:], f"{os.path.basename(path)}:{number}")
            except (BadTable, Differs, ValueError, KeyError, IndexError, SyntaxError) as error:
                raise SystemExit(f"{path}:{number}: {text}: {error!r}\n0 passed, 1 failed") from error

    def text(self, text, after, place):
        """Reads one line of a table."""
        mark, _, rest = text.partition(" ")
        if not text or text.startswith((" ", "#")):
            return
        if mark == "file":
            name, kind, *words = rest.split()
            if name in self.places:
                raise BadTable(f"there is a file {name} in {self.places[name]}")
            self.places[name] = place
            body = itertools.takewhile(lambda line: line.startswith("  "), after)
            self.files[name] = file_of(kind, words, [line[2:] for line in body], self.files)
        elif mark == "case":
            self.cases.append(Case(rest, place))
            self.lines = []
        elif mark == "each":
            self.cases[-1].each = EACH.fullmatch(rest).groups()
        elif mark == "$":
            self.lines = lines_of(rest, place)
            self.cases[-1].steps += self.lines
        elif mark == "&":
            more = lines_of(rest, place)
            self.lines += more
            self.cases[-1].steps += more
        elif mark in FILE_STEPS:
            words = re.findall(r'"(?:\\.|[^"\\])*"|\S+', rest)
            self.cases[-1].steps.append(FileStep(FILE_STEPS[mark], words, place))
            self.lines = []
        elif not wanted(self.lines, mark, rest):
            raise BadTable("it can't stand here")


def names_in(case):
    """The words of a case that may name a file of its table."""
    words = [str(word) for step in case.steps for word in step.words]
    wanted = [step.out_file for step in case.steps if isinstance(step, Line)]
    return {*words, *(word.partition("=")[2] for word in words), *wanted, *case.each}


def read_tables(folder):
    """The cases of all tables: first that with the files that all have in common."""
    reader, paths = Reader(), sorted(glob.glob(f"{folder}/*.txt"))
    for path in sorted(paths, key=lambda path: not path.endswith("/guests.txt")):
        reader.table(path)
    names = [case.name for case in reader.cases]
    if len(names) != len(set(names)):
        raise SystemExit(f"two cases have one name: {[name for name in names if names.count(name) > 1]}\n0 passed, 1 failed")
    for case in reader.cases:
        case.files = {name: text for name, text in reader.files.items() if name in names_in(case)}
    return reader.cases
