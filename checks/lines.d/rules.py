"""Rules of docs/formats.md once more, apart from the program: by which number a file is refused, and what a recording has."""


def number(text, offset, width):
    """The number of so many bytes at an offset, the least first. Bytes past the end count as 0."""
    return int.from_bytes(text[offset : offset + width].ljust(width, b"\0"), "little")


def least(rules):
    """The number of the first rule that stands, or 0."""
    return next((answer for answer, stands in rules if stands), 0)


# ELF files


class Segment:
    """A program header of type 1."""

    def __init__(self, header):
        self.flags, self.offset, self.start = number(header, 4, 4), number(header, 8, 8), number(header, 16, 8)
        self.in_file, self.length = number(header, 32, 8), number(header, 40, 8)
        self.end = self.start + self.length
        self.is_code, self.is_writable = bool(self.flags & 1), bool(self.flags & 2)

    def holds(self, address):
        return self.is_code and self.start <= address < self.end

    def meets(self, other):
        return max(self.start, other.start) < min(self.end, other.end)


def header_refusal(file):
    """The least rule of the header that refuses a file."""
    count, table = number(file, 56, 2), number(file, 32, 8)
    return least([
        (1, len(file) < 64),
        (2, not file.startswith(b"\x7fELF")),
        (3, file[4:7] != b"\2\1\1"),
        (4, number(file, 16, 2) != 2),
        (5, number(file, 18, 2) != 243),
        (6, number(file, 54, 2) != 56 or not 1 <= count <= 64 or table + 56 * count > len(file)),
    ])


def segments_refusal(file, memory):
    """The least rule of the segments that refuses a file, where guest memory has so many bytes."""
    table, entry = number(file, 32, 8), number(file, 24, 8)
    headers = [file[table + 56 * place :][:56] for place in range(number(file, 56, 2))]
    segments = [Segment(header) for header in headers if number(header, 0, 4) == 1]
    pairs = [(one, other) for place, one in enumerate(segments) for other in segments[:place]]
    return least([
        (7, any(it.offset + it.in_file > len(file) or it.in_file > it.length for it in segments)),
        (8, any(it.end > memory for it in segments)),
        (9, any(one.meets(other) for one, other in pairs)),
        (10, any(it.is_code and it.is_writable for it in segments)),
        (11, entry % 4 != 0 or not all(any(it.holds(entry + byte) for it in segments) for byte in range(4))),
    ])


def elf_on_2_pages(file):
    """The number by which a file is refused as an image on two pages."""
    return header_refusal(file) or segments_refusal(file, 8192)


# Plans


def is_number(word):
    return word.isdigit() and (word == b"0" or not word.startswith(b"0"))


def plan_for_2_harts(text):
    """The number by which a text is refused as a plan for two harts."""
    rows = [row.split(b" ") for row in text.removesuffix(b"\n").split(b"\n")]
    return least([
        (31, not text.endswith(b"\n") or not all(is_number(word) for row in rows for word in row)),
        (32, not all(1 <= int(word) <= 1_000_000 for row in rows for word in row if is_number(word))),
        (33, not all(len(row) in (1, 2) for row in rows)),
        (34, len(rows) > 256),
    ])


# Recordings


class Refused(Exception):
    """By which number a text is refused."""


class Fields:
    """The fields of a recording, taken in order."""

    def __init__(self, text):
        self.rest = text

    def skip(self, length):
        if length > len(self.rest):
            raise Refused(43)
        taken, self.rest = self.rest[:length], self.rest[length:]
        return taken

    def take(self, width, low=0, high=2**64):
        found = int.from_bytes(self.skip(width), "little")
        if not low <= found <= high:
            raise Refused(44)
        return found

    def round(self, harts, has_registers):
        self.skip(16)
        for _ in range(harts):
            self.skip(16)
            code = self.take(1, high=10)
            self.take(8, high=2**64 if code == 1 else 0)
        self.skip(harts * 31 * 8 if has_registers else 0)

    def all(self):
        if self.skip(min(8, len(self.rest))) != b"RVDETREC":
            raise Refused(41)
        version = self.take(4)
        if version not in (1, 2):
            raise Refused(42)
        self.take(1, high=1)
        harts, _, rounds, every = self.take(4, 1, 64), self.take(4, 1, 16_384), self.take(4), 0
        if version == 2:
            self.take(4, 1, 1000)
            every = self.take(4)
        for _ in range(3):
            self.skip(self.take(8))
        for number_of_round in range(1, rounds + 1):
            self.round(harts, every != 0 and number_of_round % every == 0)
        if self.rest:
            raise Refused(45)


def recording(text):
    """The number by which a text is refused as a recording."""
    try:
        Fields(text).all()
    except Refused as refused:
        return refused.args[0]
    return 0


def going_round(rounds):
    """The recording of so many rounds, of a million instructions each, of one hart that goes round in `jal x0, 0`."""
    small, wide = (lambda value: value.to_bytes(4, "little")), (lambda value: value.to_bytes(8, "little"))
    texts = [b"\x6f\0\0\0", b"", b"1000000\n"]
    head = b"RVDETREC" + small(2) + b"\1" + b"".join(map(small, (1, 1, rounds, 1, 0)))
    kept = [wide(0) * 3 + wide(1_000_000 * it) + b"\0" + wide(0) for it in range(1, rounds + 1)]
    return head + b"".join(wide(len(text)) + text for text in texts) + b"".join(kept)


# Reports

# Two digits for each byte.
ROW = "{:08x} {}\n"


def counted(count):
    """The report of one hart that counted so often in x6, and each time stored x6 to 100, by counting.bin."""
    code = "13031300233060106ff09fff00000000"
    head = f"rounds 1\nhart 0 pc 0000000000000000 done {3 * count} running\nx6 {count:016x}\nx11 0000000000000001\nmemory 1\n"
    memory = ROW.format(0, code) + ROW.format(0x100, count.to_bytes(8, "little").hex() + "00" * 8)
    events = (f"1 0 {3 * place + 1} p store - 00000100 8 - {place + 1:016x}\n" for place in range(count))
    return f"{head}{memory}output 0\ntrace {count}\n{''.join(events)}end\n".encode()


def full(pages):
    """The report of one hart on so many pages of bytes cd, which are no instruction."""
    head = f"rounds 1\nhart 0 pc 0000000000000000 done 0 stop 2\nx11 0000000000000001\nmemory {pages}\n"
    memory = (ROW.format(16 * row, "cd" * 16) for row in range(256 * pages))
    return f"{head}{''.join(memory)}output 0\ntrace 0\nend\n".encode()


# Tables

# The polynomial of the CRC-32 that gdb's qCRC has, but for x^32: x^26 + x^23 + x^22 + x^16 + x^12 + x^11 + x^10 + x^8 + x^7 + x^5 + x^4 + x^2 + x + 1.
POLYNOMIAL = sum(1 << power for power in (26, 23, 22, 16, 12, 11, 10, 8, 7, 5, 4, 2, 1, 0))


def divided(remainder):
    """The remainder of a polynomial of 32 bits times x^8."""
    for _ in range(8):
        remainder = (remainder << 1) ^ (POLYNOMIAL | 1 << 32 if remainder >> 31 else 0)
    return remainder


BYTES = [divided(byte << 24) for byte in range(256)]


def checksum(text):
    """The CRC-32 of a text: the highest bit of each byte first, from all ones on, and nothing done to it at the end."""
    remainder = 0xFFFFFFFF
    for byte in text:
        remainder = (remainder << 8 & 0xFFFFFFFF) ^ BYTES[remainder >> 24 ^ byte]
    return remainder


RULES = {rule.__name__: rule for rule in (elf_on_2_pages, plan_for_2_harts, recording)}
