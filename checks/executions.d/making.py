"""Executions as files: of small programs in assembly, of shapes, and at random, with changes of all kinds."""

import re

from files import ALL_ONES, MOST_STEPS, Execution, File, Misfit, Part, TooLong
from harts import ATOMICS, BRANCHES, IMMEDIATE, LOADS, REGISTER, STORES, Stopped
from rvwmo import Model

# Where each hart's part of a program begins: x5, x6 and x7 are the addresses of the doublewords x, y and z, x8 is 1 and x9 is 2.
PRELUDE = ["lui x5,1", "addi x6,x5,8", "addi x7,x5,16", "addi x8,x0,1", "addi x9,x0,2"]
INPUT = b"AB"
ADDRESSES = {"x": 0x1000, "y": 0x1008, "z": 0x1010}
CODES = {
    **{name: ("load", f3) for f3, (name, _) in LOADS.items()},
    **{name: ("store", f3) for f3, (name, _) in STORES.items()},
    **{name: ("branch", f3) for f3, name in BRANCHES.items()},
    **{f"{name}i": ("immediate", f3) for f3, name in IMMEDIATE.items()},
    **{name: ("register", key) for key, name in REGISTER.items()},
    **{f"{name}.{width}": ("atomic", (f5, f3)) for f5, name in ATOMICS.items() for width, f3 in (("w", 2), ("d", 3))},
}


def fence_bits(sets):
    return sum({"r": 2, "w": 1}[it] for it in sets)


def word_of(line, at):
    """The word of a line of assembly at an address. `next` is the address of the next instruction."""
    name, _, rest = line.partition(" ")
    words = [it.strip() for it in rest.split(",")] if rest else []
    if line in ("ecall", "nop", "fence.tso"):
        return {"ecall": 0x73, "nop": 0x13, "fence.tso": 0x8330000F}[line]
    if name == "fence":
        return 0x0F | fence_bits(words[0]) << 24 | fence_bits(words[1]) << 20
    aq, rl = ".aq" in name, "rl" in name.split(".", 1)[-1]
    name = re.sub(r"\.(aq|rl|aqrl)$", "", name)
    register = lambda it: int(re.fullmatch(r"\(?x(\d+)\)?", it)[1])  # noqa: E731
    if name == "lui":
        return 0x37 | register(words[0]) << 7 | int(words[1]) << 12
    if name == "jal":
        return 0x6F | register(words[0]) << 7 | jump_bits(int(words[1]))
    if name == "jalr":
        offset, base = re.fullmatch(r"(\w+)\((x\d+)\)", words[1]).groups()
        return 0x67 | register(words[0]) << 7 | register(base) << 15 | (at + 4 if offset == "next" else int(offset)) << 20
    kind, code = CODES[name]
    if kind in ("load", "store"):
        offset, base = re.fullmatch(r"(-?\d+)\((x\d+)\)", words[1]).groups()
        offset, own = int(offset) & 4095, register(words[0])
        if kind == "load":
            return 0x03 | own << 7 | code << 12 | register(base) << 15 | offset << 20
        return 0x23 | (offset & 31) << 7 | code << 12 | register(base) << 15 | own << 20 | offset >> 5 << 25
    first, second = register(words[0]), register(words[1])
    if kind == "branch":
        return 0x63 | branch_bits(4 if words[2] == "next" else int(words[2])) | code << 12 | first << 15 | second << 20
    if kind == "immediate":
        return 0x13 | first << 7 | code << 12 | second << 15 | (int(words[2]) & 4095) << 20
    if kind == "register":
        return 0x33 | first << 7 | code[0] << 12 | second << 15 | register(words[2]) << 20 | code[1] << 25
    f5, f3 = code
    address, value = (second, 0) if f5 == 2 else (register(words[2]), second)
    return 0x2F | first << 7 | f3 << 12 | address << 15 | value << 20 | (f5 << 2 | aq << 1 | rl) << 25


def branch_bits(offset):
    return (offset >> 12 & 1) << 31 | (offset >> 5 & 63) << 25 | (offset >> 1 & 15) << 8 | (offset >> 11 & 1) << 7


def jump_bits(offset):
    return (offset >> 20 & 1) << 31 | (offset >> 1 & 1023) << 21 | (offset >> 11 & 1) << 20 | (offset >> 12 & 255) << 12


def image_of(programs):
    """A flat image in which each hart, by its number in x10, does the prelude, its program and the exit call."""
    heads = [f"addi x31,x10,{-number}" for number in range(1, len(programs))]
    lengths = [len(PRELUDE) + len(program) + 1 for program in programs]
    lines = []
    for number, head in enumerate(heads, 1):
        # To hart 1, 2, ..: over the branches that are left, and the programs before its own.
        offset = 4 * (1 + 2 * (len(heads) - number) + sum(lengths[:number]))
        lines += [head, f"beq x31,x0,{offset}"]
    for program in programs:
        lines += [*PRELUDE, *program, "ecall"]
    return b"".join(word_of(line, 4 * place).to_bytes(4, "little") for place, line in enumerate(lines))


def file_of(image, harts, reads, order=None, given=b""):
    """The file of an execution in which harts read such numbers, until they stop; with an order of places, or with none; and the
    execution itself. It is none where the harts can't read these numbers."""
    file = File(1, 2, image, given, [Part(0, 0, None, list(it)) for it in reads], [], [])
    execution = Execution(file)
    for hart in range(harts):
        try:
            while True:
                execution.step(hart)
        except Stopped as stopped:
            execution.harts[hart].stop = stopped.args
        except (Misfit, TooLong):
            return None, None
        part = file.harts[hart]
        part.steps, (part.code, *value) = execution.harts[hart].done, execution.harts[hart].stop
        part.value = value[0] if value else None
    if order is not None:
        file.order = turns_of(execution.steps, order)
    return file, execution


def turns_of(steps, order):
    """An order of places as turns of harts."""
    own = {}
    for place, step in enumerate(steps):
        if step.is_operation:
            own.setdefault(step.hart, []).append(place)
    turns, listed = [], set()
    for place in order:
        of_hart = own[steps[place].hart]
        first = next(it for it in of_hart if it not in listed)
        turns.append((steps[place].hart, None if first == place else of_hart.index(place)))
        listed.add(place)
    return turns


# Programs that exit with what they load


def reads_number(line):
    return re.match(r"l[bhwd]u? |lr\.|sc\.|amo", line)


def destination_of(line):
    return int(re.match(r"\S+ x(\d+)", line)[1])


def with_exit(program):
    """A program whose hart exits with all that it loads, 5 bits of each."""
    lines = ["addi x29,x0,5"]
    for line in program:
        lines.append(line)
        if reads_number(line) and destination_of(line):
            lines += ["sll x30,x30,x29", f"add x30,x30,x{destination_of(line)}"]
    return [*lines, "addi x10,x30,0"]


# Programs at random


def random_program(draw, most):
    """A few instructions with at most so many accesses to the bytes of x and y, and how many accesses they are."""
    lines, accesses, loaded = [], 0, []
    registers = iter(range(12, 29))
    for _ in range(draw.randint(1, 6)):
        base = draw.choice(["x5", "x6"])
        into = f"x{next(registers)}"
        kind = draw.choice("lllllsssssaafffdbbc") if accesses < most else draw.choice("fdbc")
        if kind in "lsa" and loaded and draw.random() < 0.4:
            # The address depends on what was loaded, but is the same.
            by = f"x{next(registers)}"
            other = draw.choice(loaded) if draw.random() < 0.1 else loaded[-1]
            lines += [f"xor {by},{other},{loaded[-1]}", f"add {by},{base},{by}"]
            base = by
        value = draw.choice(["x8", "x9", *loaded])
        if kind == "l":
            width, offset = draw.choice([("w", 0), ("w", 0), ("w", 4), ("d", 0), ("b", 1), ("hu", 2)])
            lines.append(f"l{width} {into},{offset}({base})")
            loaded.append(into)
            accesses += 1
        elif kind == "s":
            width, offset = draw.choice([("w", 0), ("w", 0), ("w", 4), ("d", 0), ("b", 1), ("h", 2)])
            lines.append(f"s{width} {value},{offset}({base})")
            accesses += 1
        elif kind == "a":
            bits, size = draw.choice(["", "", ".aq", ".rl", ".aqrl"]), draw.choice("wwd")
            if draw.random() < 0.5 and accesses + 2 <= most:
                lines.append(f"lr.{size}{draw.choice(['', '.aq', '.aqrl'])} {into},({base})")
                status = f"x{next(registers)}"
                lines += draw.choice([[], [], [f"sw {value},0(x6)"]])
                lines.append(f"sc.{size}{draw.choice(['', '.rl', '.aqrl'])} {status},{value},({base})")
                loaded += [into, status]
                accesses += 3
            else:
                lines.append(f"{draw.choice(['amoswap', 'amoadd', 'amoor'])}.{size}{bits} {into},{value},({base})")
                loaded.append(into)
                accesses += 1
        elif kind == "f":
            sets = ["r", "w", "rw"]
            lines.append("fence.tso" if draw.random() < 0.2 else f"fence {draw.choice(sets)},{draw.choice(sets)}")
        elif kind == "c":
            # A call: to put a byte, to get one, or for the round.
            lines += [f"addi x17,x0,{draw.randint(1, 3)}", "ecall", "addi x17,x0,0"]
        elif loaded and kind == "d":
            lines.append(f"add {into},{draw.choice(loaded)},x8")
            loaded.append(into)
        elif loaded and kind == "b":
            lines.append(f"bne {draw.choice(loaded)},x0,next")
        else:
            lines.append("nop")
    return lines, accesses


def random_order(draw, steps):
    """An order of the operations of steps that mostly keeps the program's."""
    left = {}
    for place, step in enumerate(steps):
        if step.is_operation:
            left.setdefault(step.hart, []).append(place)
    order = []
    while any(left.values()):
        own = draw.choice([it for it in left.values() if it])
        order.append(own.pop(0 if draw.random() < 0.8 else draw.randrange(len(own))))
    return order


def random_file(draw, most=8):
    """A file of a random program, in which loads mostly read what the order says, or none where that comes to no end."""
    programs, left = [], most
    for _ in range(draw.randint(2, 3)):
        program, accesses = random_program(draw, left)
        programs.append(program)
        left = max(0, left - accesses)
    image, harts = image_of(programs), len(programs)
    guess = [[draw.randint(0, 1) for _ in range(8)] for _ in programs]
    order = None
    for _ in range(8):
        execution = run_leniently(image, harts, guess)
        if execution is None or len(Model(execution.steps).operations) > most:
            return None
        places = [place for place, step in enumerate(execution.steps) if step.is_operation]
        if order is None or sorted(order) != places:
            order = random_order(draw, execution.steps)
        reads = reads_by(execution.steps, order, image, harts)
        if reads == execution_reads(execution, harts):
            return file_of(image, harts, reads, order, INPUT)[0]
        guess = reads
    return None


def run_leniently(image, harts, reads):
    """Harts that read such numbers, as far as they can: an SC fails where it has no reservation."""
    file = File(1, 2, image, INPUT, [Part(0, 0, None, list(it)) for it in reads], [], [])
    execution = Execution(file)
    for hart in range(harts):
        taken = iter(reads[hart])
        try:
            while len(execution.steps) < MOST_STEPS:
                at = len(execution.steps)
                # What is read next is known once it is read: so the step itself says it.
                said = next(taken, 0) if reads_next(execution, hart) else 0
                step = execution.guest.step(hart, execution.harts[hart], said & ALL_ONES, 0)
                execution.steps[at:] = [step]
        except Stopped:
            continue
    return execution


def reads_next(execution, hart):
    """Whether the next instruction of a hart reads a number."""
    return execution.guest.instruction_at(execution.harts[hart].pc).kind in ("load", "lr", "amo", "sc")


def execution_reads(execution, harts):
    return [[step.number_read for step in execution.steps if step.hart == hart and step.number_read is not None] for hart in range(harts)]


def reads_by(steps, order, image, harts):
    """The numbers that the load value axiom gives the loads of steps, with the SCs as they are."""
    model = Model(steps, image)
    reads = [[] for _ in range(harts)]
    for place, step in enumerate(steps):
        if step.loads:
            found = 0
            for byte, source in model.sources(order, place).items():
                wrote = model.opening_byte(byte) if source is None else model.byte_of(steps[source].written, steps[source], byte)
                found |= wrote << 8 * (byte - step.address)
            reads[step.hart].append(found)
        elif step.number_read is not None:
            reads[step.hart].append(step.number_read)
    return reads


# Changes


def changed(draw, text):
    """A text with one change or two."""
    for _ in range(draw.choice([1, 1, 2])):
        [change] = draw.choices([turns_changed, word_changed, number_changed, byte_changed], [4, 4, 2, 1])
        text = change(draw, text)
    return text


def byte_changed(draw, text):
    """One byte is another, or there is one more or one less."""
    at = draw.randrange(len(text))
    new = draw.choice([b"", draw.choice(b"0123456789abcdef: \n").to_bytes(1, "little"), bytes([draw.randrange(256)])])
    return text[:at] + new + text[at + draw.choice([0, 1, 1]) :]


def line_of(text, word):
    """Where the last line that begins with a word begins and ends."""
    start = text.rfind(b"\n" + word) + 1
    return start, text.find(b"\n", start)


def turns_changed(draw, text):
    """The order, or the calls, have turns elsewhere, or another turn in place of one."""
    start, end = line_of(text, draw.choice([b"order"] * 6 + [b"calls"]))
    name, *turns = text[start:end].split(b" ")
    if not turns:
        turns = [b"0"]
    a, b = draw.randrange(len(turns)), draw.randrange(len(turns))
    way = draw.random()
    if way < 0.5:
        turns.insert(b, turns.pop(a))
    elif way < 0.8:
        turns[a], turns[b] = turns[b], turns[a]
    elif way < 0.9:
        turns[a] = b"%d:%d" % (draw.randrange(3), draw.randrange(4))
    else:
        turns[a:b] = []
    return text[:start] + b" ".join([name, *turns]) + text[end:]


def number_changed(draw, text):
    """A number that was read, or a count, is another."""
    places = [it for it in re.finditer(rb"(?<= )\d+", text) if text.rfind(b"\nharts", 0, it.start()) >= 0]
    if not places:
        return text
    it = draw.choice(places)
    new = draw.choice([0, 1, 1, 2, 2, int(it[0]) + 1, max(0, int(it[0]) - 1), int(it[0]) ^ 1, 256, 2**32 + 1])
    return text[: it.start()] + b"%d" % new + text[it.end() :]


def word_changed(draw, text):
    """A word of the image has another bit, most often one of those that say how it orders."""
    at = text.find(b"\n", text.find(b"\nimage ") + 1) + 1
    end = text.find(b"\ninput ", at)
    digits = text[at:end].replace(b"\n", b"")
    try:
        image = bytearray.fromhex(digits.decode())
    except ValueError:
        return text
    if len(image) < 8:
        return text
    place = 4 * draw.randrange(len(image) // 4)
    word = int.from_bytes(image[place : place + 4], "little") ^ 1 << draw.choice([25, 26, 24, 20, 21, 28, 15, 16, 7, 8, *range(32)])
    image[place : place + 4] = word.to_bytes(4, "little")
    lines = b"\n".join(bytes(image[it : it + 32]).hex().encode() for it in range(0, len(image), 32))
    return text[:at] + lines + text[end:]
