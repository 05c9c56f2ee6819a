"""The shapes of shapes.txt, whose first lines say how they are written."""

import os
import re

from making import ADDRESSES

HERE = os.path.dirname(os.path.abspath(__file__))


def shapes():
    """The shapes of the table: their names, the lines of their harts, what stands last, and whether they are allowed."""
    with open(f"{HERE}/shapes.txt") as table:
        text = re.sub("^#.*\n", "", table.read(), flags=re.M)
    for part in text.split("shape ")[1:]:
        head, *lines = part.strip().splitlines()
        name, verdict, _source = head.split(" ", 2)
        lines = [line.strip() for line in lines]
        last = [line.split()[1:] for line in lines if line.startswith("last ")]
        harts = [line.rsplit(":", 1) for line in lines if not line.startswith("last ")]
        programs = [[it.strip() for it in program.split(";")] for program, _ in harts]
        reads = [[int(it) for it in said.split()] for _, said in harts]
        yield name, programs, reads, {ADDRESSES[name]: int(number) for name, number in last}, {"allowed": True, "forbidden": False}[verdict]


def stands_last(steps, order, last):
    """Whether the last store to each of some addresses wrote what is said."""
    wrote = {}
    for place in order:
        if steps[place].stores:
            wrote[steps[place].address] = steps[place].written
    return all(wrote.get(address) == number for address, number in last.items())
