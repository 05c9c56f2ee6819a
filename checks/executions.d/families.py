"""Shapes that are cycles: a few harts of one or two accesses each, with each way in turn to order the two, or not to.

In a multi-copy atomic model, as RVWMO is, the outcome that goes around the cycle is forbidden exactly where the two accesses of each hart
are ordered ([H] and [P] of shapes.txt). So the verdict of each shape follows from what orders a pair, which the manual says:

- a fence what its sets name, FENCE.TSO all but a store before a load (rule 4, A.3.6);
- an acquire what comes after it, a release what comes before it, and a release an acquire behind it (rules 5 to 7, A.3.7);
- an address, data or control dependency a load before what depends on it; that of a branch stores alone (rules 9 to 11, A.3.8).
"""

from dataclasses import dataclass

from making import ADDRESSES

ALL = frozenset({"RR", "RW", "WR", "WW"})
BASES = {"x": "x5", "y": "x6", "z": "x7"}
VALUES = {"1": "x8", "2": "x9"}


@dataclass(frozen=True)
class Link:
    """What two accesses of a hart have between them: which pairs of a load R and a store W it orders, and for which it can be made. `first`
    and `second` are the instructions of the two where they aren't LW and SW, `between` is an instruction, and `by` says what of the second
    access depends on the first."""

    orders: frozenset
    applies: frozenset = ALL
    first: str = ""
    between: str = ""
    second: str = ""
    by: str = ""


def fence(before, after):
    return Link(frozenset(a + b for a in before.upper() for b in after.upper()), between=f"fence {before},{after}")


def pairs(words):
    return frozenset(words.split())


LINKS = {
    "po": Link(frozenset()),
    **{f"fence.{before}.{after}": fence(before, after) for before in ("r", "w", "rw") for after in ("r", "w", "rw")},
    "fence.tso": Link(ALL - {"WR"}, between="fence.tso"),
    "addr": Link(pairs("RR RW"), pairs("RR RW"), by="address"),
    "data": Link(pairs("RW"), pairs("RW"), by="data"),
    "ctrl": Link(pairs("RW"), pairs("RR RW"), between="bne x12,x0,next"),
    "lr-po": Link(frozenset(), pairs("RR RW"), first="lr.w"),
    "lr.aq-po": Link(pairs("RR RW"), pairs("RR RW"), first="lr.w.aq"),
    "po-amo": Link(frozenset(), pairs("RW WW"), second="amoswap.w"),
    "po-amo.rl": Link(pairs("RW WW"), pairs("RW WW"), second="amoswap.w.rl"),
    "amo-po": Link(frozenset(), pairs("WR WW"), first="amoswap.w"),
    "amo.rl-po": Link(frozenset(), pairs("WR WW"), first="amoswap.w.rl"),
    "amo.aq-po": Link(pairs("WR WW"), pairs("WR WW"), first="amoswap.w.aq"),
    "amo.rl-lr": Link(frozenset(), pairs("WR"), first="amoswap.w.rl", second="lr.w"),
    "amo.rl-lr.aq": Link(pairs("WR"), pairs("WR"), first="amoswap.w.rl", second="lr.w.aq"),
}
STRONG = "fence.rw.rw"


@dataclass(frozen=True)
class Family:
    """The accesses of each hart: R or W, the address, and the number of a W. What each hart reads, and what is in memory in the end. In a
    symmetric one all harts with two accesses are alike."""

    harts: tuple
    reads: tuple
    last: dict
    is_symmetric: bool = False

    def pairs(self):
        return [first[0] + second[0] for first, second in (hart.split(" ") for hart in self.harts if " " in hart)]


FAMILIES = {
    "MP": Family(("Wx1 Wy1", "Ry Rx"), ([], [1, 0]), {}),
    "SB": Family(("Wx1 Ry", "Wy1 Rx"), ([0], [0]), {}, is_symmetric=True),
    "LB": Family(("Rx Wy1", "Ry Wx1"), ([1], [1]), {}, is_symmetric=True),
    "S": Family(("Wx2 Wy1", "Ry Wx1"), ([], [1]), {"x": 2}),
    "R": Family(("Wx1 Wy1", "Wy2 Rx"), ([], [0]), {"y": 2}),
    "2+2W": Family(("Wx1 Wy2", "Wy1 Wx2"), ([], []), {"x": 1, "y": 1}, is_symmetric=True),
    "WRC": Family(("Wx1", "Rx Wy1", "Ry Rx"), ([], [1], [1, 0]), {}),
    "RWC": Family(("Wx1", "Rx Ry", "Wy1 Rx"), ([], [1, 0], [0]), {}),
    "IRIW": Family(("Wx1", "Wy1", "Rx Ry", "Ry Rx"), ([], [], [1, 0], [1, 0]), {}, is_symmetric=True),
    "ISA2": Family(("Wx1 Wy1", "Ry Wz1", "Rz Rx"), ([], [1], [1, 0]), {}),
}


def access_line(access, register, instruction="", base="", value=""):
    """An access in assembly. Of an AMO it isn't seen what it reads."""
    base = base or BASES[access[1]]
    if access[0] == "R":
        return f"{instruction} {register},({base})" if instruction else f"lw {register},0({base})"
    value = value or VALUES[access[2]]
    return f"{instruction} x0,{value},({base})" if instruction else f"sw {value},0({base})"


def hart_lines(accesses, link):
    first, *rest = accesses.split(" ")
    if not rest:
        return [access_line(first, "x12")]
    [second] = rest
    lines = [access_line(first, "x12", link.first)]
    if link.by == "address":
        return [*lines, "xor x14,x12,x12", f"add x14,x14,{BASES[second[1]]}", access_line(second, "x13", base="x14")]
    if link.by == "data":
        return [*lines, "xor x14,x12,x12", f"add x14,x14,{VALUES[second[2]]}", access_line(second, "x13", value="x14")]
    return [*lines, *filter(None, [link.between]), access_line(second, "x13", link.second)]


def linked(name, family, names):
    """The shape of a family with such links: its name, the lines of its harts, what they read, what is last in memory, whether that is
    allowed, and whether each order that allows it has a store before an earlier load of its hart."""
    links = [LINKS[it] for it in names]
    left = iter(links)
    programs = [hart_lines(hart, next(left) if " " in hart else None) for hart in family.harts]
    loose = [(link, pair) for link, pair in zip(links, family.pairs()) if pair not in link.orders]
    comes_early = all(pair[1] == "W" and (pair[0] == "R" or link.first) for link, pair in loose)
    last = {ADDRESSES[at]: number for at, number in family.last.items()}
    return "+".join([name, *names]), programs, family.reads, last, bool(loose), bool(loose) and comes_early


def family_shapes():
    """Of each family the shape without any link, and those with each link in each place, where the others are strong."""
    for name, family in FAMILIES.items():
        pairs = family.pairs()
        yield linked(name, family, ["po"] * len(pairs))
        for place in range(1 if family.is_symmetric else len(pairs)):
            for link in LINKS:
                if pairs[place] in LINKS[link].applies:
                    yield linked(name, family, [link if it == place else STRONG for it in range(len(pairs))])
