"""All outcomes of a small program by the manual's definitions: each order of its memory operations that RVWMO allows, one after the other.

The ways of a hart are few: an SC succeeds or fails, a branch forwards is taken or not. On each way its operations have fixed addresses (a program
whose addresses hang on what it loads is none for this), so the order alone says which store each byte of a load is from; and what they read
follows, store by store.
"""

import itertools
from dataclasses import dataclass

from harts import Guest, Hart, Stopped
from rvwmo import Model

MOST_STEPS = 200


@dataclass(frozen=True)
class Way:
    """What isn't told by the order: whether each SC of a hart is to succeed, and whether its branch forwards is taken."""

    succeeds: tuple
    is_taken: bool


@dataclass
class Run:
    """The steps of a hart that reads such numbers on its way, and how it stops, as a table tells it, or none where it doesn't. `is_right` says that
    it really goes this way."""

    steps: list
    stop: str
    is_right: bool


def is_forwards(instruction):
    return instruction.kind == "branch" and instruction.name == "bne" and instruction.imm > 4


def run_of(image, harts, number, way, reads):
    """The run of a hart whose loads read these numbers in turn, and 0 behind them."""
    guest, hart = Guest(image, 2, b""), Hart([0] * 10 + [number, harts] + [0] * 20, 0)
    reads, succeeds = iter(reads), iter(way.succeeds)
    steps, is_right = [], True
    try:
        while len(steps) < MOST_STEPS:
            instruction = guest.instruction_at(hart.pc)
            said = None
            if instruction.kind == "sc":
                said = int(next(succeeds, 0))
            elif instruction.kind in ("load", "lr", "amo"):
                said = next(reads, 0)
            at = hart.pc
            steps.append(guest.step(number, hart, said, 0))
            if instruction.kind == "sc":
                is_right = is_right and bool(said) == steps[-1].stores
            if is_forwards(instruction):
                after = at + (instruction.imm if way.is_taken else 4)
                is_right = is_right and hart.pc == after
                hart.pc = after
    except Stopped as stopped:
        code, *value = stopped.args
        return Run(steps, f"exit {value[0]:016x}" if code == 1 else f"stop {code}", is_right)
    return Run(steps, None, False)


class Program:
    """A flat image for so many harts, with the number of SCs of each, and whether it has a branch forwards."""

    def __init__(self, image, conditionals, branches):
        self.image, self.harts = image, len(conditionals)
        self.conditionals, self.branches = conditionals, branches
        self.runs = {}

    def ways(self, hart):
        """The ways that a hart may go, but for what it reads."""
        takes = (False, True) if self.branches[hart] else (False,)
        return [Way(succeeds, taken) for succeeds in itertools.product((False, True), repeat=self.conditionals[hart]) for taken in takes]

    def run(self, hart, way, reads):
        key = hart, way, tuple(reads)
        if key not in self.runs:
            self.runs[key] = run_of(self.image, self.harts, hart, way, reads)
        return self.runs[key]

    def outcomes(self, seen):
        """How each hart stops, and the bytes of a range in the end, of each execution in which all harts stop."""
        found = set()
        for ways in itertools.product(*(self.ways(hart) for hart in range(self.harts))):
            found |= self.outcomes_by(ways, seen)
        return found

    def outcomes_by(self, ways, seen):
        reads = [()] * self.harts
        runs = self.runs_by(ways, reads)
        if not all(self.may_go(run, way) for run, way in zip(runs, ways)):
            return set()
        model = self.model_of(runs)
        found = set()
        for order in model.orders():
            ended = self.ended_by(ways, order, model)
            if ended:
                found.add(self.outcome_of(*ended, order, seen))
        return found

    def may_go(self, run, way):
        """Whether each SC that is to succeed has a reservation on this way, whatever its hart reads, and there are as many as the way says."""
        conditionals = [step for step in run.steps if step.instruction.kind == "sc"]
        unmet = way.succeeds[len(conditionals) :]
        return not any(unmet) and [step.stores for step in conditionals] == list(way.succeeds[: len(conditionals)])

    def runs_by(self, ways, reads):
        return [self.run(hart, ways[hart], reads[hart]) for hart in range(self.harts)]

    def model_of(self, runs):
        return Model([step for run in runs for step in run.steps], self.image)

    def ended_by(self, ways, order, model):
        """The model and the runs of the execution in this order, where it is allowed, the harts go these ways, and each stops."""
        sources = {place: model.sources(order, place) for place in model.operations if model.steps[place].loads}
        runs = None
        # What a load reads hangs on stores that stand before it, here or in its hart: so it settles in as many turns as there are operations.
        for _ in range(len(order) + 2):
            steps, before = model.steps, runs
            reads = [[] for _ in range(self.harts)]
            for place, by_byte in sources.items():
                number = 0
                for byte, source in by_byte.items():
                    wrote = model.opening_byte(byte) if source is None else model.byte_of(steps[source].written, steps[source], byte)
                    number |= wrote << 8 * (byte - steps[place].address)
                reads[steps[place].hart].append(number)
            runs = self.runs_by(ways, reads)
            if runs == before:
                break
            model = self.model_of(runs)
        if any(run.stop is None or not run.is_right for run in runs) or model.refusal(order) is not None:
            return None
        return model, runs

    def outcome_of(self, model, runs, order, seen):
        memory = {byte: model.opening_byte(byte) for byte in seen}
        for place in order:
            step = model.steps[place]
            if step.stores:
                memory.update({byte: model.byte_of(step.written, step, byte) for byte in step.bytes if byte in memory})
        return tuple(run.stop for run in runs), bytes(memory[byte] for byte in seen)
