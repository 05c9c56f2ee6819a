"""The memory model RVWMO on few operations, word for word from the manual (sections 14.1.1 to 14.1.4 and 14.3): apart from the
program, and as plain as can be.

An execution is a list of steps, of which those of one hart stand in program order; a place is a number in this list. An order is a list
of the places of its memory operations.
"""


class Registers:
    """The registers of a step (section 14.3): those that its address and its data are from, those that it computes or steers by, and
    the one that it sets. x0 is none."""

    def __init__(self, step):
        it = step.instruction
        self.address = {it.rs1} - {0} if it.kind in ("load", "store", "lr", "sc", "amo") else set()
        self.data = {it.rs2} - {0} if it.kind in ("store", "sc", "amo") else set()
        others = {"jalr": [it.rs1], "immediate": [it.rs1], "branch": [it.rs1, it.rs2], "register": [it.rs1, it.rs2]}
        self.others = set(others.get(it.kind, [])) - {0}
        self.sources = self.address | self.data | self.others
        self.destination = it.rd if not (it.kind == "sc" and not step.stores) else 0
        self.carries = it.kind in ("immediate", "register")
        self.steers = it.kind in ("branch", "jalr")


class Model:
    """What the model says of the steps of an execution, over memory that opened with 0 but for an image."""

    def __init__(self, steps, image=b""):
        self.steps, self.image = steps, image
        self.registers = [Registers(step) for step in steps]
        self.operations = [place for place, step in enumerate(steps) if step.is_operation]
        self.dependencies = {}

    def between(self, a, b):
        """The places of their hart between two places."""
        return [place for place in range(a + 1, b) if self.steps[place].hart == self.steps[b].hart]

    def origins(self, place, registers):
        """The places that an instruction has a syntactic dependency on via one of its source registers (section 14.1.2)."""
        found = set()
        for register in registers:
            if (place, register) not in self.dependencies:
                self.dependencies[place, register] = self.origins_of(place, register)
            found |= self.dependencies[place, register]
        return found

    def origins_of(self, place, register):
        for earlier in reversed(self.between(-1, place)):
            if self.registers[earlier].destination == register:
                carried = self.origins(earlier, self.registers[earlier].sources) if self.registers[earlier].carries else set()
                return {earlier} | carried
        return set()

    def has_address_dependency(self, a, b):
        return a in self.origins(b, self.registers[b].address)

    def has_data_dependency(self, a, b):
        return a in self.origins(b, self.registers[b].data)

    def steers_by(self, a, b):
        """Whether the second is a branch or an indirect jump that depends on the first."""
        return self.registers[b].steers and a in self.origins(b, self.registers[b].sources)

    def is_acquire(self, place):
        it = self.steps[place].instruction
        return it.acquire if it.kind in ("lr", "amo") else it.kind == "sc" and it.acquire and it.release

    def is_release(self, place):
        it = self.steps[place].instruction
        return it.release if it.kind in ("sc", "amo") else it.kind == "lr" and it.acquire and it.release

    def are_fenced(self, a, b):
        """Whether a fence between orders the first before the second."""
        first, second = self.steps[a], self.steps[b]
        for place in self.between(a, b):
            it = self.steps[place].instruction
            if it.kind != "fence":
                continue
            if it.is_tso:
                if first.loads or second.stores:
                    return True
                continue
            reads_before, writes_before, reads_after, writes_after = it.sets
            is_before = reads_before and first.loads or writes_before and first.stores
            if is_before and (reads_after and second.loads or writes_after and second.stores):
                return True
        return False

    def are_paired(self, a, b):
        kinds = [self.steps[place].instruction.kind for place in (a, b)]
        return kinds == ["lr", "sc"] and all(self.steps[place].instruction.kind not in ("lr", "sc") for place in self.between(a, b))

    def source(self, order, load, byte):
        """The place of the store that a byte of a load is from, or none where it is from the opening (the load value axiom)."""
        at = order.index(load)
        seen = [
            place for position, place in enumerate(order)
            if self.steps[place].stores and byte in self.steps[place].bytes
            and (position < at or place < load and self.steps[place].hart == self.steps[load].hart)
        ]  # fmt: skip
        return seen[-1] if seen else None

    def sources(self, order, load):
        return {byte: self.source(order, load, byte) for byte in self.steps[load].bytes} if self.steps[load].loads else {}

    # Preserved program order (section 14.1.3). Each rule is asked of two operations of one hart, the first before the second.

    def fixed_rules(self, a, b):
        """The numbers of the rules that order them in every order, in turn."""
        first, second = self.steps[a], self.steps[b]
        between = self.between(a, b)
        return [
            number for number, orders in (
                (1, lambda: second.stores and set(first.bytes) & set(second.bytes)),
                (4, lambda: self.are_fenced(a, b)),
                (5, lambda: self.is_acquire(a)),
                (6, lambda: self.is_release(b)),
                (7, lambda: all(self.is_acquire(it) or self.is_release(it) for it in (a, b))),
                (8, lambda: self.are_paired(a, b)),
                (9, lambda: self.has_address_dependency(a, b)),
                (10, lambda: self.has_data_dependency(a, b)),
                (11, lambda: second.stores and any(self.steers_by(a, it) for it in between)),
                (13, lambda: second.stores and any(self.has_address_dependency(a, it) for it in between)),
            ) if orders()
        ]  # fmt: skip

    def rules_by_sources(self, a, b, sources):
        """The numbers of the rules that order them by the stores that loads are from."""
        first, second = self.steps[a], self.steps[b]
        found = []
        if not second.loads:
            return found
        if first.loads and any(
            byte in first.bytes and sources[a][byte] != sources[b][byte]
            and not any(self.steps[it].stores and byte in self.steps[it].bytes for it in self.between(a, b))
            for byte in second.bytes
        ):  # fmt: skip
            found.append(2)
        if first.instruction.kind in ("amo", "sc") and a in sources[b].values():
            found.append(3)
        forwarded = [it for it in self.between(a, b) if it in sources[b].values()]
        if any(self.has_address_dependency(a, it) or self.has_data_dependency(a, it) for it in forwarded):
            found.append(12)
        return found

    def pairs(self):
        """The pairs of operations of one hart, by the second place and then by the first."""
        return [(a, b) for b in self.operations for a in self.operations if a < b and self.steps[a].hart == self.steps[b].hart]

    def fixed_pairs(self):
        """Those that a rule orders in every order."""
        return {(a, b) for a, b in self.pairs() if self.fixed_rules(a, b)}

    def opening_byte(self, address):
        return self.image[address] if address < len(self.image) else 0

    def byte_of(self, number, step, byte):
        return number >> 8 * (byte - step.address) & 255

    def wrong_byte(self, sources):
        """The first load with a byte that its source didn't write, and this byte (section 14.1.4)."""
        for load, by_byte in sorted(sources.items()):
            for byte, source in by_byte.items():
                wrote = self.opening_byte(byte) if source is None else self.byte_of(self.steps[source].written, self.steps[source], byte)
                if self.byte_of(self.steps[load].read, self.steps[load], byte) != wrote:
                    return load, byte
        return None

    def torn_pair(self, order, sources):
        """The first SC between whose LR's source and itself another hart stores, with its LR (section 14.1.4)."""
        for conditional in self.operations:
            for reserve in range(conditional):
                same = self.steps[reserve].hart == self.steps[conditional].hart
                if same and self.are_paired(reserve, conditional) and not self.is_atomic(order, sources[reserve], conditional):
                    return reserve, conditional
        return None

    def is_atomic(self, order, sources, conditional):
        at = order.index(conditional)
        for byte, source in sources.items():
            first = -1 if source is None else order.index(source)
            if first >= at or any(
                self.steps[it].stores and byte in self.steps[it].bytes and self.steps[it].hart != self.steps[conditional].hart
                for it in order[first + 1 : at]
            ):
                return False
        return True

    def refusal(self, order):
        """Why an order of all operations isn't allowed, as a tuple that begins with its kind, or none."""
        position = {place: number for number, place in enumerate(order)}
        sources = {place: self.sources(order, place) for place in self.operations}
        for a, b in self.pairs():
            if position[b] < position[a]:
                rules = sorted(self.fixed_rules(a, b) + self.rules_by_sources(a, b, sources))
                if rules:
                    return "rule", rules[0], a, b
        found = self.wrong_byte(sources)
        if found:
            return "byte", *found
        found = self.torn_pair(order, sources)
        return ("torn", *found) if found else None

    def orders(self):
        """All orders that no rule refuses which orders two operations in every order: all others are refused."""
        after = {place: set() for place in self.operations}
        for a, b in self.fixed_pairs():
            after[b].add(a)

        def begun(order, left):
            if not left:
                yield list(order)
            for place in sorted(left):
                if not after[place] & left:
                    yield from begun([*order, place], left - {place})

        return begun([], set(self.operations))

    def allowed_orders(self):
        return (order for order in self.orders() if self.refusal(order) is None)
