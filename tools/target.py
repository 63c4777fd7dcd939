"""A model of the emulated target: the algorithms A1 to A7 and F1 as text, both controllers by their tables (docs/USE.md), and a run of a function by the
procedure call standard, an instruction and a tick at a time. What a run asks of the bench is noted, and asked of it then."""
import re

from formats import Algorithm

CODE_FROM = 32


# ---- the algorithms, as text

F1 = """
Init:   ldr r3, base
        ldr r1, key1
        str r1, [r3, #4]
        ldr r1, key2
        str r1, [r3, #4]
        movs r0, #0
        bx lr
UnInit: ldr r3, base
        movs r0, #0x80
        str r0, [r3, #16]
        movs r0, #0
        bx lr
EraseChip: movs r2, #4
        b erase
EraseSector: movs r2, #2
erase:  ldr r3, base
        str r2, [r3, #16]
        str r0, [r3, #20]
        movs r1, #0x40
        orrs r1, r2
        str r1, [r3, #16]
wait:   ldr r2, [r3, #12]
        movs r1, #1
        tst r2, r1
        bne wait
        movs r1, #0x34
        ands r2, r1
        str r1, [r3, #12]
        movs r0, #0
        str r0, [r3, #16]
        cmp r2, #0x20
        beq out
        movs r0, #1
out:    bx lr
ProgramPage: push {r4, r5, lr}
        ldr r3, base
        movs r4, #1
        str r4, [r3, #16]
pnext:  cmp r1, #0
        beq pdone
        ldrh r5, [r2, #0]
        strh r5, [r0, #0]
pwait:  ldr r5, [r3, #12]
        tst r5, r4
        bne pwait
        lsrs r5, r5, #2
        lsls r5, r5, #29
        bne pfail
        adds r0, #2
        adds r2, #2
        subs r1, #2
        b pnext
pdone:  movs r0, #0
        b pout
pfail:  movs r0, #1
pout:   movs r5, #0x34
        str r5, [r3, #12]
        movs r5, #0
        str r5, [r3, #16]
        pop {r4, r5, pc}
Verify: push {r4, lr}
vnext:  cmp r1, #0
        beq vout
        ldrb r3, [r0, #0]
        ldrb r4, [r2, #0]
        cmp r3, r4
        bne vout
        adds r0, #1
        adds r2, #1
        subs r1, #1
        b vnext
vout:   pop {r4, pc}
base:   .word 0x40022000
key1:   .word 0x45670123
key2:   .word 0xCDEF89AB
"""


def of_kind(text, kind):
    """The lines of the section PrgCode that stand for a kind, by the conditions `.if KIND == N` and their like."""
    taken = [True]
    met = []
    for line in text.split(".section PrgCode")[1].split(".section")[0].splitlines()[1:]:
        words = line.split()
        if words[:1] in ([".if"], [".elseif"]):
            holds = eval(line.split(None, 1)[1].replace("KIND", str(kind)).replace("&&", " and "))
            if words[0] == ".if":
                met.append(holds)
                taken.append(holds)
            else:
                taken[-1] = holds and not met[-1]
                met[-1] = met[-1] or holds
        elif words[:1] == [".else"]:
            taken[-1] = not met[-1]
            met[-1] = True
        elif words[:1] == [".endif"]:
            taken.pop()
            met.pop()
        elif all(taken) and words[:1] not in ([".global"], [".align"]):
            yield line


def parse(lines):
    """Labels with their places, and the statement at each place."""
    labels, found, at = {}, {}, 0
    for line in lines:
        label = re.match(r"\s*(\w+):\s*(.*)", line)
        name, rest = (label[1], label[2]) if label else (None, line.strip())
        if rest.startswith(".word") and at % 4:
            at += 2
        if name:
            labels[name] = at
        if rest.startswith(".word"):
            found[at] = int(rest.split()[1], 0)
            at += 4
        elif rest:
            word, _, operands = rest.partition(" ")
            found[at] = (word, [it.strip(" []{}") for it in operands.strip().split(",")])
            at += 2
    return labels, found


def texts():
    """The parsed text of each kind, by its name."""
    with open("crates/target_vectors/data/algorithms.s") as file:
        text = file.read()
    found = {"A%d" % kind: parse(of_kind(text, kind)) for kind in range(1, 8)}
    found["F1"] = parse(F1.strip().splitlines())
    return found


# ---- the controllers

KEYS = (0x45670123, 0xCDEF89AB)


class BusFault(Exception):
    pass


class Controller:
    """What both kinds share: two keys unlock, anything else bars until a reset; an operation is (place, bytes, ticks left)."""

    def __init__(self, board, areas):
        self.board, self.areas = board, areas
        self.keys, self.operation = 0, None

    def state(self):
        return tuple(sorted((k, v) for k, v in self.__dict__.items() if k not in ("board", "areas")))

    def key(self, value):
        self.keys = self.keys + 1 if self.keys < 2 and value == KEYS[self.keys] else 3

    def unlocked(self):
        return self.keys == 2

    def sector(self, at):
        """The erasure of the sector that holds an address."""
        for base, size, empty, _, sectors, place in self.areas:
            if base <= at < base + size:
                start = 0
                for count, length in sectors:
                    if at - base < start + count * length:
                        start += (at - base - start) // length * length
                        return place + start, bytes([empty]) * length, self.board.numbers[1]
                    start += count * length
        return None

    def chip(self):
        return 0, bytes([self.areas[0][2]]) * self.areas[0][1], self.board.numbers[2]


class Fc1(Controller):
    block = 32

    def __init__(self, board, areas):
        super().__init__(board, areas)
        self.flags, self.command, self.address = 0, 0, 0

    def load(self, offset):
        status = (self.operation is not None) + self.flags + 32 * (not self.unlocked())
        found = {0: 0, 4: status, 8: self.command, 12: self.address, 16: 0}
        if offset not in found:
            raise BusFault()
        return found[offset]

    def store(self, offset, value):
        ready = self.unlocked() and not self.operation
        if offset == 0:
            self.key(value)
        elif offset == 4:
            self.flags &= ~(value & 30)
        elif offset == 8 and ready and value <= 3:
            self.command = value
        elif offset == 12 and ready:
            self.address = value
        elif offset == 16 and ready and value == 1 and self.command == 2:
            found = self.sector(self.address)
            if not found:
                self.flags |= 8
            return found
        elif offset == 16 and ready and value == 1 and self.command == 3:
            return self.chip()
        elif offset in (8, 12, 16):
            self.flags |= 4
        else:
            raise BusFault()
        return None

    def looks(self, width, value, unit):
        return self.unlocked() and self.command == 1 and width == unit

    def program(self, place, width, value, unit, empty, seen):
        if not self.looks(width, value, unit):
            self.flags |= 4
        elif seen != bytes([empty]) * width:
            self.flags |= 16
        else:
            return place, value.to_bytes(width, "little"), self.board.numbers[0]
        return None

    def end(self):
        self.flags |= 2


class Fpec(Controller):
    block = 64

    def __init__(self, board, areas):
        super().__init__(board, areas)
        self.bits, self.error, self.ended, self.access, self.address, self.erases = 0, 0, 0, 0, 0, False

    def load(self, offset):
        control = self.bits + 64 * (self.operation is not None and self.erases) + 128 * (not self.unlocked())
        status = (self.operation is not None) + 4 * self.error + 32 * self.ended
        found = {0: self.access, 4: 0, 8: 0, 12: status, 16: control, 20: self.address, 28: 0, 32: 0xFFFFFFFF}
        if offset not in found:
            raise BusFault()
        return found[offset]

    def store(self, offset, value):
        if offset == 0:
            self.access = value
        elif offset == 4:
            self.key(value)
        elif offset == 12:
            self.error &= ~(value >> 2) & 1
            self.ended &= ~(value >> 5) & 1
        elif offset == 16:
            return self.control(value)
        elif offset == 20:
            self.address = self.address if self.operation else value
        elif offset not in (8, 28, 32):
            raise BusFault()
        return None

    def control(self, value):
        if not self.unlocked() or self.operation:
            return None
        self.bits = value & 7
        if value & 128:
            self.keys = 0
        elif value & 64 and self.bits & 6 in (2, 4):
            found = self.sector(self.address) if self.bits & 2 else self.chip()
            self.erases = found is not None
            return found
        return None

    def looks(self, width, value, unit):
        return width == 2 and self.unlocked() and self.bits & 1 and value & 0xFFFF != 0

    def program(self, place, width, value, unit, empty, seen):
        if width != 2:
            raise BusFault()
        if not (self.unlocked() and self.bits & 1):
            return None
        if value & 0xFFFF and seen != b"\xff\xff":
            self.error = 1
            return None
        self.erases = False
        return place, (value & 0xFFFF).to_bytes(2, "little"), self.board.numbers[0]

    def end(self):
        self.ended = 1


# ---- a run of the target

class Ended(Exception):
    """A run that doesn't return: the words of its line."""


class Run:
    """One call of a function on the target, over cells of its own. It notes what it asks of the bench."""

    def __init__(self, machine, cells):
        self.machine, self.controller, self.cells, self.asked = machine, machine.controller, cells, []
        self.registers, self.zero, self.stack = [0] * 16, False, []

    def flash(self, at):
        for base, size, empty, unit, _, place in self.machine.areas:
            if base <= at < base + size:
                return place + at - base, unit, empty
        return None

    def load(self, at, width):
        machine = self.machine
        if machine.ram <= at and at + width <= machine.ram + machine.board.ram_size:
            return int.from_bytes(machine.buffer[at - machine.buffer_at:at - machine.buffer_at + width], "little")
        offset = at - machine.board.controller
        try:
            if 0 <= offset < self.controller.block and width == 4:
                return self.controller.load(offset)
            found = self.flash(at)
            if not found or self.controller.operation:
                raise BusFault()
        except BusFault:
            raise Ended("bus fault at %08X address %08X" % (self.pc, at)) from None
        self.asked.append(("read", found[0], width))
        return int.from_bytes(self.cells[found[0]:found[0] + width], "little")

    def store(self, at, width, value):
        offset = at - self.machine.board.controller
        try:
            if 0 <= offset < self.controller.block and width == 4:
                self.begin(self.controller.store(offset, value))
                return
            found = self.flash(at)
            if not found or self.controller.operation:
                raise BusFault()
            place, unit, empty = found
            seen = b""
            if self.controller.looks(width, value, unit):
                self.asked.append(("read", place, width))
                seen = bytes(self.cells[place:place + width])
            self.begin(self.controller.program(place, width, value & (1 << 8 * width) - 1, unit, empty, seen))
        except BusFault:
            raise Ended("bus fault at %08X address %08X" % (self.pc, at)) from None

    def begin(self, operation):
        if operation:
            self.asked.append(("open", operation[0], len(operation[1])))
            self.controller.operation = operation

    def tick(self):
        operation = self.controller.operation
        if operation:
            place, data, ticks = operation
            if ticks > 1:
                self.controller.operation = (place, data, ticks - 1)
            else:
                self.asked.append(("settle", data))
                self.cells[place:place + len(data)] = data
                self.controller.operation = None
                self.controller.end()

    def go(self, entry, arguments, fuel):
        """Runs from an entry to the return: R0."""
        labels, statements = self.machine.text
        code_at, r = self.machine.ram + CODE_FROM, self.registers
        r[0:3] = arguments
        place, made = labels[entry], 0
        while place is not None:
            self.pc = code_at + place
            if made == fuel:
                raise Ended("no fuel at %08X" % self.pc)
            place = self.step(place, statements[place], labels)
            self.tick()
            made += 1
        return r[0]

    def value(self, operand):
        return int(operand[1:], 0) if operand[0] == "#" else self.registers[int(operand[1:])]

    def step(self, place, statement, labels):
        """Does a statement, and answers the next place: none where it returns."""
        name, words = statement
        r = self.registers
        if name in ("b", "bne", "beq"):
            goes = name == "b" or self.zero == (name == "beq")
            return labels[words[0]] if goes else place + 2
        if name == "bx":
            if words[0] == "lr":
                return None
            raise Ended("bad state at %08X" % self.pc)
        if name == "push":
            self.stack.append([r[int(it[1:])] for it in words[:-1]])
        elif name == "pop":
            for it, value in zip(words[:-1], self.stack.pop()):
                r[int(it[1:])] = value
            return None
        elif name in ("ldr", "ldrh", "ldrb"):
            to = int(words[0][1:])
            if len(words) == 2:
                r[to] = self.machine.text[1][labels[words[1]]]
            else:
                r[to] = self.load(self.value(words[1]) + self.value(words[2]), {"ldr": 4, "ldrh": 2, "ldrb": 1}[name])
        elif name in ("str", "strh"):
            self.store(self.value(words[1]) + self.value(words[2]), 4 if name == "str" else 2, self.value(words[0]))
        else:
            self.calculate(name, words)
        return place + 2

    def calculate(self, name, words):
        r, to, last = self.registers, int(words[0][1:]), self.value(words[-1])
        first = self.value(words[-2]) if len(words) > 1 else 0
        result = {"movs": last, "adds": first + last, "subs": first - last, "cmp": first - last, "tst": first & last, "ands": first & last,
                  "orrs": first | last, "eors": first ^ last, "lsls": first << min(last, 32), "lsrs": first >> last}[name] & 0xFFFFFFFF
        self.zero = result == 0
        if name not in ("cmp", "tst"):
            r[to] = result


class Machine:
    """The machine of a region: the board, the algorithm, its text, and the controller."""
    TEXTS = {}
    KNOWN = {}

    def __init__(self, board, algorithm, areas):
        if not Machine.TEXTS:
            Machine.TEXTS = texts()
        self.board, self.algorithm, self.areas = board, algorithm, areas
        self.kind = kind_of(algorithm)
        self.text = Machine.TEXTS[self.kind]
        self.ram = board.ram_base
        self.buffer_at = self.ram + -(-(CODE_FROM + algorithm.zero_at + algorithm.zero) // 8) * 8
        self.buffer = b""
        self.reset()

    def reset(self):
        self.controller = (Fpec if self.board.fpec else Fc1)(self.board, self.areas)

    def fuel(self, name):
        it = self.algorithm
        milliseconds = (it.to_prog if name in ("ProgramPage", "Verify") else it.to_erase) or 1000
        return min(milliseconds * self.board.numbers[4] * (it.count(None) if name == "EraseChip" else 1), 2**40)

    def call(self, bench, name, arguments, data=b""):
        """Calls a function on the bench: R0. Raises Ended or DeviceFault."""
        self.buffer = data
        read = b""
        if name in ("ProgramPage", "Verify"):
            place = next(place + arguments[0] - base for base, size, _, _, _, place in self.areas if base <= arguments[0] < base + size)
            read = bytes(bench.cells[place:place + len(data)])
        key = (self.kind, self.numbers(), name, tuple(arguments), data, read, self.controller.state())
        if key not in Machine.KNOWN:
            Machine.KNOWN[key] = self.run(bench, name, arguments)
        asked, end, state = Machine.KNOWN[key]
        bench.make_all(asked)
        self.controller.__dict__.update(dict(state))
        if isinstance(end, str):
            raise Ended(end)
        return end

    def numbers(self):
        it = self.algorithm
        return self.ram, self.board.controller, tuple(self.board.numbers[:5]), str(self.areas), it.to_prog, it.to_erase, it.size

    def run(self, bench, name, arguments):
        run = Run(self, bytearray(bench.cells))
        try:
            end = run.go(name, (list(arguments) + [0, 0, 0])[:3], self.fuel(name))
        except Ended as fault:
            end = str(fault)
        return run.asked, end, self.controller.state()


def kind_of(algorithm):
    for kind in Machine.TEXTS:
        if algorithm.code in codes()[kind]:
            return kind
    raise KeyError("no algorithm of this code")


def codes(cache={}):
    """The code of each kind, by the files of other tools: A1 to A7; that of F1 is marked."""
    if not cache:
        for kind in range(1, 8):
            with open("crates/target_vectors/data/a%d.flm" % kind, "rb") as file:
                cache["A%d" % kind] = [Algorithm(file.read()).code]
        with open("crates/program_vectors/data/a1.flm", "rb") as file:
            code = Algorithm(file.read()).code
        cache["A1"].append(code)
        cache["F1"] = [marked(code)]
    return cache


def marked(code):
    return b"F1" + code[2:]


