"""A model of jobs: a bench in memory whose calls fail or stop by their numbers, and the calls on it of beginning, opening, carrying out and closing a job, in
their order. It was written from the definitions and the crates' comments, before it was held against what is stored."""
import functools
import hashlib
import struct

from formats import Algorithm, Board, Job, NotAJob, runs
from target import Ended, Machine

PIECE = 4096
OPEN = 0xA5


# what was read is kept, since many benches have the same files
job_of = functools.lru_cache(64)(Job)
board_of = functools.lru_cache(64)(Board)
algorithm_of = functools.lru_cache(64)(Algorithm)


class StoreFault(Exception):
    pass


class DeviceFault(Exception):
    pass


# ---- the bench

class Bench:
    """A job file and cells. Calls of these numbers, from 1, fail; with `left` calls let through each later one fails, and isn't counted."""

    def __init__(self, cells, file=b"", store_fails=(), device_fails=(), garbage=b"\x5a"):
        self.cells, self.file, self.operation = bytearray(cells), bytearray(file), None
        self.synced, self.pending = bytes(file), bytearray(len(file))
        self.store_fails, self.device_fails, self.garbage = set(store_fails), set(device_fails), list(garbage)
        self.store_calls = self.device_calls = 0
        self.left = None

    def passes(self, fault):
        if self.left is not None:
            if self.left == 0:
                raise fault
            self.left -= 1
        if fault is StoreFault:
            self.store_calls += 1
            if self.store_calls in self.store_fails:
                raise fault
        else:
            self.device_calls += 1
            if self.device_calls in self.device_fails:
                raise fault

    def file_len(self):
        self.passes(StoreFault)
        return len(self.file)

    def file_read(self, at, length):
        self.passes(StoreFault)
        return bytes(self.file[at:at + length])

    def file_write(self, at, data):
        self.passes(StoreFault)
        self.file[at:at + len(data)] = data
        self.mark(at, at + len(data))

    def mark(self, start, stop):
        if stop > len(self.pending):
            self.pending += bytes(stop - len(self.pending))
        self.pending[start:stop] = b"\1" * (stop - start)

    def file_cut(self, length):
        self.passes(StoreFault)
        del self.file[length:]
        self.mark(length, len(self.pending))

    def file_sync(self):
        self.passes(StoreFault)
        self.synced, self.pending = bytes(self.file), bytearray(len(self.file))

    def write_synced(self, at, data):
        self.file_write(at, data)
        self.file_sync()

    def cells_read(self, at, length):
        self.passes(DeviceFault)
        return bytes(self.cells[at:at + length])

    def cells_open(self, at, length):
        self.passes(DeviceFault)
        self.operation = (at, length)

    def cells_settle(self, data):
        self.passes(DeviceFault)
        at, length = self.operation
        self.cells[at:at + length] = data
        self.operation = None

    def cells_drop(self):
        self.passes(DeviceFault)
        if self.operation:
            at, length = self.operation
            if self.garbage:
                self.cells[at:at + length] = bytes([self.garbage.pop(0)]) * length
            self.operation = None

    def make_all(self, calls):
        """Calls on the cells, as a run of the target noted them: all at once where none of them fails."""
        last = self.device_calls + len(calls)
        if (self.left is None or self.left >= len(calls)) and not any(self.device_calls < it <= last for it in self.device_fails):
            self.device_calls = last
            if self.left is not None:
                self.left -= len(calls)
            for what, *words in calls:
                if what == "open":
                    self.operation = tuple(words)
                elif what == "settle":
                    self.cells[self.operation[0]:sum(self.operation)] = words[0]
                    self.operation = None
            return
        for what, *words in calls:
            {"read": self.cells_read, "open": self.cells_open, "settle": self.cells_settle}[what](*words)

    def power_loss(self, pick):
        """What a stop leaves: the file as written, as last synced ("old"), or as long as it may be with one byte wherever it may be any."""
        self.left = None
        if pick == "old":
            self.file = bytearray(self.synced)
        elif pick != "written":
            value = int(pick, 16)
            self.file = bytearray(value if mark else self.synced[k] for k, mark in enumerate(self.pending))
            if self.operation:
                at, length = self.operation
                self.cells[at:at + length] = bytes([value]) * length
        self.operation = None
        self.synced, self.pending = bytes(self.file), bytearray(len(self.file))


# ---- the job file

class NotFree(Exception):
    """Why no job is begun or opened: the words of its line, behind `job: `, or the hashes."""


def pieces(at, length):
    for start in range(0, length, PIECE):
        yield at + start, min(PIECE, length - start)


def look(bench):
    """What the file is: none where it is free, or the job."""
    bench.file_sync()
    whole = bench.file_len()
    if whole <= 1 or bench.file_read(0, 1)[0] != OPEN:
        return None
    second = whole >= 8 and bench.file_read(1, 7) == b"FLMJOB2"
    if second and whole >= 64:
        parts = [bench.file_read(at, length) for at, length in pieces(40, whole - 40)]
        kept, found = bench.file_read(8, 32), hashlib.sha256(b"".join(parts)).digest()
        if kept != found:
            raise NotFree(["damaged "] + ["%02X" % it for it in kept] + [" "] + ["%02X" % it for it in found])
    front = 64 if second else 24
    if whole < front:
        raise NotFree(["not a job at ", str(whole)])
    bench.file_read(1, front - 1)
    data = bytes(bench.file)
    try:
        job = job_of(data)
    except NotAJob as fault:
        raise NotFree(["not a job at ", str(fault.at)]) from None
    numbers = struct.unpack_from("<6I", data, 40) if second else struct.unpack_from("<4I", data, 8)
    at = front
    for length in [numbers[0]] + list(numbers[2:4] if second else numbers[1:2]):
        for piece in pieces(at, length):
            bench.file_read(*piece)
        at += length
    for _, content in runs(job.image):
        bench.file_read(at, 8)
        for piece in pieces(at + 8, len(content)):
            bench.file_read(*piece)
        at += 8 + len(content)
    return job


def begin(bench, text, files, image, size):
    """Begins a job over a free file. Raises NotFree where it isn't free or there are other cells."""
    if look(bench):
        raise NotFree(["open"])
    if size != len(bench.cells):
        raise other_size(size, bench)
    bench.cells_drop()
    if bench.file_len() <= 1:
        bench.file_sync()
    else:
        bench.file_cut(1)
        bench.file_sync()
    bench.write_synced(0, b"\0")
    found = runs(image)
    lengths = ([len(it) for it in files] + [0])[:2]
    numbers = struct.pack("<6I", len(text), len(files), *lengths, len(found), len(bench.cells))
    hasher, at = hashlib.sha256(numbers), 1
    for part in [b"FLMJOB2" + bytes(32) + numbers, text, *files]:
        bench.file_write(at, part)
        at += len(part)
    for start, content in found:
        for part in (struct.pack("<II", start, len(content)), bytes(content)):
            bench.file_write(at, part)
            at += len(part)
    hasher.update(bytes(bench.file[64:]))
    for start, length in pieces(0, len(bench.cells)):
        window = bench.cells_read(start, length)
        bench.file_write(at + start, window)
        hasher.update(window)
    bench.file_write(8, hasher.digest())
    bench.file_sync()
    bench.write_synced(0, bytes([OPEN]))


def other_size(wanted, bench):
    return NotFree([str(wanted), " cells wanted, ", str(len(bench.cells)), " found"])


def open_job(bench):
    job = look(bench)
    if job is None:
        raise NotFree(["none"])
    size = sum(it[1] for it in job.board.regions)
    if size != len(bench.cells):
        raise other_size(size, bench)
    bench.cells_drop()
    return job


# ---- the plan

def sectors_of(algorithm):
    starts = [it[1] for it in algorithm.items] + [algorithm.size]
    found = []
    for (size, offset), stop in zip(algorithm.items, starts[1:]):
        found += [(at, min(at + size, stop, algorithm.size)) for at in range(offset, min(stop, algorithm.size), size)]
    return found


class Plan:
    """The cheapest plan: a sector is erased where one of its pages must change and isn't empty."""

    def __init__(self, algorithm, weights, old, new):
        self.base = algorithm.base
        sectors = sectors_of(algorithm)
        of = {sector: [(at, min(at + algorithm.page, sector[1])) for at in range(*sector, algorithm.page)] for sector in sectors}

        def used(cells, page):
            return any(byte != algorithm.empty for byte in cells[page[0]:page[1]])
        self.sectors = [it for it in sectors if any(old[a:b] != new[a:b] and used(old, (a, b)) for a, b in of[it])]
        erased = set(self.sectors)
        self.pages = [page for it in sectors for page in of[it] if (used(new, page) if it in erased else old[page[0]:page[1]] != new[page[0]:page[1]])]
        wanted = [page for it in sectors for page in of[it] if used(new, page)]
        self.cost, chip = weights[0] * len(self.sectors) + weights[1] * len(self.pages), weights[2] + weights[1] * len(wanted)
        self.chip = algorithm.entries[4] != 0xFFFFFFFF and chip < self.cost
        if self.chip:
            self.sectors, self.pages, self.cost = [], wanted, chip
        self.count = len(sectors) if self.chip else len(self.sectors)

    def pieces(self):
        """Its text, in the pieces that it is made of."""
        kind = "chip" if self.chip else "sectors" if self.sectors or self.pages else "none"
        found = ["plan %s\n" % kind] + ["erase chip\n"] * self.chip
        for name, ranges in (("erase", self.sectors), ("program", self.pages)):
            for start, stop in ranges:
                found += [name, " ", "%08X" % (self.base + start), " ", str(stop - start), "\n"]
        return found + ["cost ", str(self.cost), "\n"]


# ---- a session

class Failed(Exception):
    """A call that isn't done: its number, its function and the words of its end."""


class Mismatch(Exception):
    """Address, byte wanted and byte found."""


def over(image, board, cells):
    """The image laid over cells."""
    new, place = bytearray(cells), 0
    for base, size, *_ in board.regions:
        for at in image:
            if base <= at < base + size:
                new[place + at - base] = image[at]
        place += size
    return new


class Session:
    """A job that was opened, on its way to its image or back."""

    def __init__(self, bench, job, forward):
        self.bench, self.job, place = bench, job, 0
        snapshot = bytes(bench.file[job.snapshot_at:])
        self.goal = bytes(over(job.image, job.board, snapshot)) if forward else snapshot
        self.areas = []
        for base, size, empty, unit, sectors in job.board.regions:
            self.areas.append((base, size, empty, unit, sectors, place))
            place += size
        self.plans = [self.survey(algorithm, area[5]) for algorithm, area in zip(job.algorithms, self.areas)]

    def want(self, at, length):
        self.bench.file_read(self.job.snapshot_at + at, length)
        return self.goal[at:at + length]

    def survey(self, algorithm, place):
        cells, goal = b"", b""
        for at, length in pieces(place, algorithm.size):
            cells += self.bench.cells_read(at, length)
            goal += self.want(at, length)
        return Plan(algorithm, self.job.board.numbers[5:], cells, goal)

    def go(self):
        """Carries the plans out, compares, and leaves the close to the caller."""
        self.made = 0
        for algorithm, plan, area in zip(self.job.algorithms, self.plans, self.areas):
            machine = Machine(self.job.board, algorithm, self.areas)
            pages = [(algorithm.base + a, area[5] + a, b - a) for a, b in plan.pages]
            erasures = [("EraseChip", [], None)] if plan.chip else [("EraseSector", [algorithm.base + a], None) for a, _ in plan.sectors]
            self.phase(machine, 1, erasures)
            self.phase(machine, 2, [("ProgramPage", [at], it) for at, *it in pages])
            self.phase(machine, 3, [("Verify", [at], it) for at, *it in pages] if algorithm.entries[5] != 0xFFFFFFFF else [])
        self.bench.cells_drop()
        self.compare()

    def phase(self, machine, kind, calls):
        if not calls:
            return
        self.bench.cells_drop()
        machine.reset()
        algorithm = machine.algorithm
        self.call(machine, "Init", [algorithm.base, self.job.board.numbers[3], kind])
        for name, arguments, page in calls:
            data = self.want(*page) if page else b""
            self.call(machine, name, arguments + ([len(data), machine.buffer_at] if page else []), data)
        self.call(machine, "UnInit", [kind])

    def call(self, machine, name, arguments, data=b""):
        self.made += 1
        try:
            end = machine.call(self.bench, name, arguments, data)
        except Ended as fault:
            raise Failed(self.made, name, str(fault)) from None
        if end != (arguments[0] + len(data) if name == "Verify" else 0):
            raise Failed(self.made, name, "answered %08X" % end)

    def compare(self):
        for at, length in pieces(0, len(self.bench.cells)):
            wanted, found = self.want(at, length), self.bench.cells_read(at, length)
            for k in range(length):
                if wanted[k] != found[k]:
                    base, _, *_, place = next(it for it in self.areas if it[5] <= at + k < it[5] + it[1])
                    raise Mismatch(base + at + k - place, wanted[k], found[k])

    def close(self):
        self.bench.write_synced(0, b"\0")
