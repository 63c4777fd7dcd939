#!/usr/bin/env python3
"""What `program_vectors` has to print of its rows: its commands on benches in memory, stopped, with calls that fail, with the algorithms A1 to A7 and F1.

  python3 tools/answers.py > FILE       from the repository's top: what crates/program_vectors/stdout has of them
  python3 tools/answers.py check        says of each row whether crates/program_vectors/stdout has it so

The language of the rows stands in crates/program_vectors/src/memory/lines.rt. commands.py is a model of the program, jobs.py of the calls on a bench,
target.py of the target."""
import difflib
import os
import sys

from commands import Call, Fails, asked, forged, words_of
from jobs import OPEN, Bench

DATA = "crates/program_vectors/data/"
JOBS = ("program", "begin", "resume", "revert")


class Trial:
    def __init__(self, files):
        self.files, self.cells, self.job, self.open, self.fails = files, bytearray(b"\xff" * 1024), b"", None, Fails()
        self.bench = None

    # -- what a row begins with

    def change(self, what, first="", rest=""):
        if what == "file":
            with open(DATA + rest, "rb") as file:
                self.files[first] = file.read()
        elif what == "text":
            self.files[first] = (rest.replace("|", "\n") + "\n").encode()
        elif what == "bytes":
            self.files[first] = bytes.fromhex(rest)
        elif what == "empty":
            self.files[first] = b""
        elif what == "patch":
            at, data = int(rest.split()[0]), bytes.fromhex(rest.split()[1])
            old = self.files[first]
            self.files[first] = (old[:at] + data + old[at + len(data):])[:len(old)]
        elif what == "pad":
            length, value = rest.split()
            self.files[first] = self.files[first].ljust(int(length), bytes.fromhex(value))
        elif what == "room":
            pass  # a bench of this model has room for every job
        elif what == "cells":
            self.cells = bytearray([int(rest, 16)]) * int(first)
        elif what == "count":
            stop = min(int(first) + int(rest), len(self.cells))
            self.cells[int(first):stop] = bytes(k % 256 for k in range(int(first), stop))
        elif what == "set":
            self.cells[int(first):int(first) + len(rest) // 2] = bytes.fromhex(rest)
        elif what == "open":
            self.open = (int(first), int(rest))
        elif what == "from":
            self.job, self.cells = (self.files[rest], self.cells) if first == "job" else (self.job, bytearray(self.files[rest]))
        elif what == "job":
            self.job = bytes.fromhex(first)
        elif what == "spoil":
            job = bytearray(self.job)
            job[-int(first)] ^= 255
            self.job = bytes(job)
        elif what == "forge":
            kind, board, *numbers = rest.split()
            self.files[first] = forged(kind, self.files[board], *numbers)
        elif what == "fail":
            if first == "file":
                self.fails.files = [int(rest), 0]
            else:
                setattr(self.fails, first, int(rest))
        else:
            raise ValueError(what)

    def new_bench(self, fails=None, cells=None, job=None):
        fails = fails or self.fails
        return Bench(self.cells if cells is None else cells, self.job if job is None else job, fails.files, [fails.cells])

    def own_bench(self):
        """A bench as the row begins, with its operation, whose opening has a number."""
        bench = self.new_bench()
        if self.open:
            bench.cells_open(*self.open)
        return bench

    def answer(self, bench, line, fails=None):
        call = Call(self.files, bench, fails or self.fails)
        return call.answer(words_of(line)), call.out.text, call.err.text

    # -- what a row prints

    def call(self, line):
        """Of a call on a bench of its own."""
        bench = self.own_bench()
        status, out, err = self.answer(bench, line)
        same = "the same cells" if bench.cells == self.cells else "other cells"
        return "%s%sstatus %d, %s%s" % (out, err, status, same, "" if bytes(bench.file) == self.job else ", another job file")

    def run(self, line):
        """Of a call on the row's bench."""
        self.bench = self.bench or self.own_bench()
        before = bytes(self.bench.file)
        status, out, err = self.answer(self.bench, line)
        return "%s%sstatus %d\n%s\n%s" % (out, err, status, self.other_cells(self.bench.cells), file_state(before, bytes(self.bench.file)))

    def other_cells(self, cells):
        others = [k for k, byte in enumerate(cells) if byte != self.cells[k]]
        lines = ["cell %d: %02X is %02X" % (k, self.cells[k], cells[k]) for k in others[:4]]
        return "\n".join(lines + ["%d other cells" % len(others) if others else "the same cells"])

    def body(self, name):
        same = bytes(self.bench.file[1:]) == self.files[name][1:]
        return "the job of " + name if same else "another job than that of " + name

    # -- stops

    def stopped(self, calls, pick, line):
        bench = self.own_bench()
        bench.left = calls
        status = self.answer(bench, line, Fails())[0]
        bench.power_loss(pick)
        return status, bench

    def stop(self, rest):
        calls, pick, line = rest.split(" ", 2)
        _, self.bench = self.stopped(int(calls), pick, line)
        return "%s\n%s" % (self.other_cells(self.bench.cells), file_state(self.job, bytes(self.bench.file)))

    def keep(self, rest):
        calls, pick, line = rest.split(" ", 2)
        _, bench = self.stopped(int(calls), pick, line)
        self.cells, self.job = bench.cells, bytes(bench.file)

    def after(self, cells, job, line):
        """Status, bench and line of a call on a new bench."""
        bench = self.new_bench(Fails(), cells, job)
        status, _, err = self.answer(bench, line, Fails())
        return status, bench, err

    def stops(self, rest):
        """A stop at each call, and the job that is left carried on and back."""
        pick, line = rest.split(" ", 1)
        aims, tally = Aims(self, line), {}
        for calls in range(100000):
            status, bench = self.stopped(calls, pick, line)
            left = aims.look(self, bench)
            if left == "whole":
                for command, wanted in (("resume", aims.image), ("revert", bytes(self.cells))):
                    done, carried, _ = self.after(bench.cells, bench.file, command)
                    assert (done, bytes(carried.cells), is_open(carried.file)) == (0, wanted, False)
            if status == 0:
                assert left == aims.last
                return "%s: %d stops%s" % (pick, calls, told(tally))
            tally[left] = tally.get(left, 0) + 1

    def tenths(self, rest):
        """A stop at every tenth call, and what `resume` answers, with the job's algorithm and with A1 in its place."""
        pick, line = rest.split(" ", 1)
        own, kept, tally, ends, with_kept = Aims(self, line), Aims(self, "program small a1 one"), {}, {}, {}
        for tenth in range(10000):
            status, bench = self.stopped(10 * tenth, pick, line)
            if status == own.status:
                return "%s: %d stops%s\nresumed%s; with A1%s" % (pick, tenth, told(tally), told_statuses(ends), told_statuses(with_kept))
            left = own.look(self, bench)
            tally[left] = tally.get(left, 0) + 1
            if left == "whole":
                for file, statuses in ((bytes(bench.file), ends), (bytes([OPEN]) + kept.body, with_kept)):
                    status, carried, _ = self.after(bench.cells, file, "resume")
                    assert bytes(carried.cells) == kept.goal if status == 0 else bytes(carried.file) == file
                    statuses[status] = statuses.get(status, 0) + 1

    # -- calls that fail

    def faults(self, line):
        aims = Aims(self, line)
        lines = ["status %d" % aims.status, self.other_cells(aims.goal)]
        for name, field in (("file", "file"), ("cells", "cells"), ("out", "put"), ("err", "line"), ("take", "take")):
            statuses, tally = {}, {}
            for calls in range(100000):
                fails = Fails(**{field: calls + 1})
                bench = self.new_bench(fails)
                status, _, err = self.answer(bench, line, fails)
                if (status, err) == (aims.status, aims.line):
                    lines.append("%s %d%s%s" % (name, calls, told_statuses(statuses), told(tally)))
                    break
                left = self.left_after(aims, line, bench)
                statuses[status] = statuses.get(status, 0) + 1
                tally[left] = tally.get(left, 0) + 1
        return "\n".join(lines)

    def left_after(self, aims, line, bench):
        if line.split()[0] not in JOBS:
            assert (bytes(bench.file), bench.cells) == (self.job, self.cells)
            return "as before"
        left = aims.look(self, bench)
        if left == "whole":
            assert self.answer(bench, "resume", Fails())[0] == 0 and bytes(bench.cells) == aims.image
        return left

    def pairs(self, rest):
        most, line = rest.split(" ", 1)
        aims, count, first, resumed, statuses = Aims(self, line), 0, 0, 0, {}
        for second in range(1, int(most) + 1):
            for one in range(1, second):
                bench = self.new_bench(Fails(file=one, second=second))
                for _ in range(3):
                    opened = is_open(bench.file)
                    status = self.answer(bench, "resume" if opened else line, Fails())[0]
                    statuses[status] = statuses.get(status, 0) + 1
                    first, resumed = first + (not opened), resumed + opened
                    left = aims.look(self, bench)
                    if status == 0:
                        assert left == "finished"
                        break
                assert status == 0
                count += 1
        return "%d pairs, %d begun, %d resumed%s" % (count, first, resumed, told_statuses(statuses))

    def random(self, rest):
        """A job of random bytes (Marsaglia, Xorshift RNGs, 2003), which A1 carries out."""
        sectors, size = map(int, rest.split())
        state = 2463534242

        def draws(count):
            nonlocal state
            for _ in range(count):
                state = (state ^ state << 13) & 0xFFFFFFFF
                state ^= state >> 17
                state = (state ^ state << 5) & 0xFFFFFFFF
                yield state % 256
        image, cells = bytes(draws(sectors * size)), bytes(draws(sectors * size))
        board = b"[ram]\nbase = 0x20000000\nsize = 8192\n[[region]]\nbase = 0x08000000\nsectors = [[%d, %d]]\n" % (sectors, size)
        board += b"[controller]\nbase = 0x40022000\n"
        bench = Bench(cells)
        call = Call({"board": board, "a1": forged("A1", board, 1024, 500), "image": image}, bench, Fails(), 2**23)
        status = call.answer("program --raw-at 0x08000000 board a1 image".split())
        return "status %d\n%s" % (status, "same" if bytes(bench.cells) == image else "other cells")


def is_open(file):
    return len(file) > 1 and file[0] == OPEN


def file_state(before, after):
    if before == after:
        return "the same job file"
    if len(after) > 1 and after[0] in (0xA5, 0):
        return "a job is open" if after[0] else "a job is closed"
    return "a free job file"


def told(tally):
    return "".join(", %d %s" % (tally[it], it) for it in ("as before", "untouched", "whole", "finished") if it in tally)


def told_statuses(statuses):
    return "".join(", %d of status %d" % (statuses[it], it) for it in sorted(statuses))


class Aims:
    """What the job of a call is, as the call leaves it where nothing fails."""

    def __init__(self, trial, line):
        self.status, bench, self.line = trial.after(trial.cells, trial.job, line)
        self.goal, self.body, only_begins = bytes(bench.cells), bytes(bench.file[1:]), line.split()[0] == "begin"
        self.last, self.image = "whole" if only_begins else "finished", self.goal
        if line.split()[0] in JOBS and (is_open(trial.job) or only_begins):
            cells, job = (trial.cells, trial.job) if is_open(trial.job) else (bench.cells, bench.file)
            _, bench, _ = trial.after(cells, job, "resume")
            self.image = bytes(bench.cells)

    def look(self, trial, bench):
        """What is left on a bench on which the call didn't come to its end."""
        same = bytes(bench.file[1:]) == self.body
        if is_open(bench.file):
            assert same
            return "whole"
        if bench.cells == trial.cells and not is_open(trial.job):
            return "untouched"
        assert same and bytes(bench.cells) == self.goal
        return "finished"


def listed(name):
    """The name of each row of a list, and what it prints; without a name, what the words of a file's lines ask for."""
    with open(DATA + name) as file:
        lines = file.read().splitlines()
    files = {}
    found, trial = [], Trial(files)
    for line in lines:
        what, _, rest = line.partition(" ")
        if what == "row":
            trial = Trial(files)
            found.append([rest, []])
        elif what == "words":
            with open(DATA + rest) as file:
                found.append([None, ["%s\n%s" % (it, asked(it)) for it in file.read().splitlines()]])
        elif what == "keep":
            trial.keep(rest)
        elif what in ("call", "run", "body", "stop", "stops", "tenths", "faults", "pairs", "random"):
            found[-1][1].append(getattr(trial, what)(rest))
        elif line:
            trial.change(*line.split(" ", 2))
    return found


def order():
    with open(DATA + "order.txt") as file:
        return file.read().split()


def rows():
    for name in order():
        for title, told in listed(name):
            yield name, title, told


def check():
    """Compares the rows with what is stored before the jobs of a host, each behind its name; what words ask for has no name, and two lines each."""
    with open("crates/program_vectors/stdout") as file:
        stored = file.read().splitlines()
    with open(DATA + "host/calls.txt") as file:
        stored = stored[:stored.index(file.readline().rstrip("\n"))]
    made, begins, at = list(rows()), [], 0
    for _, title, _ in made:
        at = stored.index(title, at) if title else at
        begins.append(at if title else None)
        at += 1
    ends = begins[1:] + [len(stored)]
    begins = [end - 2 * len(told) if begin is None else begin for begin, end, (_, _, told) in zip(begins, ends, made)]
    right = wrong = 0
    for (name, title, told), begin, end in zip(made, begins, begins[1:] + [len(stored)]):
        lines = ([title] if title else []) + "\n".join(told).splitlines()
        if stored[begin:end] == lines:
            right += 1
            continue
        wrong += 1
        print("%s: %s" % (name, title))
        print(*list(difflib.unified_diff(stored[begin:end], lines, "stored", "model", lineterm="", n=1))[:16], sep="\n")
    print("%d rows right, %d wrong" % (right, wrong))
    return wrong


if __name__ == "__main__":
    os.chdir(os.path.join(os.path.dirname(os.path.abspath(__file__)), ".."))
    if sys.argv[1:] == ["check"]:
        sys.exit(check() != 0)
    for _, title, told in rows():
        print(*([title] if title else []), *told, sep="\n")
