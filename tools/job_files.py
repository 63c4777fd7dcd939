#!/usr/bin/env python3
"""The job files that `session_vectors` and `program_vectors` read and compare, by the format, and what `session_vectors` has to print of
files that are made of them.

  python3 tools/job_files.py write FOLDER     writes all of them, into folders that are named like the crates
  python3 tools/job_files.py hashes NAME      prints the list of changes of that name (changes.txt, two.txt) with the hashes that its files keep
  python3 tools/job_files.py first            prints what is made of a job of the first format: in crates/session_vectors/stdout behind that line
  python3 tools/job_files.py second           the same of one of the second format
  python3 tools/job_files.py two              the same of one of two regions
  python3 tools/job_files.py stops            prints how the job is begun, stopped, closed and opened: the beginning of crates/session_vectors/stdout

They are called from the repository's top. Each line of a list is `WHAT: CHANGE..`, a CHANGE `AT=BYTES`, `cut=LENGTH` or `more=BYTES`."""
import hashlib
import os
import struct
import sys

import jobs
from formats import Damaged, Elf, Job, NotAJob, is_free, job_file

FOUR = {0x08000000 + k: k + 1 for k in range(4)}
BOTH = {**FOUR, 0x1FFFF000: 0x55}
ONE = {0x08000041: 0xAA}
BLANK = b"\xff"


def read(name, crate="session_vectors"):
    with open("crates/%s/data/%s" % (crate, name), "rb") as file:
        return file.read()


def files():
    """The three job files of `session_vectors`: of the small board in both formats, and of two regions."""
    small, two, flm, second = read("one.toml"), read("two.toml"), read("algorithm.flm"), read("second.flm")
    return {"job.bin": job_file(small, [flm], FOUR, BLANK * 1024), "first.bin": job_file(small, [flm], FOUR, BLANK * 1024, False),
            "two.bin": job_file(two, [flm, second], BOTH, BLANK * 1280)}


def for_second_region(flm, base, size):
    """A forged FLM file for a device of another base and size, without the symbol of EraseChip: what lies behind that moves up by its 16 bytes."""
    elf, data = Elf(flm), bytearray(flm)
    table = struct.unpack_from("<I", flm, 32)[0]
    symbols = next(it for it in elf.headers if it[1] == 2)
    dscr = elf.section(b"DevDscr", 1)
    struct.pack_into("<II", data, dscr[4] + elf.symbol(b"FlashDevice") - dscr[3] + 132, base, size)
    chip = next(at for at in range(symbols[4], symbols[4] + symbols[5], 16) if struct.unpack_from("<I", flm, at + 4)[0] == elf.symbol(b"EraseChip"))
    for k, header in enumerate(elf.headers):
        at = table + 40 * k
        if header[4] > chip:
            struct.pack_into("<I", data, at + 16, header[4] - 16)
        if header is symbols:
            struct.pack_into("<I", data, at + 20, header[5] - 16)
    struct.pack_into("<I", data, 32, table - 16)
    return bytes(data[:chip] + data[chip + 16:])


def other_files():
    """Those of the other crate. A job that was closed has 00 for its first byte."""
    small, flm, a1, full = read("one.toml"), read("algorithm.flm"), read("a1.flm", "program_vectors"), bytes(range(256)) + BLANK * 768
    closed = {"one_region.job": job_file(small, [a1], FOUR, BLANK * 1024),
              "two_regions.job": job_file(read("two.toml"), [a1, for_second_region(a1, 0x1FFFF000, 256)], BOTH, BLANK * 1280)}
    one_sector = job_file(small, [a1], ONE, full, False)
    return {"program_vectors": {"job.bin": job_file(small, [flm], FOUR, BLANK * 1024, False),
                                "first_format.job": one_sector, "sector.job": one_sector,
                                "two_runs.bin": job_file(small, [flm], {**FOUR, **ONE}, BLANK * 1024, False),
                                **{name: b"\0" + data[1:] for name, data in closed.items()}}}


def kind(data, job):
    if is_free(data):
        return "free %d" % len(data)
    try:
        Job(data)
    except Damaged:
        return "damaged"
    except NotAJob as fault:
        return "not a job at %d" % fault.at
    return "job" if data == job else "another job"


def changed(job, changes):
    data = bytearray(job)
    for change in changes.split():
        at, value = change.split("=")
        if at == "cut":
            del data[int(value):]
        elif at == "more":
            data += bytes.fromhex(value)
        else:
            data[int(at):int(at) + len(value) // 2] = bytes.fromhex(value)
    return bytes(data)


def put_prefixes(job):
    found = [kind(job[:length], job) for length in range(len(job))]
    for length, it in enumerate(found):
        if it != "damaged" and it != "not a job at %d" % length:
            print("%d bytes: %s" % (length, it))
    print("%d prefixes: not a job at their length" % sum(it.startswith("not a job") for it in found))
    if "damaged" in found:
        print("%d prefixes: damaged" % found.count("damaged"))


def put_changes(job, name):
    for line in read(name).decode().splitlines():
        what, changes = line.split(":")
        print("%s: %s" % (what, kind(changed(job, changes), job)))


def put_single_bytes(job):
    found = [kind(job[:at] + bytes([job[at] ^ 1]) + job[at + 1:], job) for at in range(len(job))]
    counts = [sum(it.startswith(name) for it in found) for name in ("free", "not a job", "damaged")]
    print("single bytes: %d free, %d not a job, %d damaged, %d jobs" % (*counts, len(found) - sum(counts)))


def hashes(name):
    """The list again, with the hashes made anew where a line says `with its hash`: each run of bytes that differ from the job's, and its end."""
    job = files()["two.bin" if name == "two.txt" else "job.bin"]
    for line in read(name).decode().splitlines():
        what, changes = line.split(":")
        if what.endswith("with its hash"):
            data = changed(job, changes)
            data = data[:8] + hashlib.sha256(data[40:]).digest() + data[40:]
            changes = "".join(" " + it for it in differences(job, data))
        print("%s:%s" % (what, changes))


def differences(old, new):
    found = []
    for at in range(min(len(old), len(new))):
        if old[at] != new[at]:
            if found and at == found[-1][1]:
                found[-1][1] = at + 1
            else:
                found.append([at, at + 1])
    changes = ["%d=%s" % (start, new[start:stop].hex().upper()) for start, stop in found]
    if len(new) < len(old):
        changes.append("cut=%d" % len(new))
    elif len(new) > len(old):
        changes.append("more=%s" % new[len(old):].hex().upper())
    return changes


# ---- the job, begun and opened on a bench

def refused(fault):
    """A refusal of a job file by its name."""
    words = fault.args[0]
    if words[0] == "not a job at ":
        return "NotAJob %s" % words[1]
    return {"open": "JobOpen", "none": "NoJob"}.get(words[0]) or "CellsDiffer %s %s" % (words[0], words[2])


def ended(done, act):
    """How an act on a bench ends."""
    try:
        act()
    except jobs.NotFree as fault:
        return refused(fault)
    except (jobs.StoreFault, jobs.DeviceFault) as fault:
        return type(fault).__name__
    return done


def begin(bench, two=False):
    if two:
        jobs.begin(bench, read("two.toml"), [read("algorithm.flm"), read("second.flm")], BOTH, 1280)
    else:
        jobs.begin(bench, read("one.toml"), [read("algorithm.flm")], FOUR, 1024)


def begin_and_close(bench):
    begin(bench)
    bench.write_synced(0, b"\0")


def put_stops(job, file):
    """Of a job that is begun over a file and closed, a line for each number of calls that go through: its end, and what each pick leaves."""
    for calls in range(23):
        told = []
        for pick in ("written", "old", "5A"):
            bench = jobs.Bench(BLANK * 1024, file)
            bench.left = calls
            end = ended("done", lambda: begin_and_close(bench))
            bench.power_loss(pick)
            told.append(kind(bytes(bench.file), job) + ("" if bytes(bench.cells) == BLANK * 1024 else ", cells changed"))
        print("%d calls: %s" % (calls, "; ".join([end, *told])))


def put_busy(job):
    bench = jobs.Bench(BLANK * 1024)
    bench.cells_open(256, 256)
    begin(bench)
    print("an open operation: %s, %d cells" % (kind(bytes(bench.file), job), bench.cells.count(0x5A)))
    print("its snapshot is the cells: " + ("true" if bench.file.endswith(bench.cells) else "false"))


def put_begun(bench, job, two=False):
    print("%s, %s" % (ended("begun", lambda: begin(bench, two)), kind(bytes(bench.file), job)))


def put_opened(bench):
    found = []
    end = ended("", lambda: found.append(jobs.open_job(bench)))
    for job in found:
        for it in job.algorithms:
            byte = job.image.get(it.base)
            print("%08X %d, %s, " % (it.base, it.size, "None" if byte is None else "Some(%d)" % byte), end="")
        end = "%d cells" % sum(it[1] for it in job.board.regions)
    print(end)


def put_all_stops(job):
    for title, file in (("an empty file", b""), ("a closed job", b"\0" + job[1:])):
        print(title)
        put_stops(job, file)
    put_busy(job)
    print("begin")
    for cells, file in ((1024, job), (1024, b"\xa5\0"), (1024, b"\xa5"), (512, b""), (512, job)):
        put_begun(jobs.Bench(BLANK * cells, file), job)
    for number in range(1, 19):
        put_begun(jobs.Bench(BLANK * 1024, b"\0\7\7", [number]), job)
    for number in (1, 2):
        put_begun(jobs.Bench(BLANK * 1024, b"\0\7\7", (), [number]), job)
    print("open")
    for cells, file in ((1024, job), (1024, b""), (1024, b"\xa5"), (1024, b"\xa5\0"), (512, b"\xa5\0"), (512, job)):
        put_opened(jobs.Bench(BLANK * cells, file))
    for number in range(1, 13):
        put_opened(jobs.Bench(BLANK * 1024, job, [number]))


def main(words):
    os.chdir(os.path.join(os.path.dirname(os.path.abspath(__file__)), ".."))
    made = files()
    if words[0] == "write":
        for crate, its in {"session_vectors": made, **other_files()}.items():
            os.makedirs(os.path.join(words[1], crate), exist_ok=True)
            for name, data in its.items():
                with open(os.path.join(words[1], crate, name), "wb") as file:
                    file.write(data)
    elif words[0] == "hashes":
        hashes(words[1])
    elif words[0] == "first":
        put_prefixes(made["first.bin"])
        put_changes(made["first.bin"], "first.txt")
    elif words[0] == "second":
        put_prefixes(made["job.bin"])
        put_changes(made["job.bin"], "changes.txt")
        put_single_bytes(made["job.bin"])
    elif words[0] == "stops":
        put_all_stops(made["job.bin"])
    elif words[0] == "two":
        bench = jobs.Bench(BLANK * 1280)
        put_begun(bench, made["two.bin"], True)
        put_opened(jobs.Bench(BLANK * 1280, bytes(bench.file)))
        put_prefixes(made["two.bin"])
        put_changes(made["two.bin"], "two.txt")


if __name__ == "__main__":
    main(sys.argv[1:])
