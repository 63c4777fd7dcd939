#!/usr/bin/env python3
"""What `program_vectors` has to print of its 24 sweeps: how often each answer comes, and the digest of all answers in their order.

  python3 tools/sweeps.py > FILE        from the repository's top; FILE is then a part of crates/program_vectors/stdout

The list of sweeps is crates/program_vectors/data/sweeps.txt: `WHAT; READER HOW FROM TO STEP FILE`."""
import os
import re

from formats import Algorithm, Damaged, Elf, Job, NotAJob, Refused, fnv, is_free, read_hex, read_srec, said_of_image, words

DATA = "crates/program_vectors/data/"
VALUES = {
    "byte": lambda old: [b"\x00", b"\xff", bytes([old[0] ^ 255])],
    "char": lambda old: [b"0", b"F", b"\n"],
    "half": lambda old: [b"\0\0", b"\1\0", b"\0\x80", b"\xff\xff"],
    "word": lambda old: [b"\0\0\0\0", b"\1\0\0\0", b"\0\0\0\x80", b"\xff\xff\xff\xff"],
}


def of_elf(data):
    elf = Elf(data)
    return b"".join(words(it[3]) + elf.segment_bytes(k) for k, it in enumerate(elf.segments))


READERS = {
    "hex": ("Image", lambda data: said_of_image(read_hex(data))),
    "srec": ("Image", lambda data: said_of_image(read_srec(data))),
    "elf": ("Segments", of_elf),
    "flm": ("Algorithm", lambda data: Algorithm(data).said()),
    "job": ("Job", lambda data: Job(data).said()),
}


def answer(reader, data):
    if reader == "job" and is_free(data):
        return "Free"
    thing, read = READERS[reader]
    try:
        return "%s %08X" % (thing, fnv([read(data)]))
    except NotAJob as fault:
        return "NotAJob Length" if fault.at == len(data) else "NotAJob At%d" % fault.at
    except Damaged:
        return "Damaged"
    except Refused as fault:
        return str(fault)


def inputs(data, how, places):
    for at in places:
        if how == "prefix":
            yield data[:at]
            continue
        for value in VALUES[how](data[at:at + 1]):
            yield (data[:at] + value + data[at + len(value):])[:len(data)]


def kind(text):
    """The names of an answer, without its numbers."""
    return "".join(" " + it for it in text.split() if re.match("[A-Z].*[a-z]", it))


def sweep(line):
    reader, how, start, stop, step, name = line.split("; ")[1].split()
    with open(DATA + name, "rb") as file:
        data = file.read()
    counts, told = {}, []
    for it in inputs(data, how, range(int(start), int(stop), int(step))):
        said = answer(reader, it)
        counts[kind(said)] = counts.get(kind(said), 0) + 1
        told.append(said.encode() + b"\n")
    print(line)
    for name, count in counts.items():
        print(name, count)
    print("digest %08X" % fnv(told))


if __name__ == "__main__":
    os.chdir(os.path.join(os.path.dirname(os.path.abspath(__file__)), ".."))
    with open(DATA + "sweeps.txt") as file:
        for line in file.read().splitlines():
            sweep(line)
