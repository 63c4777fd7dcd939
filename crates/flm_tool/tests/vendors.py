#!/usr/bin/env python3
"""Takes flash algorithms out of what other tools ship, and makes FLM files of them; says what the program is to print of them. For vendors.sh.

An algorithm NAME stands in this folder as NAME.code and NAME.data, the bytes of its code and of its data, and NAME.list, a line each of `name`,
`entry FUNCTION PLACE`, `data PLACE` and `zero PLACE LENGTH`; places are offsets from the code's start.

  vendors.py pyocd FILE NAME                    takes an algorithm out of a target of pyOCD
  vendors.py linked FILE NAME                   takes one out of an FLM file
  vendors.py bytes FILE OUT                     takes a loader out of an .inc of OpenOCD, and makes its BKPT return
  vendors.py object FILE SYMBOL OUT             takes one out of an object file, the same
  vendors.py text NAME BIT SIZE PAGE SECTOR     prints the algorithm for GNU as, and writes NAME.ld and NAME.device for it
  vendors.py armlink NAME BIT SIZE PAGE SECTOR OUT    writes the FLM file as armlink lays it out; BIT is bit 0 of a function's value
  vendors.py inspect NAME SIZE PAGE SECTOR      prints what `inspect` is to print
  vendors.py plan NAME OLD NEW PAGE SECTOR      prints the plan that leads from the one file's bytes to the other's, by the default weights
"""
import ast
import struct
import sys

FUNCTIONS = ["Init", "UnInit", "EraseSector", "ProgramPage", "EraseChip", "Verify"]
REQUIRED = FUNCTIONS[:4]
BASE = 0x08000000
PROGBITS, SYMTAB, STRTAB, NOBITS = 1, 2, 3, 8


class Algorithm:
    def __init__(self, name, code, data, entries, data_at=None, zero_at=None, zero=0):
        self.name, self.code, self.data, self.entries = name, code, data, entries
        self.data_at = len(code) if data_at is None else data_at
        self.zero_at = self.data_at + len(data) if zero_at is None else zero_at
        self.zero = zero


def save(name, it):
    with open(name + ".code", "wb") as file:
        file.write(it.code)
    with open(name + ".data", "wb") as file:
        file.write(it.data)
    with open(name + ".list", "w") as file:
        print("name", it.name, file=file)
        for function, place in it.entries.items():
            print("entry", function, place, file=file)
        print("data", it.data_at, file=file)
        print("zero", it.zero_at, it.zero, file=file)


def load(name):
    with open(name + ".code", "rb") as file:
        code = file.read()
    with open(name + ".data", "rb") as file:
        data = file.read()
    with open(name + ".list") as file:
        lines = [line.split() for line in file]
    entries = {it[1]: int(it[2]) for it in lines if it[0] == "entry"}
    values = {it[0]: [int(x) for x in it[1:]] for it in lines if it[0] in ("data", "zero")}
    title = next(" ".join(it[1:]) for it in lines if it[0] == "name")
    return Algorithm(title, code, data, entries, values["data"][0], *values["zero"])


# ---- what other tools ship

def number(node):
    """The value of a number or of a sum of two, or none."""
    if isinstance(node, ast.Constant) and isinstance(node.value, int):
        return node.value
    if isinstance(node, ast.BinOp) and isinstance(node.op, ast.Add):
        left, right = number(node.left), number(node.right)
        return None if left is None or right is None else left + right
    return None


def of_pyocd(file, name):
    """Its code begins behind eight words of pyOCD's own, and so lies at the same addresses here as there."""
    with open(file) as text:
        tree = ast.parse(text.read())
    for found in (it for it in ast.walk(tree) if isinstance(it, ast.Dict)):
        fields = {key.value: value for key, value in zip(found.keys, found.values) if isinstance(key, ast.Constant)}
        if "instructions" in fields:
            break
    else:
        sys.exit("no algorithm in " + file)
    words = [number(it) for it in fields["instructions"].elts]
    fields = {key: number(value) for key, value in fields.items() if key != "instructions"}
    start = fields["load_address"] + 32
    code = struct.pack("<%dI" % (len(words) - 8), *words[8:])
    of = {"Init": "pc_init", "UnInit": "pc_unInit", "EraseSector": "pc_erase_sector", "ProgramPage": "pc_program_page", "EraseChip": "pc_eraseAll"}
    entries = {mine: (fields[its] & ~1) - start for mine, its in of.items() if fields.get(its) is not None}
    static = (fields.get("static_base") or 0) - start
    code, data = (code[:static], code[static:]) if 0 < static < len(code) else (code, b"")
    if "UnInit" not in entries:
        # MOVS R0, #0 and BX LR, where they stand
        entries["UnInit"] = max(code.find(b"\x00\x20\x70\x47"), 0)
    save(name, Algorithm("pyOCD", code, data, entries, len(code) if data else max(static, len(code)), None, 64))


def returning(code):
    at = code.find(b"\x00\xbe")
    if at < 0 or at % 2 or code.find(b"\x00\xbe", at + 1) >= 0:
        sys.exit("no single BKPT")
    return code[:at] + b"\x70\x47" + code[at + 2:]


def of_bytes(file, out):
    with open(file) as text:
        lines = [line for line in text if line.startswith("0x")]
    code = bytes(int(it, 16) for line in lines for it in line.split(",") if it.strip())
    with open(out, "wb") as file:
        file.write(returning(code))


class Elf:
    """The sections (name, kind, address, bytes or length) and the symbols (name: section, value, size) of an ELF file of either class."""

    def __init__(self, path):
        with open(path, "rb") as file:
            self.bytes = file.read()
        wide = self.bytes[4] == 2
        table, size, count, names = struct.unpack_from("<Q10xHHH" if wide else "<I10xHHH", self.bytes, 40 if wide else 32)
        form, of = ("<IIQQQQIIQQ", 64) if wide else ("<IIIIIIIIII", 40)
        self.headers = [struct.unpack_from(form, self.bytes, table + k * of) for k in range(count)]
        self.sections = [(self.text(self.headers[names], it[0]), it[1], it[3], self.content(it)) for it in self.headers]
        self.symbols = {}
        for it in (it for it in self.headers if it[1] == SYMTAB):
            for at in range(it[4], it[4] + it[5], 24 if wide else 16):
                if wide:
                    start, _, _, section, value, length = struct.unpack_from("<IBBHQQ", self.bytes, at)
                else:
                    start, value, length, _, _, section = struct.unpack_from("<IIIBBH", self.bytes, at)
                self.symbols.setdefault(self.text(self.headers[it[6]], start), (section, value, length))

    def text(self, strings, start):
        return self.bytes[strings[4] + start:self.bytes.index(0, strings[4] + start)].decode()

    def content(self, header):
        return header[5] if header[1] == NOBITS else self.bytes[header[4]:header[4] + header[5]]


def of_object(path, symbol, out):
    it = Elf(path)
    section, value, length = it.symbols[symbol]
    with open(out, "wb") as file:
        file.write(returning(it.sections[section][3][value:value + length]))


def of_linked(path, name):
    it = Elf(path)
    part = {(title, kind): (at, content) for title, kind, at, content in it.sections}
    start, code = part["PrgCode", PROGBITS]
    data_at, data = part.get(("PrgData", PROGBITS), (start + len(code), b""))
    zero_at, zero = part.get(("PrgData", NOBITS), (data_at + len(data), 0))
    entries = {function: (it.symbols[function][1] & ~1) - start for function in FUNCTIONS if function in it.symbols}
    save(name, Algorithm(name, code, data, entries, data_at - start, zero_at - start, zero))


# ---- FLM files

def device(it, size, page, sector, items):
    """FlashDevice, with room for so many sector items."""
    fields = struct.pack("<H128sHIIIIBxxxII", 0x0101, it.name.encode(), 1, BASE, size, page, 0, 0xFF, 100, 500)
    return fields + struct.pack("<IIII", sector, 0, 0xFFFFFFFF, 0xFFFFFFFF).ljust(8 * items, b"\0")


def text(name, bit, size, page, sector):
    it = load(name)
    with open(name + ".device", "wb") as file:
        file.write(device(it, size, page, sector, 2))
    parts = ["PrgCode 0 : { *(PrgCode) }"]
    if it.data:
        parts.append("PrgData %d : { *(PrgData) }" % it.data_at)
    if it.zero:
        parts.append("PrgZero %d (NOLOAD) : { *(PrgZero) }" % it.zero_at)
    parts.append("DevDscr %d : { *(DevDscr) } /DISCARD/ : { *(.ARM.attributes) *(.text) *(.data) *(.bss) }" % (it.zero_at + it.zero + 3 & ~3))
    with open(name + ".ld", "w") as file:
        print("SECTIONS {", *parts, "}", sep="\n", file=file)
    print('.syntax unified\n.thumb\n.section PrgCode, "ax", %%progbits\nstart: .incbin "%s.code"' % name)
    for function, place in it.entries.items():
        print(".global %s\n.%s %s, start + %d" % (function, "thumb_set" if bit else "set", function, place))
    if it.data:
        print('.section PrgData, "aw", %%progbits\n.incbin "%s.data"' % name)
    if it.zero:
        print('.section PrgZero, "aw", %%nobits\n.space %d' % it.zero)
    print('.section DevDscr, "a", %%progbits\n.global FlashDevice\nFlashDevice: .incbin "%s.device"' % name)


def table(strings, names):
    """Where each name begins in a string table that grows."""
    places = []
    for it in names:
        places.append(len(strings))
        strings.extend(it.encode() + b"\0")
    return places


def symbols(it, bit, sections):
    """The symbols and their names, in armlink's order: marks of code and data, the source's name, an absolute one, and then the functions."""
    code, dev = sections.index("PrgCode") + 1, sections.index("DevDscr") + 1
    rows = [("", 0, 0, 0, 0), ("$t", 0, 0, 0, code), ("$d", len(it.code) - 4, 0, 0, code), ("FlashPrg.c", 0, 0, 4, 0xFFF1), ("PrgCode", 0, 0, 3, code),
            ("DevDscr", it.zero_at + it.zero + 3 & ~3, 0, 3, dev), ("BuildAttributes$$THM_ISAv3M$S$PE$A:L22$X:L11$S22", 0, 0, 0x10, 0xFFF1)]
    for function in sorted(it.entries):
        rows.append((function, it.entries[function] | bit, 2, 0x12, code))
    rows.append(("FlashDevice", it.zero_at + it.zero + 3 & ~3, 4256, 0x11, dev))
    strings = bytearray()
    places = table(strings, [row[0] for row in rows])
    return b"".join(struct.pack("<IIIBBH", at, *row[1:4], 0, row[4]) for at, row in zip(places, rows)), bytes(strings)


def armlink(name, bit, size, page, sector, out):
    it = load(name)
    dev = it.zero_at + it.zero + 3 & ~3
    rows = [("PrgCode", PROGBITS, 6, 0, it.code)]
    if it.data:
        rows.append(("PrgData", PROGBITS, 3, it.data_at, it.data))
    if it.zero:
        rows.append(("PrgData", NOBITS, 3, it.zero_at, b""))
    rows.append(("DevDscr", PROGBITS, 2, dev, device(it, size, page, sector, 512)))
    count = len(rows)
    listed, strings = symbols(it, bit, [row[0] for row in rows])
    rows += [(".debug_frame", PROGBITS, 0, 0, bytes(16)), (".symtab", SYMTAB, 0, 0, listed), (".strtab", STRTAB, 0, 0, strings),
             (".note", 7, 0, 0, bytes(12)), (".comment", PROGBITS, 0, 0, b"ARM Linker\0")]
    names = bytearray(b"\0")
    places = table(names, [row[0] for row in rows] + [".shstrtab"])
    rows.append((".shstrtab", STRTAB, 0, 0, bytes(names)))
    body, headers, segments = bytearray(52), [bytes(40)], []
    for k, (row, place) in enumerate(zip(rows, places)):
        body.extend(bytes(-len(body) % 4))
        length = it.zero if row[1] == NOBITS else len(row[4])
        link, info, entry = (k + 2, 6, 16) if row[1] == SYMTAB else (0, 0, 0)
        headers.append(struct.pack("<10I", place, row[1], row[2], row[3], len(body), length, link, info, 4 if k < count else 1, entry))
        if k in (0, count - 1):
            segments.append(struct.pack("<8I", 1, len(body), row[3], row[3], length, length, 7 if k == 0 else 4, 4))
        body.extend(row[4])
    body.extend(bytes(-len(body) % 4))
    at = len(body)
    head = struct.pack("<4sBBB9xHHIIIIIHHHHHH", b"\x7fELF", 1, 1, 1, 2, 40, 1, 0, at, at + 32 * len(segments), 0x05000000, 52, 32, len(segments), 40,
                       len(headers), len(headers) - 1)
    with open(out, "wb") as file:
        file.write(head + bytes(body[52:]) + b"".join(segments) + b"".join(headers))


# ---- what the program is to print

def inspect(name, size, page, sector):
    it = load(name)
    print("name", it.name)
    print("version 0101\ntype 1\ndevice %08X %d\npage %d\nempty FF\nreserved 00000000\ntimes 100 500" % (BASE, size, page))
    print("sectors %d\nitem 00000000 %d\ncode %d data %d zero %d" % (-(-size // sector), sector, len(it.code), len(it.data), it.zero))
    for function in FUNCTIONS:
        if function in it.entries:
            print("entry %s %08X" % (function, it.entries[function]))


def plan(name, old, new, page, sector):
    has_chip = "EraseChip" in load(name).entries
    with open(old, "rb") as first, open(new, "rb") as second:
        old, new = first.read(), second.read()
    pages = range(0, len(old), page)

    def used(cells, at):
        return any(it != 0xFF for it in cells[at:at + page])
    erased = sorted({at // sector * sector for at in pages if old[at:at + page] != new[at:at + page] and used(old, at)})
    programmed = [at for at in pages if (used(new, at) if at // sector * sector in erased else old[at:at + page] != new[at:at + page])]
    cost = 100 * len(erased) + 10 * len(programmed)
    wanted = [at for at in pages if used(new, at)]
    chip = has_chip and 1000 + 10 * len(wanted) < cost
    if chip:
        erased, programmed, cost = [], wanted, 1000 + 10 * len(wanted)
    print("plan", "chip" if chip else "sectors" if cost else "none")
    if chip:
        print("erase chip")
    for at in erased:
        print("erase %08X %d" % (BASE + at, sector))
    for at in programmed:
        print("program %08X %d" % (BASE + at, page))
    print("cost", cost)


if __name__ == "__main__":
    words = [int(it) if it.isdigit() else it for it in sys.argv[2:]]
    calls = {"pyocd": of_pyocd, "linked": of_linked, "bytes": of_bytes, "object": of_object, "text": text, "armlink": armlink, "inspect": inspect, "plan": plan}
    calls[sys.argv[1]](*words)
