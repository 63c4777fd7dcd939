"""Models of the readers, written from the formats: Intel HEX, S-records, ELF, FLM files, boards and job files. What they expect of a file is what the
stored outputs of the test crates hold; they were written from the formats, and eight readings were settled against what is stored.

A refusal is raised as `Refused`, with the words that stand for it in docs/USE.md."""
import hashlib
import struct
import tomllib


class Refused(Exception):
    pass


def fnv(parts):
    """FNV-1a of 32 bits (Fowler, Noll and Vo) of bytes that come in parts."""
    value = 0x811C9DC5
    for part in parts:
        for byte in part:
            value = (value ^ byte) * 0x01000193 & 0xFFFFFFFF
    return value


def words(*numbers):
    return struct.pack("<%dI" % len(numbers), *numbers)


# ---- images: a map from address to byte

def runs(image):
    """Address and bytes of each longest run of addresses."""
    found = []
    for at in sorted(image):
        if found and found[-1][0] + len(found[-1][1]) == at:
            found[-1][1].append(image[at])
        else:
            found.append((at, bytearray([image[at]])))
    return found


def said_of_image(image):
    return b"".join(words(at) + struct.pack("<Q", len(data)) + bytes(data) for at, data in runs(image))


def lines_of(text):
    """The content of each line, without the blanks and carriage returns at its end."""
    lines = text.split(b"\n")
    if lines[-1] == b"":
        lines.pop()
    return [line.rstrip(b"\r \t") for line in lines]


def is_hex(text):
    return all(byte in b"0123456789abcdefABCDEF" for byte in text)


def put(image, at, byte):
    if image.setdefault(at, byte) != byte:
        raise Refused("Conflict %08X %02X %02X" % (at, image[at], byte))


def by_line(text, of_line):
    """An image of a text of records: `of_line` says whether its record ends the text."""
    image, lines = {}, lines_of(text)
    for number, line in enumerate(lines, 1):
        try:
            if line and of_line(image, line):
                return image
        except Refused as fault:
            raise Refused("line %d: %s" % (number, fault)) from None
    raise Refused("line %d: NoEnd" % len(lines))


def read_hex(text):
    state = {"segment": None, "upper": 0}

    def of_line(image, line):
        if line[:1] != b":":
            raise Refused("NotRecord")
        digits = line[1:]
        if not is_hex(digits):
            raise Refused("BadDigit")
        if len(digits) < 10 or len(digits) != 10 + 2 * int(digits[:2], 16):
            raise Refused("BadLength")
        record = bytes.fromhex(digits.decode())
        if sum(record) % 256:
            raise Refused("BadSum %02X %02X" % (record[-1], -sum(record[:-1]) % 256))
        offset, kind, data = record[1] << 8 | record[2], record[3], record[4:-1]
        if kind > 5 or kind > 0 and len(data) != (0, 2, 4, 2, 4)[[1, 2, 3, 4, 5].index(kind)]:
            raise Refused("BadType %d" % kind)
        if kind == 0:
            for k, byte in enumerate(data):
                if state["segment"] is None:
                    at = (state["upper"] * 65536 + offset + k) % 2**32
                else:
                    at = state["segment"] * 16 + (offset + k) % 65536
                put(image, at, byte)
        elif kind == 2:
            state["segment"] = data[0] << 8 | data[1]
        elif kind == 4:
            state["segment"], state["upper"] = None, data[0] << 8 | data[1]
        return kind == 1
    return by_line(text, of_line)


def read_srec(text):
    seen = [0]

    def of_line(image, line):
        if line[:1] != b"S" or not line[1:2].isdigit():
            raise Refused("NotRecord")
        kind, digits = line[1] - 48, line[2:]
        if not is_hex(digits):
            raise Refused("BadDigit")
        if kind == 4:
            raise Refused("BadType 4")
        width = (2, 2, 3, 4, 0, 2, 3, 4, 3, 2)[kind]
        if len(digits) % 2 or not digits or int(digits[:2], 16) != len(digits) // 2 - 1:
            raise Refused("BadLength")
        record = bytes.fromhex(digits.decode())
        if record[0] < width + 1 or kind >= 5 and record[0] != width + 1:
            raise Refused("BadLength")
        due = ~sum(record[:-1]) & 255
        if record[-1] != due:
            raise Refused("BadSum %02X %02X" % (record[-1], due))
        at, data = int.from_bytes(record[1:1 + width], "big"), record[1 + width:-1]
        if kind in (5, 6) and at != seen[0]:
            raise Refused("CountDiffers %d %d" % (at, seen[0]))
        if kind in (1, 2, 3):
            seen[0] += 1
            if at + len(data) > 2**32:
                raise Refused("PastEnd %08X" % at)
            for k, byte in enumerate(data):
                put(image, at + k, byte)
        return kind >= 7
    return by_line(text, of_line)


# ---- ELF files

def part_of(data, at, length, name):
    if at + length > len(data):
        raise Refused("Truncated " + name)
    return data[at:at + length]


def name_in(strings, offset):
    end = strings.find(0, offset) if offset < len(strings) else -1
    if end < 0:
        raise Refused("BadName %08X" % offset)
    return strings[offset:end]


class Elf:
    def __init__(self, data):
        self.data = data
        if data[:4] != b"\x7fELF":
            raise Refused("NotElf")
        part_of(data, 0, 52, "Header")
        if data[4:7] != b"\1\1\1" or struct.unpack_from("<H", data, 18)[0] != 40:
            raise Refused("NotArm32")
        at, table = struct.unpack_from("<II", data, 28)
        size, count, width, sections, names = struct.unpack_from("<HHHHH", data, 42)
        if count and size != 32:
            raise Refused("BadIndex ProgramSize %d" % size)
        if sections and width != 40:
            raise Refused("BadIndex SectionSize %d" % width)
        part_of(data, at, 32 * count, "Programs")
        part_of(data, table, 40 * sections, "Sections")
        self.segments = [struct.unpack_from("<8I", data, at + 32 * k) for k in range(count)]
        self.headers = [struct.unpack_from("<10I", data, table + 40 * k) for k in range(sections)]
        self.names = None
        if names and sections:
            if names >= sections:
                raise Refused("BadIndex NameIndex %d" % names)
            strings = part_of(data, self.headers[names][4], self.headers[names][5], "Names")
            self.names = [name_in(strings, header[0]) for header in self.headers]

    def segment_bytes(self, index):
        return part_of(self.data, self.segments[index][1], self.segments[index][4], "Segment")

    def section(self, name, kind):
        for title, header in zip(self.names or [], self.headers):
            if title == name and header[1] == kind:
                return header
        return None

    def section_bytes(self, header):
        return part_of(self.data, header[4], header[5], "Section")

    def symbol(self, name):
        """The value of the first symbol of that name that is defined, or none."""
        for header in self.headers:
            if header[1] == 2:
                break
        else:
            return None
        table = part_of(self.data, header[4], header[5], "Symbols")
        if header[6] >= len(self.headers):
            raise Refused("BadIndex Link %d" % header[6])
        strings = part_of(self.data, self.headers[header[6]][4], self.headers[header[6]][5], "Strings")
        for at in range(0, len(table) - 15, 16):
            offset, value, _, _, _, section = struct.unpack_from("<IIIBBH", table, at)
            if name_in(strings, offset) == name and section:
                return value
        return None


# ---- FLM files

FUNCTIONS = [b"Init", b"UnInit", b"EraseSector", b"ProgramPage", b"EraseChip", b"Verify"]
END = (0xFFFFFFFF, 0xFFFFFFFF)


class Algorithm:
    """What `struct FlashDevice` of FlashOS.h and the sections of an FLM file say."""

    def __init__(self, data):
        try:
            elf = Elf(data)
            self.sections(elf)
            values = self.symbols(elf)
        except Refused as fault:
            own = str(fault).startswith(("NoSection", "NoSymbol"))
            raise fault if own else Refused("Elf %s" % fault)
        self.places(values)
        self.descriptor(values[b"FlashDevice"])

    def sections(self, elf):
        self.parts = {}
        for name in (b"PrgCode", b"DevDscr"):
            self.parts[name] = elf.section(name, 1)
            if self.parts[name] is None:
                raise Refused("NoSection " + name.decode())
        data, zero = elf.section(b"PrgData", 1), elf.section(b"PrgData", 8)
        self.parts["data"] = data if data and data[5] else None
        self.parts["zero"] = zero if zero and zero[5] else None
        self.code = elf.section_bytes(self.parts[b"PrgCode"])
        self.data = elf.section_bytes(self.parts["data"]) if self.parts["data"] else b""
        self.dscr = elf.section_bytes(self.parts[b"DevDscr"])

    def symbols(self, elf):
        values = {}
        for name in FUNCTIONS[:4] + [b"FlashDevice"] + FUNCTIONS[4:]:
            values[name] = elf.symbol(name)
            if values[name] is None and name not in FUNCTIONS[4:]:
                raise Refused("NoSymbol " + name.decode())
        return values

    def places(self, values):
        code, dscr = self.parts[b"PrgCode"], self.parts[b"DevDscr"]
        for name in FUNCTIONS + [b"FlashDevice"]:
            value, section = values[name], dscr if name == b"FlashDevice" else code
            place = value if value is None or section is dscr else value & ~1
            if value is not None and not section[3] <= place < section[3] + section[5]:
                raise Refused("SymbolOutside %s %08X" % (name.decode(), value))
        start, end = code[3], code[3] + code[5]
        followed = end <= 0xFFFFFFFF
        self.data_at = end - start
        if self.parts["data"]:
            followed = followed and self.parts["data"][3] >= end
            self.data_at, end = self.parts["data"][3] - start, self.parts["data"][3] + len(self.data)
            followed = followed and end <= 0xFFFFFFFF
        self.zero_at, self.zero = end - start, 0
        if self.parts["zero"]:
            zero = self.parts["zero"]
            followed = followed and zero[3] >= end and zero[3] + zero[5] <= 0xFFFFFFFF
            self.zero_at, self.zero = zero[3] - start, zero[5]
        if not followed:
            raise Refused("DataBeforeCode")
        self.static = self.data_at if self.data else self.zero_at if self.zero else len(self.code)
        self.entries = [0xFFFFFFFF if values[it] is None else (values[it] & ~1) - start for it in FUNCTIONS]

    def descriptor(self, value):
        fields = self.dscr[value - self.parts[b"DevDscr"][3]:]
        if len(fields) < 160:
            raise Refused("DescriptorShort")
        self.vers, name, self.kind, self.base, self.size, self.page, self.res, self.empty, self.to_prog, self.to_erase = struct.unpack_from(
            "<H128sHIIIIBxxxII", fields)
        self.name = name.split(b"\0")[0]
        pairs = [struct.unpack_from("<II", fields, at) for at in range(160, len(fields) - 7, 8)][:513]
        if END not in pairs:
            raise Refused("NoSectorEnd")
        self.items = pairs[:pairs.index(END)]
        if not 1 <= self.page <= 65536:
            raise Refused("BadPage %d" % self.page)
        if not self.items or self.items[0][1] != 0:
            raise Refused("SectorGap")
        for k in range(1, len(self.items)):
            if self.items[k][1] <= self.items[k - 1][1]:
                raise Refused("SectorOrder %d" % k)
        for k, (size, _) in enumerate(self.items):
            if size == 0:
                raise Refused("SectorSize %d" % k)
        limits = 1 <= self.size <= 16777216 and self.base + self.size <= 2**32
        if not limits or self.count(None) > 65536 or self.count(self.page) > 1048576:
            raise Refused("BadDevice %d" % self.size)

    def count(self, page):
        """How many sectors the device has, or how many pages of that length."""
        total = 0
        for k, (size, offset) in enumerate(self.items):
            stop = min(self.items[k + 1][1] if k + 1 < len(self.items) else self.size, self.size)
            if offset < stop:
                whole, rest = divmod(stop - offset, size)
                total += (whole + (rest > 0)) if page is None else whole * -(-size // page) + -(-rest // page)
        return total

    def need(self, stack):
        """The bytes of RAM that it takes: the return point, code and data, a page and the stack."""
        return -(-(32 + self.zero_at + self.zero) // 8) * 8 + -(-self.page // 8) * 8 + stack

    def said(self):
        return b"".join([self.code, self.data, words(self.data_at, self.zero_at, self.zero, self.static), words(*self.entries),
                         words(self.vers, self.kind), self.name, words(self.base, self.size, self.page, self.res),
                         words(self.empty, self.to_prog, self.to_erase), b"".join(words(*it) for it in self.items), words(self.count(None))])


# ---- boards

class Board:
    """A board's text, by the table of keys: base, most and step of the numbers, and what stands for a key that is missing."""

    def __init__(self, text):
        try:
            table = tomllib.loads(text.decode())
        except (UnicodeDecodeError, tomllib.TOMLDecodeError):
            raise Refused("NotToml") from None
        top = 2**32 - 1
        self.ram_base = self.number(table, "ram", "base", 0, top, 256)
        self.ram_size = self.number(table, "ram", "size", 256, 2**64, 8)
        self.stack = self.number(table, "ram", "stack", 64, 65536, 8, 512)
        self.regions_of(table)
        self.controller = self.number(table, "controller", "base", 0, 0xFFFFFFE0, 32)
        self.fpec = self.kind_of(table)
        ticks = [self.number(table, "controller", key, 1, 1000000, 1, due) for key, due in
                 (("program_ticks", 16), ("erase_ticks", 400), ("chip_ticks", 2000))]
        clock = [self.number(table, "clock", "hz", 1, top, 1, 8000000), self.number(table, "clock", "steps_per_ms", 1, 1000000, 1, 1000)]
        weights = [self.number(table, "weights", key, 0, 1000000, 1, due) for key, due in (("sector", 100), ("page", 10), ("chip", 1000))]
        self.numbers = ticks + clock + weights
        self.limits()

    def number(self, table, name, key, least, most, step, due=None, title=None):
        title = title or name + "." + key
        table = table.get(name) if name else table
        if not isinstance(table, dict) or key not in table:
            if due is None:
                raise Refused("Missing " + title)
            return due
        value = table[key]
        if type(value) is not int or not least <= value <= most or value % step:
            raise Refused("BadValue " + title)
        return value

    def regions_of(self, table):
        if "region" not in table:
            raise Refused("Missing region")
        found = table["region"]
        if not isinstance(found, list) or not found or not all(isinstance(it, dict) for it in found):
            raise Refused("BadValue region")
        bases = [self.number(it, None, "base", 0, 2**32 - 1, 4, None, "region.base") for it in found]
        runs_ = [self.sectors_of(it) for it in found]
        empties = [self.number(it, None, "empty", 0, 255, 1, 255, "region.empty") for it in found]
        units = [self.number(it, None, "unit", 2, 4, 2, 2, "region.unit") for it in found]
        self.regions = list(zip(bases, [sum(count * size for count, size in it) for it in runs_], empties, units, runs_))

    def sectors_of(self, table):
        if "sectors" not in table:
            raise Refused("Missing region.sectors")
        found = table["sectors"]
        good = isinstance(found, list) and found and all(
            isinstance(it, list) and len(it) == 2 and all(type(x) is int for x in it) and it[0] >= 1 and it[1] >= 4 and it[1] % 4 == 0 for it in found)
        if not good:
            raise Refused("BadValue region.sectors")
        return found

    def kind_of(self, table):
        table = table.get("controller", {})
        kind = table.get("kind", "fc1") if isinstance(table, dict) else "fc1"
        if kind not in ("fc1", "fpec") or not isinstance(kind, str):
            raise Refused("BadValue controller.kind")
        return kind == "fpec"

    def limits(self):
        if len(self.regions) > 2:
            raise Refused("ManyRegions")
        if self.ram_size > 1048576 or self.ram_base + self.ram_size > 2**32:
            raise Refused("TooBig ram.size")
        cells = sum(it[1] for it in self.regions)
        sectors = sum(count for it in self.regions for count, _ in it[4])
        if cells > 16777216 or sectors > 65536 or any(it[0] + it[1] > 2**32 for it in self.regions):
            raise Refused("TooBig region.sectors")
        parts = [("ram", self.ram_base, self.ram_size)]
        parts += [(("region", "region2")[k], it[0], it[1]) for k, it in enumerate(self.regions)]
        parts.append(("controller", self.controller, 64 if self.fpec else 32))
        for k, (a, at, size) in enumerate(parts):
            for b, other, length in parts[k + 1:]:
                if at < other + length and other < at + size:
                    raise Refused("Overlap %s %s" % (a, b))

    def said(self):
        ticks = self.numbers
        head = words(self.ram_base, self.ram_size, self.stack, self.controller, *ticks)
        return head + b"".join(words(*it[:4]) + b"".join(words(*run) for run in it[4]) for it in self.regions)


# ---- job files

class NotAJob(Exception):
    def __init__(self, at):
        self.at = at


class Damaged(Exception):
    pass


class Job:
    """A job file: board, algorithms, image and where the snapshot begins. Raises NotAJob with the place of the first check that fails, and Damaged
    where a file of the second format keeps another hash than that of its bytes."""

    def __init__(self, data):
        self.data = data
        if len(data) < 24:
            raise NotAJob(len(data))
        if data[1:8] == b"FLMJOB2":
            count, cells = self.second()
        elif data[1:8] == b"FLMJOB1":
            count, cells = self.first()
        else:
            raise NotAJob(1)
        for _ in range(count):
            self.run()
        self.snapshot_at = self.at
        if self.at + cells != len(data):
            raise NotAJob(len(data))

    def first(self):
        board, flm, count, cells = struct.unpack_from("<IIII", self.data, 8)
        self.texts(24, board, [flm], 24)
        if cells != sum(it[1] for it in self.board.regions):
            raise NotAJob(20)
        if count == 0:
            raise NotAJob(16)
        return count, cells

    def second(self):
        if len(self.data) < 64:
            raise NotAJob(len(self.data))
        if hashlib.sha256(self.data[40:]).digest() != self.data[8:40]:
            raise Damaged()
        board, files, flm, other, count, cells = struct.unpack_from("<6I", self.data, 40)
        self.texts(64, board, [flm, other][:files], 44, other if files == 1 else 0, files)
        if cells != sum(it[1] for it in self.board.regions):
            raise NotAJob(60)
        if count == 0:
            raise NotAJob(56)
        return count, cells

    def texts(self, at, board, lengths, fits, spare=0, files=1):
        self.board = self.read(at, board, Board)
        if len(self.board.regions) != files:
            raise NotAJob(fits)
        if spare:
            raise NotAJob(52)
        at += board
        self.algorithms = []
        for region, length in zip(self.board.regions, lengths):
            self.algorithms.append(self.read(at, length, lambda text: self.on_board(text, region)))
            at += length
        self.image, self.at = {}, at

    def read(self, at, length, reader):
        if at + length > len(self.data):
            raise NotAJob(len(self.data))
        try:
            return reader(self.data[at:at + length])
        except Refused:
            raise NotAJob(at) from None

    def on_board(self, text, region):
        found = Algorithm(text)
        if (found.base, found.size) != region[:2] or found.need(self.board.stack) > self.board.ram_size:
            raise Refused("device")
        return found

    def run(self):
        at, data = self.at, self.data
        if at + 8 > len(data):
            raise NotAJob(len(data))
        address, length = struct.unpack_from("<II", data, at)
        if at + 8 + length > len(data):
            raise NotAJob(len(data))
        held = all(any(it[0] <= x < it[0] + it[1] for it in self.board.regions) for x in range(address, address + length))
        if length == 0 or self.image and address < max(self.image) + 2 or not held:
            raise NotAJob(at)
        self.image.update(enumerate(data[at + 8:at + 8 + length], address))
        self.at = at + 8 + length

    def said(self):
        algorithms = b"".join(it.said() for it in self.algorithms)
        return self.board.said() + algorithms + said_of_image(self.image) + struct.pack("<Q", self.snapshot_at)


def job_file(board, files, image, cells, second=True):
    """The file of an open job: its texts, its image as a map, and the snapshot."""
    found = runs(image)
    texts = board + b"".join(files)
    body = b"".join(words(at, len(data)) + bytes(data) for at, data in found) + cells
    if not second:
        return b"\xa5FLMJOB1" + words(len(board), len(files[0]), len(found), len(cells)) + texts + body
    lengths = ([len(it) for it in files] + [0])[:2]
    rest = words(len(board), len(files), *lengths, len(found), len(cells)) + texts + body
    return b"\xa5FLMJOB2" + hashlib.sha256(rest).digest() + rest


def is_free(data):
    return len(data) <= 1 or data[0] != 0xA5
