"""A model of the program: what words ask for, what files say, what each command does to the bench, and what it puts on standard output and on standard
error, in the pieces that it puts. It was written from the formats, docs/USE.md and the crates' comments."""
import re
import struct

import jobs
import target
from formats import Algorithm, Board, Elf, Refused, read_hex, read_srec, runs
from jobs import Bench, DeviceFault, Failed, Mismatch, NotFree, Plan, Session, StoreFault, over
from job_files import for_second_region

COMMANDS = {"program": 3, "begin": 3, "plan": 3, "verify": 2, "compare": 1, "inspect": 1, "dump": 2, "status": 0, "resume": 0, "revert": 0, "demo": 1}
WINDOW = 16384


class Answer(Exception):
    """A status, and the line on standard error in the pieces that it is made of."""

    def __init__(self, status, *pieces):
        super().__init__(status)
        self.status, self.pieces = status, list(pieces)


class OutputFault(Exception):
    pass


def usage():
    return Answer(2, "usage: flm_tool JOB CELLS COMMAND [WORDS]")


# ---- words

def address(word):
    if re.fullmatch("0x[0-9A-Fa-f]{1,8}", word):
        return int(word, 16)
    return decimal(word)


def decimal(word):
    if re.fullmatch("[0-9]+", word) and int(word) < 2**32:
        return int(word)
    raise usage()


def request(words):
    """The command, its names and the address of raw bytes, or Usage."""
    if not words or words[0] not in COMMANDS:
        raise usage()
    command, names, raw, rest = words[0], [], [], list(words[1:])
    while rest:
        word = rest.pop(0)
        if word == "--":
            names += rest
            rest = []
        elif word.startswith("--raw-at=") or word == "--raw-at" and rest:
            raw.append(word[9:] if "=" in word else value_of(rest))
        elif word.startswith("-") and len(word) > 1:
            raise usage()
        else:
            names.append(word)
    least, images = COMMANDS[command], command in ("program", "begin", "plan", "verify")
    fits = least <= len(names) <= least + 15 if images else len(names) == least
    if not fits or len(raw) > (1 if images else 0) or raw and len(names) != least or command == "dump" and names[0] not in ("hex", "srec"):
        raise usage()
    if command == "demo":
        names = [decimal(names[0])]
    return command, names, address(raw[0]) if raw else None


def value_of(rest):
    """The word behind `--raw-at`, which is no option."""
    if rest[0].startswith("-") and len(rest[0]) > 1:
        raise usage()
    return rest.pop(0)


def words_of(line):
    return ["" if it == '""' else it for it in line.split()]


def asked(line):
    """What the words of a line ask for."""
    try:
        command, names, raw = request(words_of(line))
    except Answer:
        return "  usage"
    at = "" if raw is None else " raw at %08X" % raw
    bracketed = ["[%s]" % it for it in names]
    if command in ("program", "begin", "plan"):
        return "  %s%s board %s flm %s images %s" % (command, at, bracketed[0], bracketed[1], " ".join(bracketed[2:]))
    if command == "verify":
        return "  verify%s board %s images %s" % (at, bracketed[0], " ".join(bracketed[1:]))
    if command == "dump":
        return "  dump %s board %s" % (names[0], bracketed[1])
    if command == "demo":
        return "  demo %d" % names[0]
    return "  " + " ".join([command] + bracketed)


# ---- files

def lay(image, at, data):
    if at + len(data) > 2**32:
        raise Refused("PastEnd %08X" % at)
    merge(image, {at + k: byte for k, byte in enumerate(data)})


def merge(image, other):
    for at in sorted(other):
        if image.get(at, other[at]) != other[at]:
            raise Refused("Conflict %08X %02X %02X" % (at, image[at], other[at]))
    image.update(other)


def read_uf2(data):
    """By Microsoft's specification: blocks of 512 bytes, of which those for main flash count."""
    if not data or len(data) % 512:
        raise Refused("Uf2 BadLength %d" % len(data))
    image = {}
    for k in range(len(data) // 512):
        first, second, flags, at, size = struct.unpack_from("<5I", data, 512 * k)
        if (first, second, struct.unpack_from("<I", data, 512 * k + 508)[0]) != (0x0A324655, 0x9E5D5157, 0x0AB16F30):
            raise Refused("Uf2 BadMagic %d" % (k + 1))
        if size > 476:
            raise Refused("Uf2 BadSize %d %d" % (k + 1, size))
        if not flags & 1:
            try:
                lay(image, at, data[512 * k + 32:512 * k + 32 + size])
            except Refused as fault:
                raise Refused("Uf2 %s" % fault) from None
    return image


def read_elf(data):
    image = {}
    try:
        elf = Elf(data)
        parts = [(it[3], elf.segment_bytes(k)) for k, it in enumerate(elf.segments) if it[0] == 1]
    except Refused as fault:
        raise Refused("Elf %s" % fault) from None
    for at, content in parts:
        lay(image, at, content)
    return image


def spaced(text):
    """The pieces of a refusal's words: each word but the last one with its space, and numbers apart."""
    return re.findall(r"\S+ ?", str(text))


def read_image(name, data, raw):
    """An image of any form. A refusal names the file, and the line of a text."""
    text = data.lstrip(b" \t\r\n")
    try:
        if raw is not None:
            image = {}
            lay(image, raw, data)
            return image
        if data[:4] == b"UF2\n":
            return read_uf2(data)
        if data[:4] == b"\x7fELF":
            return read_elf(data)
        for mark, form, reader in ((b":", "Hex", read_hex), (b"S", "Srec", read_srec)):
            if text[:1] == mark:
                try:
                    return reader(data)
                except Refused as fault:
                    line, what = str(fault).split(": ", 1)
                    raise Answer(4, "image ", name, " line ", line[5:], ": ", form + " ", *spaced(what)) from None
        raise Refused("NoForm")
    except Refused as fault:
        raise Answer(4, "image ", name, ": ", *spaced(fault)) from None


def board_of(data, names=()):
    """The board. On one of two regions two FLM files and an image are wanted behind it."""
    try:
        board = jobs.board_of(data)
    except Refused as fault:
        raise Answer(6, "board: ", *spaced(fault)) from None
    if len(board.regions) == 2 and len(names) == 2:
        raise usage()
    return board


def algorithm_of(data, board=None, region=None):
    try:
        found = jobs.algorithm_of(data)
    except Refused as fault:
        raise Answer(5, "flm: ", *spaced(fault)) from None
    if board:
        if (found.base, found.size) != region[:2]:
            raise Answer(5, "flm: other device ", "%08X" % found.base, " ", str(found.size))
        if found.need(board.stack) > board.ram_size:
            raise Answer(5, "flm: NoRoom ", str(found.need(board.stack)), " ", str(board.ram_size))
    return found


def images_of(names, data, raw, board):
    image = {}
    for name, it in zip(names, data):
        its = read_image(name, it, raw)
        try:
            merge(image, its)
        except Refused as fault:
            raise Answer(4, "image ", name, ": ", *spaced(fault)) from None
    if not image:
        raise Answer(4, "image: ", "EmptyImage")
    outside = [at for at in image if not any(base <= at < base + size for base, size, *_ in board.regions)]
    if outside:
        raise Answer(4, "image: ", "OutsideDevice ", "%08X" % min(outside))
    return image


def cells_in(board):
    return sum(it[1] for it in board.regions)


def visible(name):
    """A file's name as it is shown: whole, or where it has a control character, one character after the other with a dot for each of those."""
    shown = ["." if ord(it) < 0x20 or ord(it) == 0x7F else it for it in name]
    return [name] if shown == list(name) else shown


# ---- what a call meets

class Sink:
    """Standard output or error: a put fails by its number, and where there is no room."""

    def __init__(self, room, fail):
        self.text, self.room, self.fail, self.puts = "", room, fail, 0

    def put(self, *pieces):
        for it in pieces:
            self.puts += 1
            if self.puts == self.fail or len(self.text) + len(it) > self.room:
                raise OutputFault()
            self.text += it

    def gather(self, pieces):
        """Puts pieces together, in long ones of up to 4,096 bytes."""
        waits = ""
        for it in pieces:
            if len(waits) + len(it) > 4096:
                self.put(waits)
                waits = ""
            waits += it
        self.put(waits)


class Fails:
    """The numbers of the calls that fail: two on the job file, one on the cells, a put on each stream, a taking of a file."""

    def __init__(self, file=0, cells=0, put=0, line=0, take=0, second=0):
        self.files, self.cells, self.put, self.line, self.take = [file, second], cells, put, line, take


class Call:
    """A call of the program: its files, its bench and its streams."""

    def __init__(self, files, bench, fails, room=4096):
        self.files, self.bench, self.fails = files, bench, fails
        self.out, self.err = Sink(room, fails.put), Sink(256, fails.line)

    def taken(self, names):
        """The bytes of the files of these names. One that isn't there can't be read, nor the one whose taking is to fail."""
        found = []
        for number, name in enumerate(names, 1):
            if name not in self.files or number == self.fails.take:
                raise Answer(3, "cannot read ", *visible(name))
            found.append(self.files[name])
        return found

    def answer(self, words):
        """The status."""
        try:
            self.work(words)
            return 0
        except Answer as answer:
            status, pieces = answer.status, answer.pieces
        except StoreFault:
            status, pieces = 8, ["store fault"]
        except DeviceFault:
            status, pieces = 9, ["device fault"]
        except OutputFault:
            status, pieces = 10, ["output fault"]
        except NotFree as fault:
            status, pieces = 7, of_job(fault)
        except Failed as fault:
            number, function, end = fault.args
            status, pieces = 11, ["call ", str(number), " ", function, ": ", *re.split("(?<= )(?=[0-9A-F]{8})", end)]
        except Mismatch as fault:
            status, pieces = 12, difference("mismatch", *fault.args)
        try:
            self.err.put("flmprog: ", *pieces, "\n")
        except OutputFault:
            pass
        return status

    def work(self, words):
        command, names, raw = request(words)
        getattr(self, command)(names, raw)

    # -- the commands

    def begin_job(self, names, raw):
        data = self.taken(names)
        board = board_of(data[0], names[1:])
        files = 1 + len(board.regions)
        for it, region in zip(data[1:files], board.regions):
            algorithm_of(it, board, region)
        image = images_of(names[files:], data[files:], raw, board)
        jobs.begin(self.bench, data[0], data[1:files], image, cells_in(board))

    def program(self, names, raw):
        self.begin_job(names, raw)
        self.carry(True)

    def begin(self, names, raw):
        self.begin_job(names, raw)
        self.out.put("begun\n")

    def resume(self, _, __):
        self.carry(True)

    def revert(self, _, __):
        self.carry(False)

    def carry(self, forward):
        session = Session(self.bench, jobs.open_job(self.bench), forward)
        self.put_plans(session.job.board, session.plans)
        session.go()
        session.close()
        self.out.put("done\n")

    def put_plans(self, board, plans):
        for plan, region in zip(plans, board.regions):
            if len(plans) > 1:
                self.out.put("region ", "%08X" % region[0], "\n")
            self.out.gather(plan.pieces())

    def the_cells(self, wanted=None):
        """Breaks off an operation that is open, on as many cells as are wanted."""
        if wanted is not None and len(self.bench.cells) != wanted:
            raise jobs.other_size(wanted, self.bench)
        self.bench.cells_drop()

    def plan(self, names, raw):
        data = self.taken(names)
        board = board_of(data[0], names[1:])
        files = 1 + len(board.regions)
        algorithms = [algorithm_of(it, board, region) for it, region in zip(data[1:files], board.regions)]
        image = images_of(names[files:], data[files:], raw, board)
        self.the_cells(cells_in(board))
        cells, place = b"", 0
        for region in board.regions:
            cells += self.bench.cells_read(place, region[1])
            place += region[1]
        wanted, plans, place = over(image, board, cells), [], 0
        for algorithm, region in zip(algorithms, board.regions):
            stop = place + region[1]
            plans.append(Plan(algorithm, board.numbers[5:], cells[place:stop], wanted[place:stop]))
            place = stop
        self.put_plans(board, plans)

    def verify(self, names, raw):
        data = self.taken(names)
        board = board_of(data[0])
        image = images_of(names[1:], data[1:], raw, board)
        self.the_cells(cells_in(board))
        place = 0
        for base, size, *_ in board.regions:
            for at, content in runs({it: byte for it, byte in image.items() if base <= it < base + size}):
                self.same(place + at - base, bytes(content), at)
            place += size
        self.out.put("same\n")

    def same(self, place, wanted, at):
        """Compares cells from a place on; `at` is what is told of the first."""
        for start in range(0, len(wanted), WINDOW):
            part = wanted[start:start + WINDOW]
            for k, found in enumerate(self.bench.cells_read(place + start, len(part))):
                if found != part[k]:
                    raise Answer(13, *difference("differs", at + start + k, part[k], found))

    def compare(self, names, _):
        data, = self.taken(names)
        if len(data) > len(self.bench.cells):
            raise Answer(4, "image: ", str(len(data)), " bytes for ", str(len(self.bench.cells)), " cells")
        self.the_cells()
        self.same(0, data, 0)
        self.out.put("same\n")

    def inspect(self, names, _):
        it = algorithm_of(self.taken(names)[0])
        text = "".join(chr(byte) if 0x20 <= byte <= 0x7E else "." for byte in it.name)
        self.out.put("name ", *text, "\n")
        self.out.put("version ", "%04X" % it.vers, "\ntype ", str(it.kind), "\ndevice ", "%08X" % it.base, " ", str(it.size), "\n")
        times = ["\ntimes ", str(it.to_prog), " ", str(it.to_erase), "\n"]
        self.out.put("page ", str(it.page), "\nempty ", "%02X" % it.empty, "\nreserved ", "%08X" % it.res, *times)
        self.out.put("sectors ", str(it.count(None)), "\n")
        for size, offset in it.items:
            self.out.put("item ", "%08X" % offset, " ", str(size), "\n")
        self.out.put("code ", str(len(it.code)), " data ", str(len(it.data)), " zero ", str(it.zero), "\n")
        for name, place in zip(["Init", "UnInit", "EraseSector", "ProgramPage", "EraseChip", "Verify"], it.entries):
            if place != 0xFFFFFFFF:
                self.out.put("entry ", name, " ", "%08X" % place, "\n")

    def dump(self, names, _):
        board = board_of(self.taken(names[1:])[0])
        self.the_cells(cells_in(board))
        cells, image, place = self.bench.cells_read(0, len(self.bench.cells)), {}, 0
        for base, size, *_ in board.regions:
            image.update(enumerate(cells[place:place + size], base))
            place += size
        self.out.gather((hex_lines if names[0] == "hex" else srec_lines)(rows_of(image)))

    def status(self, _, __):
        job = jobs.look(self.bench)
        if job is None:
            self.out.put("job none\n")
            return
        if cells_in(job.board) != len(self.bench.cells):
            raise jobs.other_size(cells_in(job.board), self.bench)
        self.out.put("job open\n")
        for it in job.algorithms:
            self.out.put("device ", "%08X" % it.base, " ", str(it.size), "\n")
        self.out.put("image ", str(len(job.image)), " bytes in ", str(len(runs(job.image))), " runs\n")

    def demo(self, names, _):
        pieces, fault = demonstration(names[0])
        self.out.put(*pieces)
        if fault:
            raise fault


def of_job(fault):
    """The pieces of a line that begins with `job: `."""
    first, *rest = fault.args[0]
    return ["job: " + first, *rest] if not first.isdigit() else ["job: ", first, *rest]


def difference(what, at, wanted, found):
    return [what, " at ", "%08X" % at, " wanted ", "%02X" % wanted, " found ", "%02X" % found]


# ---- texts of cells

def rows_of(image):
    """The rows of at most 16 bytes, cut at multiples of 16."""
    for at, content in runs(image):
        start = 0
        while start < len(content):
            count = 16 - (at + start) % 16
            yield at + start, bytes(content[start:start + count])
            start += count


def hex_lines(rows):
    upper = None
    for at, data in rows:
        if at >> 16 != upper:
            upper = at >> 16
            yield hex_record(b"\2\0\0\4" + struct.pack(">H", upper))
        yield hex_record(bytes([len(data)]) + struct.pack(">HB", at & 0xFFFF, 0) + data)
    yield ":00000001FF\n"


def hex_record(record):
    return ":%s%02X\n" % (record.hex().upper(), -sum(record) & 255)


def srec_lines(rows):
    yield "S0030000FC\n"
    for at, data in rows:
        record = bytes([len(data) + 5]) + struct.pack(">I", at) + data
        yield "S3%s%02X\n" % (record.hex().upper(), ~sum(record) & 255)
    yield "S70500000000FA\n"


# ---- demonstrations

DEMO_BOARD = b"[ram]\nbase = 0x20000000\nsize = 4096\n[[region]]\nbase = 0x08000000\nsectors = [[64, 1024]]\n[controller]\nbase = 0x40022000\n"


def demonstration(seed, known={}):
    """The lines of a demonstration in pieces, and the refusal of its resume or none."""
    if seed in known:
        return known[seed]
    state = seed

    def draw():
        nonlocal state
        state = (state * 1664525 + 1013904223) % 2**32
        return state >> 24
    cells = b"".join(b"\xff" * 1024 if draw() % 2 == 0 else bytes(draw() for _ in range(1024)) for _ in range(64))
    at = 0x08000000 + 1024 * (draw() % 32)
    image = dict(enumerate(bytes(draw() for _ in range(20480)), at))
    calls = 20000 + (256 * draw() + draw()) % 10000
    board = Board(DEMO_BOARD)
    flm = forged("A1", DEMO_BOARD, 1024, 500)
    wanted = bytes(over(image, board, cells))
    plan = Plan(Algorithm(flm), board.numbers[5:], cells, wanted)
    bench = Bench(cells, garbage=b"")
    bench.left = calls
    try:
        jobs.begin(bench, DEMO_BOARD, [flm], image, 65536)
        session = Session(bench, jobs.open_job(bench), True)
        session.go()
        session.close()
    except (StoreFault, DeviceFault):
        pass
    bench.power_loss("5A")
    fault, status = None, 0
    try:
        session = Session(bench, jobs.open_job(bench), True)
        session.go()
        session.close()
    except NotFree as it:
        fault, status = it, 7
    lines = [("demo ", seed), ("sectors ", plan.count), ("pages ", len(plan.pages)), ("cost ", plan.cost), ("stopped ", calls), ("resumed ", status)]
    pieces = [it for name, number in lines for it in (name, str(number), "\n")] + ["same\n"] * (bytes(bench.cells) == wanted)
    known[seed] = pieces, fault
    return known[seed]


# ---- files that are forged

def without(flm, name):
    """The same file, in which a symbol has another name."""
    return flm.replace(b"\0" + name + b"\0", b"\0" + name.swapcase() + b"\0")


def forged(kind, board, page, time, region="0"):
    """An algorithm's FLM file for a region of a board: A1 and F1 by the bytes of A1 on the small board, the others by those of another tool."""
    own = kind in ("A1", "F1")
    with open("crates/program_vectors/data/a1.flm" if own else "crates/target_vectors/data/%s.flm" % kind.lower(), "rb") as file:
        flm = file.read()
    base, size, empty, _, sectors = Board(board).regions[int(region)]
    if region != "0":
        flm = for_second_region(flm, base, size) if own else without(flm, b"EraseChip")
    if kind in ("A2", "A4"):
        flm = without(flm, b"Verify")
    elf = Elf(flm)
    dscr = elf.section(b"DevDscr", 1)
    at = dscr[4] + elf.symbol(b"FlashDevice") - dscr[3]
    data = bytearray(flm)
    struct.pack_into("<IIIIB", data, at + 132, base, size, int(page), 0, empty)
    struct.pack_into("<I", data, at + 156, int(time))
    struct.pack_into("<I", data, at + 160, sectors[0][1])
    assert len(sectors) == 1
    if kind == "F1":
        code = elf.section(b"PrgCode", 1)
        data[code[4]:code[4] + code[5]] = target.marked(bytes(data[code[4]:code[4] + code[5]]))
    return bytes(data)
