#!/usr/bin/env python3
"""time_gate.py [-o TABLE] -- COMMAND: runs a gate (`rt ci`) at the top of the repository and makes a table of what each crate cost.
time_gate.py --short TABLE: prints of such a table what docs/GATE.md shows: lines and seconds of each crate, two crates a row.

Every half second it reads the processor time, user and system, of each process below the command, and the most memory that it has taken.
A process belongs to the crate that its words or its folder name: to its proof (or that of its tests, or its build), to its wrong bodies,
with the checks that these begin and end with, or to a run; else to `rt` itself. What a process did since its last reading is lost, a
quarter second on the average, and very short ones are not seen: the last lines say how much that was of the whole. The table goes to the
file TABLE, or else behind what the command prints. Ends with the command's status.
"""
import os
import re
import resource
import subprocess
import sys
import threading
import time

INTERVAL = 0.5
TICKS = os.sysconf("SC_CLK_TCK")
RUN = re.compile(r"/rt-run-[^/\0]*/bin/(\w+?)(?:_tests)?(?:\.[\w-]+)?(?:\0|$)")
NAMED = re.compile(r"\0--crate-name\0(\w+)\0")
PARTS = "proof", "edit", "run"
FOLDER = re.compile(r"/crates/(\w+)$")
CLAUSE = re.compile(r"(?:requires|ensures)\b|ghost ")


def read(path):
    try:
        with open(path, encoding="utf-8", errors="replace") as file:
            return file.read()
    except OSError:
        return ""


def folder_of(pid):
    try:
        return os.readlink(f"/proc/{pid}/cwd")
    except OSError:
        return ""


class Process:
    """A process below the command: what it has done so far, and for which part of which crate (None until that shows)."""

    def __init__(self, parent):
        self.parent, self.seconds, self.peak, self.part = parent, 0.0, 0, None
        self.began = self.ended = time.monotonic()

    def look(self, pid):
        """Finds out what the process is for; one that its own words don't show is for what its parent is."""
        words, folder = read(f"/proc/{pid}/cmdline"), folder_of(pid)
        if self.part and not (words and folder):
            return  # (it is ending: it has no words any more, and then no folder)
        words += "\0"
        run, named = RUN.search(words), NAMED.search(words)
        if run:
            self.part = run[1], "run"
        elif "/rt-edit-" in folder and named:
            self.part = named[1], "edit"
        elif named or FOLDER.search(folder):
            self.part = named[1] if named else FOLDER.search(folder)[1], "proof"
        else:
            self.part = self.parent.part if self.parent else None


class Watch(threading.Thread):
    """Reads the processes below one, until it is told to stop."""

    def __init__(self, top):
        super().__init__(daemon=True)
        self.top, self.known, self.stops = top, {}, threading.Event()

    def run(self):
        while not self.stops.wait(INTERVAL):
            self.sample()

    def sample(self):
        stats = {}
        for pid in filter(str.isdigit, os.listdir("/proc")):
            fields = read(f"/proc/{pid}/stat").rpartition(")")[2].split()
            if len(fields) > 19:
                stats[int(pid)] = fields
        for pid, fields in stats.items():
            if self.is_below(pid, stats):
                self.note(pid, fields, stats)

    def is_below(self, pid, stats):
        seen = 0
        while pid in stats and pid != self.top and seen < 100:
            pid, seen = int(stats[pid][1]), seen + 1
        return pid == self.top

    def note(self, pid, fields, stats):
        key, above = (pid, fields[19]), int(fields[1])
        if key not in self.known:
            parent = self.known.get((above, stats[above][19])) if above in stats else None
            self.known[key] = Process(parent)
        it = self.known[key]
        it.seconds, it.ended = (int(fields[11]) + int(fields[12])) / TICKS, time.monotonic()
        peak = re.search(r"VmHWM:\s+(\d+)", read(f"/proc/{pid}/status"))
        it.peak = max(it.peak, int(peak[1]) * 1024 if peak else 0)
        # (until it has begun what it is for, its words are those of what starts it)
        it.look(pid)


def lines_of(folder):
    """The lines of a crate that are neither empty nor comments: of code, of contracts (clauses, and what is ghost), of definitions, of proofs."""
    counts = [0, 0, 0, 0]
    for part, at in (("src", 0), ("specs", 2), ("proofs", 3)):
        for above, _, names in os.walk(f"{folder}/{part}"):
            for name in names:
                if name.endswith((".rt", ".antt")):
                    open_braces = 0
                    for line in map(str.strip, read(f"{above}/{name}").splitlines()):
                        if not line or line.startswith(("//", "--")):
                            continue
                        is_contract = part == "src" and (open_braces > 0 or CLAUSE.match(line) is not None)
                        open_braces = open_braces + line.count("{") - line.count("}") if is_contract and not line.startswith("ghost") else 0
                        counts[1 if is_contract else at] += 1
    return counts


def edits_of(folder):
    return sum(name.endswith(".edit") for name in os.listdir(f"{folder}/must-fail")) if os.path.isdir(f"{folder}/must-fail") else 0


def libraries_of(root):
    rows = (line.partition(":") for line in read(f"{root}/crates.txt").splitlines() if ":" in line and not line.startswith("#"))
    every = {name.strip(): libraries.split() for name, _, libraries in rows}
    return {name: [it for it in libraries if it in every] for name, libraries in every.items()}


class Crate:
    """What a crate's parts cost in seconds, its largest process in bytes, and when its proof ended."""

    def __init__(self):
        self.seconds, self.peak, self.proved = dict.fromkeys(PARTS, 0.0), 0, 0.0


def added_up(known, begun):
    crates = {}
    for it in known.values():
        if it.part:
            crate = crates.setdefault(it.part[0], Crate())
            crate.seconds[it.part[1]] += it.seconds
            crate.peak = max(crate.peak, it.peak)
            if it.part[1] == "proof":
                crate.proved = max(crate.proved, it.ended - begun)
    return crates


def chain_of(crates, libraries):
    """Returns the crates that the last proof waited for, each of them the last of its user's libraries to be proved."""
    was_proved = lambda it: it in crates and crates[it].proved > 0
    chain, left = [], [it for it in libraries if was_proved(it)]
    while left:
        chain.append(max(left, key=lambda it: crates[it].proved))
        left = [it for it in libraries[chain[-1]] if was_proved(it)]
    return chain[::-1]


def table(crates, root, own, whole, wall):
    libraries = libraries_of(root)
    sums = dict.fromkeys(PARTS, 0.0)
    told = ["| Crate | Code, contracts, specs, proofs | Its proof | Wrong bodies | These with their checks | Its runs | Most memory, GB | Proved after, minutes |", "|" + "---|" * 8]
    for name, it in sorted(crates.items(), key=lambda it: -sum(it[1].seconds.values())):
        folder = f"{root}/crates/{name}"
        parts = [f"{it.seconds['proof']:.0f}", f"{edits_of(folder)}", f"{it.seconds['edit']:.0f}", f"{it.seconds['run']:.0f}"]
        told.append(f"| `{name}` | {' '.join(f'{it:,}' for it in lines_of(folder))} | {' | '.join(parts)} | {it.peak / 1e9:.1f} | {it.proved / 60:.1f} |")
        for part in PARTS:
            sums[part] += it.seconds[part]
    above = {it for libraries_of_one in libraries.values() for it in libraries_of_one}
    for_libraries = sum(it.seconds["proof"] for name, it in crates.items() if name in above)
    chain = chain_of(crates, libraries)
    told += [
        "",
        f"In minutes of processor time: libraries {for_libraries / 60:.1f}, crates of tests and programs {(sums['proof'] - for_libraries) / 60:.1f}, "
        f"wrong bodies with their checks {sums['edit'] / 60:.1f}, runs {sums['run'] / 60:.1f}, `rt` itself {own / 60:.1f}, "
        f"not seen {(whole - own - sum(sums.values())) / 60:.1f}, in all {whole / 60:.1f}; by the clock {wall / 60:.1f} minutes.",
    ]
    if chain:
        told.append(f"The chain: {', '.join(f'`{it}` {crates[it].proved / 60:.1f}' for it in chain)}.")
    return "\n".join(told)


def short(told):
    """The rows of a table that was made, the dearest crate first, the first half on the left and the second on the right. What no crate has is left out."""
    rows = [[it.strip() for it in line.strip("|\n ").split("|")] for line in told if line.startswith("| `")]
    columns = {"Crate": [it[0] for it in rows], "Code, contracts, specs, proofs": [it[1] for it in rows], "Proof": [it[2] for it in rows],
               "Wrong bodies": [f"{it[3]}: {it[4]}" if int(it[3]) else "" for it in rows], "Runs": [it[5] if int(it[5]) else "" for it in rows]}
    columns = {name: its for name, its in columns.items() if any(its)}
    half = (len(rows) + 1) // 2
    cells = ["".join(f"| {it} " for it in row) for row in zip(*columns.values())] + ["| " * len(columns)] * (2 * half - len(rows))
    lines = ["".join(f"| {it} " for it in columns) * 2 + "|", "|" + "---|" * 2 * len(columns)]
    return "\n".join(lines + [f"{left}{right}|" for left, right in zip(cells[:half], cells[half:])])


def main():
    words, file = sys.argv[1:], None
    if words[:1] == ["--short"] and len(words) == 2:
        with open(words[1], encoding="utf-8") as told:
            print(short(told))
        return
    if words[:1] == ["-o"]:
        file, words = words[1], words[2:]
    command = words[1:] if words[:1] == ["--"] else words
    if not command:
        sys.exit(__doc__)
    begun = time.monotonic()
    started = subprocess.Popen(command)
    watch = Watch(started.pid)
    watch.start()
    status = started.wait()
    watch.stops.set()
    watch.join()
    used = resource.getrusage(resource.RUSAGE_CHILDREN)
    own = sum(it.seconds for it in watch.known.values() if not it.part)
    told = table(added_up(watch.known, begun), os.getcwd(), own, used.ru_utime + used.ru_stime, time.monotonic() - begun)
    with open(file, "w", encoding="utf-8") if file else sys.stdout as to:
        print(told, file=to)
    sys.exit(status if status >= 0 else 128 - status)


if __name__ == "__main__":
    main()
