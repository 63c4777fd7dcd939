#!/usr/bin/env python3
"""build.py [--at-once N] [CRATE..]: proves and builds the program flm_tool, or these crates, with the libraries below them, several at once.

Each library is built by `rt lib`, as many at once as there are processors and memory, or --at-once. A library starts when those that it stands on are built,
and first the one with the most work above it. Then `rt run` proves, builds and runs each program on its stored arguments: flm_tool stays as
crates/flm_tool/out/flm_tool. Each crate has a line when it ends, with its seconds and how many of how many are done. The last line is 'N built', or it says
what failed, after the lines in which `rt` says why. What an earlier run built of the same sources is used again, so a run that was stopped goes on where it
was. The status is 0 where all is built, 1 where a crate isn't, 2 where nothing can be built here, and 128 and the number of a signal that ended it.

Two `rt lib` in one checkout wait for each other where they stand on the same library. So each works in a copy of the sources, below out/lanes in the folder
of one of them. What it has built then goes into this checkout, and the copies are removed at the end.
"""
import argparse
import glob
import os
import re
import shutil
import subprocess
import sys
import time
from concurrent.futures import FIRST_COMPLETED, ThreadPoolExecutor, wait

import children
from crates import PARTS, ROOT, alone_in, below, copy_sources, free_memory, libraries_of, processors, take_built, text_of

LINES_SHOWN = 30


class Crate:
    """A crate of the checkout: the libraries below it, and what its check is likely to cost."""

    def __init__(self, name, libraries):
        self.name, self.folder = name, f"{ROOT}/crates/{name}"
        self.uses = list(below(name, libraries))
        self.is_program = os.path.isfile(f"{self.folder}/src/main.rt")
        code, proofs = self.lines(".rt"), self.lines(".antt")
        # (about as `rt ci` reckons bytes of memory; lines stand for the time)
        self.memory, self.work = 1_500_000_000 + 1_000_000 * code + 200_000 * proofs, code + proofs

    def lines(self, ending):
        files = (f"{at}/{name}" for part in PARTS for at, _, names in os.walk(f"{self.folder}/{part}") for name in names)
        return sum(text_of(it).count("\n") for it in files if it.endswith(ending))


def build_in(lane, crate, jobs):
    """Builds a library in a copy of the sources, puts it into this checkout, and returns the status, what was said and the seconds."""
    begun = time.monotonic()
    for name in [*crate.uses, crate.name]:
        with alone_in(f"{ROOT}/crates/{name}"):
            take_built(name, lane)
    status, said, _ = children.run(["rt", "lib", "--jobs", str(jobs)], f"{lane}/crates/{crate.name}", stderr=subprocess.STDOUT)
    if status == 0:
        with alone_in(crate.folder):
            os.makedirs(f"{crate.folder}/out", exist_ok=True)
            # (with the library goes what its check kept)
            for part in ("incremental", "rlib"):
                here, there = f"{crate.folder}/out/{part}", f"{lane}/crates/{crate.name}/out/{part}"
                if os.path.isdir(there):
                    shutil.rmtree(here, ignore_errors=True)
                    os.rename(there, here)
    return status, said, time.monotonic() - begun


class Schedule:
    """The libraries that are to be built, what is being built, and what is free: copies, processors and memory."""

    def __init__(self, crates, lanes):
        self.left, self.running, self.built, self.failed = list(crates), {}, set(), []
        self.lanes, self.processors, self.memory = list(lanes), len(lanes), 0.85 * free_memory()
        # (the longest chain of work that ends with the crate's own, seen from the top)
        self.behind = {}
        for it in reversed(self.left):
            self.behind[it.name] = it.work + max((self.behind[above.name] for above in self.left if it.name in above.uses), default=0)
        self.left.sort(key=lambda it: -self.behind[it.name])

    def starts(self):
        """Takes each crate off the list that can start now, and gives it with its copy and how many jobs it may use."""
        ready = [it for it in self.left if self.built.issuperset(it.uses)]
        for at, crate in enumerate(ready):
            idle = self.processors - sum(jobs for _, _, jobs, _ in self.running.values())
            room = self.memory - sum(needs for *_, needs in self.running.values())
            if idle > 0 and (not self.running or crate.memory <= room):
                # (a crate gets the processors for which no other waits)
                jobs = max(1, min(4, idle // (len(ready) - at), 1 + int((room / crate.memory - 1) / 0.6)))
                self.left.remove(crate)
                yield crate, self.lanes.pop(), jobs

    def began(self, future, crate, lane, jobs):
        self.running[future] = crate, lane, jobs, crate.memory * (1 + 0.6 * (jobs - 1))

    def ended(self, future, of):
        """Notes what came of a crate, and says it."""
        crate, lane, _, _ = self.running.pop(future)
        status, said, seconds = future.result()
        self.lanes.append(lane)
        if status:
            self.left.clear()
            self.failed.append((crate.name, said))
            print(f"{crate.name}: NOT built, status {status}, {seconds:.0f} s; nothing more starts", flush=True)
        else:
            self.built.add(crate.name)
            print(f"{crate.name}: built, {seconds:.0f} s, {len(self.built)} of {of}", flush=True)


def build_libraries(crates, at_once):
    """Builds the libraries, each after those below it, and returns the names and the words of those that failed."""
    folder = f"{crates[0].folder}/out/lanes"
    try:
        lanes = [f"{folder}/{number}" for number in range(min(at_once, len(crates)))]
        for lane in lanes:
            copy_sources([it.name for it in crates], lane)
        schedule = Schedule(crates, lanes)
        with ThreadPoolExecutor(len(lanes)) as pool:
            try:
                while schedule.left or schedule.running:
                    for crate, lane, jobs in schedule.starts():
                        schedule.began(pool.submit(build_in, lane, crate, jobs), crate, lane, jobs)
                    for future in wait(schedule.running, return_when=FIRST_COMPLETED).done:
                        schedule.ended(future, len(crates))
            except BaseException:
                children.end_all()
                raise
        return schedule.failed
    finally:
        shutil.rmtree(folder, ignore_errors=True)


def run_program(crate):
    """Proves, builds and runs a program on its stored arguments, and returns the name and the words of what failed, if it did."""
    begun, words = time.monotonic(), text_of(f"{crate.folder}/args").splitlines()
    words = [f"data/{it}" if os.path.isfile(f"{crate.folder}/data/{it}") else it for it in words]
    given = f"{crate.folder}/stdin" if os.path.isfile(f"{crate.folder}/stdin") else os.devnull
    status, wrote, said = children.run(["rt", "run", "--", *words], crate.folder, given)
    # (once the program runs, the status is its own)
    runs = f"rt: running out/{crate.name};".encode() in said and status == int(text_of(f"{crate.folder}/status") or 0)
    runs = runs and wrote.decode(errors="replace") == text_of(f"{crate.folder}/stdout")
    said_of_it = "built, and run as stored" if runs else f"NOT built, or not run as stored, status {status}"
    print(f"{crate.name}: {said_of_it}, {time.monotonic() - begun:.0f} s", flush=True)
    return [] if runs else [(crate.name, wrote + said)]


def build(names, at_once):
    """Builds the crates with all below them, and returns how many are built and what failed."""
    libraries = libraries_of()
    wanted = dict.fromkeys(it for name in names for it in [*below(name, libraries), name])
    crates = [Crate(it, libraries) for it in wanted]
    low, programs = [it for it in crates if not it.is_program], [it for it in crates if it.is_program]
    print(f"{len(low)} libraries, {at_once} at once, {', '.join(['then', *(it.name for it in programs)]) if programs else 'and no program'}", flush=True)
    with alone_in(f"{ROOT}/tools", "another build works in this checkout: waiting for its end"):
        for it in glob.glob(f"{ROOT}/crates/*/out/lanes"):
            shutil.rmtree(it, ignore_errors=True)
        failed = build_libraries(low, at_once) if low else []
    for it in [] if failed else programs:
        failed += run_program(it)
    return len(crates), failed


def main():
    words = argparse.ArgumentParser(description=__doc__, formatter_class=argparse.RawDescriptionHelpFormatter)
    words.add_argument("--at-once", type=int, default=processors())
    words.add_argument("names", nargs="*", metavar="CRATE", default=[])
    words = words.parse_args()
    names, known, begun = words.names or ["flm_tool"], libraries_of(), time.monotonic()
    unknown = [it for it in names if it not in known]
    if unknown or words.at_once < 1:
        sys.exit(f"{unknown[0]} is no crate of crates.txt" if unknown else "--at-once takes a number above 0")
    if not shutil.which("rt"):
        print("the Rattle kit's command `rt` isn't on the path: without it nothing can be built", file=sys.stderr)
        return 2
    children.watch_signals()
    try:
        number, failed = build(names, words.at_once)
    except children.Stopped as signalled:
        children.end_all()
        print("stopped: what was begun has ended, and what was built stays for the next run", flush=True)
        return 128 + signalled.args[0]
    except OSError as error:
        print(f"nothing more could be built: {error}", file=sys.stderr, flush=True)
        return 2
    for name, said in failed:
        text = said.decode(errors="replace").splitlines()
        wrong = [it for it in text if re.search(r"\berror\b|not proved|^rt: ", it)]
        print(f"what rt said of {name}:", *(f"    {it[:400]}" for it in (wrong or text)[-LINES_SHOWN:]), sep="\n")
    print(f"{time.monotonic() - begun:.0f} s", f"{', '.join(name for name, _ in failed)}: NOT built" if failed else f"{number} built", sep="\n", flush=True)
    return 1 if failed else 0


if __name__ == "__main__":
    sys.exit(main())
