"""crates.py: what the tools share that copy or run crates: crates.txt, copies of sources, and what the machine has. No program of its own."""
import contextlib
import fcntl
import os
import re
import shutil
import sys

ROOT = os.path.dirname(os.path.dirname(os.path.abspath(__file__)))
PARTS = "src", "specs", "proofs"
# (the first word of a line of crates.txt, and what it uses)
LINE = re.compile(r"([\w-]+)[^:#]*:([^#]*)")


def text_of(path):
    try:
        with open(path, encoding="utf-8", errors="replace") as it:
            return it.read()
    except OSError:
        return ""


def libraries_of(root=ROOT):
    """Returns the libraries that each crate's line of crates.txt names, by the crate's name, or ends the program with what is wrong."""
    try:
        with open(f"{root}/crates.txt", encoding="utf-8") as it:
            rows = [LINE.match(line) for line in it]
    except OSError as error:
        sys.exit(f"{error.filename}: {error.strerror}")
    return {row[1]: row[2].replace(",", " ").split() for row in rows if row}


def below(crate, libraries, found=None):
    """Returns the repository's libraries that the crate stands on, each once, and after those that it uses itself."""
    found = {} if found is None else found
    for it in libraries[crate]:
        if it in libraries and it not in found:
            below(it, libraries, found)
            found[it] = None
    return found


def processors():
    """Returns how many processors there are to use: those that this process may run on, or fewer by the quota of its control group."""
    quota = re.match(r"(\d+) (\d+)", text_of("/sys/fs/cgroup/cpu.max"))
    allowed = int(quota[1]) // int(quota[2]) if quota else sys.maxsize
    return max(1, min(len(os.sched_getaffinity(0)), allowed))


def free_memory():
    """Returns the free memory in bytes, under the limit of the control group too."""
    found = re.search(r"MemAvailable:\s+(\d+)", text_of("/proc/meminfo"))
    free = 1024 * int(found[1]) if found else 4_000_000_000
    limit, held = text_of("/sys/fs/cgroup/memory.max"), re.search(r"^anon (\d+)", text_of("/sys/fs/cgroup/memory.stat"), re.M)
    return min(free, int(limit) - int(held[1])) if limit.strip().isdigit() and held else free


def link_or_copy(one, other):
    try:
        os.link(one, other)
    except OSError:
        shutil.copy2(one, other)


def copy_sources(names, to):
    """Makes a checkout of its own in the new folder `to`, with the sources of these crates, which use no others."""
    for name in names:
        os.makedirs(f"{to}/crates/{name}")
        for part in PARTS:
            if os.path.isdir(f"{ROOT}/crates/{name}/{part}"):
                shutil.copytree(f"{ROOT}/crates/{name}/{part}", f"{to}/crates/{name}/{part}")
    with open(f"{ROOT}/crates.txt", encoding="utf-8") as lines, open(f"{to}/crates.txt", "w", encoding="utf-8") as kept:
        for line in lines:
            row = LINE.match(line)
            kept.write(line if row and row[1] in names else "")


def take_built(name, to, part="rlib"):
    """Gives that checkout what this one has in out/ of the crate: by default its library, of which files are replaced and never changed."""
    here, there = f"{ROOT}/crates/{name}/out/{part}", f"{to}/crates/{name}/out/{part}"
    # (a library is built with a new stamp, so the same file says that it was taken before)
    if os.path.isfile(f"{there}/stamp") and os.path.isfile(f"{here}/stamp") and os.path.samefile(f"{here}/stamp", f"{there}/stamp"):
        return
    shutil.rmtree(there, ignore_errors=True)
    if os.path.isdir(here):
        shutil.copytree(here, there, copy_function=link_or_copy if part == "rlib" else link_proved)


def link_proved(one, other):
    """As for what a check kept: what was proved is replaced as well, and the rest may be changed."""
    return link_or_copy(one, other) if one.endswith(".oantt") else shutil.copy2(one, other)


@contextlib.contextmanager
def alone_in(folder, waits=None):
    """Waits until no other works in the folder, by the lock that rt takes in a crate's folder. Says so first, where words for that are given."""
    held = os.open(folder, os.O_RDONLY)
    try:
        try:
            fcntl.flock(held, fcntl.LOCK_EX | fcntl.LOCK_NB)
        except BlockingIOError:
            if waits:
                print(waits, flush=True)
            fcntl.flock(held, fcntl.LOCK_EX)
        yield
    finally:
        os.close(held)
