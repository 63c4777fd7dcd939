#!/usr/bin/env python3
"""right_twins.py [--refusals] CRATE[/EDIT]..: tries the right twins of wrong bodies, each of which must still be proved.
right_twins.py --lacking [CRATE..]: says, without the prover, which wrong bodies of these crates, or of all, lack a twin.

A wrong body, crates/CRATE/must-fail/EDIT.edit, has after each line `new: TEXT` a line `# right: TEXT`: the same change with the right value. `rt` reads no
such line. Here the right texts take the place of the wrong ones, in a copy of the crate, over what `rt check` kept of it and the libraries that it stands on.
A wrong body whose twin is refused as well shows nothing: what was refused is then the change of the text, and not the value.

--refusals tries the wrong bodies too, and says what each refusal shows: a counterexample; no decision, where a search gave up or found nothing; an answer that
no longer fits; a proof that names what the edit took away. Only the first is evidence. The first line that says so stands below it.

The status is 0 where each wrong body has a twin, each twin that was tried is proved and, with --refusals, each refusal shows a counterexample; else 1, or 2
where nothing can be tried, or 128 and the number of a signal that ended it.
"""
import argparse
import glob
import os
import re
import shutil
import subprocess
import sys
import tempfile
import time

import children
from crates import ROOT, alone_in, below, copy_sources, libraries_of, take_built, text_of

# What the output of a refusal has, in the order in which they are looked for.
KINDS = [
    ("a counterexample", r"the goal does not follow|the facts known there allow values"),
    ("no decision", r"gave up|found no proof|no proof of|stopped at its own limit"),
    ("an answer that doesn't fit", r"the two types|expected type|as printed"),
    ("a proof that names what is gone", r"has no field|is not in scope|has no `|was not admitted"),
]
SAYS = re.compile(r"(note: )?\S+:\d+:\d+: ")


class Edit:
    """A wrong body: its changes (file, old text, wrong text, right text), the right one None where there is none."""

    def __init__(self, path):
        self.name, self.changes = os.path.basename(path).removesuffix(".edit"), []
        file = old = right = ""
        for line in text_of(path).split("\n"):
            word, _, text = line.partition(": ")
            if word == "file":
                file = text.strip()
            elif word == "old":
                old, right = text, None
            elif word == "# right":
                if self.changes and self.changes[-1][:2] == (file, old):
                    self.changes[-1] = (*self.changes[-1][:3], text)
                else:
                    right = text
            elif line.startswith("new:"):
                self.changes.append((file, old, line.removeprefix("new:").removeprefix(" "), right))

    def lacks(self):
        """Returns what the twin lacks, or None."""
        if any(right is None for *_, right in self.changes):
            return "no line `# right:` for each `new:`"
        if all(old == right for _, old, _, right in self.changes):
            return "its right twin changes nothing"
        return None

    def texts(self, folder, is_right):
        """Returns the texts of the files that the edit changes, by path, or None where an old text doesn't stand exactly once."""
        found = {}
        for file, old, wrong, right in self.changes:
            text = found.get(file) or text_of(f"{folder}/{file}")
            if text.count(old) != 1:
                return None
            found[file] = text.replace(old, right if is_right else wrong)
        return found


def edits_of(name):
    return [Edit(it) for it in sorted(glob.glob(f"{ROOT}/crates/{name}/must-fail/*.edit"))]


def write(path, text):
    with open(path, "w", encoding="utf-8") as it:
        it.write(text)


def check(folder, texts):
    """Checks the copy of the crate with these texts in place of its own, and returns the status and what was said."""
    was = {path: text_of(f"{folder}/{path}") for path in texts}
    try:
        for path, text in texts.items():
            write(f"{folder}/{path}", text)
        status, said, _ = children.run(["rt", "check", "--jobs", "1"], folder, stderr=subprocess.STDOUT)
        return status, said.decode(errors="replace")
    finally:
        for path, text in was.items():
            write(f"{folder}/{path}", text)


def refusal(status, said):
    """Returns what a check came to, in words, and the line that says so."""
    lines = [it for it in said.splitlines() if SAYS.match(it) and re.search(r": error\b|it is not proved", it)]
    if status == 0:
        return "NOT REFUSED", ""
    if "logic=not-proved" not in said:
        return f"NOT TRIED, status {status}", (said.splitlines() or [""])[-1]
    for kind, words in KINDS:
        for line in lines:
            if re.search(words, line):
                return kind, line
    return "a goal without a proof, and nothing more is said", (lines or [""])[0]


class Tries:
    """The tries of one crate's edits, in a copy of its own."""

    def __init__(self, name, room, is_read):
        self.name, self.folder, self.is_read, self.is_well = name, f"{room}/crates/{name}", is_read, True
        uses = list(below(name, libraries_of()))
        copy_sources([*uses, name], room)
        for it in uses:
            with alone_in(f"{ROOT}/crates/{it}"):
                take_built(it, room)
            if not os.path.isfile(f"{room}/crates/{it}/out/rlib/stamp"):
                raise FileNotFoundError(f"the library {it} isn't built: first run `rt check` in crates/{name}")
        with alone_in(f"{ROOT}/crates/{name}", f"{name}: waiting for another that works in it"):
            take_built(name, room, "incremental")

    def say(self, of, is_well, words, line=""):
        self.is_well &= is_well
        print(f"{self.name}{of}: {words}", *([f"    {line[:400]}"] if line else []), sep="\n", flush=True)

    def as_it_stands(self):
        begun = time.monotonic()
        status, said = check(self.folder, {})
        words = "proved" if status == 0 else f"NOT proved, status {status}, so nothing can be tried"
        self.say(" as it stands", status == 0, f"{words}, {time.monotonic() - begun:.0f} s", "" if status == 0 else refusal(status, said)[1])
        return status == 0

    def twin(self, edit):
        texts = edit.texts(self.folder, True)
        if texts is None:
            return self.say(f"/{edit.name}", False, "an old text doesn't stand exactly once in its file")
        status, said = check(self.folder, texts)
        words, line = ("its right twin is proved", "") if status == 0 else refusal(status, said)
        return self.say(f"/{edit.name}", status == 0, words if status == 0 else f"its right twin is NOT proved: {words}", line)

    def wrong(self, edit):
        texts = edit.texts(self.folder, False)
        if texts is not None:
            kind, line = refusal(*check(self.folder, texts))
            self.say(f"/{edit.name}", kind == KINDS[0][0], f"refused: {kind}" if not kind.startswith("NOT") else kind, line)

    def all(self, edits):
        if not self.as_it_stands():
            return
        for it in edits:
            if it.lacks():
                self.say(f"/{it.name}", False, it.lacks())
            else:
                self.twin(it)
            if self.is_read:
                self.wrong(it)


def try_crate(name, chosen, is_read):
    """Tries the edits of the crate, or the one that is chosen, and returns whether all is well."""
    edits = [it for it in edits_of(name) if chosen in ("", it.name)]
    if not edits:
        print(f"{name}: no such wrong body" if chosen else f"{name}: it has no wrong bodies", flush=True)
        return not chosen
    out = f"{ROOT}/crates/{name}/out"
    os.makedirs(out, exist_ok=True)
    with tempfile.TemporaryDirectory(prefix="twins-", dir=out) as room:
        tries = Tries(name, room, is_read)
        tries.all(edits)
        return tries.is_well


def lacking(names):
    """Says which edits lack a twin, and returns whether none does."""
    count = 0
    for name in names:
        for edit in edits_of(name):
            if edit.lacks():
                count += 1
                print(f"{name}/{edit.name}: {edit.lacks()}")
    print(f"{count} of {sum(len(edits_of(it)) for it in names)} wrong bodies lack a right twin")
    return count == 0


def main():
    words = argparse.ArgumentParser(description=__doc__, formatter_class=argparse.RawDescriptionHelpFormatter)
    words.add_argument("--refusals", action="store_true")
    words.add_argument("--lacking", action="store_true")
    words.add_argument("names", nargs="*", metavar="CRATE")
    words, known = words.parse_args(), libraries_of()
    names = [it.removesuffix(".edit").partition("/")[::2] for it in words.names or (list(known) if words.lacking else [])]
    unknown = [name for name, _ in names if name not in known]
    if unknown or not names:
        sys.exit(f"{unknown[0]} is no crate of crates.txt" if unknown else "name a crate, or give --lacking")
    if words.lacking:
        return int(not lacking([name for name, _ in names]))
    if not shutil.which("rt"):
        print("the Rattle kit's command `rt` isn't on the path: without it nothing can be tried", file=sys.stderr)
        return 2
    children.watch_signals()
    try:
        return int(not all([try_crate(name, chosen, words.refusals) for name, chosen in names]))
    except children.Stopped as signalled:
        children.end_all()
        print("stopped", flush=True)
        return 128 + signalled.args[0]
    except OSError as error:
        print(f"nothing more could be tried: {error}", file=sys.stderr, flush=True)
        return 2


if __name__ == "__main__":
    sys.exit(main())
