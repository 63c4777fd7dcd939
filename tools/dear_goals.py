#!/usr/bin/env python3
"""dear_goals.py CRATE..: lists the goals of proofs that are dear, the dearest first, from what `rt check` kept in crates/CRATE/out/incremental.

Each goal has the steps that the checker counted for it (a million is about a second), those of the tactic that closed it, and that tactic's name.
A goal without an answer is tried by `search`, then by `grind` with std's lemmas, then by `grind` with those of the function's `using(..)`. Where
most of the steps aren't those of the `grind` that closed it, an answer that calls that `grind` alone saves them. --least N lists goals from N
steps on, in place of 500,000. Only what was checked since out/incremental was last removed is listed.
"""
import json
import os
import re
import sys

LEAST = 500_000


def records(file):
    """Yields what the checker noted of each declaration of a module."""
    with open(file, encoding="utf-8", errors="replace") as it:
        text = it.read()
    decoder = json.JSONDecoder()
    for found in re.finditer(r'\[\{"aux"', text):
        try:
            yield from decoder.raw_decode(text, found.start())[0]
        except ValueError:
            continue


def answered(folder, module):
    """Returns the goals of a function that have an answer now."""
    file = f"{folder}/proofs/{module.replace('.', '/')}/Answers.antt"
    if not os.path.isfile(file):
        return set()
    with open(file, encoding="utf-8") as it:
        return set(re.findall(r"^pub (\S+)", it.read(), re.MULTILINE))


def kept_files(folder):
    """Returns the kept files of the functions' proofs with their modules, the oldest first."""
    files = [f"{at}/{name}" for at, _, names in os.walk(f"{folder}/out/incremental") for name in names]
    named = [(it, re.search(r"/Rattle-\w+-proofs\.(.*)\.(Proof|Answers)\.decls\.oantt$", it)) for it in sorted(files, key=os.path.getmtime)]
    return [(file, name[1], name[2] == "Answers") for file, name in named if name]


def goals_of(crate, folder):
    """Returns the steps in all, those of the last tactic and its name, by where the goal stands."""
    found = {}
    for file, module, is_answer in kept_files(folder):
        answers = answered(folder, module)
        for record in records(file):
            tactics = [it for it in record.get("calls") or [] if it[0] != "first_of"]
            if tactics and len(record.get("phases") or []) > 1 and (record["name"] in answers) == is_answer:
                last = max(tactics, key=lambda it: it[0] == "grind")
                found[f"{crate}  {module}  {record['name']}"] = record["phases"][1], last[2], last[0]
    return found


def main():
    words, least = sys.argv[1:], LEAST
    if "--least" in words:
        at = words.index("--least")
        least = int(words[at + 1])
        del words[at : at + 2]
    root = os.path.dirname(os.path.dirname(os.path.abspath(__file__)))
    goals = {}
    for crate in words:
        goals.update(goals_of(crate, f"{root}/crates/{crate}"))
    dear = sorted(((steps, goal) for goal, steps in goals.items() if steps[0] >= least), reverse=True)
    for (steps, own, tactic), goal in dear:
        print(f"{steps:12,} steps, {own:10,} by {tactic:6}  {goal}")
    whole = sum(it[0] for it in goals.values())
    print(f"{len(dear)} of {len(goals)} goals; {sum(it[0][0] for it in dear):,} of {whole:,} steps")


if __name__ == "__main__":
    main()
