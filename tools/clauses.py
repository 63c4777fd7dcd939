#!/usr/bin/env python3
"""clauses.py OLD NEW [CRATE..]: compares the clauses of all functions of two checkouts, by function, kind, label and text.

A clause is a `requires` or an `ensures` in the src/ of a crate. A function that went to another file, type or crate is found again by its
name and by what its clauses have in common, and shown as moved. It ends with 1 where a clause has gone, has come or has another text."""
import pathlib
import re
import sys
from collections import namedtuple

Function = namedtuple("Function", "crate file type name clauses")
COMMENT = re.compile(r"//[^\n]*")
ITEM = re.compile(r"\b(impl|trait|fn)\b|\b(requires|ensures)\s*(\w*)\s*\{|[{}]")
NAME = re.compile(r"\s*(?:<[^{]*?>\s+)?(?:[\w:<>', ]+?\s+for\s+)?(\w+)")


def end_of_braces(text, at):
    """The place behind the brace that closes the one before `at`."""
    depth = 1
    while depth:
        depth += {"{": 1, "}": -1}.get(text[at], 0)
        at += 1
    return at


def functions_of(crate, path, root):
    """The functions of a file in order, each with its clauses: {(kind, label): text}."""
    text = COMMENT.sub("", path.read_text())
    at, depth, types, found = 0, 0, [], []
    while item := ITEM.search(text, at):
        at = item.end()
        if item[2]:
            end = end_of_braces(text, at)
            clauses = found[-1].clauses
            key = (item[2], item[3] or str(sum(kind == item[2] for kind, _ in clauses)))
            clauses[key] = " ".join(text[at:end - 1].split())
            at = end
        elif item[1] == "fn":
            name = re.match(r"\s+(\w+)", text[at:])
            if name:
                within = types[-1][0] if types else ""
                found.append(Function(crate, str(path.relative_to(root)), within, name[1], {}))
        elif item[1]:
            name = NAME.match(text, at)
            if name and text.find("{", at) != -1:
                types.append((name[1], depth))
                depth += 1
                at = text.find("{", at) + 1
        elif item[0] == "{":
            depth += 1
        else:
            depth -= 1
            if types and types[-1][1] == depth:
                types.pop()
    return found


def all_functions(root, crates):
    root = pathlib.Path(root)
    files = sorted((root / "crates").glob("*/src/**/*.rt"))
    named = [(path.relative_to(root / "crates").parts[0], path) for path in files]
    return [it for crate, path in named if not crates or crate in crates for it in functions_of(crate, path, root)]


def shown(it):
    return f"{it.file} {it.type + '::' if it.type else ''}{it.name}"


def likeness(a, b):
    """How much of two functions is the same: their clauses, and then where they stand."""
    same = sum(b.clauses.get(key) == text for key, text in a.clauses.items())
    named = sum(key in b.clauses for key in a.clauses)
    return (same, named, a.type == b.type, a.crate == b.crate)


def pairs_of(old, new):
    """Each function of the old checkout with the one of the new that it is, or with none; and those that are new."""
    there = {}
    for it in new:
        there.setdefault(it[:4], []).append(it)
    pairs, left = [], []
    for it in old:
        same = there.get(it[:4])
        pairs.append((it, same.pop(0))) if same else left.append(it)
    rest = [it for same in there.values() for it in same]
    likely = [(likeness(a, b), i, k) for i, a in enumerate(left) for k, b in enumerate(rest) if a.name == b.name]
    found = {}
    for like, i, k in sorted(likely, key=lambda it: it[0], reverse=True):
        if any(like[:2]) and i not in found and k not in found.values():
            found[i] = k
    pairs += [(it, rest[found[i]] if i in found else None) for i, it in enumerate(left)]
    rest = [it for k, it in enumerate(rest) if k not in found.values()]
    return pairs, rest


def differences(a, b):
    old, new = (a.clauses if a else {}), (b.clauses if b else {})
    for key in dict.fromkeys([*old, *new]):
        if key not in new:
            yield "gone", key, [f"- {old[key]}"]
        elif key not in old:
            yield "came", key, [f"+ {new[key]}"]
        elif old[key] != new[key]:
            yield "text", key, [f"- {old[key]}", f"+ {new[key]}"]


def main():
    old, new = (all_functions(root, sys.argv[3:]) for root in sys.argv[1:3])
    pairs, added = pairs_of(old, new)
    counts = dict.fromkeys(["same", "moved", "gone", "came", "text"], 0)
    for a, b in pairs + [(None, it) for it in added]:
        if a and b and a[:4] != b[:4]:
            counts["moved"] += 1
            print(f"moved {shown(a)} -> {shown(b)}")
        told = list(differences(a, b))
        counts["same"] += sum(b.clauses.get(key) == text for key, text in a.clauses.items()) if a and b else 0
        for what, (kind, label), lines in told:
            counts[what] += 1
            print(f"{what}  {shown(b or a)} {kind} {label}", *lines, sep="\n    ")
    print(", ".join(f"{number} {what}" for what, number in counts.items()))
    return any(counts[what] for what in ["gone", "came", "text"])


sys.exit(main())
