#!/usr/bin/env python3
"""dear.py [ROOT] [CRATE..]: lists the functions whose proofs are dear, the dearest first, from what a check or a gate left in crates/*/out.

What a function costs goes with the size of its model: after `rt check` that is the file *.Lts.oantt of the function below out/incremental
(a megabyte is a second or two, and dearer the larger it is). After a gate, and for libraries alone, the function's text in toolchain/mir.json of the library tells as much
(above 100 KB it is dear). Functions below these limits are not listed: --all lists the twenty dearest of each crate. Where both kinds are
left of a crate, both are listed.
"""
import json
import os
import re
import sys

MODEL_LIMIT = 5_000_000
TEXT_LIMIT = 100_000
MOST_LISTED = 20


def models_of(out):
    """Returns the sizes of the models that a check kept, by function."""
    found = {}
    for at, _, names in os.walk(f"{out}/incremental"):
        for name in names:
            if name.endswith(".Lts.oantt"):
                function = re.sub(r"^Rattle-\w+-proofs\.", "", name[: -len(".Lts.oantt")])
                found[function] = max(found.get(function, 0), os.path.getsize(f"{at}/{name}"))
    return found


def texts_of(out, crate):
    """Returns the sizes of the functions' texts in a built library, by function."""
    file = f"{out}/rlib/{crate}.rlib/toolchain/mir.json"
    if not os.path.isfile(file):
        return {}
    with open(file, encoding="utf-8") as it:
        functions = json.load(it)
    return {name.removeprefix(f"{crate}::"): len(json.dumps(text, separators=(",", ":"))) for name, text in functions}


def main():
    words = [it for it in sys.argv[1:] if it != "--all"]
    lists_all = len(words) < len(sys.argv) - 1
    root = words.pop(0) if words and os.path.isdir(f"{words[0]}/crates") else os.path.dirname(os.path.dirname(os.path.abspath(__file__)))
    rows, seen = [], 0
    for crate in sorted(words or os.listdir(f"{root}/crates")):
        out = f"{root}/crates/{crate}/out"
        for kind, sizes, limit in (("model", models_of(out), MODEL_LIMIT), ("text", texts_of(out, crate), TEXT_LIMIT)):
            seen += len(sizes)
            dearest = sorted(sizes.items(), key=lambda it: -it[1])[: MOST_LISTED if lists_all else None]
            rows += [(size / limit, size, kind, crate, function) for function, size in dearest if lists_all or size >= limit]
    for _, size, kind, crate, function in sorted(rows, reverse=True):
        print(f"{size / 1000:9,.0f} KB of {kind:5}  {crate}  {function}")
    print(f"{len(rows)} of {seen} functions" if seen else "nothing is left to look at: run rt check in a crate's folder, or the gate, first")


if __name__ == "__main__":
    main()
