#!/usr/bin/env python3
"""unused_libraries.py [ROOT]: lists each library that a crate's line of crates.txt names and no file of the crate does.

A library is used where a .rt file of src/ names it in code or in a contract (`NAME::`, `use NAME`, `Rattle.NAME.`), or an
.antt file of specs/ or proofs/ names its statements (`Rattle.NAME.`). Comments and texts don't count. Ends with 1 where it found one.
"""
import os
import re
import sys

from crates import libraries_of

COMMENTS = {".rt": r'"(?:\\.|[^"\\])*"|//[^\n]*', ".antt": r"--[^\n]*"}


def text_of(folder):
    """Returns the code, contracts, definitions and proofs of a crate in one piece, without comments and texts."""
    pieces = []
    for part in ("src", "specs", "proofs"):
        for at, _, names in os.walk(f"{folder}/{part}"):
            for name in names:
                ending = os.path.splitext(name)[1]
                if ending in COMMENTS:
                    with open(f"{at}/{name}", encoding="utf-8") as file:
                        pieces.append(re.sub(COMMENTS[ending], " ", file.read()))
    return "\n".join(pieces)


def is_used(text, library):
    return re.search(rf"\bRattle\.{library}\b|(?<![\w:]){library}\s*::|\buse\s+{library}\b", text) is not None


def main():
    root = sys.argv[1] if len(sys.argv) > 1 else os.path.dirname(os.path.dirname(os.path.abspath(__file__)))
    count, crates = 0, libraries_of(root)
    for crate, libraries in crates.items():
        text = text_of(f"{root}/crates/{crate}")
        unused = [it for it in libraries if not is_used(text, it)]
        count += len(unused)
        if unused:
            print(f"{crate}: {' '.join(unused)}")
    print(f"{count} unused")
    return 1 if count else 0


if __name__ == "__main__":
    sys.exit(main())
