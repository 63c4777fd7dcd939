#!/usr/bin/env python3
"""dear_edits.py CRATE [EDIT..]: tries wrong bodies of a crate (all of must-fail/, or those named), and prints what each takes, the dearest first.

It tries them as the gate does, one after the other, over what `rt check` kept of the crate. A line has the seconds of processor time, those of
the prover (`session`), those that it took to find out which answers it could offer (`offers`: some goal has no answer), and where the body was
refused. The first line is the crate as it is.
"""
import os
import re
import resource
import shutil
import subprocess
import sys
import tempfile

from crates import PARTS, below, libraries_of


def words_of(root, crate):
    """Returns the words of a check of the crate over the libraries that were built."""
    kit = os.path.dirname(subprocess.run(["rt", "doc"], stdout=subprocess.PIPE, text=True, check=True).stdout.strip())
    libraries = libraries_of(root)
    built = lambda it: f"{root}/crates/{it}/out/rlib"
    words = [f"{kit}/bin/rattle", "check", "--crate-name", crate]
    words += ["src/main.rt" if os.path.isfile(f"{root}/crates/{crate}/src/main.rt") else "src/lib.rt"]
    words += ["-L", f"dependency={kit}/rlibs", "--extern", f"std={kit}/rlibs/std.rlib"]
    for it in libraries[crate]:
        words += ["--extern", f"{it}={built(it)}/{it}.rlib" if it in libraries else f"{it}={kit}/rlibs/{it}.rlib"]
    for it in below(crate, libraries):
        words += ["-L", f"dependency={built(it)}"]
    return words + ["--antt-project", f"{kit}/rattle/logic/antt-project.json", "--logic-built", f"{kit}/logic_built", "--jobs", "1", "--links", f"{crate}="]


def apply(edit, room):
    """Writes the wrong body into the copy of the crate."""
    path = old = ""
    with open(edit, encoding="utf-8") as lines:
        for line in lines.read().splitlines():
            word, _, text = line.partition(": ")
            if word == "file":
                path = f"{room}/{text}"
            elif word == "old":
                old = text
            elif word.rstrip(":") == "new":
                with open(path, encoding="utf-8") as it:
                    body = it.read()
                if body.count(old) != 1:
                    sys.exit(f"{edit}: its old text stands {body.count(old)} times in {path}")
                with open(path, "w", encoding="utf-8") as it:
                    it.write(body.replace(old, text))


def link_or_copy(one, other):
    """Gives a checked module, which a check replaces and never writes into, a second name, and copies any other file."""
    (os.link if one.endswith(".oantt") else shutil.copy2)(one, other)


def seconds():
    used = resource.getrusage(resource.RUSAGE_CHILDREN)
    return used.ru_utime + used.ru_stime


def tried(folder, words, edit):
    """Tries the wrong body, or the crate as it is, and returns what that took and what came of it."""
    with tempfile.TemporaryDirectory(prefix="dear-edits-", dir=f"{folder}/out") as room:
        for part in filter(lambda it: os.path.isdir(f"{folder}/{it}"), PARTS):
            shutil.copytree(f"{folder}/{part}", f"{room}/{part}")
        if edit:
            apply(edit, room)
        shutil.copytree(f"{folder}/out/incremental", f"{room}/kept", copy_function=link_or_copy)
        begun = seconds()
        ran = subprocess.run([*words, "--incremental", f"{room}/kept", "--stage-times", f"{room}/times"], cwd=room, text=True, errors="replace",
                             stdin=subprocess.DEVNULL, stdout=subprocess.PIPE, stderr=subprocess.STDOUT)
        took = seconds() - begun
        with open(f"{room}/times", encoding="utf-8") as lines:
            stages = {it.split()[1]: float(it.split()[2]) for it in lines if it.startswith("stage ")}
    told = [it for it in ran.stdout.splitlines() if re.match(r"(note: )?\S+:\d+:\d+:.*(error|not proved)", it)]
    end = "proved" if ran.returncode == 0 else told[0][:140] if told else ran.stdout.strip().splitlines()[-1][:140]
    return took, f"{took:6.1f} s, session {stages.get('session', 0):5.1f}, offers {stages.get('offers', 0):5.1f}  {os.path.basename(edit) or 'as it is'}: {end}"


def main():
    if len(sys.argv) < 2:
        sys.exit(__doc__)
    root = os.path.dirname(os.path.dirname(os.path.abspath(__file__)))
    folder = f"{root}/crates/{sys.argv[1]}"
    names = sys.argv[2:] or sorted(it for it in os.listdir(f"{folder}/must-fail") if it.endswith(".edit"))
    if not os.path.isdir(f"{folder}/out/incremental"):
        sys.exit(f"nothing is kept of {sys.argv[1]}: run rt check in its folder first")
    words = words_of(root, sys.argv[1])
    print(tried(folder, words, "")[1])
    for _, line in sorted((tried(folder, words, f"{folder}/must-fail/{it}") for it in names), reverse=True):
        print(line)


if __name__ == "__main__":
    main()
