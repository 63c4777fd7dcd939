#!/usr/bin/env python3
"""tools/documents.py: checks what README.md and docs/*.md name against the tree.

Of each code span outside a block: a path or the name of a script must be a file or a folder (of the repository, of crates/, of a crate's
src/, specs/ or proofs/), and the flags behind a script must stand in it; a command of `rt` must be one; 'function: clause' must be a clause
of a function of that name; and a name of this project's kind (with a '_', a '::' or two capitals) must stand as a word in some source,
script or stored run. In the tables by crates of README.md and docs/CLAUSES.md it must stand in one of their crates. Links must lead to a
file and to a heading. Each crate of crates.txt must be named in README.md or docs/TESTS.md, and in docs/ARCHITECTURE.md. What is to be
short must be: documents, decisions, lines, and the sentences of README.md and docs/USE.md. Words that a reader stumbles over must not stand
in prose, nor in the comments of a crate's src/, specs/ and proofs/, where code spans don't count; and a comment there must not begin with
and, or, its, the same. The last table of docs/PROMISES.md must be what tools/closure.py prints. Ends with 1 where something doesn't hold."""
import os, re, subprocess, sys

ROOT = os.path.dirname(os.path.dirname(os.path.abspath(__file__)))
DOCUMENTS = ["README.md", *sorted(f"docs/{it}" for it in os.listdir(f"{ROOT}/docs") if it.endswith(".md"))]
SOURCES = (".rt", ".antt", ".sh", ".py", ".txt", ".toml", ".edit")
ENDS = ("", ".rt", ".antt")
MOST_LINES = {"README.md": 200, "docs/PROMISES.md": 250, "docs/GATE.md": 90, "docs/MEASURED.md": 120}
MOST_PROVED, MOST_DECISION, MOST_WIDE, MOST_WORDS = 40, 6, 160, 30
# What a reader stumbles over, and what says it plainly.
STUMBLES = {
    r"behind": "after",
    r"so many": "N",
    r"(?<!each )of which": "a sentence of its own",
    r"told": "reported, known",
    r"gone on with": "resumed",
    r"to be had": "available",
    r"in vain": "for nothing",
    r"hand(?:s|ed)? on": "pass on",
    r"want of memory": "out of memory",
}
STUMBLE = re.compile(r"\b(?:" + "|".join(STUMBLES) + r")\b", re.I)
# A comment on a line of its own, and one after code.
COMMENT, AFTER_CODE = re.compile(r"\s*(?://[/!]?|--(?: \|)?)(?:\s+(.*))?$"), re.compile(r"\s(?://|--) (.*)")
BEGINS = re.compile(r"(?:and|or|its|the same)\b", re.I)
# The promise in the words that are fixed.
HEADLINE = re.compile(r"^> (?:For every algorithm file|it had when the job began|finished; and an algorithm)")
OUTSIDE = {"toProg", "toErase"}  # fields of FlashOS.h
OF_RT = set("ci check try test run lib lemma fmt tidy expand plant seed verdict all must-fail new doc version help".split())
SCRIPT = r"[\w./-]+\.(?:sh|py|rt|antt)"


def read(path):
    with open(path, encoding="utf-8", errors="replace") as it:
        return it.read()


def files():
    for at, folders, names in os.walk(ROOT):
        folders[:] = [it for it in folders if it not in ("out", ".git", "unfinished")]
        for name in names:
            yield os.path.relpath(f"{at}/{name}", ROOT)


def fields_in(text):
    """The fields of the records of an .antt file."""
    return re.findall(r"^  pub ([\w'-]+) :", text, re.M)


def clauses_in(text):
    """(function, label) of each clause of a .rt file."""
    name = ""
    for line in text.split("\n"):
        if found := re.search(r"\bfn (\w+)", line):
            name = found[1]
        if found := re.match(r"\s*(?:requires|ensures) ?([\w-]*) \{", line):
            yield name, found[1]


FILES = sorted(files())
FOLDERS = {it[:k] for it in FILES for k, end in enumerate(it) if end == "/"}
CRATES = re.findall(r"^(\w+):", read(f"{ROOT}/crates.txt"), re.M)
COMMENTED = {}
WORDS, CLAUSES, FIELDS, FUNCTIONS, HEADS, WORDS_OF = set(), set(), set(), set(), {}, {it: set() for it in CRATES}
for path in FILES:
    if path.endswith(SOURCES) or path.endswith(("/stdout", "/args", "crates.txt")):
        body = read(f"{ROOT}/{path}")
        words = {*re.findall(r"[\w-]+", body), *re.findall(r"\w+", body)}
        WORDS.update(words)
        if path.endswith((".rt", ".antt")):
            COMMENTED[path] = body
            WORDS_OF.get(path.split("/")[1], set()).update(words)
        if path.endswith(".rt"):
            CLAUSES.update(clauses_in(body))
            FUNCTIONS.update(re.findall(r"\bfn (\w+)", body))
        if path.endswith(".antt"):
            FIELDS.update(fields_in(body))
    WORDS.update(re.split(r"[/.]", path))


def heads_of(path):
    """The anchors of a document's headings."""
    if path not in HEADS:
        heads = re.findall(r"^#+ (.*)$", read(f"{ROOT}/{path}"), re.M)
        HEADS[path] = {re.sub(r"[^\w -]", "", it).strip().lower().replace(" ", "-") for it in heads}
    return HEADS[path]


def is_path(span):
    """Whether it leads somewhere; NAME and its like stand for any name, and out/ is made by a check."""
    span = span.rstrip("/")
    if re.search(r"\b[A-Z]{3,}\b", span) or span.split("/")[0] in (".", "out"):
        return True
    if span in FOLDERS or any(span + end in FILES for end in ENDS):
        return True
    return any(it.endswith("/" + span + end) for it in FILES for end in ENDS) or any(("/" + it).endswith("/" + span) for it in FOLDERS)


def faults_of_command(words):
    """Of a command with words behind it: what `rt` is asked for, each script, and the flags that a script takes."""
    if words[0] == "rt" and words[1] not in OF_RT and not words[1].startswith("-"):
        yield f"no command rt {words[1]}"
    scripts = [it for it in words if re.fullmatch(SCRIPT, it)]
    yield from (f"no file {it}" for it in scripts if not is_path(it))
    texts = [read(f"{ROOT}/{path}") for it in scripts for path in FILES if ("/" + path).endswith("/" + it)]
    for flag in re.findall(r"(?<= )--[\w-]+", " ".join(words).split(" -- ")[0]) if texts and words[0] in ("bash", "python3") else ():
        if not any(flag in text for text in texts):
            yield f"no flag {flag} of {scripts[0]}"


def faults_of_span(span):
    if span == "function: clause":
        return []
    if found := re.fullmatch(r"([\w:]+): ([\w-]+(?:, [\w-]+)*)", span):
        function = found[1].split("::")[-1]
        return [f"no clause {function}: {it}" for it in found[2].split(", ") if not is_clause(function, it)]
    if re.fullmatch(r"[\w.-]+(/[\w.-]+)+/?", span) or re.fullmatch(SCRIPT, span):
        return [] if is_path(span) else [f"no file {span}"]
    if " " in span:
        return list(faults_of_command(span.split()))
    names = re.findall(r"[A-Za-z_][\w-]*(?:::[\w-]+)*", span) if re.fullmatch(r"[\w:()-]+", span) else []
    return [f"no word {part}" for it in names for part in it.split("::") if is_ours(it) and part not in WORDS]


def is_clause(function, label):
    """A clause of a function ('begin: ok'), a member of a trait or a record ('Bench: does'), or a field of the record that a clause is."""
    of_type = function[:1].isupper() and (label in FIELDS or any(it[1] == label for it in CLAUSES))
    of_record = function in WORDS and label in FIELDS
    return (function, label) in CLAUSES or of_type or of_record


def faults_of_labels(line):
    """Of the labels behind one, as in `begin: ok`, `stops`; a function may follow too."""
    for found in re.finditer(r"`([\w:]+): [\w-]+`((?:, `[\w-]+`)+)", line):
        function = found[1].split("::")[-1]
        for it in re.findall(r"`([\w-]+)`", found[2]):
            if not is_clause(function, it) and it not in FUNCTIONS and not (it[:1].isupper() and it in WORDS):
                yield f"no clause {function}: {it}"


def is_ours(name):
    return name not in OUTSIDE and ("::" in name or "_" in name.strip("_") or re.search(r"[a-z][A-Z]", name))


def faults_of_rows(path, column):
    """In tables by crates each name of a column stands in a crate of the row, or of the heading above the table."""
    crates = []
    for number, line in enumerate(read(f"{ROOT}/{path}").split("\n"), 1):
        cells = line.split("|")
        named = re.findall(r"`(\w+)`", line if line.startswith("**") else cells[1] if column == 3 and len(cells) == 5 else "")
        if line.startswith("#") or line.startswith("**") or named:
            crates = [it for it in named if it in CRATES]
        for it in re.findall(r"`([\w:]+)(?:: [\w, -]+)?`", cells[column]) if crates and len(cells) > column else ():
            if it.split("::")[-1] not in set().union(*(WORDS_OF[crate] for crate in crates)):
                yield f"{path}:{number}: no {it} in {' '.join(crates)}"


def faults_of_all():
    """What holds of the documents as a whole: their lengths, that each crate has its place, and what a reader unfolds."""
    texts = {path: read(f"{ROOT}/{path}") for path in DOCUMENTS}
    for path, most in MOST_LINES.items():
        if texts[path].count("\n") > most:
            yield f"{path}: {texts[path].count(chr(10))} lines, more than {most}"
    proved = texts["README.md"].split("\n## What is proved")[1].split("\n## ")[0].count("\n")
    if proved > MOST_PROVED:
        yield f"README.md: {proved} lines on what is proved, more than {MOST_PROVED}"
    for it in re.split(r"\n(?=- |\n|#)", texts["docs/DECISIONS.md"]):
        if it.startswith("- ") and it.count("\n") >= MOST_DECISION:
            yield f"docs/DECISIONS.md: more than {MOST_DECISION} lines: {it[:60].splitlines()[0]}"
    words = {path: set(re.findall(r"\w+", text)) for path, text in texts.items()}
    for crate in CRATES:
        if crate not in words["README.md"] | words["docs/TESTS.md"]:
            yield f"README.md: {crate} isn't named there or in docs/TESTS.md"
        if crate not in words["docs/ARCHITECTURE.md"]:
            yield f"docs/ARCHITECTURE.md: {crate} isn't named"
    told = subprocess.run([sys.executable, f"{ROOT}/tools/closure.py"], cwd=ROOT, capture_output=True, text=True).stdout.strip()
    if told not in texts["docs/PROMISES.md"]:
        yield "docs/PROMISES.md: its last table isn't what tools/closure.py prints"
    yield from faults_of_rows("README.md", 3)
    yield from faults_of_rows("docs/CLAUSES.md", 1)


def faults_of_line(path, line):
    """Of a line outside a block."""
    if len(line) > MOST_WIDE and not line.lstrip().startswith("|"):
        yield f"longer than {MOST_WIDE} characters"
    for span in re.findall(r"`([^`]+)`", line):
        if path != "docs/USE.md" or ": " not in span:
            yield from faults_of_span(span)
    yield from faults_of_labels(line)
    for to, anchor in re.findall(r"\]\(([^)#]*)(?:#([^)]*))?\)", line):
        target = os.path.relpath(f"{ROOT}/{os.path.dirname(path)}/{to}", ROOT) if to else path
        if not to.startswith("http") and (not os.path.exists(f"{ROOT}/{target}") or (anchor and anchor not in heads_of(target))):
            yield f"no place {to}#{anchor}"


def prose_of(line):
    """A line without its code and without where its links lead."""
    return re.sub(r"\]\([^)]*\)", "]", re.sub(r"`[^`]*`", "X", line))


def faults_of_words(line):
    """Of a line outside a block: the words that a reader stumbles over."""
    if not HEADLINE.match(line):
        for words, plain in STUMBLES.items():
            if found := re.search(rf"\b(?:{words})\b", prose_of(line), re.I):
                yield f"'{found[0]}': say {plain}"


def faults_of_comments(path, text):
    """Of a source: comments with words that a reader stumbles over, and those that begin in the middle of a sentence."""
    goes_on = False
    for number, line in enumerate(text.split("\n"), 1):
        alone = COMMENT.match(line)
        found = alone or AFTER_CODE.search(line)
        said = prose_of(found[1] or "") if found else ""
        if stumble := STUMBLE.search(said):
            yield f"{path}:{number}: a comment says '{stumble[0]}'"
        if alone and not goes_on and BEGINS.match(said):
            yield f"{path}:{number}: a comment begins with '{said[:20]}'"
        goes_on = bool(alone)


def paragraphs_of(text):
    """(line number, text) of each paragraph, item and cell of a table outside the blocks."""
    number, held, in_block = 0, "", False
    for at, line in enumerate([*text.split("\n"), ""], 1):
        in_block ^= line.startswith("```")
        begins = re.match(r"\||#|- |\d+\. |$|```|> ?$|!\[", line)
        if held and (begins or in_block):
            yield number, held
            held = ""
        if in_block or line.startswith(("```", "#", "![")):
            continue
        if line.startswith("|"):
            yield from ((at, cell) for cell in prose_of(line).strip("|").split("|"))
        elif line.strip(" >"):
            number, held = (number, f"{held} {line}") if held else (at, line)


def faults_of_sentences(path):
    """Of README.md and docs/USE.md: sentences that are too long to be read once."""
    for number, text in paragraphs_of(read(f"{ROOT}/{path}")) if path in ("README.md", "docs/USE.md") else ():
        for sentence in re.split(r"(?<=[.!?:;])\s+(?=[A-Z\[*])", prose_of(text)):
            words = len(re.findall(r"[\w'/-]+", sentence))
            if words > MOST_WORDS and not HEADLINE.match(text):
                yield f"{path}:{number}: a sentence of {words} words, more than {MOST_WORDS}: {sentence.strip()[:60]}"


def faults_of_document(path):
    in_block = False
    for number, line in enumerate(read(f"{ROOT}/{path}").split("\n"), 1):
        if line.startswith("```"):
            in_block = not in_block
        elif not in_block:
            yield from (f"{path}:{number}: {it}" for it in [*faults_of_line(path, line), *faults_of_words(line)])
        elif line.startswith("rt "):
            yield from (f"{path}:{number}: {it}" for it in faults_of_command(line.split()))


def main():
    found = [*faults_of_all(), *(it for path in DOCUMENTS for it in [*faults_of_document(path), *faults_of_sentences(path)])]
    found += [it for path, text in COMMENTED.items() if path.split("/")[2] in ("src", "specs", "proofs") for it in faults_of_comments(path, text)]
    print("\n".join([*found, f"{len(found)} wrong"]))
    return 1 if found else 0


sys.exit(main())
