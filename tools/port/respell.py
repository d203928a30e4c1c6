#!/usr/bin/env python3
"""Respells the repository's own names of definitions and lemmas as today's Rattle has them: words in snake case.

usage: python3 tools/port/respell.py [FOLDER]     once, right after the kit's own script, at the top of the checkout

It goes through crates/ (.rt and .antt), the must-fail edits, and names between backticks in README.md and docs/. Which names are the
repository's own it reads from the files themselves: what a file of specs/ or proofs/ declares at the margin, and the fields of its records.
Names that a function's own proof alone declares (proofs/F/Proof.antt) stay: they are the goals' names, and Rattle makes those.
A lemma that would have a definition's name gets `_lem`. Functions, exported names, constants and strings are not touched.
"""
import collections
import os
import re
import sys

ROOT = sys.argv[1] if len(sys.argv) > 1 else "."

# Names that fall together with another one, or with a word of the library, and what they become.
BY_HAND = {
    "sumBy": "sum_over",
    "getD-in": "get_or_in",
    "held_in": "held_in_lem",
    "quiet_by": "quiet_by_lem",
    "record_of": "record_of_lem",
    "in-range": "fields_fit",
    "answer-to": "answer_found",
    "words-after": "words_found",
    "no-arrangement": "no_arrangement_made",
    "no-notice": "no_notice_sent",
    "service-by": "service_found",
    "movesDeposit": "moves_deposit",
    "makesItem": "makes_item",
    "dueOf": "due_of",
    "isAccount": "is_account",
}
# Names that a file gives a definition by `as`, in the capitals of a type, where the name itself serves today.
ALIASES = [
    ("collection/src/lib.rt", "within as Within", "within", "Within", "within"),
    ("rules/src/lib.rt", "within as Within", "within", "Within", "within"),
    ("text/src/lib.rt", "width as Width", "width", "Width", "width"),
    ("deposit/src/lib.rt", "concerns as Concerns", "concerns", "Concerns", "concerns"),
    ("account/src/ways.rt", "payment as Payment", "payment", "Payment", "payment"),
    ("book/src/lib.rt", "entries as Entries", "entries", "Entries", "entries"),
    ("book/src/lib.rt", "whole_records as Room", "whole_records", "Room", "whole_records"),
]
# Of the kit's words, those that its script turned in the sources, for the texts of the edits.
KIT_WORDS = {"getD": "get_or", "subℕ": "sub_ℕ"}
# Names that the kit's script turned already, for the edits and the documents: as they were declared before it.
TURNED = """addAt askedOf enteredIn firstOf itemAt lastOf lentAt lineOf linesFrom linesOf noItem numberOf openIn orElse roomFor rowOf
startOf stateOf sumOf textOf viewOf widthIn wordOf wordsOf inRange""".split()

DECLARED = re.compile(r"^(\s*)((?:(?:abbrev|pub|unfoldable)\s+)*)(?:record\s+|data\s+|module\s+|ruleset\s+)?([^\s:(){}]+)(?:\s[^:]*)?\s*:(?!:)\s")


def files(*ends):
    for folder, dirs, names in os.walk(os.path.join(ROOT, "crates")):
        dirs[:] = sorted(d for d in dirs if d not in ("out", ".git"))
        for name in sorted(names):
            if name.endswith(ends):
                yield os.path.join(folder, name)


def read(path):
    with open(path, encoding="utf-8") as f:
        return f.read()


def write(path, text):
    with open(path, "w", encoding="utf-8") as f:
        f.write(text)


def declared():
    own = set()
    for path in files(".antt"):
        goal_file = path.endswith("/Proof.antt")
        for line in read(path).split("\n"):
            it = DECLARED.match(line)
            if not it or line.lstrip().startswith(("use ", "--")):
                continue
            depth, name = len(it.group(1)), it.group(3)
            if not goal_file and (depth == 0 or depth <= 4):
                own.add(name)
    return own


def snake(name):
    name = re.sub(r"(?<=[a-z0-9])([A-Z])", lambda m: "_" + m.group(1).lower(), name)
    return name.replace("-", "_")


def table(own):
    """Old name to new name, of every name that changes."""
    camel = {n for n in own if re.match(r"[a-z][\w']*[A-Z]", n) and "-" not in n}
    dashed = {n for n in own if "-" in n and n[0].islower()}
    taken = {n for n in own if n not in camel and n not in dashed} - set(BY_HAND) | {snake(n) for n in camel if n not in BY_HAND}
    to = {n: snake(n) for n in camel}
    for n in dashed:
        to[n] = snake(n) + "_lem" if snake(n) in taken else snake(n)
    to.update(BY_HAND)
    seen = collections.defaultdict(set)
    for old, new in to.items():
        seen[new].add(old)
    for new, olds in seen.items():
        if len(olds) > 1 or new in own - set(to):
            print(f"falls together: {new}: {sorted(olds)}", file=sys.stderr)
    return to


def turner(to):
    names = sorted(to, key=len, reverse=True)
    every = re.compile(r"(?<![\w'′\"-])(" + "|".join(map(re.escape, names)) + r")(?![\w'′-])")
    camel = re.compile(r"(?<![\w'′-])(" + "|".join(re.escape(n) for n in names if "-" not in n) + r")(?![\w'′-])")

    def swap(pattern, text):
        return pattern.sub(lambda m: to[m.group(1)], text)

    def antt(line):
        if line.lstrip().startswith("--"):
            return re.sub(r"`[^`]*`", lambda m: swap(every, m.group(0)), swap(camel, line))
        parts = line.split('"')
        parts[::2] = [swap(every, p) for p in parts[::2]]
        return '"'.join(parts)

    return antt, (lambda line: swap(camel, line)), (lambda text: re.sub(r"`[^`\n]*`", lambda m: swap(every, m.group(0)), text))


def turn_edit(text, of_antt, of_rt):
    """The texts of a must-fail edit: the names, and what the kit's script does to a definition's spelling."""
    out = []
    antt = False
    for line in text.split("\n"):
        if line.startswith("file: "):
            antt = line.endswith(".antt")
        elif line.startswith(("old: ", "new: ")):
            if antt:
                line = line[:5] + tight(of_antt(line[5:]))
            else:
                line = line[:5] + of_rt(line[5:])
        out.append(line)
    return "\n".join(out)


def tight(text):
    """`(s .last)` is `s.last`, `f (a .paid) b` is `f a.paid b`, and a quoted field needs no quotes behind a dot."""
    for old, new in KIT_WORDS.items():
        text = re.sub(rf"(?<![\w'-]){old}(?![\w'-])", new, text)
    text = re.sub(r"\.«(\w+)»", r".\1", text)
    text = re.sub(r"«(\w+)»(?= =)", r"\1", text)
    text = re.sub(r" \.(?=[\w«])", ".", text)
    return re.sub(r"\(([\w']+(?:\.[\w']+)+)\)", r"\1", text)


def main():
    to = table(declared())
    of_antt, of_rt, of_docs = turner(to)
    for path in files(".antt"):
        text = read(path)
        new = "\n".join(of_antt(line) for line in text.split("\n"))
        if new != text:
            write(path, new)
    for path in files(".rt"):
        text = read(path)
        new = "\n".join(of_rt(line) for line in text.split("\n"))
        for tail, old, name, alias, use in ALIASES:
            if path.endswith("crates/" + tail):
                if old not in new:
                    print(f"no `{old}` in {path}", file=sys.stderr)
                new = new.replace(old, name)
                new = re.sub(rf"(?<![\w:]){alias}(?! [{{])(?!\w)", use, new)
        if new != text:
            write(path, new)
    for n in TURNED:
        to.setdefault(n, snake(n))
    of_antt, of_rt, of_docs = turner(to)
    for path in files(".edit"):
        text = read(path)
        new = turn_edit(text, of_antt, of_rt)
        if new != text:
            write(path, new)
    pages = [os.path.join(ROOT, "README.md")]
    for folder, _, names in os.walk(os.path.join(ROOT, "docs")):
        pages += [os.path.join(folder, n) for n in names if n.endswith(".md") and n != "PORT.md"]
    for path in pages:
        text = read(path)
        new = of_docs(text)
        if new != text:
            write(path, new)
    print(f"respell: {len(to)} names")


main()
