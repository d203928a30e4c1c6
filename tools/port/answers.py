#!/usr/bin/env python3
"""Turns a crate's old proofs that walk a function's goals (proofs/F/Proof.antt over F's `Tie`) into Invariants.antt and Answers.antt.

usage: python3 tools/port/answers.py crates/NAME [F ..]

It asks `rt check --generated --old-names` for each goal's old and new name and each step's old and new name, so the crates below
NAME have to be proved. What was answered by the plain search is left out: the check tries that by itself. What could not be turned is
printed; the old file stands in the history.
"""
import json
import os
import re
import subprocess
import sys
import tempfile

TURNED = {"fields_fit": "in_range", "answer_found": "answer_to", "words_found": "words_after", "no_arrangement_made": "no_arrangement", "no_notice_sent": "no_notice", "service_found": "service_by"}
IDENT = r"[A-Za-zα-ωΑ-Ω_][\w'₀-₉κμ-]*"


def names_of(crate):
    folder = tempfile.mkdtemp(prefix="names-")
    r = subprocess.run(["rt", "check", "--generated", folder, "--old-names"], cwd=crate, stdout=subprocess.PIPE, stderr=subprocess.STDOUT, text=True)
    path = os.path.join(folder, "names.json")
    if not os.path.exists(path):
        sys.exit(r.stdout)
    with open(path, encoding="utf-8") as f:
        return json.load(f)


def norm(name):
    name = name.replace("-", "_")
    return re.sub(r"^overflow_", "", name)


class Decl:
    def __init__(self, lines):
        self.text = "\n".join(lines)
        m = re.match(r"((?:(?:abbrev|pub|unfoldable)\s+)*)(\S+)\s*:\s*(.*)", lines[0])
        self.head = m
        self.name = m.group(2) if m else None
        self.prefix = m.group(1) if m else ""
        # the type may go over lines, up to the first line that begins with the name or `unfolding`
        k = 1
        while k < len(lines) and self.name and not re.match(re.escape(self.name) + r"(\s|$)|unfolding ", lines[k]):
            k += 1
        self.type = "\n".join(lines[:k])
        self.type = self.type[m.end(2):].lstrip().lstrip(":").strip() if m else ""
        self.unfolding = ""
        if k < len(lines) and lines[k].startswith("unfolding "):
            self.unfolding = lines[k]
            k += 1
        self.body = "\n".join(lines[k:])


def blocks(text):
    """Head lines (use, comments before), then declarations: each begins at the margin with NAME : TYPE."""
    out, cur, comments = [], None, []
    uses = []
    text = re.sub(r"(?m)^use [^{\n]*\{[^}]*\}", lambda m: re.sub(r",? *\}$", "}", re.sub(r"\s+", " ", m.group(0)).replace("{ ", "{")), text)
    for line in text.rstrip("\n").split("\n"):
        if line.startswith("use ") or line.startswith("pub use "):
            uses.append(line)
            continue
        m = re.match(r"((?:abbrev|pub|unfoldable)\s+)*(" + IDENT + r")\s*:(?!:)", line)
        if m and not line.startswith(" "):
            cur = [line]
            out.append((comments, cur))
            comments = []
        elif line.startswith("--"):
            comments.append(line)
            cur = None
        elif line.strip() == "":
            if cur is not None:
                cur.append(line)
        elif line.startswith("module ") or line.startswith("ruleset "):
            cur = [line]
            out.append((comments, cur))
            comments = []
        else:
            if cur is None:
                cur = []
                out.append((comments, cur))
                comments = []
            cur.append(line)
    res = []
    for com, ls in out:
        while ls and ls[-1].strip() == "":
            ls.pop()
        if ls:
            d = Decl(ls)
            d.comments = com
            res.append(d)
    return uses, res


def spec_args(text):
    """The arguments of `tie.spec` in the closing declaration."""
    m = re.search(r"tie\.spec\b", text)
    if not m:
        return None
    s, out, depth, cur = text[m.end():], [], 0, ""
    for ch in s:
        if ch in "([{":
            depth += 1
        if ch in ")]}":
            depth -= 1
            if depth < 0:
                break
        if depth == 0 and ch.isspace():
            if cur:
                out.append(cur)
            cur = ""
        else:
            cur += ch
    if cur:
        out.append(cur)
    return [re.sub(r"\s+", " ", a) for a in out]


class Turn:
    def __init__(self, folder, info):
        self.folder, self.info = folder, info
        self.own = own_requires(folder)
        self.said = []
        self.steps = {}
        self.places = {}
        self.arms = {}
        self.callees = {}
        for (name, parent, (old, new), callee, rest), newname in zip(info["places"], info["places_by_name"]):
            if old:
                self.steps.setdefault(norm2(old), new)
                if callee:
                    self.callees[new] = callee
                key = re.search(r"(keys\d+|rest)$", name)
                if key:
                    self.arms[norm2(old), key.group(1)] = new
            self.places[norm2(name)] = newname
        self.loops = {old: (new, vars_, flags) for ((old, new), vars_), flags in zip(info["loops"], info["changed"])}
        for old, (new, _, _) in self.loops.items():
            self.steps[norm2(old)] = new
            self.steps[norm2(old) + "_test"] = new + "-test"

    def say(self, text):
        self.said.append(f"{self.folder}: {text}")

    def step_of(self, name):
        """A step that is named after a function of which a lemma has the name, which the respelling took for the lemma."""
        if name in self.steps:
            return name
        for word in (re.sub(r"_lem$", "", name), TURNED.get(name, name), name.lower()):
            if word in self.steps:
                return word
        return name

    def path(self, root, parts):
        parts = [p for p in parts if p != "before"]
        if parts:
            first = self.step_of(norm2(parts[0]))
            new = self.steps.get(first)
            if len(parts) > 1 and (first, parts[1]) in self.arms:
                parts = [self.arms[first, parts[1]], "is"] + parts[2:]
            elif new:
                parts = [new] + parts[1:]
                if new.startswith("in-") and parts[1:3] == ["given", "1"]:
                    parts[1:3] = ["is"]
            elif parts[0] not in ("args", "requires", "ranges", "type_inv", "fn"):
                self.say(f"no step {parts[0]}")
        if len(parts) > 2 and parts[1] == "new" and parts[2].isdigit() and parts[0] in self.callees:
            parts[2] = self.info["params"][self.callees[parts[0]]][int(parts[2])]
        if len(parts) > 2 and parts[1] == "auto" and parts[2].isdigit() and parts[0] in self.callees:
            parts[2] = self.info["params"][self.callees[parts[0]]][int(parts[2])]
        s = root + "".join("." + p for p in parts)
        # an element of a slice of numbers fits
        s = re.sub(r"^(\w+)\.(shared_slice_known[\w-]*)\.given$", lambda m: self.typed(m), s)
        return s

    def typed(self, m):
        for pl, place in zip(self.info["typed"], self.info["places"]):
            for var, step in pl:
                if self.steps.get(norm2(step)) == m.group(2):
                    return f"{m.group(1)}.type_inv.{var}"
        return m.group(0)

    def body(self, text, roots=("c",)):
        env = {r: r for r in roots}

        def resolve(m):
            root, parts = m.group(1), m.group(2).split(".")[1:]
            if root in env:
                return self.path(env[root], parts)
            if "before" in parts:
                self.say(f"{root} walks back: {m.group(0)}")
            return m.group(0)

        out = []
        pos = 0
        let = re.compile(r"let (" + IDENT + r") = (" + IDENT + r")((?:\.[\w'«»-]+)*) in[ \n]?")
        use = re.compile(r"(?<![\w'.«-])(" + IDENT + r")((?:\.[\w'«»-]+)+|(?![\w'-]))")
        for line in text.split("\n"):
            m = let.match(line.strip() + "\n") if line.strip().startswith("let ") else None
            if m and m.group(2) in env and line.strip().endswith("in"):
                parts = [p for p in m.group(3).split(".")[1:] if p != "before"]
                if not parts:
                    env[m.group(1)] = env[m.group(2)]
                    continue
                out.append(line[: len(line) - len(line.lstrip())] + f"let {m.group(1)} = {self.path(env[m.group(2)], parts)} in")
                env.pop(m.group(1), None)
                continue
            new = use.sub(resolve, line)
            lm = re.match(r"\s*let (" + IDENT + r")\b", line)
            if lm and lm.group(1) != "c":
                env.pop(lm.group(1), None)
            out.append(new)
        text = "\n".join(out)
        for name, step in re.findall(r"let (" + IDENT + r") = c\.([\w-]+) in", text):
            if step in self.callees:
                ps = self.info["params"][self.callees[step]]
                text = re.sub(r"(?<![\w'.])" + re.escape(name) + r"\.(new|auto)\.(\d+)(?!\w)", lambda m: f"{name}.{m.group(1)}.{ps[int(m.group(2))]}", text)
        text = self.clauses(text)
        # the test of `!x` speaks of x itself
        text = re.sub(r"not-(true|false) _ ", "", text)
        text = re.sub(r"record \{ fits = (.*) \}$", r"\1", text, flags=re.S)
        return text

    def clauses(self, text):
        """The function's own requires, where it has several: by name, and not by place."""
        names = self.own
        for k in reversed(range(len(names))):
            at = r"\.1" * k + (r"\.0" if k + 1 < len(names) else "")
            text = re.sub(r"(?<=\bc\.requires)" + at + r"(?!\w)", "." + names[k], text)
        return text

    def invariant(self, d):
        m = re.match(re.escape(d.name) + r"((?:\s+[^\s=]+)*)\s*=\s*(.*)", d.body, re.S)
        params, body = m.group(1).split(), m.group(2)
        old = re.sub(r"^(invariant|decreases)-", "", re.search(r"tie\.((?:invariant|decreases)-\S+)", d.type).group(1))
        kind = re.search(r"tie\.(invariant|decreases)-", d.type).group(1)
        if old not in self.loops:
            self.say(f"no loop {old}")
            return None
        new, vars_, flags = self.loops[old]
        firsts = [f"l.initial.{v}" if ch else f"l.{v}" for v, ch in zip(vars_, flags)]
        lasts = [f"l.{v}" for v, ch in zip(vars_, flags) if ch]
        want = firsts + lasts
        if len(params) != len(want):
            self.say(f"{d.name}: {len(params)} names for {len(want)}: {vars_} {flags}")
            return None
        to = dict(zip(params, want))
        body = re.sub(r"(?<![\w'.«-])(" + IDENT + r")(?![\w'₀-₉-])", lambda m: to.get(m.group(1), m.group(1)), body)
        name = f"{kind}-{new}"
        com = "".join(c + "\n" for c in d.comments)
        unf = d.unfolding + "\n" if d.unfolding else ""
        return f"{com}abbrev pub {name} : goal.{name}\n{unf}{name} l = {body}"


def own_requires(folder):
    crate, _, path = folder.partition("/proofs/")
    name = path.split("/")[-1]
    found = []
    for top, _, files in os.walk(os.path.join(crate, "src")):
        for f in files:
            with open(os.path.join(top, f), encoding="utf-8") as it:
                for m in re.finditer(r"\bfn " + re.escape(name) + r"\b[^{;]*?((?:\s*(?:requires|ensures)\b[^\n]*(?:\n(?!\{\n|\s*\}\n)[^\n]*)*)+)", it.read()):
                    names = re.findall(r"(?m)^\s*requires (\w+) \{", m.group(1))
                    if names:
                        found.append(names)
    return found[0] if found else []


def norm2(name):
    return name.replace("-", "_")


def turn(crate, key, info):
    path = key.split(".")[1:-1]
    folder = os.path.join(crate, "proofs", *path)
    proof = os.path.join(folder, "Proof.antt")
    if not os.path.exists(proof):
        return []
    with open(proof, encoding="utf-8") as f:
        text = f.read()
    if "Tie as tie" not in text:
        return [f"{folder}: walked by hand"]
    uses, decls = blocks(text)
    t = Turn(folder, info)
    library = re.search(r"use (Rattle\.\S+)\.Tie as tie", text).group(1)
    uses = [u for u in uses if ".Statement.{statement}" not in u and ".Tie as tie" not in u]
    closing = [d for d in decls if "tie.close" in d.text]
    rest = [d for d in decls if d not in closing]
    args = spec_args(closing[0].text) if closing else None
    if args is None:
        return [f"{folder}: no closing"]
    is_inv = {d.name for d in rest if re.match(r"tie\.(invariant|decreases)-", d.type)}
    args = [a for a in args if a not in is_inv]
    needs = info["needs"]
    by_norm = {}
    for old, new in needs:
        by_norm.setdefault(norm(old), new)
        by_norm.setdefault(norm(new), new)
    new_of = {}
    extra = []
    plain = re.compile(r"\(λ c( κs)?\. search rules\)$")
    if len(args) == len(needs):
        for a, (old, new) in zip(args, needs):
            if plain.match(a):
                continue
            if re.fullmatch(IDENT, a):
                if a in new_of:
                    extra.append((new, a))
                else:
                    new_of[a] = new
            else:
                extra.append((new, a))
    else:
        t.say(f"{len(args)} answers for {len(needs)} goals")
        for d in rest:
            m = re.match(r"tie\.Need-(\S+)", d.type)
            if m:
                new = by_norm.get(norm(m.group(1)))
                if new is None:
                    t.say(f"no goal {m.group(1)}: {sorted(by_norm)}")
                    new = "LOST-" + m.group(1)
                new_of[d.name] = new
        for a in args:
            if not plain.match(a) and not re.fullmatch(IDENT, a):
                t.say(f"an answer without a name: {a}")
    invs, answers, places, helpers = [], [], set(), []
    for d in rest:
        if d.name in is_inv:
            it = t.invariant(d)
            if it:
                invs.append(it)
            continue
        com = "".join(c + "\n" for c in d.comments)
        unf = d.unfolding + "\n" if d.unfolding else ""
        if d.name in new_of and re.match(r"tie\.Need-", d.type):
            new = new_of[d.name]
            m = re.match(re.escape(d.name) + r"((?:\s+[^\s=]+)*)\s*=(\s*)(.*)", d.body, re.S)
            params, gap, body = m.group(1).split(), m.group(2), m.group(3)
            params = [p for p in params if p != "κs"]
            if len(params) > 1:
                t.say(f"{d.name}: parameters {params}")
            body = t.body(("\n" if "\n" in gap else "") + (gap.replace("\n", "") if "\n" in gap else "") + body, tuple(params))
            if "in_default.is" in body:
                t.say(f"{new} is left to the check: it cites a `_` arm")
                continue
            answers.append((new, f"{com}pub {new} : goal.{new}\n{unf}{new} {' '.join(params)} ={'' if body.startswith(chr(10)) else ' '}{body}"))
        else:
            body = d.text
            here = []

            def place(m):
                here.append(t.places.get(norm2(m.group(1)), m.group(1)))
                return here[-1]

            body = re.sub(r"tie\.([\w'-]+)((?: invariant-[^\s)]+)+(?: decreases-[^\s)]+)+)?", place, body)
            if here:
                t.say(f"a helper over a place: {d.name}")
                body = t.body(body)
                places |= set(here)
                helpers.append((d.name, com + body))
            answers.append((None, com + body))
    for new, a in extra:
        m = re.match(r"\(λ (\w+)( κs)?\. (.*)\)$", a)
        if m:
            answers.append((new, f"pub {new} : goal.{new}\n{new} {m.group(1)} = {t.body(m.group(3), (m.group(1),))}"))
        else:
            answers.append((new, f"pub {new} : goal.{new}\n{new} = {a}"))
    # a helper over one place fits no other: what it says is put where it is cited
    for d in helpers:
        m = re.match(re.escape(d[0]) + r" (\w+) = (.*)$", d[1].split("\n", d[1].count("\n"))[-1])
        if not m:
            t.say(f"a helper over a place of several lines: {d[0]}")
            continue
        answers = [(n, a) for n, a in answers if a != d[1]]
        answers = [(n, re.sub(r"(?<![\w'.-])" + re.escape(d[0]) + r" c(?![\w'.-])", "(" + m.group(2) + ")", a)) for n, a in answers]
        places = set()
    # answers that cite one another go by their new names
    def recite(text):
        names = sorted(new_of, key=len, reverse=True)
        if not names:
            return text
        return re.sub(r"(?<![\w'.«-])(" + "|".join(map(re.escape, names)) + r")(?![\w'-])", lambda m: new_of[m.group(1)], text)

    os.makedirs(folder, exist_ok=True)
    if invs:
        with open(os.path.join(folder, "Invariants.antt"), "w", encoding="utf-8") as f:
            f.write(only(uses, "\n\n".join(invs)) + f"use {library}.Given as goal\n\n" + "\n\n".join(invs) + "\n")
    if answers:
        body = "\n\n".join(recite(a) if new is None else cite(a, new, recite) for new, a in answers)
        with open(os.path.join(folder, "Answers.antt"), "w", encoding="utf-8") as f:
            shown = f"use {library}.Goals.{{{', '.join(sorted(places))}}}\n" if places else ""
            f.write(only(uses, body) + f"use {library}.Goals as goal\n{shown}\n" + body + "\n")
    os.remove(proof)
    return t.said


def cite(text, new, recite):
    """The answer, with the others that it cites by their new names; its own head stays."""
    head, mark, rest = text.partition(f"pub {new} : goal.{new}\n")
    unfolding, own, rest = rest.partition(f"{new} ")
    return head + mark + unfolding + own + recite(rest)


def only(uses, body):
    """The use lines, each with the names that the text has."""
    out = []
    words = set(re.findall(r"[^\s(){},;.]+", body)) | set(re.findall(r"[\w'-]+", body))
    for u in uses:
        m = re.match(r"(use [^{]*\.\{)(.*)(\};?)$", u, re.S)
        if not m:
            out.append(u)
            continue
        names = [n.strip() for n in m.group(2).split(",") if n.strip()]
        keep = []
        for n in names:
            last = n.split(" as ")[-1]
            if "◌" in last:
                op = [p for p in last.split("◌") if p]
                if all(p in body for p in op):
                    keep.append(n)
            elif last in words:
                keep.append(n)
        if keep:
            out.append(m.group(1) + ", ".join(keep) + m.group(3))
    return "".join(u + "\n" for u in out)


def main():
    crate = sys.argv[1].rstrip("/")
    only_f = set(sys.argv[2:])
    said = []
    for key, info in names_of(crate).items():
        if not isinstance(info, dict) or "needs" not in info:
            continue
        f = "/".join(key.split(".")[1:-1])
        if only_f and f not in only_f:
            continue
        said += turn(crate, key, info)
    print("\n".join(said))


main()
