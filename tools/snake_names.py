#!/usr/bin/env python3
"""Brings this repository's own definitions and lemmas to snake case, and its own types to camel case.

usage: python3 tools/snake_names.py        at the top of the repository, once, right after the respelling of the language

A name of ours with a dash, as `row-slice`, becomes `row_slice`; a type of ours, as `Row-fits`, becomes `RowFits`. Names that
a file takes from the standard library or from generated modules keep their spelling. Edits and pages follow. It prints names
that would fall together and changes nothing then.
"""
import glob
import os
import re
import sys

WORD = r"[^\W\d][\w'′₀-₉]*(?:-[\w'′₀-₉]+)+"
TOKEN = re.compile(r"(?:(?<=[\w'′₀-₉)])(\.)|(?<![\w'′₀-₉-]))(" + WORD + r")(?![\w'′₀-₉-])")
OWN = re.compile(r"^Rattle\.(\w+)\.(specs|proofs)\.")
GENERATED = {"Tie", "Statement", "Lts", "Goals", "Given", "Met", "Wp", "declared", "contracts"}
TYPES = {
    "Row-fits": "RowFits", "Rows-fit": "RowsFit", "Stands-at": "StandsAt", "On-way": "OnWay", "Given-back": "GivenBack",
    "United-lists": "UnitedLists", "Same-end": "SameEnd", "Same-answers": "SameAnswers", "Any-order": "AnyOrder",
    "United-rows": "UnitedRows", "Handed-table": "HandedTable", "Handed-read": "HandedRead",
    "Handed-written": "HandedWritten",
    # words, not types: in small letters
    "A-and-B": "a_and_b", "D-here": "d_here", "D-above": "d_above",
}


def turned(name):
    return TYPES.get(name, name.replace("-", "_"))


def crates():
    return {os.path.basename(os.path.dirname(p)) for p in glob.glob("crates/*/src")}


def files(ending):
    return sorted(p for p in glob.glob("crates/**/*" + ending, recursive=True) if "/out/" not in p)


def walked(path):
    """A proof that walks a function: its own labels are generated names."""
    return os.path.basename(path) == "Proof.antt"


def cut(line, rust):
    """A line's code and its comment."""
    i, n, inside = 0, len(line), False
    while i < n:
        ch = line[i]
        if inside:
            if ch == "\\":
                i += 1
            elif ch == '"':
                inside = False
        elif ch == '"':
            inside = True
        elif rust and line.startswith("//", i):
            return line[:i], line[i:]
        elif not rust and line.startswith("--", i) and (i == 0 or line[i - 1] == " "):
            return line[:i], line[i:]
        i += 1
    return line, ""


def spans(code):
    """The parts of a line of code outside of strings, with whether they are inside one."""
    out, at = [], 0
    for m in re.finditer(r'"(?:\\.|[^"\\])*"', code):
        out += [(code[at:m.start()], False), (m.group(), True)]
        at = m.end()
    return out + [(code[at:], False)]


def foreign(text, own):
    """The names that a file imports from elsewhere, its aliases of modules elsewhere, and the names imported from ours."""
    names, aliases, ours = set(), set(), set()
    for m in re.finditer(r"(?:^|\n)(?:pub )?(?:ghost )?use ([^\s;{]+?)(?:\.\{([^}]*)\})?(?: as ([\w'-]+))?;?(?=\n|$)", text):
        path, listed, alias = m.group(1), m.group(2), m.group(3)
        o = OWN.match(path + ".")
        is_own = bool(o) and o.group(1) in own and not (set(path.split(".")[4 if ".proofs." in path else 3:]) & GENERATED)
        for name in re.split(r",\s*", listed or ""):
            name = name.split(" as ")[0].strip()
            (ours if is_own else names).add(name)
        if alias and not is_own:
            aliases.add(alias)
    return names, aliases, ours


def main():
    own = crates()
    texts = {p: open(p, encoding="utf-8").read() for p in files(".antt") + files(".rt")}
    looks = {p: foreign(t, own) for p, t in texts.items()}
    declared, kept = set(), set()
    for p, t in texts.items():
        if p.endswith(".rt") or walked(p):
            continue
        names = looks[p][0]
        for line in t.split("\n"):
            code, _ = cut(line, False)
            for part, inside in spans(code):
                if inside:
                    continue
                for m in TOKEN.finditer(part):
                    if not m.group(1) and m.group(2) not in names:
                        declared.add(m.group(2))
    for p, t in texts.items():
        kept |= set(re.findall(r"[^\W\d][\w'′₀-₉]*", "\n".join(cut(l, p.endswith(".rt"))[0] for l in t.split("\n"))))
    new = {}
    for d in sorted(declared):
        new.setdefault(turned(d), []).append(d)
    bad = [(n, ds) for n, ds in new.items() if len(ds) > 1]
    fall = sorted(n for n in new if n in kept)
    if bad:
        print("these would fall together:", bad)
        return 1
    print(len(declared), "names; already in use somewhere, look at them:", ", ".join(fall))

    def turn_code(p, code):
        names, aliases, ours = looks[p]
        out = []
        for part, inside in spans(code):
            if inside:
                out.append(part)
                continue

            def one(m):
                dot, name = m.group(1), m.group(2)
                if name not in declared or name in names:
                    return m.group()
                if dot:
                    before = re.search(r"([\w'-]+)$", part[:m.start()])
                    if before and (before.group(1) in aliases or before.group(1) in names):
                        return m.group()
                elif walked(p) and name not in ours and not re.search(r"(?m)^ *(abbrev |unfoldable )?" + re.escape(name) + r" : (?!tie\.)", texts[p]):
                    return m.group()
                return (dot or "") + turned(name)

            out.append(TOKEN.sub(one, part))
        return "".join(out)

    def turn_ticks(text):
        return re.sub(r"`[^`\n]*`", lambda m: TOKEN.sub(lambda k: (k.group(1) or "") + turned(k.group(2)) if k.group(2) in declared else k.group(), m.group()), text)

    changed = 0
    for p, t in texts.items():
        rust = p.endswith(".rt")
        lines = []
        for line in t.split("\n"):
            code, comment = cut(line, rust)
            if not rust or "ghost use" in code or TOKEN.search(code):
                code = turn_code(p, code)
            lines.append(code + turn_ticks(comment))
        n = "\n".join(lines)
        if n != t:
            changed += 1
            open(p, "w", encoding="utf-8").write(n)
    for p in files(".edit"):
        t = open(p, encoding="utf-8").read()
        n = "\n".join(
            TOKEN.sub(lambda k: (k.group(1) or "") + turned(k.group(2)) if k.group(2) in declared else k.group(), l) if l.startswith(("old:", "new:")) else l
            for l in t.split("\n"))
        if n != t:
            changed += 1
            open(p, "w", encoding="utf-8").write(n)
    for p in ["README.md"] + sorted(glob.glob("docs/**/*.md", recursive=True)):
        t = open(p, encoding="utf-8").read()
        n = turn_ticks(t)
        if n != t:
            changed += 1
            open(p, "w", encoding="utf-8").write(n)
    print(changed, "files changed")
    return 0


if __name__ == "__main__":
    sys.exit(main())
