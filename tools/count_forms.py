#!/usr/bin/env python3
"""Count the places of docs/DESIGN-PASS.md in crates/*/src: count_forms.py [COMMIT] [-v]

Without a commit the files as they lie; -v names each place."""
import collections
import re
import subprocess
import sys


def files(commit):
    """The .rt files of crates/, and the proofs' Answers, as (path, text)."""
    if commit:
        names = subprocess.run(["git", "ls-tree", "-r", "--name-only", commit, "crates"], capture_output=True, text=True)
    else:
        names = subprocess.run(["git", "ls-files", "-co", "--exclude-standard", "crates"], capture_output=True, text=True)
    for path in names.stdout.split():
        if re.search(r"/src/.*\.rt$|/proofs/.*(Answers|Invariants)\.antt$", path):
            if commit:
                text = subprocess.run(["git", "show", f"{commit}:{path}"], capture_output=True, text=True).stdout
            else:
                text = open(path).read()
            yield path, text


def functions(text):
    """(line, name, head, body) of each function of a source."""
    for m in re.finditer(r"^ *(?:pub )?(?:extern \"C\" )?fn (\w+)", text, re.M):
        body = re.compile(r"^ *\{\n|\) (?:-> [^{\n]*)?\{\n|\) \{\n", re.M).search(text, m.start())
        if not body:
            continue
        depth, i = 0, text.index("{", body.end() - 2) if text[body.end() - 2] == "{" else body.end() - 2
        start = i
        while i < len(text):
            depth += {"{": 1, "}": -1}.get(text[i], 0)
            i += 1
            if depth == 0:
                break
        yield text.count("\n", 0, m.start()) + 1, m.group(1), text[m.start():start], text[start:i]


def shape(body):
    """A body with names, numbers and types by their order of appearance."""
    seen = {}
    words = {"let", "mut", "if", "else", "return", "for", "while", "in", "match", "true", "false", "as", "self", "len"}
    return re.sub(r"\b\w+\b", lambda m: m.group() if m.group() in words else seen.setdefault(m.group(), f"_{len(seen)}"),
                  re.sub(r"//.*", "", body))


def parts(clause):
    """The facts of a requires, by their first word."""
    return [w for w in re.findall(r"(?:^|× *|\{ *)\(?([A-Z]\w+)", clause)]


def main():
    args = [a for a in sys.argv[1:] if a != "-v"]
    verbose = "-v" in sys.argv
    found = collections.defaultdict(list)
    shapes, facts, groups = collections.defaultdict(list), collections.defaultdict(list), collections.defaultdict(list)
    for path, text in files(args[0] if args else None):
        crate = path.split("/")[1]
        if path.endswith(".antt"):
            if path.endswith("Answers.antt"):
                found["8 answers to goals"] += [f"{path}: {n}" for n in re.findall(r"^pub ([\w-]+) : goal\.", text, re.M)]
            continue
        for m in re.finditer(r"^(?:pub )?enum (\w+) \{(.*?)^\}", text, re.M | re.S):
            if m.group(1) != "Refusal" and re.search(r"^    (Refused|Bad|Full|Open|Nothing|Missing|Pass|Free|Clash)\b", m.group(2), re.M):
                found["1 own enums of the shape of Option or Result"].append(f"{path}: {m.group(1)}")
        for n, line in enumerate(text.split("\n"), 1):
            at = f"{path}:{n}: {line.strip()}"
            code = line.split("//")[0]
            if re.match(r"^    (pub )?\w+: bool,", line):
                found["1 flags with a value beside them"].append(at)
            if re.search(r"\b(code|p0): usize\b|fn (agree|taken|root)\([^)]*p: usize", code):
                found["1 productions as a number with 0 for none (parameters, fields)"].append(at)
            if re.search(r"(==|!=) 65535\b|\(65535\)|\[65535u16|(==|!=) NO_\w+|\bNO_\w+;|= NO_\w+;|\(NO_\w+\)", code) and "ghost" not in line:
                found["1 markers for none in arrays"].append(at)
            if re.search(r"^ *if call == \d", code) or crate == "exports" and re.search(r"^ *return \d;", code):
                found["1 numbers for kinds or refusals"].append(at)
            if re.match(r"^ *(while|loop)\b", code):
                found["3 loops that count by hand"].append(at)
            if re.search(r"\bfn (is_same|begins|is_part|is_blank|copy_front|keep|larger|both|wide|at|mode|number|mode_of)\b", code):
                found["4 equality, copying, conversion by hand"].append(at)
            if re.search(r"\[0(i32|u8|u16|usize); \d+\]", code) and crate in ("parts", "cases", "replay", "tabtexts", "tabrep", "report"):
                found["6 fixed buffers of programs"].append(at)
        for line, name, head, body in functions(text):
            at = f"{path}:{line}: {name}"
            if body.count("\n") > 2:
                shapes[shape(body)].append(at)
            clause = re.search(r"requires (.*?)(?=\n *ensures|\Z)", head, re.S)
            for fact in set(parts(clause.group(1))) if clause else ():
                facts[fact].append(at)
            params = re.findall(r"(\w+): (&mut \[\w+\]|&\[\w+(?:; \d+)?\]|&mut \[\w+; \d+\]|\w+)", head.split("requires")[0].split("ensures")[0])
            names = {f"{a}: {b}" for a, b in params}
            for group in (("prod0: i32", "k: usize", "rows: &[i32]"), ("buf: &mut [i32]", "lo: usize", "n: usize"),
                          ("into: &[u16; 1024]", "rows: &[i32]"), ("productions: &[i32]", "counts: &[usize]"),
                          ("tokens: &[u16]", "lengths: &[usize]", "production: i32"), ("out: &mut [u8]", "at: usize"),
                          ("a: &mut [i32]", "b: &mut [i32]", "work: &mut [i32]")):
                if set(group) <= names:
                    groups[", ".join(group)].append(at)
            if len(re.findall(r"^ *if \w+ == [^{]*\{\n *return", body, re.M)) > 2:
                found["7 ladders that choose a step"].append(at)
    for alike in shapes.values():
        if len(alike) > 1:
            found["2 functions of one shape"].append(" = ".join(alike))
    for fact, ats in facts.items():
        if len(ats) > 2:
            found["5 facts that three or more functions ask"].append(f"{fact}: {len(ats)} functions")
    for group, ats in groups.items():
        if len(ats) > 2:
            found["5 parameters that travel together, in three or more functions"].append(f"({group}): {len(ats)} functions")
    for point in sorted(found):
        print(f"{len(found[point]):5}  {point}")
        if verbose:
            print("".join(f"       {place}\n" for place in found[point]), end="")


main()
