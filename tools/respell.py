#!/usr/bin/env python3
"""Spells the names of this repository's definitions, lemmas, constructors, fields and variables as today's Rattle does: words in snake case,
types and modules in camel case. Run once, right after the port's own script, at the top of the repository; docs/PORT.md says at which commit.

usage: python3 tools/respell.py            rewrites crates/, and the names in backquotes of README.md and docs/
       python3 tools/respell.py --list     prints the names, old and new, and those that would fall together

Names that the libraries declare, names of the code, and texts between double quotes stay. A lemma that would have the name of a definition
gets `_lem` behind it.
"""

import collections
import glob
import os
import re
import sys

ID = r"[^\s(){}\[\];,.:=«»\"`|]+"
HEAD = re.compile(r"^\s*(?:(?:abbrev|unfoldable|pub|data|record)\s+)*(" + ID + r")\s*((?:[({].*)?):\s")
ACRONYMS = {"NoUS": "NoUs"}
# where the older library's words stood, in edits that name them whole
LIBRARY = ("mathlib.Core.Bool.", "mathlib.Core.List.", "mathlib.Core.Path.", "lib.Dec.", "lib.ListN.", "Prim.Native.Nat.")
# lemmas that would have the name of a field or a definition of the same file
BESIDE_A_FIELD = {n: snake_ + "_lem" for n, snake_ in (("few-rows", "few_rows"), ("too_many", "too_many"), ("only-first", "only_first"), ("no-rest", "no_rest"), ("in_place", "in_place"))}


def snake(name):
    name = re.sub(r"([A-Z]+)([A-Z][a-z])", r"\1_\2", name.replace("-", "_"))
    return re.sub(r"([a-z0-9])([A-Z])", r"\1_\2", name).lower()


def antt_files():
    return sorted(glob.glob("crates/*/specs/**/*.antt", recursive=True) + glob.glob("crates/*/proofs/**/*.antt", recursive=True))


def own_crates():
    return sorted(os.path.basename(os.path.dirname(d)) for d in glob.glob("crates/*/src"))


def code_lines(path):
    with open(path, encoding="utf-8") as f:
        for line in f:
            if not line.strip().startswith("--"):
                yield line.rstrip("\n")


def gather():
    """What is bound: definitions (constructors and fields too), lemmas, other names; and what the libraries declare."""
    own = own_crates()
    defined, lemmas, other, outside = set(), set(), set(), set()
    for path in antt_files():
        if path.endswith("/Proof.antt"):
            continue
        for line in code_lines(path):
            m = re.match(r"use ([^{]*)\.\{(.*)\}", line)
            if m:
                if not any(m.group(1).startswith(f"Rattle.{c}.") for c in own):
                    outside |= set(re.findall(ID, m.group(2)))
                continue
            m = re.match(r"use .* as (" + ID + r")\s*$", line)
            if m:
                other.add(m.group(1))
                continue
            m = HEAD.match(line)
            if m and m.group(1) != "let":
                kind = defined if re.match(r"\s*(abbrev|unfoldable|pub data|pub record|data|record)", line) else lemmas
                kind.add(m.group(1))
            # constructors and fields
            m = re.match(r"^  (?:pub )?((?:" + ID + r" )+): ", line)
            if m and "-" not in m.group(1):
                defined |= set(m.group(1).split()) - {"pub"}
            for t in re.findall(ID, re.sub(r'"[^"]*"', "", line)):
                t = t.lstrip("λ")
                if re.match(r"[a-z]", t) and (re.search(r"[a-z0-9][A-Z]", t) or "-" in t):
                    other.add(t)
    return defined - lemmas, lemmas, other - defined - lemmas, outside


def mapping():
    """The new names, and those that a lemma and a definition would share: the lemma's gets `_lem`."""
    defined, lemmas, other, outside = gather()
    new, together = {}, []
    for n in sorted(n for n in defined | other if n not in outside):
        to = ACRONYMS.get(n, n) if n[0].isupper() else snake(n)
        if to != n and re.match(r"[A-Za-z]", n):
            new[n] = to
    taken = {new.get(n, n): n for n in defined}
    for n in sorted(n for n in lemmas if n not in outside and re.match(r"[a-z]", n)):
        to = snake(n)
        if to in taken:
            together.append((n, to, taken[to]))
            to += "_lem"
        if to != n:
            new[n] = to
    new.update(BESIDE_A_FIELD)
    return new, together


def clashes(new):
    """Names of one file that would fall together."""
    for path in antt_files():
        if path.endswith("/Proof.antt"):
            continue
        seen = collections.defaultdict(set)
        for line in code_lines(path):
            for t in re.findall(ID, re.sub(r'"[^"]*"', "", line)):
                t = t.lstrip("λ")
                seen[new.get(t, t)].add(t)
        for to, olds in seen.items():
            if len(olds) > 1:
                yield path, to, sorted(olds)


def respell_code(text, new):
    return re.sub(ID, lambda m: turn(m.group(0), new), text)


def turn(token, new):
    lead = ""
    while token[:1] == "λ":
        lead, token = lead + "λ", token[1:]
    return lead + new.get(token, token)


def respell_line(line, new, comment):
    """Code is respelled token by token, comments between backquotes alone, texts not at all."""
    out = []
    for part in re.split(r'("(?:[^"\\]|\\.)*")', line):
        if part.startswith('"'):
            out.append(part)
            continue
        at = part.find(comment)
        code, rest = (part, "") if at < 0 else (part[:at], part[at:])
        out.append(respell_code(code, new) + respell_quoted(rest, new))
    return "".join(out)


def respell_quoted(text, new):
    return re.sub(r"`[^`\n]*`", lambda m: respell_code(m.group(0), new), text)


def respell_edit(line, new):
    """The port's own script turns no edit: what it turned in the text that an edit is of is turned here."""
    if not re.match(r"(old|new): ", line):
        return line
    line = line.replace("\u2032", "'")
    line = re.sub(r"\((\w+) \.(\w+)\)", r"\1.\2", line)
    line = re.sub(r"(?<=[\w)]) \.(\w+)", r".\1", line)
    line = re.sub(r"\bgetD\b", "get_or", line)
    for old in LIBRARY:
        line = re.sub(re.escape(old) + r"(\w+)", r"Rattle.std.specs.Prelude.\1", line)
    if line.startswith(("old: ghost use", "new: ghost use", "old: use", "new: use")):
        return line
    line = re.sub(r"\b([a-z]+[0-9]*(?:[A-Z][a-z0-9]*)+)\b", lambda m: snake(m.group(1)), line)
    return line


def rewrite(path, turned):
    with open(path, encoding="utf-8") as f:
        old = f.read()
    text = turned(old)
    if text != old:
        with open(path, "w", encoding="utf-8") as f:
            f.write(text)


def turn_edit(text, new):
    of_specs = re.search(r"^file: (specs|proofs)/", text, re.M)
    lines = [respell_line(l, new, "\0") if re.match(r"(old|new):", l) else l for l in text.split("\n")]
    return "\n".join(respell_edit(l, new) if of_specs else l for l in lines)


def main():
    new, together = mapping()
    if sys.argv[1:] == ["--list"]:
        for n in sorted(new):
            print(n, new[n])
        for n, to, with_ in together:
            print("together:", n, to, with_, "->", new.get(n))
        for path, to, olds in clashes(new):
            print("clash:", path, to, olds)
        return
    for path in antt_files():
        rewrite(path, lambda t: "\n".join(respell_line(l, new, "--") for l in t.split("\n")))
    for path in glob.glob("crates/*/src/**/*.rt", recursive=True):
        rewrite(path, lambda t: "\n".join(respell_line(l, new, "//") for l in t.split("\n")))
    for path in glob.glob("crates/*/must-fail/*.edit"):
        rewrite(path, lambda t: turn_edit(t, new))
    for path in ["README.md"] + glob.glob("docs/**/*.md", recursive=True):
        rewrite(path, lambda t: respell_quoted(t, new))


if __name__ == "__main__":
    main()
