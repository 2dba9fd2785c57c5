#!/usr/bin/env python3
"""Spells the names that this repository's own definitions and lemmas declare as today's Rattle does: words in snake case.

usage: python3 tools/respell.py [--check]     at the top of the repository, once, after port.py

A name that a file of specs/ or a lemma file of proofs/ declares (a definition, a lemma, a field, a constructor) and that has a
dash or a capital behind a small letter is turned: every dash becomes '_', 'numAt' becomes 'num_at'. A part that begins with a
capital names a type and stays as it is. Where a definition and a lemma would fall together, the lemma gets '_lem' behind its
name, as today's rules say. The word is turned wherever it stands in an .antt file, in a .rt file (clauses, 'ghost use' lines and
comments; code has no such words) and in a must-fail edit. Strings, exported names, inputs and outputs stay. A file that brings a
word of the same spelling from one of Rattle's libraries keeps it. --check writes nothing and lists the names, and the files in
which the new name stood before.
"""
import os
import re
import sys

STOP = r"\s(){}\[\],;.@\"«»"
WORD = re.compile(rf"[^{STOP}]+")
MARKS = r"(?:(?:abbrev|pub|opaque|unfoldable)[ ]+)*"
DECLARED = re.compile(rf"(?m)^[ \t]*(?:\|[ ]*)?{MARKS}([^{STOP}]+)(?:[ ]+\{{[^{{}}]*\}})*[ ]*:(?=\s)")
HEAD = re.compile(rf"(?m)^[ \t]*(?:pub[ ]+)?(?:data|record|ruleset)[ ]+([^{STOP}]+)")
USE = re.compile(r"(?m)^[ \t]*(?:pub |ghost )*use ([^\s{;]+)\.\{([^{}]*)\}")

# Lemmas in snake case whose name a definition of specs/ takes in the same file: the crates in which they get '_lem'.
LEMMAS = {
    "first_body": ["reread"],
    "is_word": ["probe"],
    "least_size": ["rulelines"],
    "left_by": ["replay"],
    "list_at": ["listing"],
    "no_bytes": ["rows"],
    "one_each": ["division"],
    "run_end": ["tokens"],
    "same_bytes": ["tallies", "fresh"],
}
# Fields whose name is a definition's too: a field's own type does not see it.
FIELDS = {"in-turn": "crates/festival/specs/Own.antt", "last-flip": "crates/ranking/specs/Ranking.antt"}


def files():
    for folder, dirs, names in os.walk("crates"):
        dirs[:] = sorted(d for d in dirs if d != "out")
        for n in sorted(names):
            if n.endswith((".antt", ".rt", ".edit")):
                yield os.path.join(folder, n)


def code(text):
    """The text of an antt file without its comments."""
    return re.sub(r"(?<![^\s(){}\[\],;])--[^\n]*", "", text)


def turned(name):
    parts = []
    for part in name.split("-"):
        if not part[:1].isupper():
            part = re.sub(r"(?<=[a-z0-9])([A-Z])", lambda m: "_" + m[1].lower(), part)
        parts.append(part)
    return "_".join(parts)


def is_old(name):
    return bool(re.search(r"[^\W\d_]", name)) and turned(name) != name


def is_field(text, start, end):
    """Says whether the word is a projection, or the label of a field in a record's braces."""
    if text[start - 1 : start] == ".":
        return True
    before = text[:start].rstrip()
    return before[-1:] in "{;" and re.match(r"\s*=(?=\s)", text[end : end + 40]) is not None


def spell(text, table, plain):
    out, at = [], 0
    for m in WORD.finditer(text):
        if m[0] in table:
            new = plain.get(m[0], table[m[0]]) if is_field(text, m.start(), m.end()) else table[m[0]]
            out += [text[at : m.start()], new]
            at = m.end()
    return "".join(out) + text[at:]


def main(check):
    texts = {p: open(p, encoding="utf-8").read() for p in files()}
    declared, everywhere, brought, rust = set(), set(), {}, set()
    for p, t in texts.items():
        if p.endswith(".rt"):
            rust |= set(re.findall(r"\b(?:fn|struct|enum|const|mod|type) (\w+)", t))
        if not p.endswith(".antt"):
            continue
        names = set(DECLARED.findall(code(t))) | set(HEAD.findall(code(t)))
        if os.path.basename(p) != "Proof.antt":
            everywhere |= names
            declared |= names
    for p, t in texts.items():
        brought[p] = set()
        for module, names in [] if p.endswith(".edit") else USE.findall(t):
            top = module.split(".")
            if top[0] == "Rattle" and os.path.isdir(os.path.join("crates", top[1])):
                continue
            for it in names.split(","):
                brought[p] |= {it.split(" as ")[0].strip(), it.split(" as ")[-1].strip()}
    plain = {n: turned(n) for n in declared if is_old(n)}
    taken = {plain[n] for n in plain if "-" not in n} | everywhere
    rows = {n: new + "_lem" if "-" in n and new in taken else new for n, new in plain.items()}
    seen = {}
    for old, new in sorted(rows.items()):
        if new in seen or (new != plain[old] and new in everywhere):
            print(f"falls together: {old}, {seen.get(new)} -> {new}")
        seen[new] = old
    turned_texts = {}
    for p, t in texts.items():
        crate = p.split("/")[1]
        table = {k: v for k, v in rows.items() if k not in brought[p]}
        for name, where in LEMMAS.items():
            if crate in where and p.endswith(".antt") and "/proofs/" in p and name not in brought[p]:
                table[name] = name + "_lem"
        own = dict(plain) | {n: n for n in LEMMAS}
        for name, where in FIELDS.items():
            if p == where:
                table[name] = plain[name]
        if check and p.endswith(".antt"):
            words = {m[0] for m in WORD.finditer(code(t)) if not is_field(code(t), m.start(), m.end())}
            for old in sorted(words & set(table)):
                if table[old] in words and table[old] not in table or table[old] in brought[p]:
                    print(f"stood before: {p}: {old} -> {table[old]}")
        turned_texts[p] = spell(t, table, own)
    if check:
        for old, new in sorted(rows.items()):
            print(old, new)
        return 0
    for p, t in turned_texts.items():
        if t != texts[p]:
            with open(p, "w", encoding="utf-8") as f:
                f.write(t)
    print(f"{len(rows)} names turned")
    return 0


if __name__ == "__main__":
    raise SystemExit(main("--check" in sys.argv[1:]))
