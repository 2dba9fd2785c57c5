#!/usr/bin/env python3
"""Lists, for each point of docs/DESIGN-PASS.md, the places in src/ that it may speak of: `tools/places.py` prints the
counts, `tools/places.py 3` the places of point 3.

A place that is listed is one to look at: what was made of it, and why what stays stays, stands in the page and beside the place."""
import collections
import glob
import re
import sys

FUNCTION = re.compile(r"^( *)(?:pub )?(?:unsafe )?(?:extern \"C\" )?fn (\w+)(?:<[^>]*>)?\(([^)]*)\)(?:\s*->\s*([^\n]+))?\n", re.M)
KIND = r"refusal|fault|fate|ending|mode|heuristic|stage|tag|list"


def sources():
    for path in sorted(glob.glob("crates/*/src/*.rt")):
        with open(path, encoding="utf-8") as file:
            yield path, re.sub(r"//[^\n]*", "", file.read())


def functions():
    """Each function: where, its name, parameters as pairs, result, contract and body."""
    for path, text in sources():
        for found in FUNCTION.finditer(text):
            indent, name, parameters, result = found.groups()
            begins = text.find("\n" + indent + "{", found.end() - 1)
            behind = FUNCTION.search(text, found.end())
            if begins < 0 or behind and behind.start() < begins:
                continue  # a member that a trait only declares
            ends = text.index("\n" + indent + "}", begins)
            pairs = re.findall(r"(\w+): ([^,]+)", parameters)
            where = f"{path}:{text.count(chr(10), 0, found.start()) + 1}: {name}"
            yield where, pairs, result or "", text[found.end() : begins], text[begins + len(indent) + 2 : ends]


def own_enums_flags_numbers():
    for path, text in sources():
        for found in re.finditer(r"^(?:pub )?enum (\w+)", text, re.M):
            yield f"{path}: enum {found[1]}"
        for found in re.finditer(r"^(?:pub )?struct (\w+)[^{]*\{([^}]*)\}", text, re.M):
            flags = re.findall(rf"(\w+): bool|((?:{KIND})): u\d+", found[2])
            if flags:
                yield f"{path}: struct {found[1]} ({', '.join(a or b for a, b in flags)})"
    for where, _, result, contract, _ in functions():
        if re.match(r"u(8|32)$", result) and re.search(KIND, contract):
            yield where


def twins():
    """Functions whose bodies are the same but for the names and numbers in them."""
    shapes = collections.defaultdict(list)
    for where, pairs, _, _, body in functions():
        words = re.findall(r"\w+|[^\w\s]", body)
        keep = {"let", "mut", "if", "else", "while", "for", "in", "return", "match", "as", "loop"}
        shape = tuple(w if w in keep or not re.match(r"\w", w) else "x" for w in words)
        if len(shape) > 20:
            shapes[shape].append(where)
    for places in shapes.values():
        if len(places) > 1:
            yield from places


def counted_loops():
    for where, _, _, _, body in functions():
        for found in re.finditer(r"^( *)(?:while [^\n]*|loop )\{\n(.*?)^\1\}", body, re.M | re.S):
            if re.search(r"^ *\w+ [+-]= 1;$", found[2], re.M):
                yield where


def written_by_hand():
    """Functions of one or two plain values that only convert, compare, copy or spell them."""
    for where, pairs, result, _, body in functions():
        name = where.rsplit(" ", 1)[1]
        named = re.match(r"(same|equal|copy|clone|narrow|widened|bit|size|index|is|as|to|from|of|put)(_|$)", name)
        cast = len(pairs) == 1 and re.match(r"\s*\w+ as \w+\s*$", body)
        if named and len(pairs) < 3 or cast:
            yield where


def travelling():
    """Functions with a run of three or more parameters that three or more functions have."""
    runs = collections.Counter()
    for _, pairs, _, _, _ in functions():
        runs.update({tuple(pairs[i : i + 3]) for i in range(len(pairs) - 2)})
    for where, pairs, _, _, _ in functions():
        if any(runs[tuple(pairs[i : i + 3])] > 2 for i in range(len(pairs) - 2)):
            yield where


def buffers_with_lengths():
    for where, pairs, _, _, _ in functions():
        slices = [n for n, t in pairs if "[" in t]
        if slices and any(n in ("n", "count", "length", "size", "end", "to") and t == "usize" for n, t in pairs):
            yield where
    for path, text in sources():
        for found in re.finditer(r"^(?:pub )?struct (\w+)[^{]*\{([^}]*)\}", text, re.M):
            if re.search(r": \[\w+; ", found[2]):
                yield f"{path}: struct {found[1]}"


def switches():
    for where, pairs, _, _, body in functions():
        for name, kind in pairs:
            said = kind == "bool" or kind in ("Part", "Stage") or re.match(rf"({KIND})$", name)
            if said and re.search(rf"(if !?{name}\b|match {name}\b|[(] ?!?{name}[,)]|, !?{name}[,)])", body):
                yield where
                break


def answers():
    for path in sorted(glob.glob("crates/*/proofs/**/Answers.antt", recursive=True)):
        with open(path, encoding="utf-8") as file:
            for found in re.finditer(r"^pub ([\w.-]+) : goal\.", file.read(), re.M):
                yield f"{path}: {found[1]}"


POINTS = [own_enums_flags_numbers, twins, counted_loops, written_by_hand, travelling, buffers_with_lengths, switches, answers]

if __name__ == "__main__":
    if len(sys.argv) > 1:
        print(*POINTS[int(sys.argv[1]) - 1](), sep="\n")
    else:
        for number, places in enumerate(POINTS, 1):
            print(number, len(list(places())))
