#!/usr/bin/env python3
"""Respells the definitions and lemmas of specs/ and proofs/ in snake case, once, after port.py.

usage: python3 tools/respell.py [--list]

A name of ours is one that a file of specs/ or proofs/ declares. `isToken` becomes `is_token`, and `run-yes` becomes `run_yes`. Types, modules, generated names,
functions of src/, strings and C names stay as they are. With --list it only prints the names that would fall together with another.
"""

import collections
import os
import re
import sys

WORD = r"[^\W\d][\w'₀-₉]*(?:-[\w'₀-₉*]+)*"
MODIFIERS = r"(?:(?:unfoldable|abbrev|pub|opaque|inline|private)\s+)*"
DECLARED = re.compile(r"^[ \t]*" + MODIFIERS + r"(" + WORD + r"(?:[ \t]+" + WORD + r")*)[ \t]*:(?![:=])", re.M)
GIVEN = re.compile(r"^[ \t]*" + MODIFIERS + r"(" + WORD + r")[ \t]*:[ \t]*(?:\{M : Type 1\} → statement|tie\.)", re.M)
IMPORTED = re.compile(r"^\s*(?:pub |ghost )?use\s+([\w.·'-]+)\.\{([^}]*)\}", re.M)
KEYWORDS = {"use", "module", "where", "data", "record", "let", "unfolding", "elim", "in", "rw", "syntax"}
# names that would fall together with another of the same file, with the spelling that keeps them apart; of the rest, a lemma gets `_lem`
APART = {
    "rowGives": "gives_row",
    "tooLong": "is_too_long",
    "tailOf": "tail_text",
    "allNear": "all_are_near",
    "call-id": "held_call_id",
    "well-formed": "is_well_formed",
    "same-pair": "equal_pairs",
    "is-code": "known_code",
    "no-uri": "without_uri",
    "no-identity": "without_identity",
    "no-param": "without_param",
    "other-scheme": "of_other_scheme",
    "firstCSeqMethod": "first_cseq_method",
    "isCSeq": "is_cseq",
}
# the same, where port.py wrote the name already
LOCAL = {
    ("crates/sip/proofs/Grammar/Addresses.antt", "no_address"): "without_address",
    ("crates/records/proofs/take_record/Proof.antt", "one_more"): "one_more_record",
}


def files(*endings):
    for top in ("crates", "tests/wrong", "docs"):
        for folder, dirs, names in os.walk(top):
            dirs[:] = sorted(d for d in dirs if d != "out")
            for name in sorted(names):
                if name.endswith(endings):
                    yield os.path.join(folder, name)
    if "README.md".endswith(endings):
        yield "README.md"


def read(path):
    with open(path, encoding="utf-8") as f:
        return f.read()


def bare(text, mark):
    """The text with no comments and no strings."""
    text = re.sub(r'"(?:\\.|[^"\\\n])*"', '""', text)
    return re.sub(re.escape(mark) + r"[^\n]*", "", text)


def lowered(name):
    """camelCase in snake case; a type's name within a lemma's name keeps its capital."""
    parts = re.split(r"([-_])", name)
    out = []
    for i, p in enumerate(parts):
        if p in "-_":
            out.append("_")
            continue
        if re.match(r"[a-z_]", p):
            p = re.sub(r"(?<=[a-z0-9'])([A-Z]+)(?=[A-Z][a-z]|$|[0-9'])", lambda m: "_" + m.group(1).lower(), p)
            p = re.sub(r"(?<=[a-z0-9'_])([A-Z])(?=[a-z])", lambda m: "_" + m.group(1).lower(), p)
            p = re.sub(r"(?<=[a-z0-9'])([A-Z])", lambda m: "_" + m.group(1).lower(), p)
        out.append(p)
    return "".join(out).replace("__", "_")


def declared():
    ours, where = set(), collections.defaultdict(set)
    for path in files(".antt"):
        text = bare(read(path), "--")
        given = set(GIVEN.findall(text)) if path.endswith("/Proof.antt") else set()
        for m in DECLARED.finditer(text):
            for name in m.group(1).split():
                if name not in KEYWORDS and name not in given:
                    ours.add(name)
                    where[name].add(path)
    return ours, where


def lent():
    """Names that files import from the toolchain's libraries."""
    out = set()
    for path in files(".antt", ".rt"):
        for m in IMPORTED.finditer(read(path)):
            if not m.group(1).startswith("Rattle.") or m.group(1).startswith("Rattle.std."):
                out |= {w.strip().split(" as ")[0].strip() for w in m.group(2).split(",")}
    return out


def is_old(name):
    return bool(re.match(r"[a-z_]", name)) and ("-" in name or bool(re.search(r"[A-Z]", name)))


def names():
    ours, where = declared()
    theirs = lent()
    table = {name: APART.get(name) or lowered(name) for name in sorted(ours) if is_old(name) and name not in theirs}
    for name in meeting(table):
        table[name] += "_lem"
    return table, ours, where, theirs


def meeting(table):
    """The lemmas whose new name some file already uses for another."""
    word = re.compile(r"(?<![\w'-])" + WORD)
    out = set()
    for path in files(".antt"):
        used = collections.defaultdict(set)
        for name in set(word.findall(bare(read(path), "--"))):
            used[table.get(name, name)].add(name)
        for olds in used.values():
            if len(olds) > 1:
                out |= {name for name in olds if "-" in name and name in table and name not in APART}
    return out


def respelt(text, table, strings):
    """strings: a pattern of what is left as it is."""
    word = re.compile(strings + r"|(?<![\w'-])" + WORD)
    return word.sub(lambda m: table.get(m.group(0), m.group(0)), text)


def main():
    table, ours, where, theirs = names()
    if sys.argv[1:] == ["--list"]:
        new = collections.defaultdict(list)
        for a, b in table.items():
            new[b].append(a)
        for b, olds in sorted(new.items()):
            if len(olds) > 1 or b in ours or b in theirs:
                print(b, olds, "declared" if b in ours else "", "lent" if b in theirs else "", sorted(set().union(*(where[o] for o in olds)) | where.get(b, set()))[:4])
        print(len(table), "names")
        return
    n = 0
    for path in files(".antt", ".rt", ".edit", ".md"):
        old = read(path)
        if path.endswith(".md"):
            new = re.sub(r"`[^`\n]+`", lambda m: respelt(m.group(0), {a: b for a, b in table.items() if re.search("[A-Z]", a)}, r'"(?:\\.|[^"\\\n])*"'), old)
        elif path.endswith(".antt"):
            here = {name: new for (p, name), new in LOCAL.items() if p == path}
            new = respelt(old, table | here, r'"(?:\\.|[^"\\\n])*"')
        else:
            new = respelt(old, {a: b for a, b in table.items() if re.search("[A-Z]", a)}, r'"(?:\\.|[^"\\\n])*"')
        if new != old:
            n += 1
            with open(path, "w", encoding="utf-8") as f:
                f.write(new)
    print(len(table), "names in", n, "files")


if __name__ == "__main__":
    main()
