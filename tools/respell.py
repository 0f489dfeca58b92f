#!/usr/bin/env python3
"""Brings this repository's own definitions and lemmas to today's spelling of names, after the toolchain's port.py has brought the library's.

    tools/respell.py [FOLDER]      FOLDER is a checkout's top, else the one that this script stands in; run once

Words become snake case (`foldTo` is `fold_to`). In a lemma's name a dash joins two names and stays; one before a plain word becomes an underscore
(`le-transitive` is `le_transitive`). Types, modules, functions of src/, exports and strings keep their names. Names are turned in specs/, proofs/, the clauses and
comments of src/, and in the Markdown that names them. Must-fail edits are brought over apart, beside the text that they change. Names that would fall together are printed, and nothing is written.
"""
import collections
import pathlib
import re
import sys

root = pathlib.Path(sys.argv[1]) if len(sys.argv) > 1 else pathlib.Path(__file__).resolve().parents[1]
WORD = re.compile(r"[A-Za-z_α-ωΑ-Ω][A-Za-z0-9_₀-₉'α-ωΑ-Ω]*(?:-[A-Za-z0-9_₀-₉'α-ωΑ-Ω]+)*")
DECLARED = re.compile(r"^\s*((?:(?:abbrev|unfoldable|pub)\s+)*)([a-z][A-Za-z0-9_₀-₉'α-ωΑ-Ω-]*)\s*:\s(.*)$")
# Names of the library that stand after a dash in a lemma's name.
LIBRARY = set("true false none some length append map take drop set get_or min max suc zero add sub mul div neg nan inf le lt eq cond mod pow not and or".split())


def snake(word):
    """A word of lower camel case in snake case; any other word as it is."""
    if not re.match(r"[a-z][a-z0-9_]*[a-z0-9][A-Z]", word) or re.search(r"_[A-Z]", word):
        return word
    word = re.sub(r"([a-z0-9])([A-Z])", r"\1_\2", word)
    return word.lower()


def lemma(name, names):
    parts = name.split("-")
    out = snake(parts[0])
    for part in parts[1:]:
        part = snake(part)
        out += ("-" if part in names else "_") + part
    return out


specs = sorted(root.glob("crates/*/specs/**/*.antt"))
lemmas = sorted(root.glob("crates/*/proofs/*.antt"))
walks = sorted(p for p in root.glob("crates/*/proofs/**/*.antt") if p not in lemmas)
sources = sorted(root.glob("crates/*/src/*.rt"))
pages = sorted(root.glob("*.md")) + sorted(p for p in root.glob("docs/*.md") if not re.match(r"0\d-", p.name))

declared, dashed, fields = set(), set(), set()
for path in specs + lemmas + walks:
    for line in path.read_text().split("\n"):
        found = DECLARED.match(line)
        if found and not re.match(r"tie\.|goal\.|build-lts|.*\bNeed-", found[3]):
            (dashed if "-" in found[2] else declared).add(found[2])
            if line[0] == " ":
                fields.add(found[2])
names = {snake(n) for n in declared} | LIBRARY
turn = {n: lemma(n, names) for n in dashed}
turn |= {n: snake(n) for n in declared if snake(n) != n}
# A lemma that would have a definition's name gets `_lem`.
defined = {turn.get(n, n) for n in declared}
turn |= {n: turn[n] + "_lem" for n in dashed if turn[n] in defined}
# Lemmas that port.py gave the name of a definition which stands in the same file.
LEMMAS = {"region_nearest": "at_leaf", "run_plain": "part_in"}

# What falls together: two old names, or an old name and one that stays.
meant = collections.defaultdict(set)
for old in declared | dashed:
    meant[turn.get(old, old)].add(old)
# A definition and a lemma of port.py's spelling may share a name in modules that no file imports together.
APART = set("no_room at_first at_leaf box_of flag_at goes_on left_by made_by near_of part_in place_at small_of sum_over too_short cell_of node_of high_of".split())
clash = {new: olds for new, olds in meant.items() if len(olds) > 1 and new not in APART}
if clash:
    for new, olds in sorted(clash.items()):
        print(f"{new}: {', '.join(sorted(olds))}")
    if "--force" not in sys.argv:
        sys.exit("names fall together")


def turned(text):
    def one(m):
        word = m[0]
        before = text[max(0, m.start() - 1):m.start()]
        if "-" in word:
            if word in turn and (before != "." or word in fields):
                return turn[word]
            if word in turn and re.search(r"(?:Rattle\.[\w.+'-]*|\b(?:laws|lemmas))\.$", text[:m.start()][-200:]):
                return turn[word]
            # a name that is made of others: each part for itself
            return "-".join(snake(p) for p in word.split("-"))
        return snake(word)
    return WORD.sub(one, text)


def of_file(path, text):
    """Of a file of specs/ or proofs/."""
    name = LEMMAS.get(path.relative_to(root).parts[1])
    if name and path not in specs:
        text = re.sub(rf"(?<![\w'-]){name}(?![\w'-])", name + "_lem", text)
    return turned(text)


def clauses(text):
    """Of a source: everything but code. A clause runs from its keyword's line to the brace that ends it."""
    out, depth = [], 0
    for line in text.split("\n"):
        ghost = re.match(r"\s*(pub )?ghost\b|\s*(requires|ensures)\b", line)
        if depth or ghost:
            out.append(turned(line))
            depth = max(0, depth + line.count("{") - line.count("}"))
        elif "//" in line:
            code, mark, comment = line.partition("//")
            out.append(code + mark + turned(comment))
        else:
            out.append(line)
    return "\n".join(out)


def page(text):
    """Of a page: what stands between backticks."""
    return re.sub(r"`[^`\n]+`", lambda m: turned(m[0]), text)


changed = 0
for paths, how in ((specs + lemmas + walks, of_file), (sources, clauses), (pages, page)):
    for path in paths:
        old = path.read_text()
        new = how(path, old) if how is of_file else how(old)
        if new != old:
            path.write_text(new)
            changed += 1
print(f"{len(turn)} names turned, {changed} files written")
