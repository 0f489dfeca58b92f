#!/usr/bin/env python3
"""Holds docs/CLAIMS.md, and the names in the other documents, to the sources, to docs/01-scope.md and, of the requests
that have landed (LANDED in tools/sources.py), to docs/02-change-requests.md: below, 01 is both.

    tools/claims.py            checks, and that docs/SENTENCES.md is current
    tools/claims.py --write    writes docs/SENTENCES.md

1. A path `crate::f`, `crate::module::f` or `Type::method` is defined there. A name that follows a path after a comma
   is of the same module or type.
2. A name beside a file, as in `f`, `g` (crates/c/specs/X.antt), is defined in that file: declared, not mentioned. Of
   several files each has one of the names, and each name is in one of them. A file is given from the root, or within a
   crate that the row names; then just one of these has it.
3. In docs/CLAIMS.md any other name is in WORDS, or defined in just one file of the crates that its row names (of
   specs/, if it is there at all). A row names a crate as crates/NAME or by a path.
4. An edit stands in a row, and each row that it stands in names its crate: not only one that needs it. Its label is no
   other's. Its first line, after a #, is the sentence that it breaks: words of 01, or of a demand that docs/CLAIMS.md
   quotes.
5. Each word of 01 is quoted: in docs/CLAIMS.md, at a definition in specs/, or in docs/DECISIONS.md; or its sentence is
   in NO_CLAIM. Markup, capitals and line ends do not count; [..] is for words left out, which want their own quote.
6. What a row quotes is 01's, or a demand's, and then it says so. Where comments in specs/ quote the same, the row names
   one of the definitions that they stand at.
"""
import re
import sys

sys.dont_write_bytecode = True
from sources import SIGNS, Scope, comments, crates, defined, names_of, place, quoted, quotes, read, root, short, tokens

# Names that no source of ours defines, and why they may stand in a document.
WORDS = {
    "requires": "a word of the language",
    "u64": "a type of the language",
    "to_bits": "of the kit's floats",
    "of_bits": "of the kit's floats",
    "optimize": "the Rust's: here a run",
    "Stop::word": "the Rust's, left out",
}

# Sentences of 01, by their beginnings, of which nothing is claimed, and why.
NO_CLAIM = {
    "We read the code": "says what its readers do",
    "A line marked (02)": "says when the form comes",
    "Although the proofs for these places": "leads to the entry below it",
}

OTHERS = ("README.md", "docs/API.md", "docs/GLOSSARY.md", "docs/TRUST.md", "docs/MAINTAINING.md", "docs/DECISIONS.md", "docs/DIFFERENCES.md", "docs/REPLAY.md", "docs/SPEED.md")
FILE = r"[\w./+-]+\.(?:antt|rt)\b"
JOINED = {", ", " and ", ", and ", " ≡ ", " or "}


def blocks(text):
    """The rows of tables, as cells, and the paragraphs; no headings."""
    text = re.sub(r"^#.*$|^\|.*\|\n\|---.*\|$", "", text, flags=re.M)
    for part in re.split(r"\n\s*\n|\n(?=\|)|(?<=\|)\n", text.strip()):
        yield [c.strip() for c in part.strip().strip("|").split(" | ")] if part.startswith("|") else [part]


def crates_in(text):
    """The crates that a text names."""
    paths = re.findall(r"`(\w+(?:::\w+)+)", text)
    named = re.findall(r"crates/(\w+)", text) + [f.split("/")[1] for p in paths for f in place(p)[0]]
    return set(named) & set(crates)


def groups(text):
    """Names and the files beside them: ([(what stands before it, name)], [file]) of each run of names."""
    parts = re.split(f"(`[^`]+`|{FILE})", text)
    runs = []
    for before, token in zip(parts[::2], parts[1::2]):
        if not (runs and before in JOINED and (runs[-1][-1][1][0] == "`") == (token[0] == "`")):
            runs.append([])
        runs[-1].append((before, token))
    while runs:
        names, files = runs.pop(0), []
        if names[0][1][0] != "`":
            names, files = [], names
        if names and runs and runs[0][0][1][0] != "`" and runs[0][0][0] in (" (", ", ", ": ", " of "):
            files = runs.pop(0)
        elif files and runs and runs[0][0][1][0] == "`" and runs[0][0][0] == ": ":
            names = runs.pop(0)
        yield [(before, name.strip("`")) for before, name in names], [file for _, file in files]


def told(text, strict):
    """The names that a text tells: each as it is told, as it is defined, and the files of which one must define it. And
    faults. If not strict, names with neither path nor file, and paths of what is not ours, are passed over."""
    named, names, faults = crates_in(text), [], []
    for run, files in groups(text.split(" | ")[1] if strict and " | " in text else text):
        at, beside, owner = [], [], None
        for file in files:
            meant = [f for f in defined if f.split("/")[1] in named and f.endswith("/" + file)]
            meant = [file] if file in defined else meant
            at += meant[:1]
            if len(meant) != 1:
                faults.append(f"{file} is {'several files' if meant else 'no file'} of the crates that are named")
        for before, name in run:
            owner = None if before == " ≡ " else owner
            name = re.sub(r"\(.*\)$", "", name)
            known = (root / name.split(" ")[0]).exists() or name.startswith("crates/NAME/") or name in crates and not at
            if known or name in WORDS:
                continue
            if re.fullmatch(r"\w+(::(\w+|\*|\.\.))+", name) or owner and re.fullmatch(r"\w+", name):
                path = name if "::" in name else f"{owner}::{name}"
                owner = path.rsplit("::", 1)[0]
                path = re.sub(r"::(\*|\.\.)$", "", path)
                ours = any(path.split("::")[0] in names_of[c] | {c} for c in crates)
                if path not in crates and (strict or ours):
                    names.append((path, *reversed(place(path))))
            elif at:
                beside.append(name.split(" ")[0])
            elif strict:
                homes = [f for f in defined if f.split("/")[1] in named and name in defined[f]]
                # An answer to a goal may have a theorem's name.
                homes = [f for f in homes if not f.endswith(("/Answers.antt", "/Invariants.antt"))] or homes
                homes = [f for f in homes if "/specs/" in f] or homes
                names.append((name, name, homes[:1]))
                faults += [f"`{name}` wants its file: one of {', '.join(homes)}"] if len(homes) > 1 else []
        names += [(name, name, at) for name in beside]
        faults += [f"{f} defines none of the names beside it" for f in at if beside and not defined[f] & set(beside)]
    for name, item, files in names:
        if not any(item in defined[f] for f in files):
            faults.append(f"`{name}` is not defined in {', '.join(files) or 'a crate that is named'}")
    return names, faults


def edits():
    """The crate of each edit by its label, the first line of each, and faults."""
    labels, lines, faults = {}, {}, []
    for p in sorted(root.glob("crates/*/must-fail/*.edit")):
        lines[p.stem] = p.read_text(encoding="utf-8").splitlines()[0]
        if p.stem in labels:
            faults.append(f"{p.relative_to(root)} has the label of an edit of {labels[p.stem]}")
        if not lines[p.stem].startswith("# "):
            faults.append(f"{p.relative_to(root)} does not begin with the sentence that it breaks")
        labels[p.stem] = p.parts[-3]
    return labels, lines, faults


def index(scope, tried):
    """docs/SENTENCES.md."""
    lines = ["# Sentences: what says each sentence of document 01 and of the requests that have landed", "",
             "Written by `tools/claims.py --write`, from docs/01-scope.md, docs/02-change-requests.md and what quotes them: the rows of",
             "docs/CLAIMS.md, the comments in crates/*/specs, and the first lines of the edits. A definition is what a",
             "contract cites, code the function whose contract it is, a theorem what is proved of them; an edit,",
             "CRATE/LABEL, breaks the sentence and is refused (crates/CRATE/must-fail/LABEL.edit)."]
    above = ""
    for heading, sentence, start, end in scope.spans:
        lines += ["", f"## {heading}", ""] if heading != above else []
        above = heading
        lines.append(f"- {sentence}")
        lines += [f"  - no claim: {why}" for begins, why in NO_CLAIM.items() if sentence.startswith(begins)]
        found = set().union(*scope.by[start:end])
        for kind, title in (("specs", "definitions"), ("src", "code"), ("proofs", "theorems")):
            files = {}
            for file, item in sorted({d for s in found if type(s) is tuple for d in s if d[0].split("/")[2] == kind}):
                files.setdefault(file, []).extend([f"`{item}`"] if item else [])
            said = [", ".join(items) + f" ({file})" if items else file for file, items in files.items()]
            lines += [f"  - {title}: " + "; ".join(said)] if said else []
        lines += [f"  - {note}" for note in sorted(s for s in found if type(s) is str)]
        broken = sorted(set().union(*tried.by[start:end]))
        lines += ["  - edits: " + ", ".join(broken)] if broken else []
    return "\n".join(lines) + "\n"


def main():
    scope, spec, tried = Scope(), Scope(), Scope()
    whole, claims = (" ".join(tokens(read(f"docs/{name}.md"))) for name in ("01-scope", "CLAIMS"))
    whole += " ".join(tokens(read("docs/02-change-requests.md")))
    labels, lines, faults = edits()
    for label, line in lines.items():
        says = [quoted(line[2:]), *(parts for _, parts in quotes(line)), quoted(line.partition(": ")[2])]
        for parts in says:
            tried.note(parts, f"{labels[label]}/{label}")
        if not any(parts and (tried.find(parts) or " ".join(parts[0]) in claims) for parts in says):
            faults.append(f"{label}, an edit of {labels[label]}, begins with no sentence of 01 or of a demand")
    for file in defined:
        for comment, name in comments(read(file)) if re.match(r"crates/\w+/specs/.*antt$", file) else []:
            for _, parts in quotes(comment):
                scope.note(parts, ((file, name or ""),))
                if name:
                    spec.note(parts, (file, name))
    for cells in blocks(read("docs/CLAIMS.md")):
        text, said = " | ".join(cells), set()
        names, wrong = told(text, True)
        where = {(f, item) for _, item, files in names for f in files if item in defined[f]}
        for label in re.findall(r"\w+", cells[2]) if len(cells) == 3 else []:
            lines.pop(label, None)
            if label not in labels:
                wrong.append(f"there is no edit {label}")
            elif labels[label] not in crates_in(text):
                wrong.append(f"{label} is an edit of {labels[label]}, which the row does not name")
        for quote, parts in quotes(cells[0]) if len(cells) > 1 else []:
            scope.note(parts, tuple(sorted(where)) or cells[1])
            said |= {d for i in scope.find(parts) for d in spec.by[i] if not short(parts)}
            if "demand" not in cells[0] and not scope.find(parts) and " ".join(tokens(quote)) not in whole:
                wrong.append(f'"{quote}" is not in docs/01-scope.md or docs/02-change-requests.md')
        if said and not said & where:
            at = ", ".join(f"`{name}` ({file})" for file, name in sorted(said))
            wrong.append(f"its sentence is quoted at {at}, none of which it names")
        faults += ["docs/CLAIMS.md, " + text[:70].replace("\n", " ") + "..: " + w for w in wrong]
    faults += [f"docs/CLAIMS.md does not name the edit {label} of {labels[label]}" for label in lines]
    for _, parts in quotes(read("docs/DECISIONS.md")):
        scope.note(parts, "docs/DECISIONS.md")
    for heading, sentence, start, end in scope.spans:
        bare = [scope.words[i] for i in range(start, end) if not scope.by[i] and scope.words[i] not in SIGNS]
        if bare and not any(sentence.startswith(begins) for begins in NO_CLAIM):
            faults.append(f"{heading}, {sentence}: quoted nowhere: {' '.join(bare)}")
    for doc in OTHERS:
        for text in map(" | ".join, blocks(read(doc))):
            faults += [f"{doc}, {text[:70]}..: {w}" for w in told(text, False)[1]]
    sentences = root / "docs/SENTENCES.md"
    if sys.argv[1:] == ["--write"]:
        sentences.write_text(index(scope, tried), encoding="utf-8")
    elif not sentences.exists() or sentences.read_text(encoding="utf-8") != index(scope, tried):
        faults.append("docs/SENTENCES.md is not current: tools/claims.py --write")
    for fault in faults:
        print(fault)
    return 1 if faults else 0


if __name__ == "__main__":
    sys.exit(main())
