"""What tools/claims.py reads: what the sources define, what comments in specs/ quote, the sentences of 01."""
import pathlib
import re

root = pathlib.Path(__file__).resolve().parent.parent


def read(name):
    return (root / name).read_text(encoding="utf-8")


# ---- definitions

def declared(line):
    """The name that a line of a .antt file declares, its words before it and its kind: a record, data, or neither."""
    m = re.match(r"\s*((?:(?:abbrev|unfoldable|pub) )*)(?:(record|data) (?=\w)|(?=\S+ :(?: |$)))([^\s:(){}]+)", line)
    return m and (m[3].strip("«»"), m[1], m[2])


def antt(text):
    """Declarations, records with fields, data with constructors; not what stands in the `where` of a proof."""
    names, data = set(), None
    for line in text.splitlines():
        indent = len(line) - len(line.lstrip())
        if line.strip() and data is not None and indent <= data:
            data = None
        if found := declared(line):
            name, words, kind = found
            if kind or "pub" in words or indent == 0 or data is not None:
                names.add(name)
                data = indent if kind == "data" else data
    return names


def rt(text):
    """Functions, types, constants, modules; fields and variants, alone and behind their type; methods behind it."""
    names, kind, of = set(), "", ""
    for line in text.splitlines():
        m = re.match(r'(\s*)(?:pub )?(?:extern "C" )?(fn|struct|enum|trait|const|static|mod|impl)(?:<.*?>)? (?:\S.* for )?(\w+)', line)
        if m and not m[1]:
            kind, of = m[2], m[3]
            if kind != "impl":
                names.add(of)
        elif m and kind in ("impl", "trait"):
            names.add(f"{of}::{m[3]}")
        elif kind in ("struct", "enum") and (m := re.match(r"    (?:pub )?(\w+)(?::|,|\(| \{)", line)):
            names |= {m[1], f"{of}::{m[1]}"}
        elif line == "}":
            kind = ""
    return names


# A line of crates.txt is `NAME: LIBRARY ..`, of a static library `NAME staticlib: LIBRARY ..`.
crates = [m[1] for m in re.finditer(r"^(\w+)(?: [\w=+]+)*:", read("crates.txt"), re.M)]
defined = {}
# (In crates/*/out stand copies that rt makes.)
for p in sorted(p for part in ("src", "specs", "proofs") for p in root.glob(f"crates/*/{part}/**/*")):
    if p.suffix in (".antt", ".rt"):
        defined[str(p.relative_to(root))] = (antt if p.suffix == ".antt" else rt)(p.read_text(encoding="utf-8"))
names_of = {c: set().union(*(names for f, names in defined.items() if f.startswith(f"crates/{c}/"))) for c in crates}


def place(path):
    """The files that a path may mean, `crate::f`, `crate::module::f` or `Type::method`, and the name there."""
    head, *rest = path.split("::")
    if head not in crates:
        return [f for f in defined if f.endswith(".rt") and path in defined[f]], path
    if len(rest) > 1 and f"crates/{head}/src/{rest[0]}.rt" in defined:
        return [f"crates/{head}/src/{rest[0]}.rt"], "::".join(rest[1:])
    return [f for f in (f"crates/{head}/src/lib.rt", f"crates/{head}/src/main.rt") if f in defined], "::".join(rest)


# ---- sentences and quotes

# The requests of document 02 that have landed.
LANDED = {9, 10, 11, 13, 14}


def sentences():
    """01's sentences, as (heading, sentence), and those of the requests that have landed. A row of 01's table is one, and
    its code; a bold name is none."""
    heading, code = "", None
    for line in read("docs/01-scope.md").splitlines():
        if line.startswith("```"):
            if code:
                yield heading, " ".join(code)
            code = [] if code is None else None
        elif code is not None:
            code.append(line)
        elif line.startswith("#"):
            heading = line.lstrip("# ")
        elif m := re.match(r"\| (\d.*?) \| (.*) \|", line):
            yield heading, f"{m[1]}: {m[2]}"
        elif line and not line.startswith("|"):
            for sentence in re.split(r"(?<=[^.]\.)\s+", re.sub(r"^\*\*.*?\*\* |^- ", "", line)):
                yield heading, sentence
    for number, title, text in re.findall(r"^\*\*CR (\d+)\. (.*?)\.\*\* (.*)$", read("docs/02-change-requests.md"), re.M):
        for sentence in re.split(r"(?<=[^.]\.)\s+", text) if int(number) in LANDED else []:
            yield f"CR {number}. {title}", sentence


SIGNS = set(".,:;()[]")


def tokens(text):
    """Words and signs, without markup and capitals."""
    return re.findall(r"\w+|[^\w\s]", re.sub(r'[`*"]', "", text).lower())


def trimmed(part):
    """Without the signs at both ends."""
    while part and part[0] in SIGNS - {"("}:
        part = part[1:]
    while part and part[-1] in SIGNS - {")"}:
        part = part[:-1]
    return part


def short(parts):
    """Whether a quote is too short to be known by its words: fewer than four."""
    return sum(word not in SIGNS for part in parts for word in part) < 4


def quoted(quote):
    """A quote in parts, between which words are left out."""
    return [p for p in map(trimmed, map(tokens, quote.split("[..]"))) if p]


def quotes(text):
    """What stands between double quotes, also in parts; a number of 01's table goes with what follows it."""
    for number, quote in re.findall(r'((?:\b\d+, [a-z, ]+: )?)"([^"]+)"', text):
        yield number + quote, quoted(number + quote)


def comments(text):
    """The comments of a .antt file, each with the name that it stands before, if any; headings with none."""
    lines = []
    for line in text.splitlines():
        if line.strip().startswith("-- ----"):
            yield line, None
        elif line.strip().startswith("--"):
            lines.append(line.strip().lstrip("- "))
        elif lines:
            yield " ".join(lines), (declared(line) or [None])[0]
            lines = []


class Scope:
    """01's words in one row, and what quotes each."""

    def __init__(self):
        self.words, self.spans = [], []
        for heading, sentence in sentences():
            start = len(self.words)
            self.words += tokens(sentence)
            self.spans.append((heading, sentence, start, len(self.words)))
        self.by = [set() for _ in self.words]
        self.places = {}
        for i, word in enumerate(self.words):
            self.places.setdefault(word, []).append(i)

    def places_of(self, part, start, end):
        return [i for i in self.places.get(part[0], []) if start <= i < end and self.words[i:i + len(part)] == part]

    def whole(self, start, end):
        """Whether these words are a sentence or a clause."""
        ends = {0, *(e for _, _, _, e in self.spans)}
        return (start in ends or self.words[start - 1] in ".:;") and (end in ends or self.words[end] in ".:;")

    def find(self, parts):
        """The words that a quote stands for, wherever it stands; a short one where it is a sentence or a clause."""
        found = []
        for first in self.places_of(parts[0], 0, len(self.words)) if parts else []:
            places = [first]
            for before, part in zip(parts, parts[1:]):
                places += self.places_of(part, places[-1] + len(before), places[-1] + len(before) + 60)[:1]
            if len(places) == len(parts) and (not short(parts) or self.whole(first, places[-1] + len(parts[-1]))):
                found += [k for i, part in zip(places, parts) for k in range(i, i + len(part))]
        return found

    def note(self, parts, source):
        for i in self.find(parts):
            self.by[i].add(source)
