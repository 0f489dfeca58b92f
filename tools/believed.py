#!/usr/bin/env python3
"""Lists what a reader must believe for demand 3: the statement, and every file of definitions that it leads to.

    tools/believed.py            prints the table of docs/TRUST.md, in reading order, each file before those that it leans on
    tools/believed.py --write    puts it into docs/TRUST.md
    tools/believed.py --check    fails where the table there is another
"""
import pathlib
import re
import sys

ROOT = pathlib.Path(__file__).resolve().parent.parent
START = [ROOT / "crates/run_demand/specs" / f for f in ("Demand.antt", "Across.antt")]
TRUST = ROOT / "docs/TRUST.md"
BEGIN, END = "<!-- tools/believed.py: begin -->\n", "<!-- tools/believed.py: end -->\n"


def leads_to(file):
    """The files of definitions that one names, and the sources whose types it names."""
    found = []
    for crate, path in re.findall(r"^(?:pub )?use Rattle\.(\w+)\.specs\.([\w.]+)", file.read_text(encoding="utf-8"), re.M):
        parts = path.rstrip(".").split(".")
        if parts[0] == "declared":
            found.append(ROOT / "crates" / crate / "src")
            continue
        for n in range(len(parts), 0, -1):
            spec = ROOT / "crates" / crate / "specs" / ("/".join(parts[:n]) + ".antt")
            if spec.exists():
                found.append(spec)
                break
    return found


def lines(file):
    text = re.sub(r"^(?:pub )?use .*\n(?:[ }].*\n)*", "", file.read_text(encoding="utf-8"), flags=re.M)
    return sum(1 for line in text.splitlines() if line.strip())


order, types = list(START), []
for file in order:
    for next_file in leads_to(file):
        if next_file.is_dir():
            if next_file not in types:
                types.append(next_file)
        elif next_file not in order:
            order.append(next_file)
rows = [f"| {f.relative_to(ROOT)} | {lines(f)} |" for f in order]
table = "\n".join(["| file | lines, but for imports |", "|---|---|", *rows, f"| in all, {len(order)} files | {sum(map(lines, order))} |", ""])
table += "\nThe structs and enums that they name are declared in " + ", ".join(str(t.relative_to(ROOT)) for t in sorted(types)) + ".\n"

said = TRUST.read_text(encoding="utf-8") if TRUST.exists() else BEGIN + END
before, rest = said.split(BEGIN)
after = rest.split(END)[1]
if "--write" in sys.argv:
    TRUST.write_text(before + BEGIN + table + END + after, encoding="utf-8")
elif "--check" in sys.argv:
    if said != before + BEGIN + table + END + after:
        sys.exit("docs/TRUST.md: the table of what is to be believed is not current (tools/believed.py --write)")
else:
    print(table, end="")
