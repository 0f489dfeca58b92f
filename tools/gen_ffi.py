#!/usr/bin/env python3
"""Writes the C header and the Rust declarations of what crate `capi` exports.

    tools/gen_ffi.py            write bindings/include/sokdrib.h and bindings/src/ffi.rs
    tools/gen_ffi.py --check    write nothing; fail where one of them is not what would be written

Reads every `#[unsafe(no_mangle)] pub extern "C" fn` of crates/capi/src and the `#[repr(C)]` structs that these name, wherever in crates/
they stand, each with the comment above it. It knows the forms that an exported function may have: numbers, bool, such structs by
value, & and &mut of a number or an array, and slices, which are a pointer and a count of elements. Any other form is an error. The
header's comment on refusals is the section "Refusals" of docs/API.md.
"""
import pathlib
import re
import sys
import textwrap

ROOT = pathlib.Path(__file__).resolve().parent.parent
HEADER = ROOT / "bindings/include/sokdrib.h"
DECLARATIONS = ROOT / "bindings/src/ffi.rs"
REFUSALS = ROOT / "docs/API.md"

# a Rattle number: its C type and its size
NUMBERS = {
    "u8": ("uint8_t", 1), "u16": ("uint16_t", 2), "u32": ("uint32_t", 4), "u64": ("uint64_t", 8),
    "i8": ("int8_t", 1), "i16": ("int16_t", 2), "i32": ("int32_t", 4), "i64": ("int64_t", 8),
    "usize": ("size_t", 8), "isize": ("ptrdiff_t", 8), "f32": ("float", 4), "f64": ("double", 8), "bool": ("bool", 1),
}
# parameter names that C, or a compiler's headers, keep for themselves
C_WORDS = {"near", "far", "int", "char", "short", "long", "double", "float", "signed", "auto", "register", "default", "switch", "case", "goto"}


# the comment and the attributes above an item, these on one line each or over several
COMMENT = r"((?:^//[^\n]*\n)*)"
ATTRIBUTES = r"((?:^#\[(?:[^\n]*\]|[^\n]*\n(?:[ \t][^\n]*\n)*\)\])\n)+)"
EXPORT = "#[unsafe(no_mangle)]"


def fail(why):
    sys.exit("gen_ffi: " + why)


# ---- reading

def split(text):
    """The parts of a list of parameters or fields, at its commas outside brackets."""
    parts, depth, part = [], 0, ""
    for ch in text:
        depth += (ch in "[(<") - (ch in "])>")
        if ch == "," and depth == 0:
            parts.append(part)
            part = ""
        else:
            part += ch
    return [p.strip() for p in parts + [part] if p.strip()]


def named(part):
    """`mut n: geom::T` or `pub n: T` as (n, T)."""
    name, colon, kind = re.sub(r"^(pub|mut)\s+", "", part).partition(":")
    if not colon:
        fail(f"no type in `{part}`")
    return name.strip(), re.sub(r"\b\w+::", "", kind.strip())


def code(text):
    return re.sub(r"//[^\n]*", "", text)


def said(comment):
    """The lines of a comment, but for one that says why a form of the sources stays."""
    return [line for line in (line[2:].strip() for line in comment.splitlines()) if not line.startswith("Stays")]


def read_structs():
    """Every #[repr(C)] struct below crates/: its fields, and the comment above it, by its name."""
    found, above = {}, {}
    shape = COMMENT + ATTRIBUTES + r"pub struct (\w+)\s*\{(.*?)\}"
    for file in sorted((ROOT / "crates").glob("*/src/**/*.rt")):
        for m in re.finditer(shape, file.read_text(encoding="utf-8"), re.S | re.M):
            if "#[repr(C)]" not in m[2]:
                continue
            if m[3] in found:
                fail(f"two #[repr(C)] structs are called {m[3]}")
            found[m[3]], above[m[3]] = [named(f) for f in split(code(m[4]))], said(m[1])
    return found, above


def read_functions():
    """Every export of capi in order, lib.rt first: (name, the comment above it, [(parameter, type)], result type or None)."""
    found = []
    shape = COMMENT + ATTRIBUTES + r'pub extern "C" fn (\w+)\s*\((.*?)\)\s*(?:->\s*([\w:]+))?\s*(?=requires|ensures|\{)'
    for file in sorted((ROOT / "crates/capi/src").glob("**/*.rt"), key=lambda f: (f.name != "lib.rt", f)):
        text = file.read_text(encoding="utf-8")
        exports = [m for m in re.finditer(shape, text, re.S | re.M) if EXPORT in m[2]]
        if len(exports) != code(text).count(EXPORT):
            fail(f"{file.name} has an export of a form that is not known")
        for m in exports:
            found.append((m[3], said(m[1]), [named(p) for p in split(code(m[4]))], m[5] and m[5].split("::")[-1]))
    return found


STRUCTS, ABOVE = read_structs()


# ---- types

def array(kind):
    """`[T; N]` as (T, N)."""
    m = re.fullmatch(r"\[(.*);\s*([0-9_]+)\s*\]", kind, re.S)
    return (m[1].strip(), int(m[2].replace("_", ""))) if m else None


def reference(kind):
    """`&T` and `&mut T` as (whether it may be written, T)."""
    m = re.fullmatch(r"&(?:'\w+\s+)?(mut\s+)?(.*)", kind, re.S)
    return (bool(m[1]), m[2].strip()) if m else None


def slice_of(kind):
    """`[T]` as T."""
    return kind[1:-1].strip() if kind.startswith("[") and not array(kind) else None


def layout(kind):
    """The size and the alignment of a type, in bytes."""
    if kind in NUMBERS:
        return NUMBERS[kind][1], NUMBERS[kind][1]
    if array(kind):
        element, count = array(kind)
        size, align = layout(element)
        return size * count, align
    at, widest = 0, 1
    for _, field in STRUCTS[kind]:
        size, align = layout(field)
        at, widest = -(-at // align) * align + size, max(widest, align)
    return -(-at // widest) * widest, widest


def inner(kind):
    """The type of a type's elements, past all dimensions, and these as C writes them."""
    dimensions = ""
    while array(kind):
        kind, count = array(kind)
        dimensions += f"[{count}]"
    return kind, dimensions


def c_type(kind):
    if kind in NUMBERS:
        return NUMBERS[kind][0]
    if kind in STRUCTS:
        return "Sokdrib" + kind
    fail(f"no C type for {kind}")


def in_order(functions):
    """The structs that the functions name, each after those that it holds."""
    order = []

    def use(kind):
        for word in re.findall(r"[A-Z]\w*", kind):
            if word not in STRUCTS:
                fail(f"no #[repr(C)] struct {word}")
            for _, field in STRUCTS[word]:
                use(field)
            if word not in order:
                order.append(word)

    for _, _, parameters, result in functions:
        for _, kind in parameters + ([("", result)] if result else []):
            use(kind)
    return order


WIDTH = 140


def declared(before, given, after):
    """One declaration: on one line, or with a line for each parameter where that is too long."""
    line = f"{before}({', '.join(given)}){after}"
    if len(line) <= WIDTH:
        return [line]
    margin = before[:len(before) - len(before.lstrip())]
    comma = "," if "fn " in before else ""
    inside = [f"{margin}    {p}," for p in given[:-1]] + [f"{margin}    {given[-1]}{comma}"]
    return [before + "("] + inside + [f"{margin}){after}"]


# ---- C

def c_name(name):
    return name + "_" if name in C_WORDS else name


def c_parameter(name, kind):
    count, name, lent = f"size_t {name}_len", c_name(name), reference(kind)
    if not lent:
        if array(kind):
            fail(f"an array by value: {name}")
        return [f"{c_type(kind)} {name}"]
    writable, kind = lent
    const, element = "" if writable else "const ", slice_of(kind)
    base, dimensions = inner(element or kind)
    if element and dimensions:
        return [f"{const}{c_type(base)} (*{name}){dimensions}", count]
    if element:
        return [f"{const}{c_type(base)} *{name}", count]
    return [f"{const}{c_type(base)} {name}{dimensions}" if dimensions else f"{const}{c_type(base)} *{name}"]


def c_comment(lines):
    return ["/* " + "\n * ".join(lines) + " */"] if lines else []


def refusals():
    """The section "Refusals" of docs/API.md as the lines of a comment: its table has 01's numbers, 0 to 22, and then those of
    the requests that have landed, each once and rising."""
    plain = REFUSALS.read_text(encoding="utf-8").translate({ord("`"): "", ord("·"): "*", ord("−"): "-", ord("≥"): ">="})
    section = re.search(r"^## Refusals\n\n(.*?)^## ", plain, re.S | re.M)
    if not section:
        fail("docs/API.md has no section Refusals")
    out, numbers = ["Refusals.", ""], []
    for line in section[1].rstrip().splitlines():
        cells = [cell.strip() for cell in line.strip("|").split("|")]
        if not line.startswith("|"):
            out.append(line)
        elif cells[0].isdigit():
            numbers.append(int(cells[0]))
            number, why, left, by = cells
            out += textwrap.wrap(f"{why}. Left: {left}. By: {by}.", 116, initial_indent=f"{number:>4}  ", subsequent_indent=" " * 6)
    if numbers[:23] != list(range(23)) or numbers != sorted(set(numbers)):
        fail("the table of refusals in docs/API.md has not the numbers 0 to 22 and those of requests, each once and rising")
    return ["/* " + "\n".join([out[0]] + [f" * {line}".rstrip() for line in out[1:]]) + " */"]


def header(functions):
    out = [
        "/* Written by tools/gen_ffi.py from the sources of crate capi and from docs/API.md: change those, and run it.",
        " * A slice is two parameters, a pointer and a count of elements; an empty one may be null. A bool is one byte, 0 or 1.",
        " * A list that may be written overlaps no other list. */",
        *refusals(),
        "#ifndef SOKDRIB_H", "#define SOKDRIB_H", "", "#include <stdbool.h>", "#include <stddef.h>", "#include <stdint.h>", "",
        "#ifdef __cplusplus", 'extern "C" {', "#endif", "",
    ]
    for name in in_order(functions):
        out += c_comment(ABOVE[name]) + ["typedef struct {"]
        for field, kind in STRUCTS[name]:
            base, dimensions = inner(kind)
            out.append(f"    {c_type(base)} {c_name(field)}{dimensions};")
        out += [f"}} {c_type(name)};", ""]
    out += ["#if !defined(__cplusplus) && __STDC_VERSION__ >= 201112L"]
    out += [f'_Static_assert(sizeof({c_type(name)}) == {layout(name)[0]}, "{c_type(name)}");' for name in in_order(functions)]
    out += ["#endif", ""]
    for name, comment, parameters, result in functions:
        given = [p for n, kind in parameters for p in c_parameter(n, kind)] or ["void"]
        out += c_comment(comment) + declared(f"{c_type(result) if result else 'void'} {name}", given, ";") + [""]
    return "\n".join(out + ["#ifdef __cplusplus", "}", "#endif", "", "#endif"]) + "\n"


# ---- Rust

def rust_parameter(name, kind):
    lent = reference(kind)
    if not lent:
        return [f"{name}: {kind}"]
    writable, kind = lent
    if slice_of(kind):
        return [f"{name}: *{'mut' if writable else 'const'} {slice_of(kind)}", f"{name}_len: usize"]
    return [f"{name}: &{'mut ' if writable else ''}{kind}"]


def safe_parameter(name, kind):
    """What a function over slices takes, and what it hands on."""
    lent = reference(kind)
    if lent and slice_of(lent[1]):
        return f"{name}: {kind}", f"{name}.as_{'mut_' if lent[0] else ''}ptr(), {name}.len()"
    return f"{name}: {kind}", name


def declarations(functions):
    out = [
        "// Written by tools/gen_ffi.py from the sources of crate capi: change those, and run it.",
        "//! What the library exports, over slices.",
        "//!",
        "//! In the library a slice is two parameters, a pointer and a count of elements. Each pair that is handed over here is of a slice that is",
        "//! borrowed while the call lasts, and what may be written is borrowed as `&mut`, so it overlaps no other.",
        "",
    ]
    for name in in_order(functions):
        size, align = layout(name)
        out += [f"/// {line}" for line in ABOVE[name]] + ["#[repr(C)]", "#[derive(Clone, Copy, Debug, Default, PartialEq)]", f"pub struct {name} {{"]
        out += [f"    pub {field}: {kind}," for field, kind in STRUCTS[name]]
        out += ["}", f"const _: () = assert!(size_of::<{name}>() == {size} && align_of::<{name}>() == {align});", ""]
    plain = [name for name, _, parameters, _ in functions if not any("*" in p for n, kind in parameters for p in rust_parameter(n, kind))]
    direct = {w for _, _, parameters, result in functions for kind in [k for _, k in parameters] + [result or ""] for w in re.findall(r"[A-Z]\w*", kind)}
    out += ["mod library {", f"    use super::{{{', '.join(sorted(direct))}}};", "", '    unsafe extern "C" {']
    for name, comment, parameters, result in functions:
        given = [p for n, kind in parameters for p in rust_parameter(n, kind)]
        out += [f"        /// {line}" for line in comment if name in plain]
        out += declared(f"        pub {'safe' if name in plain else 'unsafe'} fn {name}", given, f" -> {result};" if result else ";")
    names = textwrap.wrap(", ".join(sorted(plain)), WIDTH - 5)
    out += ["    }", "}", "", "pub use library::{"] + ["    " + line for line in names] + ["};"]
    for name, comment, parameters, result in functions:
        if name not in plain:
            given = [safe_parameter(n, kind) for n, kind in parameters]
            out += [""] + [f"/// {line}" for line in comment]
            out += ["#[allow(clippy::too_many_arguments)]"] if len(given) > 7 else []
            out += declared(f"pub fn {name}", [g for g, _ in given], f" -> {result} {{" if result else " {")
            out += ["    // SAFETY: see above."] + declared(f"    unsafe {{ library::{name}", [p for _, p in given], " }") + ["}"]
    return "\n".join(out) + "\n"


def main():
    if sys.argv[1:] not in ([], ["--check"]):
        sys.exit(__doc__)
    functions = read_functions()
    stale = []
    for file, text in ((HEADER, header(functions)), (DECLARATIONS, declarations(functions))):
        if sys.argv[1:]:
            if not file.exists() or file.read_text(encoding="utf-8") != text:
                stale.append(str(file.relative_to(ROOT)))
        else:
            file.parent.mkdir(parents=True, exist_ok=True)
            file.write_text(text, encoding="utf-8")
    if stale:
        fail(f"not what crate capi exports, or not the refusals of docs/API.md: {', '.join(stale)}; run tools/gen_ffi.py")
    print(f"gen_ffi: {len(functions)} functions, {len(in_order(functions))} structs, {'as committed' if sys.argv[1:] else 'written'}")


main()
