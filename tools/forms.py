#!/usr/bin/env python3
"""Lists places in the sources that may have a plainer form, for the eight points of docs/DESIGN-PASS.md.

    python3 tools/forms.py [POINT ...] [--list] [--crate NAME ...]

prints how many lines of crates/*/src each point's patterns find, by crate; --list prints the lines. A line is a place
to look at, not yet one to change.
"""
import pathlib
import re
import sys

POINTS = {
    "1": ("own Option or Result, numbers for kinds and refusals", [
        r"^\s*(pub(\(crate\))? )?enum ",
        r"\bcode: u8\b|\bfn (code|mark)\b|u8\)(; \d+\]|,|\))\s*|Refused\(u8\)|=> 0,$|\], \d\),$",
    ]),
    "2": ("names that say a type, a size or a direction", [
        r"\b(fn|struct|const|enum|trait) \w*(narrow|wide|word|long|signed|seal|open|NARROW|WIDE|Narrow|Wide|Long|SEAL|OPEN)\w*",
        r"\bimpl\b.* for \w+",
        r"\bfn (part|front|sum|fill|filled|xor|linear|load|join|swap)\b",
        r"macro_rules!",
    ]),
    "3": ("loops that count", [
        r"\bfor \w+ in [^{]*\.\.", r"\bwhile\b", r"\bloop\b", r"\benumerate\(\)",
    ]),
    "4": ("comparison, conversion, printing by hand", [
        r"\bfn (same|eq|name|of|code|from|fmt|digit|kind_named)\b",
        r"\bas (u|i)(8|16|32|64|128|size)\b",
        r"^\s*let (\w+) = self(\.kind)?\.\w+(\(\))?;$",
    ]),
    "5": ("facts and parameters that travel together", [
        r"\brequires\b.*×", r"\(B ≡ 16\) ⊎|Admitted|length \w+\.(now|old) ≡ line_bytes|length \w+\.now ≤ 9",
        r"^\s*key: &\[u8\],$|\bkey: &\[u8\], nonce: &\[u8\]|nonce: usize,.*ad: usize|^\s*nonce: usize,$",
        r"\bplace: Place, least|^\s*place: Place,$|sides: &Sides, (side|kind)|^\s*sides: &Sides,$",
    ]),
    "6": ("lengths and places beside a buffer", [
        r"\b(count|at|from|to|n|len|written): usize\b",
    ]),
    "7": ("a switch on which step to run", [
        r"\bmatch (way|side|kind|self\.kind|setting\.kind|self\.spread|self\.rule)\b",
    ]),
}


def main():
    args = sys.argv[1:]
    show = "--list" in args
    crates = args[args.index("--crate") + 1:] if "--crate" in args else None
    points = [a for a in args[: args.index("--crate")] if a in POINTS] if crates else [a for a in args if a in POINTS]
    for point in points or POINTS:
        what, patterns = POINTS[point]
        whole = re.compile("|".join(patterns))
        counts = {}
        for path in sorted(pathlib.Path("crates").glob("*/src/**/*.rt")):
            crate = path.parts[1]
            if crates and crate not in crates:
                continue
            for number, line in enumerate(path.read_text().splitlines(), 1):
                if whole.search(line) and not line.lstrip().startswith("//"):
                    counts[crate] = counts.get(crate, 0) + 1
                    if show:
                        print(f"{point} {path}:{number}: {line.strip()}")
        by_crate = ", ".join(f"{crate} {n}" for crate, n in sorted(counts.items()))
        print(f"point {point} ({what}): {sum(counts.values())} lines: {by_crate}")


main()
