#!/usr/bin/env python3
"""Counts the places that docs/DESIGN-PASS.md speaks of, in crates/*/src of the folder that is given.

usage: tools/count_places.py FOLDER [--list]
"""
import difflib
import itertools
import pathlib
import re
import sys

# What a line must hold to be a place. Of the lines found, docs/DESIGN-PASS.md tells which are none.
PATTERNS = [
    ("1 faults as an Option", r"-> Option<(BtfError|FixupError)>"),
    ("1 kinds or features told apart by number", r"number\(\) *(==|!=)|\bnumber == |is_in\([A-Z]"),
    ("1 faults passed on by hand", r"Err\((e|fault)\) => (return )?Err\(|return Err\(fault\)|Some\(fault\) => Some|return Some\(fault\)"),
    ("1 a flag beside its value", r"ended: bool,|fn has_third\(\)|high = \*b|is_cut: bool|has_table: bool|put_\w+.*-> bool$"),
    ("1 let .. else that answers none or a fault", r"^\s*let .* else \{$"),
    ("3 an index or a count by hand", r"^\s*for \w+ in \(?0\.\.\w+\.len\(\)|^\s*for (at|i) in 0\.\.count|in \(1\.\.12\)|^\s*while |enumerate\(\)"),
    ("3 a count kept by hand", r"\b(count|length|line|number|place) (\+=|-=) |= (line|number|count)\.saturating_add\(1\)"),
    ("3 the number of turns", r"^\s*for \w+ in 0\.\.(?!.*(len\(\)|count \{|count$))|in 1\.\.20"),
    ("3 a search by a loop", r"^\s*return (true|false|Some\((i|row\.number)\)|i|i \+ 1|length|Ok\(id\));"),
    ("4 impls of conversion and printing", r"^\s*impl.* (From<.*>|fmt::Display|fmt::Debug|Error) for "),
    ("4 conversions by other names", r"fn (from_number|kind_word|word_of|of_head|of_element|of_two|of_three|of)\(|fn number\(self\)"),
    ("5 Kept in a contract", r"(requires|ensures).*\{ Kept "),
    ("5 rows beside elements or strings", r"rows: &\[TypeRow\]"),
    ("5 the caller's names beside rows", r"names: &\[u8\],$|names: &\[u8\]\) "),
    ("5 order, out and at", r"^\s*order: &O,$|order: &O, out"),
    ("5 a table beside its names", r"table: &(mut )?Btf"),
    ("6 a buffer with a length beside", r"\[u32; 4\], Fault|words: \[u32; 6\],|Text\(\[u8; 8\]\)"),
    ("7 a switch on the step to run", r"granted: bool,$|match place \{|fn time_\w+\("),
]


def sources(folder):
    for path in sorted(pathlib.Path(folder).glob("crates/*/src/*.rt")):
        yield path, path.read_text()


def lines(folder, pattern):
    found = []
    for path, text in sources(folder):
        for number, line in enumerate(text.splitlines(), 1):
            if re.search(pattern, line):
                found.append(f"{path.relative_to(folder)}:{number}: {line.strip()}")
    return found


def functions(folder):
    """The functions with the words of what stands between their braces."""
    for path, text in sources(folder):
        parts = re.split(r"(?m)^(?=[ ]*(?:pub(?:\(crate\))? )?fn \w)", text)
        for part in parts[1:]:
            name = re.match(r"\s*(?:pub(?:\(crate\))? )?fn (\w+)", part).group(1)
            code = [l for l in part.splitlines() if not re.match(r"\s*(requires|ensures|//)", l)]
            words = re.findall(r"\w+|[^\s\w]", "\n".join(code))
            if 40 <= len(words):
                yield f"{path.relative_to(folder)}: {name}", words


def twins(folder):
    """Pairs of functions of which nine words in ten are the same, in the same order."""
    found = []
    for (a, x), (b, y) in itertools.combinations(functions(folder), 2):
        if max(len(x), len(y)) <= 1.25 * min(len(x), len(y)):
            match = difflib.SequenceMatcher(None, x, y, autojunk=False)
            if 0.9 <= match.quick_ratio() and 0.9 <= match.ratio():
                found.append(f"{a} and {b}")
    return found


def main():
    if len(sys.argv) < 2:
        sys.exit(__doc__)
    folder = sys.argv[1]
    counts = [(name, lines(folder, pattern)) for name, pattern in PATTERNS]
    counts.insert(5, ("2 pairs of functions nearly alike", twins(folder)))
    for name, found in counts:
        print(f"{len(found):4} {name}")
        if "--list" in sys.argv[2:]:
            for place in found:
                print(f"     {place}")


main()
