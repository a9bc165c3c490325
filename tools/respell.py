#!/usr/bin/env python3
"""Brings this repository's own definitions and lemmas to today's spelling: words in snake case, facts and types in camel case.

usage: python3 tools/respell.py [ROOT]

'third-word' becomes 'third_word', and 'Length-adds-up' 'LengthAddsUp'. What turns is decided by where a name comes from:
a name that a file of specs/ or proofs/ declares (a definition, a lemma, a constructor, a field of a record), in the files
that declare it, that bring it in from a crate of this repository, or that write it behind a dot as a field. Names of the
library and names that Rattle makes of the code (goals, steps of a proof) stay, and so do the names of src/.
Pages and the text of comments follow where they write such a name whole. Names that would fall together are told and stop
the run before anything is written. A second run changes nothing.
"""
import glob
import os
import re
import sys

WORD = r"[^\s(){}\[\].;,:@\"`«»|]+"
HEAD = re.compile(rf"^([ ]*)(?:(?:abbrev|unfoldable|pub) )*(?:(?:record|data|ruleset) ({WORD})|({WORD}) :)")
LOCAL = re.compile(r"[({]((?:[\w'-]+ )+):|\blet ([\w'-]+)|λ ((?:[\w'-]+ )*[\w'-]+)\.")


def respelled(name):
    if name[0].isupper():
        return "".join(part[:1].upper() + part[1:] for part in name.split("-"))
    return name.replace("-", "_")


def read(path):
    with open(path, encoding="utf-8") as f:
        return f.read()


def declared(text):
    """The names with dashes that a file declares: on the left of ':' at the beginning of a line; the fields of its records apart."""
    names, fields, record = set(), set(), False
    for line in text.split("\n"):
        if not line.strip() or line.lstrip().startswith("--"):
            continue
        if not line.startswith(" "):
            record = bool(re.match(r"(?:abbrev |unfoldable |pub )*record ", line))
        m = HEAD.match(line)
        if not m or re.search(r": *goal\.", line) or line.lstrip().startswith(("use ", "elim ", "let ")):
            continue
        name = m.group(2) or m.group(3)
        if "-" not in name.strip("-"):
            continue
        (fields if record and line.startswith(" ") else names).add(name)
    return names, fields


def variables(text):
    """The names with dashes that a file binds in a signature, a 'let' or a 'λ'."""
    return {name for m in LOCAL.finditer(text) for name in (m.group(1) or m.group(2) or m.group(3)).split() if "-" in name.strip("-")}


def imports(text, rust):
    """The names that a file brings in, by the crate that they come from, and its aliases."""
    found, aliases = [], set()
    opening = r"ghost use " if rust else r"(?:pub )?use "
    for m in re.finditer(opening + r"(Rattle\.[\w.]+)\.\{([^}]*)\}", text):
        for item in m.group(2).split(","):
            words = item.split()
            if words:
                found.append((m.group(1), words[0]))
            if len(words) == 3 and words[1] == "as" and "-" in words[2]:
                aliases.add(words[2])
    return found, aliases


def main(root):
    os.chdir(root)
    own = {os.path.basename(p) for p in glob.glob("crates/*")}
    antt = sorted(p for part in ("specs", "proofs") for p in glob.glob(f"crates/*/{part}/**/*.antt", recursive=True))
    rust = sorted(glob.glob("crates/*/src/**/*.rt", recursive=True))
    pages = sorted(["README.md"] + [p for p in glob.glob("docs/*.md") if not os.path.basename(p).startswith("PORT")] + [p for p in glob.glob("tools/**/*", recursive=True) if os.path.isfile(p) and os.path.basename(p) != "respell.py"])
    texts = {p: read(p) for p in antt + rust}
    per_file, fields, everywhere = {}, set(), set()
    for p in antt:
        names, inner = declared(texts[p])
        per_file[p] = names | inner
        fields |= inner
        everywhere |= names | inner
    turns = {}
    for p, text in texts.items():
        brought, aliases = imports(text, p.endswith(".rt"))
        mine = {name for path, name in brought if path.split(".")[1] in own and name in everywhere}
        theirs = {name for path, name in brought if path.split(".")[1] not in own}
        bound = variables(text) if p.endswith(".antt") else set()
        turns[p] = (per_file.get(p, set()) | mine | aliases | bound) - (theirs - per_file.get(p, set()))
    bad = []
    for p, names in turns.items():
        words = set(re.findall(rf"(?<!\.){WORD}", "\n".join(l.split("--")[0] for l in texts[p].split("\n")) if p.endswith(".antt") else "\n".join(re.findall(r"ghost use [^;]*;", texts[p]))))
        bad += [f"{p}: {n} and {respelled(n)} fall together" for n in names if respelled(n) in words]
    if bad:
        print("\n".join(bad))
        return 1

    def turned(text, names):
        def word(m):
            behind_dot = m.start() > 0 and text[m.start() - 1] == "." and not text[: m.start()].endswith("λ")
            before = text[max(0, m.start() - 2) : m.start()]
            name = m.group(0)
            if behind_dot and re.match(r"[\w)']\.", before):
                return respelled(name) if name in fields else name
            return respelled(name) if name in names or (name in fields and re.search(r"\brecord\b", text)) else name

        return re.sub(WORD, word, text)

    changed = 0
    for p, text in texts.items():
        new = turned(text, turns[p]) if p.endswith(".antt") else re.sub(
            r"ghost use [^;]*;|(?:requires|ensures)\*?(?: \w+)? \{.*\}|ghost \w+ *[:=] *\{[^\n]*\}|//[^\n]*", lambda m: turned(m.group(0), turns[p] | fields), text)
        if new != text:
            changed += 1
            with open(p, "w", encoding="utf-8") as f:
                f.write(new)
    # the names that stand now: a page may still write one as it was spelled before another script turned it
    known = {respelled(name) for name in everywhere} | set(re.findall(r"^(?:abbrev |unfoldable |pub )*([\w']+) :", "\n".join(texts[p] for p in antt), re.M))

    def told(text):
        def word(m):
            name, before, behind = m.group(0), text[m.start() - 1 : m.start()], text[m.end() : m.end() + 1]
            return respelled(name) if respelled(name) in known and (name[0].isupper() or before in "`." or behind == "`") else name

        return re.sub(r"\w[\w']*(?:-[\w']+)+", word, text)

    for p in pages:
        text = read(p)
        new = told(text)
        if new != text:
            changed += 1
            with open(p, "w", encoding="utf-8") as f:
                f.write(new)
    print(f"respell: {len(everywhere)} names declared with dashes; {changed} files changed")
    return 0


if __name__ == "__main__":
    raise SystemExit(main(sys.argv[1] if len(sys.argv) > 1 else "."))
