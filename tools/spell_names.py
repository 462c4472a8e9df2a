#!/usr/bin/env python3
"""Spells the repository's own definitions and lemmas as today's Rattle does: words in snake case, types and modules in camel case.

usage: python3 tools/spell_names.py            in the repository, once, after port.py: rewrites crates/ and prints each name that changed
       python3 tools/spell_names.py --edits    the same names in must-fail/*.edit alone
       python3 tools/spell_names.py --pages    the same names between backquotes in README.md, CONTRIBUTING.md and docs/

A name in mixed case gets underscores: evalPart is eval_part. A dash becomes an underscore, but where it joins two names, one of which is a
definition of specs/ or of Rattle's library, or a type: length-add, X-below. A name that would meet another in some file stays in all files,
and is printed behind 'stays:'. Functions of src/, labels that Rattle makes and what a file takes from Rattle's library keep their spelling.
The table of names is written to tools/spelled_names.tsv by the first form, and read by the others.
"""

import glob
import os
import re
import sys

DELIMITERS = r'\s(){}.;,@"«»'
TOKEN = re.compile(rf'[^{DELIMITERS}]+')
# In Rust a colon, an operator or a bracket ends a name, too.
IN_RUST = re.compile(r"(?<![\w-])\w[\w'-]*")
QUOTED = re.compile(r"""(b?'(?:[^'\\]|\\.)'|"(?:[^"\\]|\\.)*")""", re.S)
ON_A_LINE = re.compile(r'"[^"]*"')
MARKS = r"(?:(?:pattern|unfoldable|abbrev|pub|axiom|record|data|ruleset) )*"
DECLARED = re.compile(rf"^ *({MARKS})([^{DELIMITERS}:]+)(?: [^=]*?)? ?:(?: |$)")
LIBRARY = re.compile(r"use (?!Rattle\.(?!(?:std|core|io|libc|os)\b))[^\s{]*\.\{([^}]*)\}", re.S)
TABLE = "tools/spelled_names.tsv"
# What the rules would spell as another name of the same file, and what looks so and is not: functions of src/ of that name.
BY_HAND = {"in-turn": "in_turn_lem", "oneIn": "one_in_many", "indexAt": "index_at", "totalPlace": "total_place"}


def read(path):
    with open(path, encoding="utf-8") as f:
        return f.read()


def write(path, text):
    with open(path, "w", encoding="utf-8") as f:
        f.write(text)


def declared(text):
    """The names that a file declares, definitions, fields and cases."""
    found = {}
    for line in text.split("\n"):
        if line.lstrip().startswith(("--", "use ", "pub use ", "module ", "pub mod", "mod ")):
            continue
        m = DECLARED.match(line)
        if m and m[2] not in ("let", "in", "λ", "elim", "where", "_"):
            found.setdefault(m[2], m[1])
    return found


def words(part):
    """Mixed case to snake case, of one part of a name; a part that begins with a capital is a type's."""
    if part[:1].isupper():
        return part
    return re.sub(r"(?<=[a-z0-9₂])([A-Z])(?=[a-z])", lambda m: "_" + m[1].lower(), part)


def respelled(name, nouns):
    parts = name.split("-")
    if len(parts) == 1:
        return words(name)
    out = words(parts[0])
    for before, after in zip(parts, parts[1:]):
        joins = (
            before in nouns and after in nouns
            or before[:1].isupper()
            or after[:1].isupper()
            or not before
            or not after
            or not re.match(r"\w", before[-1])
            or not re.match(r"\w", after[0])
        )
        out += ("-" if joins else "_") + words(after)
    return out


def files():
    return sorted(f for f in glob.glob("crates/**/*", recursive=True) if f.endswith((".antt", ".rt")) and "/out/" not in f)


def table():
    """Old and new names, and the nouns, from the whole repository."""
    names, nouns, imported = {}, set(), set()
    for f in files():
        text = read(f)
        for m in LIBRARY.finditer(text):
            imported |= set(re.split(r"[\s,]+", m[1].strip())) - {"as", ""}
        if not f.endswith(".antt"):
            continue
        answers = set(re.findall(rf"(?m)^ *(?:abbrev |pub )*([^{DELIMITERS}]+) :\s+(?:\S*(?:tie|lts)\.|.*statement M$)", text)) if re.search(r"/proofs/.+/", f) else set()
        for name, marks in declared(text).items():
            if name in answers:
                continue
            names[name] = marks
            if "/specs/" in f:
                nouns.add(name)
    nouns |= {n for n in imported if "-" not in n and "_" not in n}
    rows = {}
    for name in names:
        new = BY_HAND.get(name, respelled(name, nouns))
        if new != name:
            rows[name] = new
    return rows


def from_library(text):
    """What a file takes from Rattle's library by name."""
    found = set()
    for m in LIBRARY.finditer(text):
        for item in m[1].split(","):
            found.add(item.split(" as ")[-1].strip())
    return found


def code_tokens(text, rt):
    """The tokens of a file outside comments that may stand for a value: no path's part, and of Rust no function, which no clause can name."""
    for line in text.split("\n"):
        if line.lstrip().startswith("//" if rt else "--"):
            continue
        if rt and re.match(r"\s*(pub )?(use|mod|ghost use) ", line):
            continue
        line = re.sub(r"^\s*(pub )?use \S*", "", line)
        for m in (IN_RUST if rt else TOKEN).finditer(line):
            if not (rt and line[m.end() : m.end() + 1] == "("):
                yield m[0]


def meet(rows):
    """Takes out of the table each name whose new spelling stands for something else in a file that has it."""
    stay = {}
    backwards = {}
    for old, new in rows.items():
        backwards.setdefault(new, []).append(old)
    for new, olds in backwards.items():
        lemmas = [old for old in olds if "-" in old]
        if len(olds) == 2 and len(lemmas) == 1:
            rows[lemmas[0]] = new + "_lem"
        elif len(olds) > 1:
            for old in olds:
                stay[old] = f"{', '.join(olds)} would all be {new}"
    for f in files():
        text = read(f)
        own = from_library(text)
        have = set(code_tokens(text, f.endswith(".rt")))
        for t in have:
            if t in rows and t not in own and rows[t] in have and t not in BY_HAND:
                stay.setdefault(t, f"{rows[t]} stands in {f}")
    for old in stay:
        rows.pop(old, None)
    return stay


def turned(text, rows, rt, library):
    comment, token = ("//", IN_RUST) if rt else ("--", TOKEN)
    # Modules of the library under their own names: what stands behind one and a dot is the library's.
    modules = {m[1] for m in re.finditer(r"(?m)^ *use (?!Rattle\.)\S*?(\w+)$", text)}

    def of_module(line, m):
        return line[m.start() - 1 : m.start()] == "." and TOKEN.findall(line[: m.start()])[-1] in modules

    def turn(part):
        out = []
        for line in part.split("\n"):
            if line.lstrip().startswith(comment):
                out.append(token.sub(lambda m: rows[m[0]] if m[0] in rows and "-" not in m[0] else m[0], line))
            else:
                strings = [m.span() for m in ON_A_LINE.finditer(line)]
                out.append(token.sub(lambda m: rows[m[0]] if m[0] in rows and m[0] not in library and not of_module(line, m) and not any(a < m.start() < b for a, b in strings) else m[0], line))
        return "\n".join(out)

    parts = QUOTED.split(text) if rt else [text]
    return "".join(part if i % 2 else turn(part) for i, part in enumerate(parts))


def main(argv):
    if argv == ["--edits"] or argv == ["--pages"]:
        rows = dict(l.split("\t") for l in read(TABLE).splitlines())
        if argv == ["--edits"]:
            for f in sorted(glob.glob("crates/*/must-fail/*.edit")):
                lines = read(f).split("\n")
                write(f, "\n".join(TOKEN.sub(lambda m: rows.get(m[0], m[0]), l) if l.startswith(("old: ", "new: ")) else l for l in lines))
        else:
            for f in ["README.md", "CONTRIBUTING.md", *sorted(glob.glob("docs/*.md"))]:
                turn = lambda m: TOKEN.sub(lambda n: rows.get(n[0], n[0]), m[0])
                write(f, re.sub(r"(?<=`)[^`\n]+(?=`)", turn, read(f)))
        return 0
    rows = table()
    stay = meet(rows)
    for f in files():
        text = read(f)
        new = turned(text, rows, f.endswith(".rt"), from_library(text))
        if new != text:
            write(f, new)
    os.makedirs("tools", exist_ok=True)
    write(TABLE, "".join(f"{a}\t{b}\n" for a, b in sorted(rows.items())))
    for old, why in sorted(stay.items()):
        print(f"stays: {old}: {why}")
    print(f"{len(rows)} names, {len(stay)} stay")
    return 0


if __name__ == "__main__":
    raise SystemExit(main(sys.argv[1:]))
