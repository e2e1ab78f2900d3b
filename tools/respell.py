#!/usr/bin/env python3
"""Respells the repository's own definitions and lemmas: `firstIs` and `keys-are` become `first_is` and `keys_are`.

usage: python3 tools/respell.py          at the top of the repository, once, after the kit's port.py
       python3 tools/respell.py --names  lists each name with its new spelling, and writes nothing

Types, facts and modules keep their capitals, and a dash that follows a capitalised word stays (`SameEnd-trans`).
Functions of src/, exported names, strings, inputs and outputs are not touched: a name is respelled in .antt files, in the
clauses and `ghost use` lines of .rt files, between backticks in comments and pages, and in must-fail edits of .antt files
and of clauses. Where a lemma would get the name of a definition that stands in the same file, it gets `_lem` after it.
"""

import os
import re
import sys

WORD = r"[A-Za-z0-9_'₀-₉ℕ]"
TOKEN = re.compile(rf"{WORD}+(?:-{WORD}+)*")
MARKS = r"(?:(?:pub|abbrev|unfoldable|opaque|private) )*"
# A definition at the head of a line, or a field or a constructor; a generated goal (`: tie.Need-..`) is none of ours.
DEFINED = re.compile(rf"^ *{MARKS}({WORD}+(?:-{WORD}+)*) +:(?!=) *(\S*)")
# A type or a fact has a capital, and so has a name that begins with one.
CAMEL = re.compile(r"[a-z0-9][A-Z]")
# Names that the kit makes, or asks for under that spelling.
KIT = re.compile(r"^(invariant|decreases)-")


def files(root, endings):
    for top in ("crates", "docs", "tests", "bench", "tool"):
        for folder, dirs, names in os.walk(os.path.join(root, top)):
            dirs[:] = sorted(d for d in dirs if d not in ("out", "target"))
            for name in sorted(names):
                if name.endswith(endings):
                    yield os.path.join(folder, name)
    if ".md" in endings:
        for name in sorted(os.listdir(root)):
            if name.endswith(".md"):
                yield os.path.join(root, name)


def read(path):
    with open(path, encoding="utf-8") as f:
        return f.read()


def code_of(line):
    """The line without its comment."""
    return line.split("--", 1)[0] if line.lstrip().startswith("--") or " -- " in line else line


def respelled(name):
    if "-" not in name and not CAMEL.search(name):
        return name
    if name[0].isupper() or KIT.match(name):
        return name
    new = re.sub(r"(?<=[a-z0-9])-(?=[a-z0-9'])", "_", name)
    if "-" not in new:
        new = re.sub(r"([a-z0-9])([A-Z])", lambda m: m[1] + "_" + m[2].lower(), new)
    return new


def own_names(root):
    names = {}
    for path in files(root, (".antt",)):
        for line in read(path).splitlines():
            m = DEFINED.match(code_of(line))
            if not m or m[2].startswith("tie."):
                continue
            new = respelled(m[1])
            if new != m[1]:
                names[m[1]] = new
    return names


def turn(text, names):
    return TOKEN.sub(lambda m: names.get(m[0], m[0]), text)


def in_backticks(text, names):
    return re.sub(r"`[^`\n]*`", lambda m: turn(m[0], names), text)


def turned_antt(text, names):
    out = []
    for line in text.split("\n"):
        code = code_of(line)
        out.append(turn(code, names) + in_backticks(line[len(code):], names))
    return "\n".join(out)


def lemma_names(text, plain):
    return TOKEN.sub(lambda m: m[0] if text[m.start() - 1 : m.start()] == "." else plain.get(m[0], m[0]), text)


CLAUSE = re.compile(r"^\s*(ghost |requires|ensures|decreases|invariant|also_|pub ghost )")


def turned_rt(text, names):
    out = []
    clause = False
    for line in text.split("\n"):
        if line.lstrip().startswith("//"):
            out.append(in_backticks(line, names))
            continue
        if CLAUSE.match(line):
            clause = True
        elif clause and re.match(r"^\s*(\{|\}|pub |fn |let |ensures|requires)", line):
            clause = False
        out.append(turn(line, names) if clause else line)
        if clause and line.rstrip().endswith(("}", ";")) and line.count("{") == line.count("}"):
            clause = False
    return "\n".join(out)


def turned_edit(text, names):
    is_antt = re.search(r"(?m)^file: .*\.antt$", text)
    out = []
    for line in text.split("\n"):
        m = re.match(r"(old|new): ?(.*)$", line)
        if m and (is_antt or CLAUSE.match(m[2])):
            line = turn(line, names)
        out.append(line)
    return "\n".join(out)


def alone(text):
    """The names of a text that are no part of a path."""
    return set(re.findall(rf"(?<![.\w-])({WORD}+(?:-{WORD}+)*)(?![\w-]|\.\w)", text))


def settled(root, names):
    """Names that fall together: a definition keeps the plain spelling, and the lemma beside it gets `_lem`."""
    seen = [alone("\n".join(code_of(l) for l in read(p).splitlines())) for p in files(root, (".antt",))]
    lemmas, plain = {}, {}
    for old, new in names.items():
        with_old = [s for s in seen if old in s]
        if "-" not in old:
            if any(new in s for s in with_old):
                plain[new] = new + "_lem"
            continue
        others = {new} | {o for o, n in names.items() if n == new and o != old}
        if any(s & others for s in with_old):
            lemmas[old] = new + "_lem"
    return {**names, **lemmas}, plain


def main(argv):
    root = os.getcwd()
    if not os.path.isdir(os.path.join(root, "crates")):
        print("respell: run it at the top of the repository", file=sys.stderr)
        return 2
    names = own_names(root)
    names, plain = settled(root, names)
    if argv == ["--names"]:
        for old, new in sorted({**names, **plain}.items()):
            print(old, new)
        return 0
    for path in files(root, (".antt", ".rt", ".edit", ".md")):
        text = read(path)
        if path.endswith(".antt"):
            new = turned_antt(lemma_names(text, plain), names)
        elif path.endswith(".rt"):
            new = turned_rt(text, names)
        elif path.endswith(".edit"):
            new = turned_edit(text, names)
        else:
            new = in_backticks(text, names)
        if new != text:
            with open(path, "w", encoding="utf-8") as f:
                f.write(new)
    print(f"respell: {len(names)} names")
    return 0


if __name__ == "__main__":
    raise SystemExit(main(sys.argv[1:]))
