#!/usr/bin/env python3
"""Spells the repository's own definitions and lemmas in snake case: `holdsAt` becomes `holds_at`, `keep-append` becomes `keep_append`.

usage: respell.py [--check]      at the top of the repository, once, after the kit's port.py

What turns: each name that a file of crates/*/specs or crates/*/proofs declares (a function's own folder in proofs/ aside), also below a `where` and in a record, and each variable that such a
file binds in camel case. It turns as a whole word in every .antt file, in the `ghost use` items and clauses of every .rt file, and in the code spans of comments. A name that a library of the kit
gives keeps its spelling, and so do the names of types and modules. With --check it writes nothing and prints the table; a new name that stands in the texts already is named on a line 'met:'.
"""

import os
import re
import sys

WORD = re.compile(r'[^\s(){}.;,@"«»`]+')
CAMEL = re.compile(r"^[a-z][a-zA-Z0-9_'₀-₉-]*$")
# Lemmas that port.py spelled as a definition is spelled here.
LEMMAS = {"pairs_first": "pairs_first_lem"}
KEPT = {"use", "pub", "abbrev", "unfoldable", "record", "data", "module", "where", "infix", "mod"}


def in_snake_case(name):
    words = re.sub(r"(?<=[a-z0-9])[A-Z]", lambda m: "_" + m[0].lower(), name)
    return re.sub(r"(?<=[A-Za-z0-9₀-₉'])-(?=[A-Za-z0-9])", "_", words)


def files(*ends):
    for folder, dirs, names in os.walk("crates"):
        dirs[:] = sorted(d for d in dirs if d != "out")
        for name in sorted(names):
            if name.endswith(ends):
                yield os.path.join(folder, name)


def is_lemma_file(path):
    parts = path.split(os.sep)
    return len(parts) == 4 and parts[2] in ("specs", "proofs") and path.endswith(".antt")


def from_kit(text):
    """The names that a file imports from elsewhere than this repository's crates."""
    found = set()
    own = {d for d in os.listdir("crates")}
    for path, items in re.findall(r"^(?:ghost )?use ([^\s{;]+)(?:\{([^}]*)\})?", text, re.M):
        steps = path.strip(".").split(".")
        if steps[0] == "Rattle" and len(steps) > 1 and steps[1] in own:
            continue
        found.update(w for item in items.split(",") for w in item.split())
    return found


def declared(text):
    found = set()
    for line in text.split("\n"):
        code = re.sub(r"(?:^|\s)--.*", "", line)
        words = code.split()
        while words and words[0] in KEPT:
            words = words[1:]
        if len(words) > 1 and words[1] == ":" and CAMEL.match(words[0]):
            found.add(words[0])
        # a declaration with implicit arguments before its colon
        found.update(m for m in re.findall(r"^\s*(?:\w+ )*?([a-z][\w'₀-₉-]*)(?: \{[^{}]*\})+ :", code))
        # variables in camel case: of a λ, a let, a telescope, a clause
        found.update(w for w in WORD.findall(code) if re.match(r"^[a-z]+[a-z0-9_]*[A-Z][A-Za-z0-9_'₀-₉]*$", w))
    return found


def table():
    names, kit, stand = set(), set(), set()
    for path in files(".antt", ".rt"):
        with open(path, encoding="utf-8") as f:
            text = f.read()
        kit |= from_kit(text)
        if is_lemma_file(path):
            names |= declared(text)
            stand |= {w for w in re.findall(r"(?m)^ *(?:\w+ )*?([a-z]\w*) :", text)}
    rows = {old: in_snake_case(old) for old in sorted(names - kit)}
    rows = {old: new for old, new in rows.items() if old != new}
    # A lemma that would have its function's name ends in _lem.
    camel = {new for old, new in rows.items() if "-" not in old}
    for old, new in rows.items():
        if "-" in old and new in camel | stand:
            rows[old] = new + "_lem"
    rows.update(LEMMAS)
    return rows


def turned(text, rows, whole):
    """The text with the names of the rows turned: everywhere, or in clauses, `ghost use` items and code spans alone."""
    turn = lambda t: WORD.sub(lambda m: rows.get(m[0], m[0]), t)
    if whole:
        # in a comment only the code spans
        out = []
        for line in text.split("\n"):
            at = re.search(r"(?:^|\s)--(?:\s|$)", line)
            code, comment = (line[: at.start()], line[at.start() :]) if at else (line, "")
            out.append(turn(code) + re.sub(r"`[^`]*`", lambda m: turn(m[0]), comment))
        return "\n".join(out)
    out = []
    for line in text.split("\n"):
        stripped = line.strip()
        if stripped.startswith("//"):
            out.append(re.sub(r"`[^`]*`", lambda m: turn(m[0]), line))
        elif re.match(r"(?:ghost|requires|ensures)\b", stripped):
            out.append(turn(line))
        else:
            out.append(line)
    return "\n".join(out)


def main():
    rows = table()
    check = "--check" in sys.argv[1:]
    met = {}
    for path in files(".antt", ".rt"):
        with open(path, encoding="utf-8") as f:
            text = f.read()
        words = set(WORD.findall(text))
        for old, new in rows.items():
            if new in words:
                met.setdefault(new, []).append(path)
        new_text = turned(text, rows, path.endswith(".antt"))
        if new_text != text and not check:
            with open(path, "w", encoding="utf-8") as f:
                f.write(new_text)
    if check:
        for old, new in rows.items():
            print(f"{old}\t{new}")
    for new, paths in sorted(met.items()):
        print(f"met: {new}: {' '.join(paths[:4])}")
    falls = {}
    for old, new in rows.items():
        falls.setdefault(new, []).append(old)
    for new, olds in falls.items():
        if len(olds) > 1:
            print(f"met: {' and '.join(olds)} fall together as {new}")


if __name__ == "__main__":
    main()
