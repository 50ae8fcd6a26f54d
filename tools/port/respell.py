#!/usr/bin/env python3
"""respell.py: brings the names of this repository's definitions, lemmas and fields to today's spelling. Run once, after port.py.

names.tsv beside this file has a line for each name: as it was, as port.py leaves it, as it is now. A name of several words is in snake
case. A dash stays only between two names of definitions, as in `length-take`. A lemma that would have a definition's name ends in `_lem`.
A name that a file binds for itself follows the same rule, with `'` after it where the file has the new name already.

In order: the table; a proof file; a source file; an edit; a page.
"""

import re
from pathlib import Path

ROOT = Path(__file__).resolve().parents[2]
WORD = r"[^\s(){}.;,@\"«»\[\]\\|:`]+"
TOKEN = re.compile(r"--[^\n]*|" + WORD)
CAMEL = re.compile(r"(?<=[a-z0-9'])([A-Z])")
MADE = re.compile(r".*-spec$|.*-requires(-\d+)?$|returns(-\d+)?$|(invariant|decreases)-loop(-\d+)?$")

# ---- the table


def table():
    rows = [line.split("\t") for line in (Path(__file__).parent / "names.tsv").read_text().splitlines()]
    was = {old: new for old, _, new in rows}
    ported = {mid: new for _, mid, new in rows}
    return was, ported


def spelled(name):
    return CAMEL.sub(lambda m: "_" + m[1].lower(), name).replace("-", "_")


# ---- a proof file


def fields():
    """The fields that records of this repository declare: a projection of them is a name of ours, other names after a dot are made."""
    found = set()
    for path in ROOT.glob("crates/*/*/**/*.antt"):
        found |= set(re.findall(r"(?m)^ +(?:pub )?([^\s:(){}]+) : ", path.read_text()))
    return found


def imported(text):
    """Names that a file takes from elsewhere than this repository."""
    own = r"Rattle\.(?:flash|crc|sector|page|call|opening|boundary|theorem|cuts|recorded|test)"
    found = set()
    for path, names in re.findall(r"(?m)^(?:pub )?use ([^\s{]+)\.\{([^}]*)\}", text):
        if not re.match(own, path):
            found |= {name.split(" as ")[0].strip() for name in names.split(",")}
    return found


def is_local(token):
    return bool(re.match(r"[a-z]", token)) and (bool(CAMEL.search(token)) or bool(re.search(r"\w-\w", token)))


def file_names(text, ported, proof):
    """What each name of one file becomes."""
    code = re.sub(r"--[^\n]*", "", text)
    alone = {m[0] for m in re.finditer(WORD, code) if m.start() == 0 or code[m.start() - 1] != "."}
    to = {token: ported[token] for token in alone if token in ported}
    away = imported(code)
    taken = set(to.values()) | {token for token in alone if token not in to}
    for token in sorted(alone - set(to)):
        if not is_local(token) or token in away or (proof and MADE.match(token)):
            continue
        new = spelled(token)
        while new in taken:
            new += "'"
        to[token] = new
        taken.add(new)
    return to


def antt(path, ported, projected, functions):
    text = path.read_text()
    proof = path.name == "Proof.antt"
    to = file_names(text, ported, proof)

    def turned(m):
        token = m[0]
        if token.startswith("--"):
            return commented(token, ported)
        if m.start() and text[m.start() - 1] == ".":
            if token in projected and token in ported and not (proof and token.replace("-", "_") in functions):
                return ported[token]
            return token
        return to.get(token, token)

    path.write_text(TOKEN.sub(turned, text))


def commented(comment, names):
    comment = re.sub(r"`[^`\n]*`", lambda m: re.sub(WORD, lambda w: names.get(w[0], w[0]), m[0]), comment)
    return re.sub(r"\b[a-z]\w*[a-z0-9][A-Z]\w*", lambda w: names.get(w[0], w[0]), comment)


# ---- a source file, an edit, a page


def source(path, names):
    """Clauses and comments: in code no name has a capital within it."""
    lines = path.read_text().splitlines(keepends=True)
    path.write_text("".join(commented(line, names) for line in lines))


def edit(path, names):
    text = path.read_text()
    if re.search(r"(?m)^file: (specs|proofs)/", text):
        text = re.sub(WORD, lambda w: names.get(w[0], w[0]) if is_local(w[0]) else w[0], text)
    path.write_text(commented(text, names))


def page(path, names):
    fenced = False
    out = []
    for line in path.read_text().splitlines(keepends=True):
        if line.startswith("```"):
            fenced = not fenced
        elif fenced:
            line = re.sub(WORD, lambda w: names.get(w[0], w[0]) if is_local(w[0]) else w[0], line)
        else:
            line = re.sub(r"`[^`\n]*`", lambda m: re.sub(WORD, lambda w: names.get(w[0], w[0]), m[0]), line)
        out.append(line)
    path.write_text("".join(out))


def main():
    was, ported = table()
    projected = fields()
    functions = set()
    for path in sorted(ROOT.glob("crates/*/src/**/*.rt")):
        functions |= set(re.findall(r"\bfn (\w+)", path.read_text()))
    for path in sorted(ROOT.glob("crates/*/*/**/*.antt")):
        if path.relative_to(ROOT).parts[2] in ("specs", "proofs"):
            antt(path, ported, projected, functions)
    for path in sorted(ROOT.glob("crates/*/src/**/*.rt")):
        source(path, ported)
    for path in sorted([*ROOT.glob("crates/*/must-fail/*.edit"), *ROOT.glob("crates/*/tried/*.edit")]):
        edit(path, was)
    for path in sorted([ROOT / "README.md", *ROOT.glob("docs/**/*.md"), *ROOT.glob("*/README.md"), *ROOT.glob("crates/*/README.md")]):
        page(path, was)


if __name__ == "__main__":
    main()
