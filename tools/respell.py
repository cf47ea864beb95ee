#!/usr/bin/env python3
"""Spells the repository's own definitions, lemmas, fields and constructors in snake case, as today's libraries do: `regionWords` as `region_words`, `all-mono` as `all_mono`.

usage: tools/respell.py [--check] [ROOT]

A name is own if a line of a crate's specs/ or proofs/ declares it (`name : type`). Names that begin with a capital (types, constants) keep their spelling, and so does each name that Rust code has.
It turns whole words: in .antt files, in the clauses and `ghost use` lines of .rt files, in the texts of must-fail edits. Behind a dot only fields turn; a label that the checker makes stays.
--check prints names that would fall together in some file, and writes nothing.
"""

import collections
import os
import re
import sys

WORD = re.compile(r'[^\s(){}.;,@"«»]+')
PLAIN = re.compile(r"[a-z][A-Za-z0-9₀-₉'-]*(?:_[A-Za-z0-9₀-₉'-]+)*$")
DECLARES = re.compile(r"^( *)((?:pub |abbrev |unfoldable )*)([^\s(){}.;,@\"«»]+)(?: \{[^{}\n]*\})* :(?= |$)", re.M)
GHOST = re.compile(r"ghost use [^;]*;|\b(?:requires|ensures|ghost)\b\*?(?: \w+)? *\{")
# labels that the checker makes of a function's code: they stay behind a dot, and where an old proof by hand declares them
MADE = re.compile(r".*/proofs/(?:.*/)?(?:Proof|Answers|Invariants)\.antt$")


def spelled(name):
    if not PLAIN.match(name) or not re.search(r"[A-Z-]", name):
        return name
    parts = []
    for part in name.split("-"):
        part = re.sub(r"(?<=[a-z0-9₀-₉'])([A-Z])", lambda m: "_" + m[1].lower(), part)
        parts.append(part[:1].lower() + part[1:])
    return "_".join(p for p in parts if p)


def files(root, endings):
    for folder, dirs, names in os.walk(os.path.join(root, "crates")):
        dirs[:] = sorted(d for d in dirs if d != "out")
        for n in sorted(names):
            if n.endswith(endings):
                yield os.path.join(folder, n)


def read(p):
    with open(p, encoding="utf-8") as f:
        return f.read()


def own_names(root):
    names, fields, defined = set(), set(), set()
    for p in files(root, (".antt",)):
        if MADE.match(p):
            continue
        specs = "/specs/" in p
        inside = None
        for line in read(p).split("\n"):
            m = re.match(r"( *)(?:pub )?(?:record|data) ", line)
            if m:
                inside = len(m[1])
                continue
            d = DECLARES.match(line)
            if d:
                names.add(d[3])
                if specs or "abbrev" in d[2] or "unfoldable" in d[2]:
                    defined.add(d[3])
                if inside is not None and len(d[1]) > inside:
                    fields.add(d[3])
                else:
                    inside = None
            elif line.strip() and inside is not None and len(line) - len(line.lstrip()) <= inside and not line.lstrip().startswith(("{", "(")):
                inside = None
    return names, fields, defined


def rust_names(root):
    found = set()
    for p in files(root, (".rt",)):
        for line in read(p).split("\n"):
            if not line.lstrip().startswith(("ghost", "requires", "ensures", "//")):
                found |= set(re.findall(r"[A-Za-z_]\w*", line))
    return found


def lent(text, own):
    """The names that a file imports from a library."""
    found = set()
    for m in re.finditer(r"\buse ([^\s;{]+)\.\{([^}]*)\}", text):
        steps = m[1].split(".")
        if steps[0] != "Rattle" or steps[1] not in own:
            found |= {w.split(" as ")[0].strip() for w in m[2].split(",")}
    return found


def turn(text, table, fields, made):
    def one(m):
        w = m[0]
        line = text[text.rfind("\n", 0, m.start()) + 1 : m.start()]
        if re.search(r"(?<!\S)(?:--|//)", line):
            # prose: names in quotes, and those that are no English words
            quoted = re.match(r"(`?)([^`]*)(`?.*)$", w)
            inner = quoted[2]
            return quoted[1] + table[inner] + quoted[3] if inner in table and (quoted[1] or re.search("[a-z][A-Z]", inner)) else w
        if w not in table:
            return w
        behind = text[m.start() - 1 : m.start()] == "."
        if behind and w not in fields:
            head = text[text.rfind("\n", 0, m.start()) + 1 : m.start()]
            if not re.search(r"^use |ghost use ", head):
                return w
        if behind and made and re.search(r"\b(?:tie|reads|lts|goal)\.$", text[: m.start()][-8:]):
            return w
        return table[w]

    return WORD.sub(one, text)


def turn_rt(text, table, fields):
    out, at = [], 0
    for m in GHOST.finditer(text):
        if m.start() < at:
            continue
        end = m.end()
        if m[0].endswith("{"):
            depth = 1
            while depth and end < len(text):
                depth += {"{": 1, "}": -1}.get(text[end], 0)
                end += 1
        out.append(text[at : m.start()])
        out.append(turn(text[m.start() : end], table, fields, False))
        at = end
    return "".join(out) + text[at:]


def turn_edit(text, table, fields):
    target, out = "", []
    for line in text.split("\n"):
        if line.startswith("file: "):
            target = line[6:].strip()
        if line.startswith(("old: ", "new: ")):
            if target.endswith(".rt"):
                line = turn_rt(line, table, fields)
            else:
                line = line[:5] + turn(line[5:], table, fields, bool(MADE.match("/" + target)))
        out.append(line)
    return "\n".join(out)


def main(argv):
    check = "--check" in argv
    rest = [a for a in argv if a != "--check"]
    root = rest[0] if rest else "."
    names, fields, defined = own_names(root)
    rust = rust_names(root)
    table = {n: spelled(n) for n in names if n not in rust and spelled(n) != n}
    met = collections.defaultdict(set)
    for n in names:
        met[table.get(n, n)].add(n)
    for new, olds in sorted(met.items()):
        if len(olds) == 1:
            continue
        # the definition has the plain name, a lemma about it `_lem`
        first = min(olds, key=lambda n: (n not in defined, "-" in n, n))
        for n in sorted(olds - {first}):
            table[n] = new + "_lem"
        print("fall together:", new, "for", first, *(f"; {n} is {table[n]}" for n in sorted(olds - {first})))
    if check:
        for p in files(root, (".antt", ".rt")):
            text = read(p)
            words = set(WORD.findall(text))
            for n in sorted(words & set(table)):
                if table[n] in words and table[n] not in table:
                    print("meets:", p, n, table[n])
        print(len(table), "names")
        return 0
    own = set(os.listdir(os.path.join(root, "crates")))
    whole = table
    for p in files(root, (".antt", ".rt", ".edit")):
        text = read(p)
        theirs = lent(text, own)
        table = {n: whole[n] for n in whole if n not in theirs}
        new = turn_rt(text, table, fields) if p.endswith(".rt") else turn_edit(text, table, fields) if p.endswith(".edit") else turn(text, table, fields, bool(MADE.match(p)))
        if new != text:
            with open(p, "w", encoding="utf-8") as f:
                f.write(new)
    print(len(table), "names")
    return 0


if __name__ == "__main__":
    raise SystemExit(main(sys.argv[1:]))
