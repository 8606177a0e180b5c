#!/usr/bin/env python3
"""Spells the repository's own names of specs/ and proofs/ as today's Rattle does: words in snake case, types and facts in camel case.

usage: python3 tools/spell_names.py [--check]      at the top of the repository, once, after port.py

A name is turned if a file of crates/ declares it (an item, a field, a constructor, a local, a bound variable). In a name, a part between dashes
that begins with a small letter becomes snake case; parts are joined by '_', and by '-' beside a part that begins with a capital or a sign.
It stays where the file imports it from a library, and where Rattle makes it (the answers of a Proof.antt, whose type begins with 'tie.').
What turns: .antt files, clauses, ghost items and comments of .rt files, .edit files, and the code spans of the pages. A comment's word turns where the file's code has it.
A name that would meet another one is refused: give it a row in APART. --check writes nothing.
"""

import collections
import glob
import os
import re
import sys

NAME = r'[^\s(){}.;,@"«»\x60]+'
TOKEN = re.compile(NAME)
DECLARED = re.compile(rf"(?m)^ *(?:(?:pub|abbrev|unfoldable|rule|mutual|where|let|record|data|irreducible) +)*({NAME})(?: \{{[^{{}}\n]*\}})* :(?= |$)")
LET = re.compile(rf"\b(?:let|where) +({NAME})(?= [:=] )")
BOUND = re.compile(rf"[({{]((?:{NAME} )+): ")
LAMBDA = re.compile(rf"λ ((?:{NAME} ?)+)\.")
TIE = re.compile(rf"(?m)^(?:abbrev )?({NAME}) :[^\n]*\btie\.")
USE = re.compile(r"(?m)^\s*(?:ghost )?use ([^\s;{]+?)\.?(?:\{([^}]*)\}| as (\S+?))?;?$")
RENAMED = re.compile(rf" as ({NAME})")
RUST_ITEM = re.compile(r"\b(?:fn|let(?: mut)?|const|static|struct|enum|trait|mod|type) (\w+)")
# Lemmas that would meet a definition of their name.
LEMMAS = """at-most entry-at expr-of expr-own expr-ranged few-total first-of head-parts in-range leaf-own map-codes moves-fault number-at pair-event pair-number pair-value
ran-as runs-inside serves-from start-of states-fault stmt-refers stmt-rows table-k tables-fault with-local with-queue""".split()
# Names that would meet another one, and what they are called.
APART = {n: n.replace("-", "_") + "_lem" for n in LEMMAS} | {"startWord": "word_of_start"}
# Variables that have the name of a field, which stands behind a dot.
FIELDS = {"variable_of", "action_of"}
# Names that stay: the library's, or Rattle's.
STAY = set()


def part(text):
    if not text[:1].islower():
        return text
    return re.sub(r"(?<=[a-z0-9])[A-Z]", lambda m: "_" + m[0].lower(), text)


def spelled(name):
    if name in APART:
        return APART[name]
    parts = name.split("-")
    if "" in parts or not re.search(r"[a-zA-Z]", name):
        return name
    plain = [bool(re.match(r"[a-z0-9]", p)) and not re.search(r"[^\w'?]", p) for p in parts]
    out = part(parts[0])
    for i in range(1, len(parts)):
        out += ("_" if plain[i - 1] and plain[i] else "-") + part(parts[i])
    return out


def files():
    out = []
    for folder, dirs, names in os.walk("crates"):
        dirs[:] = sorted(d for d in dirs if d != "out")
        out += [os.path.join(folder, n) for n in sorted(names) if n.endswith((".antt", ".rt", ".edit"))]
    return out


def uncommented(text, mark):
    return re.sub(rf"(?m)(^|[ \t]){mark}[^\n]*", " ", text)


def main():
    write = "--check" not in sys.argv
    texts = {f: open(f, encoding="utf-8").read() for f in files()}
    declared = collections.Counter()
    rust, crates = set(), set(os.listdir("crates"))
    for f, t in texts.items():
        if f.endswith(".rt"):
            rust |= set(RUST_ITEM.findall(uncommented(t, "//")))
        if not f.endswith(".antt"):
            continue
        bare = uncommented(t, "--")
        own = set(TIE.findall(bare))
        for _, names, _ in USE.findall(bare):
            declared.update(RENAMED.findall(names))
        for pattern in (DECLARED, LET):
            declared.update(n for n in pattern.findall(bare) if n not in own)
        for pattern in (BOUND, LAMBDA):
            for group in pattern.findall(bare):
                declared.update(n for n in group.split() if n not in own)
    table = {n: spelled(n) for n in declared if spelled(n) != n and n not in STAY and not n.startswith("tie")}
    bad = 0
    counted = collections.Counter()
    for f, t in sorted(texts.items()):
        rt = f.endswith(".rt")
        mark = "//" if rt else "--"
        bare = uncommented(t, mark)
        kept = set(TIE.findall(bare)) if f.endswith(".antt") else set()
        for path, names, _ in USE.findall(bare):
            if not path.startswith("Rattle.") or path.split(".")[1] in ("std", "core"):
                kept |= {n.strip() for n in re.split(r",| as ", names)}
        tokens = set(TOKEN.findall(bare))
        here = {n: table[n] for n in tokens if n in table and n not in kept}
        meets = collections.defaultdict(set)
        for n in tokens:
            meets[here.get(n, n)].add(n)
        for new, olds in sorted(meets.items()):
            # A definition may have the name of a function of src/ or of a crate: a clause means the definition.
            if len(olds) > 1 and not (len(olds) == 2 and new in olds and new in rust | crates | FIELDS):
                bad += 1
                print(f"meets: {f}: {', '.join(sorted(olds))} -> {new}")
        if f.endswith(".edit"):
            here = dict(table)

        def turn(m):
            if m[0] in here:
                counted[m[0]] += 1
                return here[m[0]]
            # in a comment a word may end in a sign
            word = m[0].rstrip(":'!?")
            return here[word] + m[0][len(word):] if word in here and word != m[0] else m[0]

        new = TOKEN.sub(turn, t)
        if new != t and write:
            with open(f, "w", encoding="utf-8") as out:
                out.write(new)
    if "--names" in sys.argv:
        for n in sorted(table):
            print(n, table[n], counted[n])
    pages = ["README.md"] + sorted(glob.glob("docs/*.md") + glob.glob("docs/stories/*.md") + glob.glob("second/*.md"))
    for p in pages:
        t = open(p, encoding="utf-8").read()

        def span(m):
            return TOKEN.sub(lambda k: table.get(k[0], k[0]), m[0])

        new = re.sub(r"\x60[^\x60\n]+\x60", span, t)
        if new != t and write:
            with open(p, "w", encoding="utf-8") as out:
                out.write(new)
    print(f"{len(table)} names, {sum(counted.values())} places, {bad} meetings")
    return 1 if bad else 0


if __name__ == "__main__":
    raise SystemExit(main())
