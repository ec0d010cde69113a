#!/usr/bin/env python3
"""Brings this repository's own definitions and lemmas to the spelling of today's Rattle, after the kit's port.py.

usage: python3 tools/respell.py        at the top of the checkout, once, right after port.py

  camelCase     a definition `gcdFrom` becomes `gcd_from`, `gcdℕ` becomes `gcd_ℕ`; types and modules keep their capitals
  a-dash        of a lemma or a field stays where it joins the names of two definitions (`sum-add`, `abs-∣`), and is `_` elsewhere
                (`∣_refl`, `from_two`); it stays too where the new name would be another name's

Names are gathered from specs/ and from proofs/ but for the proofs of functions. They turn as whole words in .antt, in .rt, in the edits
under must-fail/, and in the code of the pages. Exported C names, strings and Rust's own names have no such spelling.
"""

import collections
import os
import re

WORD = re.compile(r"[^\s(){}.;,@\"«»]+")
EDGES = "`:?!*…'|/<>=≡≤[]"
OWN_PROOF = re.compile(r"/proofs/.*/Proof\.antt$")
SIGNATURE = re.compile(r"^\s*(?:(?:unfoldable|abbrev|pub|data|record|\|)\s+)*([^\s(){}.;,@\"«»]+)(?:\s+\(.*)?\s*:\s")
DECLARED = re.compile(r"^\s*(?:(?:unfoldable|abbrev|pub)\s+)*(?:record|data)\s+([^\s(){}.;,@\"«»]+)")
LIBRARY = set("zero suc pos negsuc add sub mul div mod rem quot neg append length map take drop set tabulate sum".split())


def files(ending):
    found = []
    for folder, below, names in os.walk("."):
        below[:] = sorted(d for d in below if d not in ("out", ".git"))
        found += [os.path.join(folder, n) for n in sorted(names) if n.endswith(ending)]
    return found


def read(path):
    with open(path, encoding="utf-8") as f:
        return f.read()


def code_of(path, text):
    return re.sub(r"(?m)(--|//).*$" if path.endswith(".antt") else r"(?m)//.*$", "", text)


def snake(name):
    name = re.sub(r"(?<=[a-z0-9])[A-Z]", lambda m: "_" + m[0].lower(), name)
    return re.sub(r"(?<=[a-z0-9])([ℕℤ])", r"_\1", name)


def gather():
    """The words of the code; each name that is defined, with the crate where it stands first; and each crate's definitions of specs/."""
    words, defined, definitions = set(), {}, collections.defaultdict(set)
    for path in files(".antt") + files(".rt"):
        code = code_of(path, read(path))
        words |= set(WORD.findall(code))
        if path.endswith(".antt") and not OWN_PROOF.search(path):
            crate = path.split("/")[2]
            for line in code.split("\n"):
                for m in (SIGNATURE.match(line), DECLARED.match(line)):
                    if m and not re.match(r"(pub )?use ", line):
                        defined.setdefault(m[1], crate)
                        if "/specs/" in path and line[0] != " ":
                            definitions[crate].add(snake(m[1]))
    return words, defined, definitions


def sight():
    """The crates that each crate sees: itself and those behind its colon in crates.txt."""
    lines = [line.split(":") for line in read("crates.txt").split("\n") if ":" in line]
    return {name.strip(): {name.strip(), *below.split()} for name, below in lines}


def table():
    words, defined, definitions = gather()
    turned = {w: snake(w) for w in words if not w[0].isupper() and "::" not in w and snake(w) != w}
    seen = {crate: set().union(LIBRARY, *(definitions[c] for c in below)) for crate, below in sight().items()}
    dashed = {}
    for w in sorted(defined):
        parts = snake(w).split("-")
        if len(parts) < 2 or "" in parts or w[0].isupper() and not re.search("[a-z]-", w):
            continue
        heads = seen[defined[w]]
        new = parts[0]
        for before, after in zip(parts, parts[1:]):
            joins = not re.match(r"\w", after) or after[0].isupper() or (after in heads and (before in heads or before[0].isupper()))
            new += ("-" if joins else "_") + after
        if new != w:
            dashed[w] = new
    taken = words | set(turned.values())
    count = collections.Counter(dashed.values())
    for w, new in dashed.items():
        if new in taken or count[new] > 1:
            new = snake(w)
        if new != w:
            turned[w] = new
    return turned


def turn(text, names):
    def one(m):
        word = m[0]
        bare = word.strip(EDGES)
        if word in names:
            return names[word]
        if bare in names:
            return word.replace(bare, names[bare], 1)
        return word

    return WORD.sub(one, text)


def main():
    names = table()
    for path in files(".antt") + files(".rt") + files(".edit") + files(".md"):
        text = read(path)
        if path.endswith(".md"):
            new = re.sub(r"`[^`\n]+`", lambda m: turn(m[0], names), text)
        else:
            new = turn(text, names)
        if path.endswith((".edit", ".md")):  # port.py turned these words in the code, and not here
            new = re.sub(r"(?<![\w.])[a-z]+(?:[A-Z][a-z]+)+(?![\w(])", lambda m: snake(m[0]), new)
        if new != text:
            with open(path, "w", encoding="utf-8") as f:
                f.write(new)
    for old in sorted(names):
        print(old, names[old])


main()
