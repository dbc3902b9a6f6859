#!/usr/bin/env python3
"""Brings the repository's own names in the ghost language to one spelling, once.

usage: python3 tools/respell.py [--list]    at the top of the repository; --list prints the table and writes nothing

A function, a definition, a field or a variable is in snake case, a type and a fact in upper camel case. A dash stays in a
lemma's name where it joins the names of two functions, as in `length-bytes_of`; a word that is added has `_`. The proof of
a Rattle function `f` is `f_spec`. What a name of the library or of the source is called stays.
"""

import glob
import re
import sys

LIBRARY = re.compile(r"^use (?!Rattle\.(?:OWN)\.)[^{]*\{([^}]*)\}", re.M)
# lists, numbers, bits and tests of the library whose names join by a dash
WORDS = set("length append take drop set map get_or replicate mod div pow xor sum tab cons add mul".split())
DECLARED = re.compile(r"^ *(?:(?:abbrev|unfoldable|inline) )?(?:pub )?(?:(?:record|data) )?([^\s(){}.;,:]+)(?: [({][^:]*:[^)}]*[)}])* :", re.M)
TOP = re.compile(r"^(?:(?:abbrev|unfoldable) )?(?:pub )?([a-z][^\s(){}.;,:]*) :", re.M)
TOKEN = re.compile(r"(?<![^\s(){}.;,«@])[A-Za-z][^\s(){}.;,\"«»]*(?![^\s(){}.;,»])")
CLAUSE = re.compile(r"(?:requires|ensures)[^{;]*\{|ghost use ")
# names that would fall together with another one in scope, and names whose capitals are no words
APART = {
    "Sha3-384Promise": "Sha3_384Promise",
    "cSHAKE256": "cshake256",
    "all_ones": "bit_at-ones",
    "bit-and": "bit-and",
    "bit-or": "bit-or",
    "chain-products": "chain_products_lem",
    "decoded-more": "decoded_more_lem",
    "first-of": "first_of_lem",
    "getD-tab": "get_or-tab",
    "is-at": "is_at_lem",
    "privateKey": "private_key_of",
    "rOdd": "odd_r",
    "round-constant": "round_constant_lem",
    "sample-below": "sample_below_lem",
    "tab-getD": "tab-get_or",
    "undecoded-more": "undecoded_more_lem",
    "xor_bytes": "xor_bytes_lem",
}


def own_crates():
    return [line.split(":")[0] for line in open("crates.txt") if not line.startswith("#")]


def files(end):
    return sorted(glob.glob("crates/*/specs/**/*" + end, recursive=True) + glob.glob("crates/*/proofs/**/*" + end, recursive=True))


def snake(word):
    word = re.sub(r"(?<=[a-z0-9])([A-Z])(?=[a-z0-9])", lambda m: "_" + m[1].lower(), word)
    return re.sub(r"(?<=[a-z0-9])([A-Z])(?![a-z])", lambda m: "_" + m[1].lower(), word)


def joined(name, functions):
    """The name with its dashes turned to `_`, but for one between two functions' names."""
    parts = name.split("-")
    for cut in range(1, len(parts)):
        left, right = "_".join(parts[:cut]), "_".join(parts[cut:])
        if left in functions and right in functions:
            return left + "-" + right
    return "_".join(parts)


def main(argv):
    library = re.compile(LIBRARY.pattern.replace("OWN", "|".join(own_crates())), re.M)
    texts = {path: open(path, encoding="utf-8").read() for path in files(".antt")}
    theirs, declared, functions = set(), set(), set(WORDS)
    for path, text in texts.items():
        for listed in library.findall(text):
            theirs.update(re.split(r"[\s,]+", listed))
        declared.update(DECLARED.findall(text))
        if "/specs/" in path:
            functions.update(snake(name).replace("-", "_") for name in TOP.findall(text))
    made = re.compile(r"^(?:invariant|decreases)-|^Need-|^goal\b")
    table = {}
    for path, text in texts.items():
        for token in TOKEN.findall(text):
            if token in theirs or token in table or made.match(token) or token[0].isupper():
                continue
            if "-" in token and token not in declared:
                continue
            if "-" in token or re.search(r"[a-z0-9][A-Z]", token):
                table[token] = joined(snake(token), functions)
    table = {old: new for old, new in (table | APART).items() if old != new}
    present = {token for text in texts.values() for token in TOKEN.findall(text)}
    made_by = {}
    for old, new in sorted(table.items()):
        if new in present or new in made_by:
            print(f"falls together: {old} and {made_by.get(new, new)}")
        made_by[new] = old
    if argv == ["--list"]:
        print("\n".join(f"{old}\t{new}" for old, new in sorted(table.items())))
        return
    for path, text in texts.items():
        write(path, text, "\n".join(in_line(line, table) for line in text.split("\n")))
    for path in sorted(glob.glob("crates/*/src/**/*.rt", recursive=True)):
        text = open(path, encoding="utf-8").read()
        write(path, text, in_clauses(text, table))
    for path in ["README.md"] + sorted(glob.glob("docs/*.md")):
        text = open(path, encoding="utf-8").read()
        write(path, text, in_spans(text, table))


def turned(text, table):
    return TOKEN.sub(lambda m: table.get(m[0], m[0]), text)


def in_line(line, table):
    """A line of a ghost file; in a comment a word with a dash is a word of the language unless it stands in a code span."""
    if not line.lstrip().startswith("--"):
        return turned(line, table)
    return in_spans(turned(line, {old: new for old, new in table.items() if "-" not in old}), table)


def in_spans(text, table):
    """The text of a page with the table's names turned in its code spans."""
    return re.sub(r"`[^`\n]+`", lambda span: turned(span[0][1:-1], table).join("``"), text)


def in_clauses(text, table):
    """The text with the table's names turned in contracts and in `ghost use` items."""
    out, at = [], 0
    for m in CLAUSE.finditer(text):
        if m.start() < at:
            continue
        end = text.index(";", m.end()) if m[0].startswith("ghost") else closing(text, m.end())
        out += [text[at:m.end()], turned(text[m.end():end], table)]
        at = end
    return "".join(out) + text[at:]


def closing(text, at):
    depth = 1
    while depth:
        depth += {"{": 1, "}": -1}.get(text[at], 0)
        at += 1
    return at - 1


def write(path, old, new):
    if old != new:
        with open(path, "w", encoding="utf-8") as f:
            f.write(new)


if __name__ == "__main__":
    main(sys.argv[1:])
