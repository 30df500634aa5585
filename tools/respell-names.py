#!/usr/bin/env python3
"""Brings the names that this repository's specs/ and proofs/ declare to the spelling of today's Rattle.

usage: tools/respell-names.py [--table FILE] [FOLDER]

It was run once, in the commit that brought the repository to this Rattle, behind port.py, which respells the library's names and only
some of the repository's own. A definition or a lemma is in snake case: allBits becomes all_bits. A dash joins two names, as in
length-drop, and a plain word is added with _, as in no_byte. So a dash stays where both of its sides are names: a definition of specs/, a
function of src/, or a part of a name of the library that has a dash there. Elsewhere it becomes _.

A lemma's name stays as it is where its new spelling is taken in a file that has it. It prints what it left, and the table old -> new goes to
tools/respelled-names.tsv, by which it also turns the code spans of the pages. It leaves must-fail edits alone.

Do not run it again without --table: what it made are names by then, so that it would take some dashes for right that were not.
"""

import glob
import os
import re
import subprocess
import sys

WORD = re.compile(r'[^\s(){}.;,@"«»]+')
DECLARED = re.compile(
    r"(?m)^ *((?:(?:abbrev|unfoldable|pub|record|data|module) )*)([^\s(){}.;,@\"«»:]+)(?: [({][^\n]*?[)}])*(?: :(?=\s|$)| where$)"
)
LET = re.compile(r"\blet ([^\s(){}.;,@\"«»:=]+)(?= [:=])")
FUNCTION = re.compile(r"\bfn (\w+)")
# Words that the library joins by a dash too, but that are no names in ours.
STOP = {"of", "by", "at", "is", "in", "to", "no", "up", "was", "as", "on", "and", "one", "two", "none", "same", "last", "first", "again", "exactly"}
KEPT = {"use", "mod", "where", "let", "pub", "in", "_"}


def read(path):
    with open(path, encoding="utf-8") as f:
        return f.read()


def snake(name):
    """A word in snake case: a capital behind a small letter or a digit begins a part."""
    return re.sub(r"(?<=[a-z0-9])([A-Z])(?![A-Z])", lambda m: "_" + m[1].lower(), name)


def library_parts():
    """The words that the library itself joins by a dash and declares by themselves."""
    parts, words = set(), set()
    kit = os.path.dirname(subprocess.run(["rt", "doc"], check=True, capture_output=True, text=True).stdout.strip())
    for path in glob.glob(f"{kit}/rattle/**/*.antt", recursive=True):
        for line in read(path).splitlines():
            found = re.match(r" *(?:pub |abbrev |unfoldable )*([^\s(){}.;,@\"«»:]+)(?: [({].*)? :(?:\s|$)", line)
            if found and "-" in found[1]:
                parts.update(found[1].split("-"))
            elif found and not line.startswith("    "):
                words.add(found[1])
    return {it for it in parts & words if re.fullmatch(r"[A-Za-z]\w+", it)}


def joined(name, names):
    """The name with a dash only between two names; a name of several words may stand in it with dashes."""
    words = name.split("-")
    tiles, at = [], 0
    while at < len(words):
        end = next((e for e in range(len(words), at, -1) if "_".join(words[at:e]) in names), None)
        tiles.append(("_".join(words[at : end or at + 1]), end is not None))
        at = end or at + 1
    out = tiles[0][0]
    for (_, before), (text, known) in zip(tiles, tiles[1:]):
        out += ("-" if before and known else "_") + text
    return out


def sources(root):
    return sorted(p for p in glob.glob(f"{root}/crates/*/**/*.antt", recursive=True) + glob.glob(f"{root}/crates/*/**/*.rt", recursive=True) if "/out/" not in p)


def table_of(root):
    texts = {p: read(p) for p in sources(root)}
    names, declared, made = set(), set(), set()
    for path, text in texts.items():
        if path.endswith(".rt"):
            names.update(FUNCTION.findall(text))
            continue
        for found in DECLARED.finditer(text):
            if found[2] in KEPT:
                continue
            # The answers of a Proof.antt have the names of what they answer.
            if re.match(r"\s+tie\.", text[found.end() :]):
                made.add(found[2])
                continue
            declared.add(found[2])
            if "/specs/" in path:
                names.add(snake(found[2]))
        declared.update(LET.findall(text))
    names = (names | library_parts()) - STOP
    # What a name may not meet: what the texts declare, and what they bring in from elsewhere.
    taken = set(declared)
    for path, text in texts.items():
        for items in re.findall(r"\buse [^\s;{]+\{([^}]*)\}", text):
            taken.update(it.split(" as ")[-1].strip() for it in items.split(","))
    table = {}
    bare = {p: set(re.findall(r'(?<![^\s(){};,@"«»])[^\s(){}.;,@"«»]+', t)) for p, t in texts.items() if p.endswith(".antt")}
    # Words with a capital inside first: they are definitions, and lemmas are named after them.
    for old in sorted(declared, key=lambda it: ("-" in it, it)):
        if old in made or not re.fullmatch(r"[A-Za-z0-9_₀-₉'-]+", old):
            continue
        if "-" not in old and not (old[0].islower() and snake(old) != old):
            continue
        new = joined("-".join(snake(it) if it[:1].islower() else it for it in old.split("-")), names)
        if new == old:
            continue
        if new in table.values() or new in taken and any(old in here and new in here for here in bare.values()):
            if "-" in old or new in table.values():
                print(f"left: {old}: {new} is taken")
                continue
            # The definition gets its word, and the lemma that had it says that it is one.
            table[new] = new + "_lem"
            print(f"look: {new} is now {new}_lem, beside the definition {old}")
        table[old] = new
    return table


def turned_code(text, table, is_rust=False):
    def one(found):
        before = text[max(0, found.start() - 4) : found.start()]
        new = table.get(found[0], found[0])
        # Behind a dot, such a name is a function's folder or a step of a proof.
        is_a_step = before.endswith("tie.") or before.endswith(".") and new.endswith("_lem")
        return found[0] if is_a_step or is_rust and new.endswith("_lem") else new

    return WORD.sub(one, text)


def turned_prose(text, table):
    """A page or a comment: code spans, and the words that no prose has: those with a capital inside, and a theorem that is cited."""
    text = re.sub(r"`[^`\n]+`", lambda m: turned_code(m[0].replace("`", " ` "), table).replace(" ` ", "`"), text)
    return re.sub(r"\b[a-z][a-z0-9]*[A-Z]\w*\b", lambda m: table.get(m[0], m[0]), text)


def turned(path, text, table):
    if path.endswith((".md", ".txt")):
        return turned_prose(text, table)
    mark = "--" if path.endswith(".antt") else "//"
    out = []
    for line in text.split("\n"):
        found = re.search(rf"(?:^|\s){mark}(?:\s|$)", line)
        at = found.start() if found else len(line)
        out.append(turned_code(line[:at], table, mark == "//") + turned_prose(line[at:], table))
    return "\n".join(out)


def main(words):
    given = None
    if "--table" in words:
        at = words.index("--table")
        given = words[at + 1]
        del words[at : at + 2]
    root = words[0] if words else "."
    if given:
        table = dict(line.split("\t") for line in read(given).splitlines())
    else:
        table = table_of(root)
    if not table:
        return
    more = glob.glob(f"{root}/docs/**/*.md", recursive=True) + [f"{root}/README.md"]
    for path in sources(root) + more:
        if not os.path.isfile(path):
            continue
        text = read(path)
        new = turned(path, text, table)
        if new != text:
            with open(path, "w", encoding="utf-8") as f:
                f.write(new)
    if not given:
        with open(f"{root}/tools/respelled-names.tsv", "w", encoding="utf-8") as f:
            f.writelines(f"{old}\t{new}\n" for old, new in sorted(table.items()))
    print(f"respelled {len(table)} names")


if __name__ == "__main__":
    main(sys.argv[1:])
