#!/usr/bin/env python3
"""Respells the repository's own definitions, lemmas and fields of specs/ and proofs/, once.

usage: python3 tools/respell_names.py [--list]     at the top of the repository, after the kit's own scripts

A function or lemma in camel case gets snake case (`setOf`: `set_of`). A dash stays where it joins the names of two
definitions (`mem-meet`) and is `_` where a plain word follows (`bit-none`: `bit_none`). Functions of src/, strings,
inputs and outputs are left alone, and so is every name that Rattle makes. With --list it prints the new names only.
"""

import glob
import re
import sys

LETTERS = r"[A-Za-z0-9_'\-₂≢ℓ]"
SIGNATURE = re.compile(r"^(?:unfoldable |abbrev |pub |pattern )*([a-z][^\s:(){}\[\]]*) :(?=\s|$)")
FIELD = re.compile(r"^\s+([a-z][^\s:(){}\[\]]*) :(?=\s|$)")
TOKEN = re.compile(r"(?<!" + LETTERS[:-1] + r"])[A-Za-z_]" + LETTERS + r"*")

# Words that name a function, a constructor or an operator of the library or of the grammar of a lemma's name.
WORDS = set("""length map append take drop reverse not and or cond zero suc bit digits count every any all mem meet union
minus outside within max min filter""".split())

# Where the plain rule would make two names fall together, or a name that something else has.
CHOSEN = {
    "entered-texts": "entered_texts_are",
    "in-front": "in_front_is",
    "new-value": "new_value_is",
    "notes-for": "notes_for_is",
    "same-value": "same_value_is",
    "letter-or-not": "letter_or_not",
    "withinOne-not": "within_one_not",
    "withinUnion-not": "within_union_not",
    "setOf-ext": "set_of_ext",
    "is-setOf": "is-set_of",
    "within-not": "within_not",
    "not-out": "not_out",
}

# Names of the library in which a type follows an underscore.
LIBRARY = {"lends_Part", "mut_Tells", "uint_Tells", "walk_Meets"}
CAMEL = re.compile(r"^[a-z_]+[a-z0-9_]*[A-Z][A-Za-z0-9_']*$")


def files(kind):
    return sorted(f for f in glob.glob(f"crates/**/*.{kind}", recursive=True) if "/out/" not in f)


def in_answers(path):
    return path.endswith(("/Answers.antt", "/Invariants.antt", "/Proof.antt"))


def own_names():
    """The names that specs/ and proofs/ give: signatures at the left edge, and fields in specs/."""
    found = {}
    for path in files("antt"):
        with open(path, encoding="utf-8") as f:
            lines = f.read().split("\n")
        made = set()
        if in_answers(path):
            made = {m.group(1) for line in lines for m in [re.match(r".*:\s*goal\.(\S+)", line)] if m}
        for line in lines:
            m = SIGNATURE.match(line)
            if m and not (in_answers(path) and (m.group(1) in made or ": goal." in line)):
                found.setdefault(m.group(1), set()).add(path)
            m = FIELD.match(line)
            if m and "/specs/" in path:
                found.setdefault(m.group(1), set()).add(path)
    return found


def snake(name):
    return re.sub(r"(?<=[a-z0-9])([A-Z])", lambda m: "_" + m.group(1).lower(), name)


def respelled(name, functions):
    if name in CHOSEN:
        return CHOSEN[name]
    parts = [snake(p) for p in name.split("-")]
    out = parts[0]
    for before, after in zip(parts, parts[1:]):
        joins = after in functions and before in functions
        out += ("-" if joins else "_") + after
    return out


def camel_words():
    """Words in camel case that no signature gives: parameters, and names that `as` gives."""
    found = set()
    for path in files("antt") + files("rt"):
        with open(path, encoding="utf-8") as f:
            for line in f:
                if path.endswith(".rt") and '"' in line:
                    continue
                found |= {m.group(0) for m in TOKEN.finditer(line) if CAMEL.match(m.group(0))}
    return found - LIBRARY


def table():
    names = own_names()
    for word in camel_words():
        names.setdefault(word, set())
    functions = set(WORDS)
    functions |= {snake(n) for n, fs in names.items() if "-" not in n and any("/specs/" in f for f in fs)}
    return {n: respelled(n, functions) for n in names if respelled(n, functions) != n}, names


def turn(text, names):
    def one(m):
        word = m.group(0)
        if word not in names:
            return word
        start = m.start()
        if text[start - 1 : start] == "." and "-" in word:
            # a path `Rattle.d.specs.M.name` is the repository's; `c.name` is a step that Rattle names
            path = re.search(r"[\w.'\-]*$", text[:start]).group(0)
            if not path.startswith("Rattle."):
                return word
        return names[word]

    return TOKEN.sub(one, text)


def main():
    names, own = table()
    if "--list" in sys.argv:
        for old, new in sorted(names.items()):
            print(old, new)
        return
    for path in files("antt") + files("rt") + files("edit"):
        with open(path, encoding="utf-8") as f:
            text = f.read()
        if not path.endswith(".antt"):
            # names in camel case or with a dash stand in clauses and ghost items alone; the rest of a source keeps its names
            these = {o: n for o, n in names.items() if "-" in o or o != o.lower()}
            out = "\n".join(line if '"' in line else turn(line, these) for line in text.split("\n"))
        else:
            out = turn(text, names)
        if out != text:
            with open(path, "w", encoding="utf-8") as f:
                f.write(out)


if __name__ == "__main__":
    main()
