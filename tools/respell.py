#!/usr/bin/env python3
"""Respells the repository's own definitions and lemmas: words in snake case, types in upper camel case.

usage: tools/respell.py [--list]      at the top of the repository, once, directly after the toolchain's port.py

What is renamed is what specs/ and the files right in proofs/ declare: isHex becomes is_hex, left-none left_none. The same words are then turned in every .antt and .rt
file of crates/, in the edits that must fail, and where a page or a comment has them between backquotes. Names in capitals of document 01 (kinds of a token, refusals,
types) are its own and stay; so do functions of src/, exported names, strings, inputs and outputs. --list prints the table, and where two names would fall together.
"""

import glob
import os
import re
import sys

DECLARES = re.compile(r"^\s*(?:pub )?(?:unfoldable |abbrev )*(?:pub )?([^\W\d][\w'-]*(?: [^\W\d][\w'-]*)*) *(?:\{[^=]*\} *|\([^=]*\) *)*:(?!:)")
MAKES = re.compile(r"^\s*(?:pub )?(?:record|data|ruleset) (?:pub )?([^\s:({=]+)")
IMPORTS = re.compile(r"^\s*(?:pub )?(?:ghost )?use ([\w.«»'-]+)\.\{([^}]*)\}")
# A word of antt: letters, digits, _, -, ' and the small digits. A - that stands before no letter or digit is no part of it.
WORD = re.compile(r"(?<![\w'-])[^\W\d][\w']*(?:-[\w'≢≡⊎]+)*")
# Names whose spelling by the rule is another's already, and what they are called then.
OTHERS = {"oneMore": "with_one_more", "laid_out": "laid_out_lem", "one_entry": "one_entry_lem", "kept_from": "kept_from_lem"}
# Fields of two records that are told by their records.
SAME_FIELD = {"same-arguments", "same-statements"}
# Facts, so spelled as types.
FACTS = {"calledTable": "CalledTable", "listInside": "ListInside"}


def by_rule(name):
    if name in OTHERS:
        return OTHERS[name]
    if name in FACTS:
        return FACTS[name]
    if not name[0].islower():
        return name.replace("-", "_")
    name = re.sub(r"(?<=[a-z0-9'])([A-Z]+)(?=[A-Z][a-z])", r"_\1", name)
    return re.sub(r"(?<=[a-z0-9'])([A-Z])", r"_\1", name).replace("-", "_").lower()


def own_files():
    for kind in ("specs", "proofs"):
        yield from sorted(glob.glob(f"crates/*/{kind}/*.antt"))


def declared():
    names = {}
    for path in own_files():
        for line in open(path, encoding="utf-8"):
            if line.lstrip().startswith("--"):
                continue
            for pattern in (DECLARES, MAKES):
                found = pattern.match(line)
                for name in found.group(1).split() if found else []:
                    names.setdefault(name, []).append(path)
    return names


def imported():
    """Words that some file takes from outside the repository."""
    words = {}
    for path in sorted(glob.glob("crates/**/*.antt", recursive=True) + glob.glob("crates/**/*.rt", recursive=True)):
        for line in open(path, encoding="utf-8"):
            found = IMPORTS.match(line)
            if found and not (found.group(1).startswith("Rattle.") and not found.group(1).startswith("Rattle.std")):
                for word in found.group(2).split(","):
                    words.setdefault(word.strip().split(" as ")[-1].strip(), set()).add(path)
    return words


def table():
    """Each name that changes, and what it is called then: a lemma that would have a definition's name gets _lem."""
    foreign = imported()
    names = declared()
    new = {n: by_rule(n) for n in names if by_rule(n) != n and n not in foreign}
    for name in new:
        others = [o for o in names if o != name and new.get(o, o) == new[name]]
        if "-" in name and others and name not in SAME_FIELD:
            new[name] += "_lem"
    return new, names, foreign


def turned(text, names, quoted=False):
    def word(found):
        return names.get(found.group(0), found.group(0))

    if not quoted:
        return WORD.sub(word, text)
    return re.sub(r"`[^`\n]*`", lambda part: WORD.sub(word, part.group(0)), text)


def targets():
    code = [p for kind in ("antt", "rt") for p in glob.glob(f"crates/**/*.{kind}", recursive=True) if "/out/" not in p]
    edits = glob.glob("crates/*/must-fail/*.edit") + glob.glob("edits/**/*.edit", recursive=True)
    pages = glob.glob("*.md") + glob.glob("docs/**/*.md", recursive=True) + glob.glob("*/*.md")
    return sorted(code), sorted(edits), sorted(set(pages))


def main():
    names, all_names, foreign = table()
    code, edits, pages = targets()
    if "--list" in sys.argv[1:]:
        for old, new in sorted(names.items()):
            print(f"{old}\t{new}")
        by_new = {}
        for old in all_names:
            by_new.setdefault(names.get(old, old), []).append(old)
        for new, olds in sorted(by_new.items()):
            if len(olds) > 1:
                print("TOGETHER", new, olds, [all_names[o] for o in olds])
        for path in code:
            if path.endswith(".rt"):
                continue
            words = set(WORD.findall(re.sub(r"--.*", "", open(path, encoding="utf-8").read())))
            for old in sorted(words & names.keys()):
                if names[old] in words:
                    print("HIDDEN", path, old, names[old], "FOREIGN" if names[old] in foreign else "")
        return
    for path in code + edits:
        text = open(path, encoding="utf-8").read()
        new = turned(text, names)
        if new != text:
            open(path, "w", encoding="utf-8").write(new)
    for path in pages:
        text = open(path, encoding="utf-8").read()
        new = turned(text, names, quoted=True)
        if new != text:
            open(path, "w", encoding="utf-8").write(new)


main()
