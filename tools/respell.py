#!/usr/bin/env python3
"""Brings the repository's own definitions and lemmas to snake case, once, after the toolchain's port script.

Types, facts named as types and modules keep their capitals; functions of src/, exported names, strings,
inputs and outputs keep their names. Run at the top of the repository; `--names` only prints old and new.
"""
import collections
import glob
import os
import re
import sys

# A lemma that would have the name of a function that is in scope beside it gets `_lem`.
# So does a lemma, a field or a constructor that would have a definition's name.
CLASHES = {
    name: name.replace("-", "_") + "_lem"
    for name in (
        "all-within at-end desk-read file-answer file-text in-front label-told least-short many-fault "
        "not-read pair-numbers planned-text read_back room-packed share-of"
    ).split()
}
# Tests of the list's order, named apart from the figure and the buffer that they look at.
CLASHES["plan-buffer"] = "plan_buffer_test"
# Two names to which the port script gave the form of a type.
CLASHES["TheBound"] = "the_bound"
CLASHES["by_Last"] = "by_last"

TOKEN = re.compile(r"[\w'◌-]+")
DEFINED = re.compile(r"^(?:abbrev |unfoldable |pub )*(record |data )?(?:pub )?([^\s:(){}.,;]+)\s+(?:[({].*)?:")
NESTED = re.compile(r"^  +(?:abbrev |unfoldable |pub )*((?:[^\s:(){}.,;]+ )+)(?:[({].*)?:")


def own_files():
    return sorted(glob.glob("crates/*/specs/*.antt") + glob.glob("crates/*/proofs/*.antt"))


def own_names():
    names = collections.defaultdict(set)
    for path in own_files():
        for line in open(path):
            found = None if line.startswith("--") else DEFINED.match(line)
            if found:
                names[found.group(2)].add(path)
            nested = NESTED.match(line)
            if nested and not line.lstrip().startswith("--"):
                for name in nested.group(1).split():
                    names[name].add(path)
    return names


def respelled(name):
    if name in CLASHES:
        return CLASHES[name]
    if name[0].isupper() or "◌" in name:
        return name
    words = name
    words = re.sub(r"(?<=[a-z0-9])([A-Z])", lambda m: "_" + m.group(1).lower(), words)
    words = re.sub(r"(?<=[a-z])ℤ$", "_ℤ", words)
    return words.replace("-", "_")


def spelling():
    return {old: new for old in own_names() if (new := respelled(old)) != old}


def clashes(names):
    """Files in which two names, or a name and something local, would fall together."""
    behind = collections.defaultdict(set)
    for old, new in names.items():
        behind[new].add(old)
    for path in own_files() + glob.glob("crates/*/proofs/*/*.antt") + glob.glob("crates/*/src/*.rt"):
        if path.endswith(".rt"):
            text = "\n".join(ghost_lines(open(path).read()))
        else:
            text = open(path).read()
        tokens = set(TOKEN.findall(text))
        for new, olds in behind.items():
            here = {o for o in olds | {new} if o in tokens}
            if len(here) > 1:
                print("clash:", path, new, sorted(here))


def ghost_lines(text):
    return text.splitlines()


def row_count_in(path, text):
    """The port script gave a lemma and a constructor the name that the figure `rowCount` gets."""
    if "proofs/Words.antt" in path or "proofs.Words" in text:
        return "row_count_lem"
    return "row_count_test"


def brought_in(text):
    """The names that a file takes from a library: these keep their spelling in it."""
    crates = "|".join(os.listdir("crates"))
    lists = re.findall(rf"^(?:ghost )?use (?!Rattle\.(?:{crates})\.)[^{{\n]*\{{([^}}]*)\}}", text, re.M)
    return {word for names in lists for word in TOKEN.findall(names)}


def turn(path, names):
    text = open(path).read()
    outside = brought_in(text)
    names = {old: new for old, new in names.items() if old not in outside}
    if path.endswith(".antt"):
        names = dict(names, row_count=row_count_in(path, text))
    turned = TOKEN.sub(lambda m: names.get(m.group(0), m.group(0)), text)
    if turned != text:
        open(path, "w").write(turned)


def main():
    names = spelling()
    if "--names" in sys.argv:
        for old, new in sorted(names.items()):
            print(old, new)
        return
    if "--clashes" in sys.argv:
        clashes(names)
        return
    for path in glob.glob("crates/**/*.antt", recursive=True) + glob.glob("crates/*/src/*.rt"):
        turn(path, names)


main()
