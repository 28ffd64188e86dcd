#!/usr/bin/env python3
"""Brings the names of this repository's own definitions and lemmas to today's spelling.

usage: python3 tools/respell.py      at the top of the repository, once, after the kit's port.py

    byteAt, handle-refused, eFF  ->  byte_at, handle_refused, e_ff

Types, facts and modules stand in upper camel case already and stay; so do functions, strings and exported names. A lemma that would then have
its definition's name gets `_lem`. A name that a file imports from a library is that library's, and stays in that file. Names are taken from the
files of specs/ and proofs/, and written anew there, in the clauses and `ghost use` items of src/, in the must-fail edits of specs/, whose projections become tight too, and
between backticks in the pages. A second run changes nothing.
"""
import glob
import re
import sys

WORD = r"[^\s(){}.;,@\"«»\[\]\\`]+"
# a declaration, at any depth: a definition or a lemma, a constructor, a field
DECLARED = re.compile(r"^ *(?:abbrev |unfoldable |pub )*(?:ruleset |record )?(?P<name>[a-z]" + WORD[:-1] + r"*) +(?:=|:(?![:=]))", re.M)
IMPORTED = re.compile(r"^(?:pub |ghost )?use (?P<from>[^\s{;]+)\.\{(?P<names>[^}]*)\}", re.M)
# what Rattle makes, or asks for, of a function: goals, invariants, its theorem
OF_A_FUNCTION = re.compile(r"/proofs/.*/(Proof|Answers|Invariants)\.antt$")
OF_RATTLE = re.compile(r".*-spec$|invariant-|decreases-|goal$|tie$")
LEMMA = "_lem"


def read(path):
    with open(path, encoding="utf-8", newline="") as it:
        return it.read()


def snake(name):
    name = re.sub(r"(?<=[a-z0-9])([A-Z]+)", lambda m: "_" + m.group(1).lower(), name)
    return name.replace("-", "_")


def own_names(paths):
    """Each declared name, with whether a file of specs/ declares it."""
    names = {}
    for path in paths:
        text = re.sub(r"--[^\n]*", "", read(path))
        goals = set(re.findall(r"^(?:abbrev |pub )*(\S+) : (?:tie|goal)\.", text, re.M))
        for found in DECLARED.finditer(text):
            name = found["name"]
            if name in goals or OF_RATTLE.match(name):
                continue
            if OF_A_FUNCTION.search(path) and found.group().startswith(" "):
                continue
            names[name] = names.get(name, False) or "/specs/" in path
    return names


def new_names(names):
    new = {}
    for name, stated in names.items():
        to = snake(name)
        stated_too = any(names[other] for other in names if other != name and snake(other) == to)
        if not stated and stated_too:
            to += LEMMA
        if to != name:
            new[name] = to
    return new


def foreign(text, crates):
    names = set()
    for found in IMPORTED.finditer(text):
        parts = found["from"].split(".")
        if parts[0] != "Rattle" or parts[1] not in crates:
            names.update(name.strip() for name in found["names"].split(","))
    return names


def written(text, new, kept):
    def word(found):
        name = found.group()
        return name if name in kept else new.get(name, name)

    return re.sub(WORD, word, text)


def clauses(text, new, kept):
    """Of a source only clauses and `ghost use` items, where no word of the code stands."""
    out, at = [], 0
    for found in re.finditer(r"^ *(?:ghost use |(?:requires|ensures)\b[^{\n]*\{|ghost \w+: *\{)", text, re.M):
        if found.start() < at:
            continue
        end = text.index("\n", found.end()) if "use" in found.group().split() else closing(text, found.end())
        out += [text[at : found.start()], written(text[found.start() : end], new, kept)]
        at = end
    return "".join(out) + text[at:]


def closing(text, at):
    """Behind the brace that closes the one which stands before `at`."""
    open_braces = 1
    while open_braces:
        open_braces += {"{": 1, "}": -1}.get(text[at], 0)
        at += 1
    return at


def spoken(name, names, new):
    """A name in a page or an edit, which may be older than port.py: its spelling now."""
    if name == snake(name):
        return name
    to = snake(name)
    if "-" in name:
        return new.get(name) or new.get(to) or (to if to in names else name)
    return to if name in new or to in names else name


def edit(text, names, new):
    """An edit of a definition; an edit of a source has words of the code alone."""
    if "file: src/" in text:
        return text
    line = re.compile(r"^(?:old|new): [^\n]*", re.M)
    text = line.sub(lambda found: re.sub(WORD, lambda word: spoken(word.group(), names, new), found.group()), text)
    # a projection is written tight
    return re.sub(r"\((\w+) \.(\w+)\)|(?<=[\w]) (\.\w+)", lambda found: found.group(3) or f"{found.group(1)}.{found.group(2)}", text)


def page(text, names, new):
    return re.sub(r"`(" + WORD + ")`", lambda found: "`" + spoken(found.group(1), names, new) + "`", text)


def main():
    if len(sys.argv) != 1:
        sys.exit(__doc__)
    crates = {path.split("/")[1] for path in glob.glob("crates/*/")}
    logic = sorted(glob.glob("crates/*/specs/**/*.antt", recursive=True) + glob.glob("crates/*/proofs/**/*.antt", recursive=True))
    if not logic:
        sys.exit("respell: no crates/ here: run it at the top of the repository")
    names = own_names(logic)
    new = new_names(names)
    # docs/PORT.md tells of the old names
    pages = [path for path in glob.glob("docs/*.md") if path != "docs/PORT.md"] + ["README.md"]
    others = glob.glob("crates/*/src/**/*.rt", recursive=True) + glob.glob("crates/*/must-fail/*.edit") + pages
    changed = 0
    for path in logic + sorted(others):
        old = read(path)
        if path.endswith(".antt"):
            text = written(old, new, foreign(old, crates))
        elif path.endswith(".rt"):
            text = clauses(old, new, foreign(old, crates))
        elif path.endswith(".edit"):
            text = edit(old, names, new)
        else:
            text = page(old, names, new)
        if text != old:
            changed += 1
            with open(path, "w", encoding="utf-8", newline="") as it:
                it.write(text)
    print(f"respell: {len(new)} names, {changed} files")


main()
