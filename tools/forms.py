#!/usr/bin/env python3
"""Counts the places of src/ that have a form that a newer one could replace, one line for each form: docs/DESIGN-PASS.md says what each means.

    python3 tools/forms.py             the counts
    python3 tools/forms.py FORM        the places of one form
    python3 tools/forms.py --at DIR    the same of another checkout
"""
import argparse
import re
import sys
from pathlib import Path

FUNCTION = re.compile(r"^(?P<indent> *)(?:pub )?(?:extern \"C\" )?fn (?P<name>\w+)", re.M)


def sources(top):
    return {path.relative_to(top): path.read_text() for path in sorted(top.glob("crates/*/src/*.rt"))}


def plain(text):
    """The text without comments, each line kept."""
    return re.sub(r"//[^\n]*", "", text)


def functions(text):
    """Name, line, head (to the body's brace, contract and all) and body of each function."""
    for found in FUNCTION.finditer(text):
        end = re.compile(rf"^{found['indent']}}}$", re.M).search(text, found.end())
        whole = text[found.start():end.end()] if end else text[found.start():].split("\n")[0]
        body = re.search(rf"(?:^{found['indent']}|[^\n]* ){{$", whole, re.M)
        cut = body.end() if body else len(whole)
        yield found["name"], text.count("\n", 0, found.start()) + 1, whole[:cut], whole[cut:]


def lines(pattern):
    """The places of a form that a line shows."""
    form = re.compile(pattern)

    def places(files):
        for path, text in files.items():
            for number, line in enumerate(plain(text).split("\n"), 1):
                if form.search(line):
                    yield f"{path}:{number}: {line.strip()}"

    return places


def two_way_enums(files):
    for path, text in files.items():
        for found in re.finditer(r"^(?:pub )?enum (\w+)[^{]*\{\n(.*?)^\}", plain(text), re.M | re.S):
            variants = re.findall(r"^    (\w+)(.?)", found[2], re.M)
            if len(variants) == 2 and any(after in "({" and after for _, after in variants):
                yield f"{path}: {found[1]} {' '.join(name for name, _ in variants)}"


def flags_beside_values(files):
    for path, text in files.items():
        for found in re.finditer(r"^(?:pub )?struct (\w+)[^{;]*\{\n(.*?)^\}", plain(text), re.M | re.S):
            fields = re.findall(r"^    (?:pub )?(\w+): ([^\n]*),$", found[2], re.M)
            for name, kind in fields:
                if kind == "bool" and len(fields) > 1:
                    yield f"{path}: {found[1]}.{name}"


def twins(files):
    shapes = {}
    for path, text in files.items():
        for name, number, head, body in functions(plain(text)):
            head = re.sub(r"\n +(requires|ensures)[^\n]*", "", head)
            shape = re.sub(rf"\b{name}\b", "F", head + body)
            shape = re.sub(r"\b[A-Z]\w*::[A-Z]\w*\b|\b[A-Z][A-Z_0-9]+\b|\b(0x)?[0-9][0-9A-F_]*\b|b?\"[^\"]*\"", "C", shape)
            shape = re.sub(r"\b(u8|u16|u32|u64|usize)\b", "T", shape)
            shapes.setdefault(re.sub(r"\s+", " ", shape), []).append(f"{path}:{number}: {name}")
    for group in shapes.values():
        yield from group if len(group) > 1 else []


def repeated_clauses(files):
    clauses = {}
    for path, text in files.items():
        for number, line in enumerate(plain(text).split("\n"), 1):
            found = re.match(r" +requires(?: \w+)? \{ (.*) \}$", line)
            if found:
                fact = re.sub(r"\.(now|old|new)\b", "", found[1])
                clauses.setdefault(fact, []).append(f"{path}:{number}: {fact}")
    for group in clauses.values():
        yield from group if len(group) > 2 else []


FORMS = {
    "1 two-way enums": two_way_enums,
    "1 flags beside values": flags_beside_values,
    "1 numbers matched": lines(r"^\s*(b'.'|0x[0-9A-F]+|[0-9]+)( \| [^=]*)? =>"),
    "2 twins": twins,
    "3 indices counted": lines(r"\bwhile\b|\bfor \w+ in 0\.\.(?!u64::MAX)"),
    "4 numbers taken apart": lines(r"[/%*] (256|65536|16777216)\b"),
    "4 compared by a number": lines(r"(opcode_of\(\w+\)|\bopcode) == 0x|\btag == \d|\btag\(rec\) == \d"),
    "4 printed by hand": lines(r"say::(text|number|hex)\(|\btext\(rt, b\"|write_all\(b\""),
    "5 clauses of three": repeated_clauses,
    "6 lengths beside": lines(r"^\s*(pub )?(len|length|count|kept|n|end|hex|file): (usize|u8),$|(hex|file): usize"),
    "7 steps switched": lines(r"\bmatch (row\[|fields::tag)"),
}


def main():
    reader = argparse.ArgumentParser(description="Counts the places that have a form which a newer one could replace.")
    reader.add_argument("form", nargs="?", choices=FORMS, metavar="FORM", help="show the places of this one: " + ", ".join(FORMS))
    reader.add_argument("--at", type=Path, default=Path(__file__).resolve().parent.parent, metavar="DIR", help="another checkout")
    words = reader.parse_args()
    files = sources(words.at)
    if not files:
        sys.exit(f"forms.py: no crates/*/src/*.rt below {words.at}")
    for form in [words.form] if words.form else FORMS:
        places = list(FORMS[form](files))
        print("\n".join(places) if words.form else f"{form}: {len(places)}")


main()
