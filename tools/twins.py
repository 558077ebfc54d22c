#!/usr/bin/env python3
"""Lists functions of crates/*/src that are twins: their text is the same but for types, constants, numbers, literals and the names
of records.

tools/twins.py [COMMIT]    of a commit, else of the tree; clauses and comments are left out
"""
import re
import subprocess
import sys

RECORDS = r"header|name|scope|frame|node|declarator|statement"


def files(commit):
    names = subprocess.run(
        ["git", "ls-tree", "-r", "--name-only", commit] if commit else ["git", "ls-files"],
        capture_output=True, text=True, check=True).stdout.split("\n")
    for name in names:
        if re.fullmatch(r"crates/[^/]+/src/.*\.rt", name):
            if commit:
                yield name, subprocess.run(["git", "show", f"{commit}:{name}"], capture_output=True, text=True, check=True).stdout
            else:
                yield name, open(name, encoding="utf-8").read()


def functions(text):
    """Name, signature and body of each function, without clauses."""
    for m in re.finditer(r"^( *)(?:pub(?:\(\w+\))? )?(?:extern \"C\" )?fn (\w+)(.*?)^\1\{\n(.*?)^\1\}$", text, re.M | re.S):
        head = re.sub(r"^ +(requires|ensures)\b.*?\}$(?=\n +(?:requires|ensures)|\n*\Z)", "", m[3], flags=re.M | re.S)
        yield m[2], head, m[4]


def shape(name, head, body):
    text = re.sub(r"//[^\n]*", "", head + body)
    text = re.sub(rf"\b{name}\b", "itself", text)
    text = re.sub(r'b?"[^"]*"', "TEXT", text)
    text = re.sub(r"\b(u8|u16|u32|u64|usize)\b", "Type", text)
    text = re.sub(r"\b[A-Z]\w*[a-z]\w*\b", "Type", text)
    text = re.sub(r"\b[A-Z][A-Z0-9_]+\b", "CONSTANT", text)
    text = re.sub(r"\b[0-9]\w*\b", "NUMBER", text)
    text = re.sub(rf"({RECORDS})s?(?=_|\b)", "record", text)
    text = re.sub(r"\(?\bCONSTANT as Type\b\)?", "CONSTANT", text)
    text = re.sub(r"\b[a-z]\b", "v", text)
    return re.sub(r"\s+", " ", text)


def main():
    found = {}
    for path, text in files(sys.argv[1] if len(sys.argv) > 1 else ""):
        for name, head, body in functions(text):
            found.setdefault(shape(name, head, body), []).append(f"{path}: {name}")
    groups = sorted(g for g in found.values() if len(g) > 1)
    for group in groups:
        print("\n".join(group), end="\n\n")
    print(f"{len(groups)} groups, {sum(map(len, groups))} functions")


main()
