#!/usr/bin/env python3
"""Brings the repository's own definitions and lemmas to snake case, once, right after port.py.

usage: python3 tools/respell.py [--check] [ROOT]

A definition `foldBytes` becomes `fold_bytes`, in every file that has the word; a lemma `fold-is-kept` becomes `fold_is_kept`, in
the files that declare or import it. A dash stays where it joins two declared words, as in `declarators_of-length`. A lemma that
would have the name of another word that its file, or a file that imports it, sees gets `_lem`. Types and modules, Rust's functions,
exported names, strings, inputs and outputs stay.
"""
import collections
import glob
import os
import re
import sys

WORD = re.compile(r'[^\s(){}.;,@"«»\[\]]+')
DECLARED = re.compile(
    r"^\s*(?:abbrev +|unfoldable +|pub +)*([^\s(){}.;,@\"«»\[\]:=|]+(?: +[^\s(){}.;,@\"«»\[\]:=|]+)*) : "
)
HEADS = {"use", "data", "record", "module", "mutual", "where", "let", "in", "elim"}
USE = re.compile(r"(?m)^(?:ghost )?use (Rattle\.(\w+)\.[^\s{]+)\.\{([^}]*)\}")
KNOWN = {"length", "append", "take", "drop", "map", "get_or", "sum"}


def antt_files(root):
    found = []
    for kind, pattern in (("specs", "specs/**"), ("proofs", "proofs"), ("function", "proofs/*/**")):
        for p in sorted(glob.glob(os.path.join(root, "crates/*", pattern, "*.antt"), recursive=True)):
            found.append((p, kind))
    return found


def text_of(path):
    with open(path, encoding="utf-8") as f:
        return f.read()


def bare(text):
    return re.sub(r"(?m)(?<![^\s(){}.;,@\"«»])--.*$", "", text)


def declared_in(text):
    out = set()
    for line in bare(text).split("\n"):
        m = DECLARED.match(line)
        if m:
            words = m.group(1).split()
            if words[0] not in HEADS and "λ" not in words and "→" not in words:
                out |= set(words)
    return out


def imported_in(root, text):
    """The own names that a file imports, each with its module."""
    out = {}
    for m in USE.finditer(text):
        if os.path.isdir(os.path.join(root, "crates", m.group(2))):
            for w in m.group(3).split(","):
                name = w.strip().split(" as ")[0].strip()
                if name:
                    out[name] = m.group(1)
    return out


def is_camel(word):
    return word[:1].islower() and re.search(r"[a-z0-9][A-Z]", word) is not None


def snake(word):
    if not word[:1].islower():
        return word
    return re.sub(r"(?<=[A-Za-z0-9])([A-Z])", lambda m: "_" + m.group(1).lower(), word)


def new_name(word, words):
    olds = word.split("-")
    out = snake(olds[0])
    for i in range(1, len(olds)):
        left, right = "-".join(olds[:i]), "-".join(olds[i:])
        joins = (left in words or olds[i - 1][:1].isupper()) and right in words
        out += ("-" if joins else "_") + snake(olds[i])
    return out


class Names:
    def __init__(self, root):
        self.root = root
        self.files = [(p, k, text_of(p)) for p, k in antt_files(root)]
        self.specs, self.lemmas = set(), set()
        for path, kind, text in self.files:
            if kind == "specs":
                self.specs |= declared_in(text)
            elif kind == "proofs":
                self.lemmas |= declared_in(text)
        words = self.specs | self.lemmas | KNOWN
        self.camel, self.dashed = {}, {}
        for w in self.specs | self.lemmas:
            if is_camel(w) and "-" not in w:
                self.camel[w] = snake(w)
            elif "-" in w and re.match(r"[A-Za-z]", w):
                self.dashed[w] = new_name(w, words)
        self.lem = set()
        self.settle()

    def scope(self, path, kind, text):
        """What a file sees of the repository's lemmas and definitions by their names: old name -> new name."""
        own = declared_in(text) if kind != "function" else set()
        seen = own | set(imported_in(self.root, text))
        return {w: self.camel.get(w) or self.dashed.get(w) or w for w in seen}

    def settle(self):
        for path, kind, text in self.files:
            by_new = collections.defaultdict(set)
            for old, new in self.scope(path, kind, text).items():
                by_new[new].add(old)
            for new, olds in by_new.items():
                if len(olds) > 1:
                    keep = [w for w in olds if w in self.specs] or [w for w in olds if is_camel(w)] or sorted(olds)[:1]
                    for w in olds - {keep[0]}:
                        self.lem.add(w)
        for w in self.lem:
            if w in self.dashed:
                self.dashed[w] += "_lem"
            elif w in self.camel:
                raise SystemExit(f"respell: two definitions fall together at {w}")

    def turned(self, path, kind, text):
        """old -> new for one file of antt, or of Rust (kind 'rt')."""
        own = declared_in(text) if kind in ("specs", "proofs") else set()
        imports = imported_in(self.root, text)
        out = dict(self.camel)
        for w in own | set(imports):
            if w in self.dashed:
                out[w] = self.dashed[w]
            elif w in self.lem and (w in own and kind == "proofs" or ".proofs." in imports.get(w, "")):
                out[w] = w + "_lem"
        for w, new in self.dashed.items():
            # a lemma that a file takes by its module's name
            if w not in out and is_camel(w.split("-")[0]):
                out[w] = new
        return out


def turn(text, table):
    return WORD.sub(lambda m: table.get(m.group(0), m.group(0)), text)


def clashes(text, table):
    words = set(WORD.findall(bare(text)))
    return sorted((o, n) for o, n in table.items() if o in words and n in words and n not in table)


def main(argv):
    check = "--check" in argv
    roots = [a for a in argv if not a.startswith("-")]
    root = roots[0] if roots else "."
    names = Names(root)
    changed = 0
    paths = [(p, k) for p, k, _ in names.files]
    paths += [(p, "rt") for p in sorted(glob.glob(os.path.join(root, "crates/*/src/**/*.rt"), recursive=True))]
    paths += [(p, "edit") for p in sorted(glob.glob(os.path.join(root, "crates/*/must-fail/*.edit")))]
    pages = ["README.md", "reference/README.md", "docs/*.md"]
    paths += [(p, "page") for g in pages for p in sorted(glob.glob(os.path.join(root, g)))]
    for path, kind in paths:
        text = text_of(path)
        if kind in ("edit", "page"):
            table = {**{w: n for w, n in names.dashed.items()}, **names.camel}
        else:
            table = names.turned(path, kind, text)
            for old, new in clashes(text, table):
                print(f"look: {path}: {old} becomes {new}, a word that stands there")
        out = {"page": turn_page, "edit": turn_edit}.get(kind, turn)(text, table)
        if out != text:
            changed += 1
            if not check:
                with open(path, "w", encoding="utf-8") as f:
                    f.write(out)
    print(f"respell: {len(names.camel)} definitions, {len(names.dashed)} lemmas, {len(names.lem)} with _lem; {changed} files")
    if "--table" in argv:
        for o, n in sorted({**names.dashed, **names.camel}.items()):
            print(o, n, sep="\t")
    return 0


def turn_page(text, table):
    """Of a page, the words between back quotes alone."""
    return re.sub(r"`([^`\n]+)`", lambda m: "`" + turn(m.group(1), table) + "`", text)


def turn_edit(text, table):
    """Of an edit, the lines that the check reads."""
    return re.sub(r"(?m)^(?:old|new): .*$", lambda m: turn(m.group(0), table), text)


if __name__ == "__main__":
    raise SystemExit(main(sys.argv[1:]))
