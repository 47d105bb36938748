#!/usr/bin/env python3
"""Respells the repository's own definitions and lemmas: snake case for words, with no dash and no capital inside.

usage: tools/respell.py [ROOT]     once, over the files as port.py left them; the names are found in the files themselves

What is respelled: each name that a file of crates/*/specs or crates/*/proofs declares (definitions, lemmas, fields and constructors), wherever
it stands in .antt and .rt files, in must-fail edits and, between backticks, in comments and pages. Types, modules, functions of src/ and
text keep their names. Where a lemma falls together with the definition that it is about, the lemma ends in `_lem`.
"""

import glob
import os
import re
import sys

# lemmas that port.py gave the spelling that a definition now takes
LEMMAS = ["level_in", "line_code", "opened_with", "same_flag", "all_short", "is_digit", "same_read", "with_part"]
DECLARED = re.compile(
    r"^\s*(?:(?:abbrev|opaque|unfoldable|pub|instance|private)\s+)*(?:record\s+|data\s+)?"
    r"([^\s:(){},.=|]+)\s*(?:\(.*\)\s*|\{.*\}\s*)*:(?:\s|$)"
)
RULESET = re.compile(r"^\s*(?:pub\s+)?ruleset\s+(\S+)")
USE = re.compile(r"\buse\s+([^\s{};]+)\.\{([^}]*)\}")
PART = r"\w'₀-₉"


def read(path):
    with open(path, encoding="utf-8") as f:
        return f.read()


def sources(root):
    """The files that declare names: all of specs/, and the lemma files of proofs/, but not the proofs of functions."""
    top = os.path.join(root, "crates", "*")
    return sorted(glob.glob(os.path.join(top, "specs", "**", "*.antt"), recursive=True) + glob.glob(os.path.join(top, "proofs", "*.antt")))


def declared(root):
    """Each declared name, and whether some declaration of it is no field and no constructor."""
    names = {}
    for path in sources(root):
        inside = None
        for line in read(path).split("\n"):
            if line.lstrip().startswith("--") or not line.strip():
                continue
            depth = len(line) - len(line.lstrip())
            if inside is not None and depth <= inside:
                inside = None
            m = DECLARED.match(re.sub(r"\s--\s.*", "", line)) or RULESET.match(line)
            if m and m[1] not in ("use", "mod", "let", "elim"):
                names[m[1]] = names.get(m[1], False) or inside is None
            if re.match(r"\s*(?:(?:abbrev|opaque|unfoldable|pub)\s+)*(?:record|data)\s.*\bwhere\s*$", line):
                inside = depth
    return names


def snake(name):
    if name[0].isupper() and "-" not in name:
        return name
    return "_".join(p if p[:1].isupper() else re.sub(r"[A-Z]", lambda m: "_" + m[0].lower(), p) for p in name.replace("-", "_").split("_"))


def spellings(root):
    names = declared(root)
    new = {n: snake(n) for n in names}
    taken = {}
    for n in names:
        taken.setdefault(new[n], []).append(n)
    for n in names:
        if "-" in n and names[n] and len(taken[new[n]]) > 1:
            new[n] += "_lem"
    for n in LEMMAS:
        new[n] = n + "_lem"
    return {n: m for n, m in new.items() if n != m}


def finder(names):
    some = "|".join(re.escape(n) for n in sorted(names, key=len, reverse=True))
    return re.compile(rf"(?<![{PART}-])(?:{some})(?![{PART}-])")


class Speller:
    def __init__(self, new, crates):
        self.new = new
        self.crates = crates
        self.all = finder(new)
        self.camel = finder([n for n in new if "-" not in n])

    def library(self, path):
        parts = path.split(".")
        return not (parts[0] == "Rattle" and parts[1] in self.crates)

    def beside(self, text):
        """The same without the names that a file takes from a library."""
        taken = set()
        for m in USE.finditer(text):
            if self.library(m[1]):
                taken |= {n.strip() for n in m[2].split(",") if " as " not in n}
        taken &= self.new.keys()
        return Speller({n: m for n, m in self.new.items() if n not in taken}, self.crates) if taken else self

    def code(self, text):
        m = USE.search(text)
        if m and self.library(m[1]):
            # what stands before `as` is the library's
            keep = {m.start(2) + n.start() for n in re.finditer(r"[^\s,]+(?= as )", m[2])}
            return self.all.sub(lambda n: n[0] if n.start() in keep else self.new[n[0]], text)
        return self.all.sub(lambda m: self.new[m[0]], text)

    def words(self, text):
        """A comment or a page: what stands between backticks, and names with a capital inside."""
        text = re.sub(r"`[^`\n]*`", lambda m: self.code(m[0]), text)
        return re.sub(r"(?<![\w`])[a-z]+[A-Z]\w*", lambda m: self.new.get(m[0], m[0]), text)

    def antt(self, text):
        speller, out = self.beside(text), []
        for line in text.split("\n"):
            m = re.search(r"(?:^|\s)--(?:\s|$)", line)
            k = m.start() if m else len(line)
            out.append(speller.code(line[:k]) + speller.words(line[k:]))
        return "\n".join(out)

    def rt(self, text):
        speller, out = self.beside(text), []
        for line in text.split("\n"):
            m = re.search(r"(?:^|\s)//", line)
            k = m.start() if m else len(line)
            out.append(speller.code(line[:k]) + speller.words(line[k:]))
        return "\n".join(out)

    def edit(self, text):
        """An edit's texts are lines of its file; the lines before them are words."""
        return "\n".join(self.code(l) if re.match(r"(old|new):", l) else self.words(l) for l in text.split("\n"))


def main(argv):
    root = argv[1] if len(argv) > 1 else "."
    new = spellings(root)
    speller = Speller(new, set(os.listdir(os.path.join(root, "crates"))))
    turned = 0
    for folder, dirs, files in os.walk(root):
        dirs[:] = sorted(d for d in dirs if d not in ("out", "target", ".git", "tools", "dist", "include"))
        for name in sorted(files):
            path = os.path.join(folder, name)
            turn = {".antt": speller.antt, ".rt": speller.rt, ".edit": speller.edit, ".md": speller.words}.get(os.path.splitext(name)[1])
            if turn is None or os.path.relpath(path, root).startswith(os.path.join("docs", "PORT")):
                continue
            old = read(path)
            text = turn(old)
            if text != old:
                turned += 1
                with open(path, "w", encoding="utf-8") as f:
                    f.write(text)
    for n in sorted(new):
        print(n, new[n])
    print(f"respell: {len(new)} names, {turned} files", file=sys.stderr)
    return 0


if __name__ == "__main__":
    sys.exit(main(sys.argv))
