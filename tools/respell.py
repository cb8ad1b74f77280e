#!/usr/bin/env python3
"""Brings the repository's own definitions and lemmas to today's spelling of Rattle: words in snake case, so that `letterRelation-remark`
is `letter_relation-remark`. It was run once, right after port.py; docs/PORT.md says of what.

A file specs/Contracts.antt becomes specs/Clauses.antt, as Rattle makes a module of that name itself.

usage: respell.py [--check] PATH..     files, or folders that are walked (out/ and target/ aside)

A word of our own is one that begins with a small letter, has a hump and is declared in no library of the kit: what a `use` line takes from
a module outside our crates stays. Names that fall together with a word that stands in the same file already are told on a line that begins
`falls together:`, and nothing is written then, unless that is in a
proof, which is checked. In .rt files only `ghost` lines, clauses and comments have such words; strings are left.
"""
import os
import re
import sys

WORD = re.compile(r"(?<![A-Za-z0-9_'])[a-z][A-Za-z0-9]*?[a-z0-9][A-Z][A-Za-z0-9]*'*")
USE = re.compile(r"use ([\w.'◌]+)\.\{([^}]*)\}")
HUMP = re.compile(r"(?<=[a-z0-9])(?=[A-Z])")
KINDS = (".antt", ".rt", ".md", ".edit")


# The words whose plain spelling is another word's of the same file.
OTHERS = {"upTo": "numbers_to", "toldText": "text_told", "passesThen": "passes_before", "rowsFit": "all_rows_fit", "keptFrom": "kept_above"}


def snake(word):
    return OTHERS.get(word) or HUMP.sub("_", word).lower()


def files(paths):
    for path in paths:
        if os.path.isfile(path):
            yield path
        for folder, inside, names in os.walk(path):
            inside[:] = sorted(d for d in inside if d not in ("out", "target", ".git"))
            yield from (os.path.join(folder, n) for n in sorted(names) if n.endswith(KINDS))


def foreign(texts, crates):
    """The words that some file takes from a module outside the crates."""
    found = set()
    for text in texts.values():
        for module, names in USE.findall(text):
            parts = module.split(".")
            if not (parts[0] == "Rattle" and len(parts) > 1 and parts[1] in crates):
                found.update(n.strip().split(" as ")[0] for n in names.split(","))
    return found


def bound(path, text):
    """The words that a file may mean by themselves: not behind or before a dot, and in code no function's name, which no clause reads."""
    if path.endswith((".md", ".edit")):
        return set()
    if path.endswith(".rt"):
        return set(re.findall(r"(?<![\w:])([a-z_][a-z0-9_]*)\s*:(?!:)", text)) | set(re.findall(r"let (?:mut )?([a-z_][a-z0-9_]*)", text))
    return set(re.findall(r"(?<![\w.'-])[A-Za-z_][A-Za-z0-9_]*'*(?![\w.'-])", text))


def main(argv):
    check = "--check" in argv
    paths = [a for a in argv if a != "--check"]
    texts = {p: open(p, encoding="utf-8").read() for p in files(paths)}
    with open("crates.txt", encoding="utf-8") as it:
        crates = {line.split(":")[0].split()[0] for line in it if line.strip() and not line.startswith("#")}
    stay = foreign(texts, crates) | {"getD"}
    wrong = False
    new = {}
    for path, text in texts.items():
        has = bound(path, text)
        words = {w for w in WORD.findall(text) if w not in stay}
        turned = {}
        for word in sorted(words):
            to = snake(word)
            if to in has or to in turned:
                wrong = wrong or "/proofs/" not in path
                print(f"falls together: {path}: {word} and {turned.get(to, to)}")
            turned[to] = word
        new[path] = WORD.sub(lambda m: snake(m[0]) if m[0] not in stay else m[0], text)
    moved = [p for p in texts if p.endswith("specs/Contracts.antt")]
    for path in texts:
        new[path] = re.sub(r"\bspecs(\.|/)Contracts\b", r"specs\1Clauses", new[path])
        if path.endswith("specs/Lib.antt"):
            new[path] = re.sub(r"(?m)^(pub )?mod Contracts$", r"\1mod Clauses", new[path])
    changed = [p for p in texts if new[p] != texts[p]]
    print(f"{len(changed)} files change; words that stay: {' '.join(sorted(w for w in stay if WORD.fullmatch(w)))}")
    if check or wrong:
        return 1 if wrong else 0
    for path in changed:
        with open(path, "w", encoding="utf-8") as it:
            it.write(new[path])
    for path in moved:
        os.rename(path, path.replace("Contracts.antt", "Clauses.antt"))
    return 0


if __name__ == "__main__":
    raise SystemExit(main(sys.argv[1:]))
