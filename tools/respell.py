#!/usr/bin/env python3
"""Respells the names that this repository's specs/ and proofs/ declare: words in snake case, types
in camel case. Usage: tools/respell.py [--list], at the top of the repository, after the kit's
port.py, on files that are committed. It was run once; what it did is in docs/PORT.md.

A name is declared by a line `NAME : ..` of a file of specs/, or of a file of lemmas right in
proofs/ or below it. The answers of a function's goals are named by the check, and stay. Names
that fall together with another of the same file are listed and nothing is written.
"""
import os
import re
import sys

WORD = r"[A-Za-z_][^\s(){}.;,@\"«»:]*"
HEADS = r"(?:pub|abbrev|unfoldable|opaque|record|data|let|where|private)"
DECLARED = re.compile(rf"^\s*(?:{HEADS}\s+)*({WORD})(?:\s+[({{][^(){{}}]*[)}}])*\s+:(?:\s|$)")
ALIAS = re.compile(r"\bas ([a-z][\w']*-[\w'-]*)")
FUNCTION = re.compile(r"/(Answers|Invariants|Proof|Choices)\.antt$")
# A definition and a function of one name: the file with the function brings the definition in as
# another name.
BESIDE = {
    "crates/bank/src/entries.rt": {"bounds-locked-above": "bounds_locked"},
    "crates/bank/src/ranges.rt": {"range-word": "word_of"},
    "crates/calculator/src/lines.rt": {"without-return": "unreturned"},
    "crates/machine/src/access.rt": {"cause-of": "cause_for"},
    "crates/words/src/lines.rt": {"without-return": "unreturned"},
}


def files(root):
    for folder, dirs, names in os.walk(os.path.join(root, "crates")):
        dirs[:] = sorted(d for d in dirs if d != "out")
        for name in sorted(names):
            path = os.path.join(folder, name)
            if name.endswith((".antt", ".rt", ".edit")):
                yield path


def code_of(path, line):
    """The part of a line that is no comment."""
    mark = "--" if path.endswith(".antt") else "//"
    found = re.search(rf"(?:^|\s){re.escape(mark)}(?:\s|$)", line)
    return (line, "") if not found else (line[: found.start()], line[found.start() :])


def respelled(name):
    parts = name.split("-")
    if name[0].isupper():
        return "".join(p[:1].upper() + p[1:] for p in parts)
    return "_".join(parts)


def declared(paths):
    names = set()
    for path in paths:
        if not path.endswith(".antt") or FUNCTION.search(path):
            continue
        with open(path, encoding="utf-8") as f:
            for line in f:
                found = DECLARED.match(code_of(path, line)[0])
                if found and re.search(r"[A-Za-z0-9'_]-[A-Za-z0-9]", found[1]):
                    names.add(found[1])
                names.update(ALIAS.findall(line))
    return {n: respelled(n) for n in names}


TOKEN = re.compile(rf"(?<![\w'-])(?P<head>(?:c|l|goal|w|v)\.)?(?P<word>[A-Za-z_][\w'≤<≡∷-]*)")


def turned(path, text, table):
    out = []
    inside = FUNCTION.search(path)
    beside = BESIDE.get(os.path.normpath(path), {})
    for line in text.splitlines(keepends=True):
        end = "\n" if line.endswith("\n") else ""
        code, said = code_of(path, line[: len(line) - len(end)])
        brought = code.startswith("ghost use ")
        if path.endswith(".edit") and not line.startswith(("old:", "new:")):
            out.append(line)
            continue

        def one(m):
            word = m["word"]
            if m["head"] and inside:
                return m[0]
            new = table.get(word, word)
            if word in beside:
                new = f"{new} as {beside[word]}" if brought else beside[word]
            return (m["head"] or "") + new

        said = re.sub(r"`([^`]*)`", lambda m: "`" + TOKEN.sub(one, m[1]) + "`", said)
        out.append(TOKEN.sub(one, code) + said + end)
    return "".join(out)


def clashes(path, before, table):
    """Names of a file that would fall together."""
    code = "\n".join(code_of(path, x)[0] for x in before.splitlines())
    code = re.sub(r"(?m)^((?:pub |ghost )*use )\S*?(\{|(?<=\.)[^.\s]+ as )", r"\1\2", code)
    words = {m["word"] for m in TOKEN.finditer(code)} - set(BESIDE.get(os.path.normpath(path), {}))
    new = {}
    for w in words:
        new.setdefault(table.get(w, w), set()).add(w)
    return [(path, n, sorted(ws)) for n, ws in new.items() if len(ws) > 1]


def main():
    root = "."
    paths = list(files(root))
    table = declared(paths)
    if "--list" in sys.argv:
        for old, new in sorted(table.items()):
            print(old, new)
        return 0
    texts = {}
    for p in paths:
        with open(p, encoding="utf-8") as f:
            texts[p] = f.read()
    found = [c for p in paths for c in clashes(p, texts[p], table)]
    if found and "--anyway" not in sys.argv:
        for path, new, olds in found:
            print(f"{path}: {', '.join(olds)} would be {new}")
        return 1
    for p in paths:
        new = turned(p, texts[p], table)
        if new != texts[p]:
            with open(p, "w", encoding="utf-8") as f:
                f.write(new)
    print(f"{len(table)} names")
    return 0


if __name__ == "__main__":
    sys.exit(main())
