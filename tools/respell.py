#!/usr/bin/env python3
"""Brings this repository's own definitions and lemmas to the spelling of the Rattle of November 2026.

usage: tools/respell.py            at the top of the repository, once, right after /opt/rattle/port/port.py

A word with dashes that a file of specs/ or proofs/ declares becomes snake case, and camel case where it begins with
a capital, that is, where it names a type: check-of becomes check_of, Held-units-stay becomes HeldUnitsStay. It turns
whole words: in code and clauses everywhere, in comments and pages only between backticks, in strings nowhere. A label
that Rattle itself makes in Answers and Invariants stays, but where it is spelled like a word that we declare: then it
turns too, which is right for a function's own name (set-byte) and wrong for a joined one (with-buffer, in one file of
registers, which was put back by hand). It stops, and writes nothing, where two names would become one, or where a name
would meet a word that is no function's.
"""

import collections
import os
import re
import sys

SKIPPED = ("out", "target", ".git")
WORD = r'[^\s(){}.;,@"«»\[\]`]+'
DECLARED = re.compile(rf"\s*(?:(?:abbrev|opaque|unfoldable|pub|instance|record|data|ruleset)\s+)*({WORD})\s*(?::|=)(?:\s|$)")
MADE = re.compile(r"(returns|loop|invariant|decreases|overflow|bounds|slice_bounds|prove|nonzero|ghost)(-|$)")
# Names of parameters and of one missing lemma, which no line declares in the form above.
OTHERS = ("at-0", "last-head", "last-sector", "wrong-id", "advanced-count")
# What is no code: comments, and in Rattle the strings.
QUIET = {".antt": r"--[^\n]*", ".rt": r'//[^\n]*|"(?:\\.|[^"\\])*"', ".edit": r'"(?:\\.|[^"\\])*"'}


def texts(root):
    for folder, dirs, files in os.walk(root):
        dirs[:] = sorted(d for d in dirs if d not in SKIPPED)
        for name in sorted(files):
            end = os.path.splitext(name)[1]
            if end in (".antt", ".rt", ".edit", ".md"):
                path = os.path.join(folder, name)
                with open(path, encoding="utf-8") as it:
                    yield path, end, it.read()


def respelled(name):
    if name[0].isupper():
        return "".join(part[:1].upper() + part[1:] for part in name.split("-"))
    return name.replace("-", "_")


def names_of(root):
    """Each name to turn with its new spelling, and what speaks against it."""
    declared, words, functions = set(OTHERS), collections.Counter(), set()
    for path, end, text in texts(root):
        if end == ".antt":
            made = os.path.basename(path) in ("Answers.antt", "Invariants.antt")
            for line in text.split("\n"):
                m = DECLARED.match(line)
                if m and "-" in m[1] and re.match(r"[A-Za-z]", m[1]) and not (made and MADE.match(m[1])):
                    declared.add(m[1])
            words.update(re.findall(WORD, re.sub(QUIET[end], "", text)))
        elif end == ".rt":
            functions.update(re.findall(r"\bfn (\w+)", text))
            words.update(re.findall(r"\w+", re.sub(QUIET[end], "", text)))
    table = {name: respelled(name) for name in sorted(declared)}
    by_new = collections.defaultdict(list)
    for old, new in table.items():
        by_new[new].append(old)
    against = [f"{' and '.join(olds)} would both be {new}" for new, olds in by_new.items() if len(olds) > 1]
    mine = {"check_bytes"}  # a crate of that name, which is only ever named in a path
    fields = {respelled(name) for name in ("last-head", "last-sector", "wrong-id")}  # parameters for the fields of that name
    against += [f"{old} would meet {new}" for old, new in table.items() if words[new] and new not in functions | mine | fields]
    return table, against


def turned(text, end, table):
    def code(part):
        return re.sub(WORD, lambda m: table.get(m[0], m[0]), part)

    def spans(part):
        return re.sub(r"`[^`\n]+`", lambda m: "`" + code(m[0][1:-1]) + "`", part)

    if end == ".md":
        return spans(text)
    out, at = [], 0
    for m in re.finditer(QUIET[end], text):
        out += [code(text[at : m.start()]), m[0] if m[0].startswith('"') else spans(m[0])]
        at = m.end()
    return "".join(out + [code(text[at:])])


def main():
    root = os.path.dirname(os.path.dirname(os.path.realpath(__file__)))
    table, against = names_of(root)
    if against:
        print("\n".join(against), file=sys.stderr)
        return 1
    files = 0
    for path, end, text in list(texts(root)):
        new = turned(text, end, table)
        if new != text:
            files += 1
            with open(path, "w", encoding="utf-8") as it:
                it.write(new)
    print(f"{len(table)} names, {files} files changed")
    return 0


if __name__ == "__main__":
    raise SystemExit(main())
