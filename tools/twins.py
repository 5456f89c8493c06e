#!/usr/bin/env python3
"""Lists pairs of functions in crates/*/src whose bodies are alike but for names, types and numbers."""
import difflib
import itertools
import pathlib
import re
import sys

KEYWORDS = set("as break const else fn for if impl in let loop match mut pub ref return self Self struct while true false Some None Ok Err".split())
FN = re.compile(r"\bfn\s+(\w+)")


def functions(path):
    text = re.sub(r"//[^\n]*", "", path.read_text())
    text = re.sub(r"(requires|ensures)\*?\s*\w*\s*\{[^\n]*\}\n", "\n", text)
    for match in FN.finditer(text):
        start = text.find("{", match.end())
        end_of_signature = text.find(";", match.end())
        if start < 0 or 0 <= end_of_signature < start:
            continue
        depth, at = 1, start + 1
        while depth and at < len(text):
            depth += {"{": 1, "}": -1}.get(text[at], 0)
            at += 1
        yield match.group(1), text[start:at]


def shape(body):
    words = re.findall(r"\w+|[^\w\s]", body)
    return [w if w in KEYWORDS or not w[0].isalnum() else "x" for w in words]


def main():
    root = pathlib.Path(sys.argv[1] if len(sys.argv) > 1 else ".")
    found = []
    for path in sorted(root.glob("crates/*/src/**/*.rt")):
        for name, body in functions(path):
            words = shape(body)
            if len(words) >= 25:
                found.append((f"{path.relative_to(root / 'crates')}:{name}", words))
    for (a, x), (b, y) in itertools.combinations(found, 2):
        if min(len(x), len(y)) * 10 >= max(len(x), len(y)) * 8:
            alike = difflib.SequenceMatcher(None, x, y, autojunk=False).ratio()
            if alike >= 0.9:
                print(f"{alike:.2f} {a} {b}")


main()
