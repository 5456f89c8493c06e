#!/usr/bin/env python3
"""Counts places of older forms in crates/*/src and the lines of proof: count_forms.py [FOLDER]. docs/DESIGN-PASS.md says what the counts mean."""
import pathlib
import re
import subprocess
import sys

LINES = [
    ("1 own enums", r"^ *(pub )?enum "),
    ("1 a failed test as `Some`", r"-> Option<(End|PlanFault)>"),
    ("1 flags", r"^(?!.*value: bool).*\b[a-z_]+: bool\b"),
    ("1 numbers for kinds and refusals", r"fn (number|code|from_code|error_byte|status_byte)\((self|code)"),
    ("2 implementations of the three interfaces", r"impl.* (Memory|CheckRule|DriveString) for"),
    ("3 loops", r"^ *(for .* in |while |loop\b)|= loop"),
    ("3 of these over an index", r"\+= 1;|for [a-z_]+ in .*\.\."),
    ("4 bytes and bits by arithmetic", r"\* 256|/ 256|% 256|/ 0x100|/ 0x1000|% 0x100|>> |<< "),
    ("4 fields copied one by one", r"^ +[a-z_]+: (t|f|self|place|self\.registers|checked|checked\.geometry)\.[a-z_]+,$"),
    ("4 arms that answer true or false", r"=> (true|false),"),
    ("4 wrapped numbers compared by what they wrap", r"\.0 (==|!=) [a-z_.]+\.0"),
    ("4 functions and wrappers that print", r"fn [a-z]+_name\(|struct (PlanText|FaultText|Hex)"),
    (
        "4 functions that convert or copy",
        r"fn (code|from_code|layout_of|positioned|numbered|plain_answer|byte_answer|cut_off|less_wanted|with_[a-z]+|at_slot|onward|place_on|place_of)\(",
    ),
    ("5 clauses that the rest stays", r"ensures rest"),
    ("5 clauses that look into a buffer", r"(requires|ensures).*\bheld\b"),
    ("6 fixed arrays", r"^(?!.*const ).*\[(u8|u16|bool|[A-Z][A-Za-z]*); ?[0-9A-Z]+\]"),
    ("7 matches on what to do next", r"match (self\.)?(t\.stage|f\.stage|self\.registers\.running|call|decide|t\.kind)"),
    ("7 closures", r"^(?!.*\|\|).*\|[a-z_&(), ]*\| ?[a-z{(!*-]"),
]

# Parameter lists go over lines: all of these have to stand in one.
PARAMETERS = [
    ("5 functions that take a start (with its rule)", [r"start: Start"]),
    ("5 functions that take a unit with a head", [r"unit: u8", r"head: PhysicalHead"]),
    ("5 functions that take the buffer beside the string", [r"buffer: &mut Buffer"]),
    ("5 functions that take the four numbers of a geometry", [r"cylinders: u16", r"heads"]),
    ("5 functions that take the five values of a plan", [r"junction: u16"]),
]


def main():
    root = pathlib.Path(sys.argv[1] if len(sys.argv) > 1 else ".")
    texts = [path.read_text() for path in sorted(root.glob("crates/*/src/**/*.rt"))]
    lines = [line for text in texts for line in text.splitlines()]
    lists = [match[1] for text in texts for match in re.finditer(r"\bfn \w+[^({]*\(([^)]*)\)", text)]
    counts = [(name, sum(1 for line in lines if re.search(pattern, line))) for name, pattern in LINES]
    counts += [(name, sum(1 for l in lists if all(re.search(p, l) for p in patterns))) for name, patterns in PARAMETERS]
    twins = subprocess.run([sys.executable, pathlib.Path(__file__).with_name("twins.py"), root], capture_output=True, text=True, check=True)
    counts.append(("2 pairs of functions that are alike", len(twins.stdout.splitlines())))
    proofs = [path for path in root.glob("crates/*/proofs/**/*.antt") if "/out/" not in str(path)]
    counts.append(("8 lines of proof", sum(len(path.read_text().splitlines()) for path in proofs)))
    for name, count in sorted(counts):
        print(f"{count:6}  {name}")


main()
