#!/usr/bin/env python3
"""Spells the repository's own names in snake case, and must-fail edits as the sources are spelled.

usage: python3 tools/respell.py      at the top, once, after the kit's port.py

A hyphenated name that an .antt file of crates/ uses and does not import from the library becomes snake case, in every source, edit and page.
"""
import re
from pathlib import Path

TOKEN = re.compile(r"[^\s(){}\[\];,.:λ→×|`«»]+")
HYPHENED = re.compile(r"[^\W_]-[^\W_]|\w-\w")
# names whose parts are spelled anew too
OTHERWISE = {
    "Demand-1": "Demand1",
    "Demand-2": "Demand2",
    "Demand-3": "Demand3",
    "run-A": "run_a",
    "run-B": "run_b",
    "run-B-capacity-4": "run_b_capacity_4",
    "requests-B": "requests_b",
    "replies-B": "replies_b",
}
# names that the kit makes
MADE = {"Need-returns"}


def code(line):
    return "" if line.lstrip().startswith(("--", "//")) else line


def own_names(files):
    used, library = set(), set()
    for path in files:
        for line in map(code, path.read_text().splitlines()):
            names = {t for t in TOKEN.findall(line) if HYPHENED.search(t)}
            names -= {q for q in re.findall(r"\bNatL\.([^\s(){}]+)", line)}
            (library if line.lstrip().startswith("use Rattle.std") else used).update(names)
    return used - library - MADE


def respell(text, names):
    return TOKEN.sub(lambda m: OTHERWISE.get(m[0], m[0].replace("-", "_")) if m[0] in names else m[0], text)


def tight(text):
    """`(s .n)` and `s .n` as `s.n`."""
    text = re.sub(r"\((\w+) \.(\w+)\)", r"\1.\2", text)
    return re.sub(r"(\w) \.(\w)", r"\1.\2", text).replace("ltZ", "lt_z")


def main():
    crates = Path("crates")
    antt = sorted(crates.glob("*/specs/**/*.antt")) + sorted(crates.glob("*/proofs/**/*.antt"))
    names = own_names(antt)
    taken = {t for p in antt for line in map(code, p.read_text().splitlines()) for t in TOKEN.findall(line)}
    for name in sorted(names):
        to = OTHERWISE.get(name, name.replace("-", "_"))
        if to in taken:
            print(f"{name} falls together with {to}")
    for path in antt + sorted(crates.glob("*/src/**/*.rt")):
        lines = path.read_text().splitlines(keepends=True)
        path.write_text("".join(respell(line, names) if code(line) else line for line in lines))
    # names that port.py brought to snake case in the sources alone
    names |= {m for p in list(crates.glob("*/must-fail/*.edit")) + list(Path("docs").glob("*.md"))
              for m in TOKEN.findall(p.read_text()) if HYPHENED.search(m) and m.replace("-", "_") in taken}
    for path in sorted(crates.glob("*/must-fail/*.edit")):
        lines = path.read_text().splitlines(keepends=True)
        path.write_text("".join(
            respell(tight(line), names) if line.startswith(("old: ", "new: ", "refused at: ")) else line for line in lines))
    for path in sorted(Path("docs").glob("*.md")):
        path.write_text(re.sub(r"`[^`\n]+`", lambda m: respell(m[0], names), path.read_text()))


main()
