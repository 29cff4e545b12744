#!/usr/bin/env bash
# What the README shows of Rattle and antt is proved and run: every block of it stands word for word, line after line, in a file of
# crates/, and the first is a whole program but for the line that opens its file, which the README says in its text. And it names the toolchain
# as the file `toolchain` does.
set -u
cd "$(dirname "$0")/.." || exit 2
# shellcheck source=tests/install.bash
. tests/install.bash
need python3 python3
python3 - << 'P'
import pathlib
import re
import sys

readme = pathlib.Path("README.md").read_text()
blocks = re.findall(r"(?ms)^```(rust|antt)\n(.*?)^```$", readme)
kinds = {"rust": "*.rt", "antt": "*.antt"}
# A crate's out/ has copies of its text, which rt keeps there.
files = {k: {p: p.read_text() for p in sorted(pathlib.Path("crates").rglob(g)) if p.parts[2] != "out"} for k, g in kinds.items()}
bad = not blocks
for number, (kind, block) in enumerate(blocks, 1):
    where = [p for p, text in files[kind].items() if "\n" + block in "\n" + text]
    if number == 1:
        where = [p for p in where if p.name == "main.rt" and files[kind][p].partition("\n")[2] == block]
    if where:
        print(f"README.md: block {number}, {block.count(chr(10))} lines, is in {where[0]}")
    else:
        print(f"README.md: block {number} is {'no whole program' if number == 1 else 'in no file'}: {block.splitlines()[0]}")
        bad = True
if not blocks:
    print("README.md shows no program")
if pathlib.Path("toolchain").read_text().strip() not in readme:
    print("README.md does not name the toolchain of the file 'toolchain'")
    bad = True
sys.exit(bad)
P
