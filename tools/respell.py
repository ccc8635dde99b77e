#!/usr/bin/env python3
"""Respells this repository's own definitions and lemmas, by respell.tsv beside this file.

usage: respell.py    (once, at the top, behind the kit's port.py)

Functions, fields and constructors of the definitions go from camel case and dashes to snake case. In a
lemma's name the dash stays behind the word that the lemma is about, as in `length-bytes`. Names of Rust
code, strings, inputs and outputs stay: in .rt and .edit files only ghost imports and clauses are looked at.
"""
import re
from pathlib import Path

HERE = Path(__file__).resolve().parent
ROWS = dict(line.split("\t") for line in (HERE / "respell.tsv").read_text().splitlines())

# By file: a lemma that would get the name of the definition that it is about, and one whose old name is also a
# name that Rattle makes.
LEMMAS = {
    "crates/srecord/proofs/Arrivals.antt": {"not-data": "not_data"},
    "crates/srecord/proofs/Writing.antt": {"digit_value": "digit_value_lem"},
    "crates/loader/proofs/Faults.antt": {"goes_on": "goes_on_lem"},
}

EDGE = r'[^\s(){}.;,@"«»`]'
CLAUSE = re.compile(r"\bghost\b|\brequires\b|\bensures\b|also_owns|also_shares|#\[tactic")


def respelled(text, rows):
    names = "|".join(re.escape(it) for it in sorted(rows, key=len, reverse=True))
    word = re.compile(rf"(?<!{EDGE})(?:{names})(?!{EDGE})")
    return word.sub(lambda m: rows[m.group()], text)


def in_code(text):
    """Turns the clauses and ghost imports of a file of Rust, to the end of their braces."""
    lines, depth = [], 0
    for line in text.split("\n"):
        starts = CLAUSE.search(line) and not line.lstrip().startswith("//")
        if starts or depth > 0:
            depth += line.count("{") - line.count("}")
            line = respelled(line, ROWS)
            depth = max(depth, 0)
        lines.append(line)
    return "\n".join(lines)


def main():
    for path in sorted(Path("crates").rglob("*")):
        if "out" in path.parts or not path.is_file():
            continue
        name = path.as_posix()
        if path.suffix == ".antt":
            old = path.read_text()
            lemmas = LEMMAS.get(name, {})
            # A second run finds them respelled.
            done = any(it in old for it in lemmas.values())
            new = respelled(respelled(old, lemmas) if lemmas and not done else old, ROWS)
        elif path.suffix in (".rt", ".edit"):
            old = path.read_text()
            new = in_code(old)
        else:
            continue
        if new != old:
            path.write_text(new)


if __name__ == "__main__":
    main()
