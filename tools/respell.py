#!/usr/bin/env python3
"""Brings the definitions and lemmas of the crates to snake case, as this Rattle spells them: run once, at the top, after
port.py. tools/respell.txt has each old name with its new one. Functions of src/ had that spelling and keep their names."""

import pathlib
import re

ROOT = pathlib.Path(__file__).resolve().parent.parent
TURNED = [("crates", (".antt", ".rt", ".edit")), ("docs", (".md",)), ("README.md", (".md",))]

# A name of a proof that would fall together with a definition's new name, where both are in scope, makes way first.
MAKE_WAY = [
    ("crates/playback/proofs/Claims.antt", "by_number", "by_its_number"),
    ("crates/text/proofs/Readings.antt", "no_number", "unread"),
    ("crates/block/proofs/Cases.antt", "out_of_range", "outside_range"),
    ("crates/block/proofs/judge/Proof.antt", "out_of_range", "outside_range"),
    ("crates/demands/proofs/Point.antt", "same_digits", "digits_alike"),
    ("crates/demands/proofs/Point.antt", "text_at", "text_sent_at"),
]


def whole(name):
    return re.compile(r"(?<![\w'\\-])" + re.escape(name) + r"(?![\w'-])")


def names():
    lines = (ROOT / "tools/respell.txt").read_text().splitlines()
    return dict(line.split() for line in lines)


def files():
    for place, endings in TURNED:
        path = ROOT / place
        found = [path] if path.is_file() else sorted(path.rglob("*"))
        for file in found:
            if file.is_file() and file.suffix in endings and "out" not in file.relative_to(ROOT).parts:
                yield file


def main():
    new = names()
    any_name = re.compile(r"(?<![\w'\\-])(?:" + "|".join(sorted(map(re.escape, new), key=len, reverse=True)) + r")(?![\w'-])")
    for file, old, other in MAKE_WAY:
        path = ROOT / file
        path.write_text(whole(old).sub(other, path.read_text()))
    for file in files():
        text = file.read_text()
        turned = any_name.sub(lambda found: new[found.group()], text)
        if turned != text:
            file.write_text(turned)


main()
