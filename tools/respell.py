#!/usr/bin/env python3
"""Writes the repository's own definitions and lemmas in snake case, by the table respelled.txt beside this file.

usage: respell.py            at the top of the repository, once, after the port's own script

A row of the table is an old name and a new one. A name is replaced where it stands whole, in the .rt and .antt files and
in the must-fail edits. Some local names would fall together with a definition's new name in their file: those have new
names in LOCAL, and are replaced first.
"""

import glob
import os
import re

# A file, a name in it before the table is applied, and its new name.
LOCAL = [
    ("stabilizer/proofs/Columns.antt", "first_one", "first_one_stands"),
    ("mask_decoding/proofs/Masks.antt", "of_mask", "of_mask_bits"),
    ("syndrome_lines/proofs/InReports.antt", "other_key", "key_is_other"),
    ("asked_lines/proofs/InReports.antt", "all_read", "all_are_read"),
    ("asked_lines/proofs/InReports.antt", "marks_line", "line_of_marks"),
    ("asked_lines/proofs/InReports.antt", "too_many", "marks_too_many"),
    ("reporting/proofs/Syndromes.antt", "by_tests", "by_both_tests"),
    ("marked_decoding/proofs/Outcomes.antt", "too_many", "marks_too_many"),
    ("marks_reader/proofs/Marks.antt", "too_many", "marks_too_many"),
]
TOKEN = re.compile(r"[^\s(){}.;,@\"«»\[\]\\]+")


def replaced(text, names):
    return TOKEN.sub(lambda m: names.get(m[0], m[0]), text)


def main():
    here = os.path.dirname(os.path.realpath(__file__))
    with open(os.path.join(here, "respelled.txt"), encoding="utf-8") as it:
        table = dict(line.split() for line in it)
    for kind in ("*.rt", "*.antt", "*.edit"):
        for path in sorted(glob.glob(f"crates/*/*/**/{kind}", recursive=True)):
            if path.split("/")[2] not in ("src", "specs", "proofs", "must-fail"):
                continue
            with open(path, encoding="utf-8") as it:
                old = it.read()
            local = {a: b for file, a, b in LOCAL if path == "crates/" + file}
            new = replaced(replaced(old, local), table)
            if new != old:
                with open(path, "w", encoding="utf-8") as it:
                    it.write(new)


main()
