#!/usr/bin/env python3
"""Brings to today's spelling the names that respell.py left: fields, constructors and bound names. Run once, at the top of the repository."""
import glob
import re

NEW = {
    "rowA": "row_a", "rowB": "row_b",
    "overAfter": "over_after", "changedStep": "changed_step",
    "fromEntries": "from_entries", "fromSeeds": "from_seeds", "fromChain": "from_chain", "fromEdges": "from_edges",
    "calls-long": "calls_long", "flips-a": "flips_a", "flips-b": "flips_b", "low-a": "low_a", "low-b": "low_b",
    "long-ka": "long_ka", "long-kb": "long_kb", "long-marks": "long_marks", "long-rowa": "long_rowa", "long-rowb": "long_rowb",
    "long-seeds": "long_seeds", "long-slots": "long_slots", "long-words": "long_words",
    "get_d_leaving": "get_or-leaving",
}
WORD = re.compile(r"(?<![\w'-])(" + "|".join(sorted(NEW, key=len, reverse=True)) + r")(?![\w'-])")

for kind in ("specs/**/*.antt", "proofs/**/*.antt", "src/**/*.rt"):
    for path in sorted(glob.glob("crates/*/" + kind, recursive=True)):
        with open(path, encoding="utf-8") as f:
            old = f.read()
        new = WORD.sub(lambda m: NEW[m[1]], old)
        if new != old:
            with open(path, "w", encoding="utf-8") as f:
                f.write(new)
            print(path)
