#!/usr/bin/env python3
"""Gives the names of goals, and of what they bring, today's spelling in the proof files of functions: a name from the
source keeps its underscores (`join_part`, not `join-part`), and so do the words `overflow_add`, `in_ok` and their like."""
import glob
import re

WORDS = [
    "overflow-add", "overflow-sub", "overflow-mul", "overflow-shl", "overflow-shr", "overflow-cast", "overflow-step", "invariant-of", "slice-bounds",
    "offset-bounds", "nonzero-div", "nonzero-rem", "in-ok", "in-err", "in-default", "type-inv", "well-formed",
]
LIBRARY = ["from_le_bytes", "to_le_bytes", "copy_from_slice", "is_ok", "is_err", "is_some", "is_none", "rotate_right", "saturating_add", "checked_add", "unwrap_or", "as_slice", "split_at_mut", "min_by"]


def source_names():
    names = set(LIBRARY)
    for path in glob.glob("crates/*/src/**/*.rt", recursive=True):
        code = "\n".join(line.split("//")[0] for line in open(path) if not re.match(r"\s*ghost use", line))
        names |= set(re.findall(r"\b[A-Za-z][A-Za-z0-9]*(?:_[A-Za-z0-9]+)+\b", code))
    return names


def main():
    table = {name.replace("_", "-"): name for name in source_names()}
    table.update({word: word.replace("-", "_") for word in WORDS})
    olds = sorted(table, key=len, reverse=True)
    part = re.compile(r"(?<![A-Za-z0-9_])(?:" + "|".join(map(re.escape, olds)) + r")(?![A-Za-z0-9_])")
    for path in sorted(glob.glob("crates/*/proofs/**/Answers.antt", recursive=True) + glob.glob("crates/*/proofs/**/Invariants.antt", recursive=True)):
        text = open(path).read()
        library = set()
        for m in re.finditer(r"^use Rattle\.std\.[^\s{]*\.\{([^}]*)\}|^use (?:lib|mathlib|borrow)[^\s{]*\.\{([^}]*)\}", text, re.M):
            library |= {x.strip() for x in (m.group(1) or m.group(2)).split(",")}
        out = []
        for line in text.split("\n"):
            if line.lstrip().startswith("--") or re.match(r"use Rattle\.std|use (lib|mathlib|borrow)", line):
                out.append(line)
                continue
            out.append(re.sub(r"[A-Za-z0-9_'+-]+", lambda m: m.group(0) if m.group(0) in library else part.sub(lambda n: table[n.group(0)], m.group(0)), line))
        new = "\n".join(out)
        if new != text:
            open(path, "w").write(new)
            print(path)


main()
