#!/usr/bin/env python3
"""Brings the repository's own definitions, lemmas and local names of antt to one spelling: types and facts in upper camel
case, everything else in snake case. Run once, at the top, after port.py; `--list` prints the names alone.

Names that Rattle makes (the goals of a proof file, and what they bring) and names that a file takes from a library keep
their spelling, and so does all Rust code: only ghost items and clauses of a .rt file are read."""
import glob
import re
import sys

NAME = r"[^\s(){}\[\];:,.λ◌\"`]+"
EDGE = r"(?<![\w\-'·◌])"
TAIL = r"(?![\w\-'·◌])"
GOALS = ("Answers.antt", "Invariants.antt", "Proof.antt")
# what port.py put into a case of its own, and names whose first letter is a value's
BY_HAND = {
    "Goes_on": "GoesOn",
    "D-under": "D_under",
    "held-D": "held_D",
    # a library's words, and a function's name
    "bit-and": "bit_of_mask",
    "bit-or": "bit_of_or",
    "history-stands": "history_stands_lem",
}


def own_crates():
    return [line.split(":")[0].split()[0] for line in open("crates.txt") if ":" in line and not line.startswith("#")]


def antt_files():
    return sorted(glob.glob("crates/*/specs/**/*.antt", recursive=True) + glob.glob("crates/*/proofs/**/*.antt", recursive=True))


def is_goal_file(path):
    return path.rsplit("/", 1)[-1] in GOALS


def declared(path):
    """Names that a file of definitions or lemmas declares, and local names of any file."""
    found = set()
    for line in open(path):
        code = line if not line.lstrip().startswith("--") else ""
        if not is_goal_file(path):
            m = re.match(rf"^\s*(?:(?:abbrev|unfoldable|opaque|pub)\s+)*({NAME})\s*:(?:\s|$)", code)
            if m:
                found.add(m.group(1))
            m = re.match(rf"^\s*(?:(?:abbrev|unfoldable|opaque|pub)\s+)*(?:record|data)\s+({NAME})", code)
            if m:
                found.add(m.group(1))
        else:
            # what is no goal is a lemma of the file's own
            m = re.match(rf"^\s*({NAME})\s*:(?:\s(?!goal\.)|$)", code)
            if m:
                found.add(m.group(1))
        found.update(m.group(1) for m in re.finditer(rf"\blet\s+({NAME})\s*[:=]", code))
        found.update(m.group(1) for m in re.finditer(rf"\bas\s+({NAME})", code))
        for m in re.finditer(rf"[({{]((?:{NAME}\s+)*{NAME})\s+:\s", code):
            found.update(m.group(1).split())
        for m in re.finditer(rf"λ\s*((?:{NAME}\s+)*{NAME})\.\s", code):
            found.update(m.group(1).split())
    return found


def imported(text):
    """Names that a text takes from a library, by `use` lines."""
    own = own_crates()
    foreign = set()
    for m in re.finditer(r"^\s*(?:ghost )?use ([^\s{]+)\.\{([^}]*)\}", text, re.M):
        parts = m.group(1).split(".")
        if parts[0] == "Rattle" and parts[1] in own:
            continue
        for item in m.group(2).split(","):
            foreign.add(item.split(" as ")[0].strip())
    return foreign


def respelled(name):
    if name in BY_HAND:
        return BY_HAND[name]
    if name[0].isupper():
        return "".join(part[:1].upper() + part[1:] for part in name.split("-"))
    return name.replace("-", "_")


def build_map():
    names = set()
    goals = set()
    for path in antt_files():
        names |= declared(path)
        if is_goal_file(path):
            for line in open(path):
                m = re.match(rf"^(?:pub\s+|abbrev pub\s+)?({NAME})\s*:\s+goal\.", line)
                if m:
                    goals.add(m.group(1))
    plain = re.compile(r"^[A-Za-z0-9_'₀-₉-]+$")
    table = {n: respelled(n) for n in names if plain.match(n) and n not in goals and respelled(n) != n and "-" in n or n in BY_HAND}
    return table


def replace(code, table, skip):
    def turn(m):
        word = m.group(0)
        return table[word] if word in table and word not in skip else word

    return re.sub(rf"{EDGE}[A-Za-z0-9_'₀-₉][A-Za-z0-9_'₀-₉\-]*{TAIL}", turn, code)


def turn_antt(path, table):
    text = open(path).read()
    skip = imported(text)
    out = []
    for line in text.split("\n"):
        if line.lstrip().startswith("--"):
            out.append(line)
            continue
        code, dash, note = line.partition(" -- ")
        out.append(replace(code, table, skip) + dash + note)
    return text, "\n".join(out)


def turn_rt(path, table):
    """Only `ghost use` lines and what stands in braces behind ghost, requires, ensures and attributes."""
    text = open(path).read()
    skip = imported(text)
    out = []
    depth = 0
    for line in text.split("\n"):
        bare = line.lstrip()
        if bare.startswith("//"):
            out.append(line)
            continue
        starts = re.match(r"(ghost|requires|ensures|#\[tactic|prove!)", bare)
        if depth > 0 or starts:
            code, mark, note = line.partition(" // ")
            out.append(replace(code, table, skip) + mark + note)
            depth = max(0, depth + code.count("{") - code.count("}"))
        elif re.search(r"\bghost\b.*\{", bare):
            out.append(replace(line, table, skip))
        else:
            out.append(line)
    return text, "\n".join(out)


def turn_ticks(path, table):
    """In a page, names in back ticks; in an edit or a list of faults, the text."""
    text = open(path).read()
    if path.endswith(".md"):
        return text, re.sub(r"`[^`\n]+`", lambda m: replace(m.group(0), table, set()), text)
    return text, replace(text, table, set())


def main():
    table = build_map()
    used = set()
    for path in antt_files():
        used |= set(re.findall(r"[A-Za-z0-9_'₀-₉][A-Za-z0-9_'₀-₉\-]*", open(path).read()))
    news = {}
    for old, new in sorted(table.items()):
        if new in used and old not in BY_HAND:
            print(f"look: {old} becomes {new}, which stands already")
        if new in news:
            print(f"look: {old} and {news[new]} both become {new}")
        news[new] = old
    if "--list" in sys.argv:
        for old, new in sorted(table.items()):
            print(old, new)
        return
    pages = [p for p in glob.glob("*.md") + glob.glob("docs/*.md") if not p.endswith("PORT.md")]
    turned = 0
    for path in antt_files():
        old, new = turn_antt(path, table)
        turned += write(path, old, new)
    for path in sorted(glob.glob("crates/*/src/**/*.rt", recursive=True)):
        old, new = turn_rt(path, table)
        turned += write(path, old, new)
    for path in sorted(glob.glob("crates/*/must-fail/*.edit") + glob.glob("tools/misuse/*.edit") + glob.glob("tools/refute/*.txt") + pages):
        old, new = turn_ticks(path, table)
        turned += write(path, old, new)
    print(f"{len(table)} names, {turned} files")


def write(path, old, new):
    if old == new:
        return 0
    open(path, "w").write(new)
    return 1


if __name__ == "__main__":
    main()
