#!/usr/bin/env python3
"""Brings the names of this repository's own definitions, fields and lemmas to snake case.

usage: python3 tools/respell.py            at the top of the repository, after /opt/rattle/port/port.py, once

A name counts as the repository's own where a file of specs/, or a lemma file right in proofs/, has it and no
`use` line brings it from a library. Names of Rust code, of types, of files and of the goals that Rattle makes stay.
It stops, and writes nothing, where two names would become one, but for those of FALLS_TOGETHER.
"""
import glob
import re
import sys

WORD = r"[A-Za-z_][\w'-]*"

# Names that snake case alone would make a name that stands for something else.
CHOSEN = {
    "bit-and": "bit_of_and",
    "bit-or": "bit_of_or",
    "bit-xor": "bit_of_xor",
    "of-flow": "of_flow_lem",
    "fewMovers": "few_movers_piece",
}

# Names that may meet a name which is there already: they mirror a function of src/, or the other is a field,
# a parameter or a local of another file.
FALLS_TOGETHER = {
    "ends_from", "few_movers", "flow_count", "flow_ends", "hop_fits", "in_new", "in_old", "link_mask",
    "links_fit", "mask_at", "mask_fits", "needed_from", "needed_mask", "new_from", "new_table", "old_from",
    "old_table", "row_fits", "same_count", "section_a", "section_b", "switch_count", "switch_row", "table_size",
    "with_reached",
}


def read(path):
    with open(path, encoding="utf-8") as f:
        return f.read()


def snake(name):
    if name[0].islower():
        name = re.sub(r"(?<=[a-z0-9])([A-Z])", lambda m: "_" + m.group(1).lower(), name)
    return name.replace("-", "_")


def wanted(name):
    return "-" in name or re.fullmatch(r"[a-z]\w*[A-Z]\w*", name)


def main():
    crates = {line.split(":")[0] for line in read("crates.txt").splitlines() if ":" in line and not line.startswith("#")}
    antt = [p for p in glob.glob("crates/*/*/**/*.antt", recursive=True) if "/out/" not in p]
    rust = glob.glob("crates/*/src/**/*.rt", recursive=True)
    lemmas = [p for p in antt if "/specs/" in p or re.fullmatch(r"crates/\w+/proofs/\w+\.antt", p)]
    library, aliases, tokens = set(), set(), set()
    for path in antt + rust:
        text = re.sub(r"(?m)(--|//).*", "", read(path))
        tokens |= set(re.findall(WORD, text))
        for at, names in re.findall(r"use ([\w.]+)\.\{([^}]*)\}", text):
            parts = at.split(".")
            for name in (n.strip() for n in names.split(",")):
                first, _, alias = name.partition(" as ")
                if not (parts[0] == "Rattle" and len(parts) > 1 and parts[1] in crates):
                    library.add(first)
                if wanted(alias):
                    aliases.add(alias)
    own = set()
    for path in lemmas:
        text = re.sub(r"(?m)^use .*$", "", re.sub(r"--.*", "", read(path)))
        own |= {w for w in re.findall(WORD, text) if wanted(w)}
    names = {w: CHOSEN.get(w, snake(w)) for w in (own | aliases) - library}
    for old, new in sorted(names.items()):
        meets = [w for w in names if w != old and names[w] == new] + ([new] if new in tokens | library else [])
        if meets and new not in FALLS_TOGETHER:
            sys.exit(f"respell: {old} would become {new}, which stands for something else")
    if not names:
        sys.exit("respell: nothing to rename")
    swap = re.compile("|".join(r"(?<![\w'-])" + re.escape(w) + r"(?![\w'-])" for w in sorted(names, key=len, reverse=True)))
    changed = 0
    for path in antt + rust:
        text = read(path)
        new = swap.sub(lambda m: names[m.group(0)], text)
        if "AllByRecursion as All" in new:  # the library has another word of this name
            new = re.sub(r"(?<![\w'-])All(?![\w'-])", "AllByRecursion", new.replace("AllByRecursion as All", "All"))
        if new != text:
            changed += 1
            with open(path, "w", encoding="utf-8") as f:
                f.write(new)
    print(f"respell: {len(names)} names, {changed} files")


if __name__ == "__main__":
    main()
