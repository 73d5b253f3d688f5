#!/usr/bin/env python3
"""Brings the names of this repository's definitions and lemmas to one spelling: words in snake case, facts and types in camel case.

usage: python3 tools/spell.py     once, at the top of the repository, after the toolchain's own script of the port

It renames what specs/ and proofs/ of this repository declare, everywhere in crates/: names in .antt files, and names in the ghost lines
and clauses of .rt files. Functions of src/, labels, goals and names of the library keep theirs. Names that would fall together with
others get new ones (FRESH).
"""

import glob
import re

FRESH = {
    "topCount": "largest_count",  # captures has a top_count of its own
    "allNumbers": "all_are_numbers",  # all_numbers is a function
    "laterRuns": "runs_behind",  # later_runs is a function
    "getD-joins": "get_or_joins",
    "getD-merge-past": "get_or_merge_past",
}
# variables, which no line declares
BOUND = set(
    """
    active-due all-labels all-marks best-is bit-is bit-places counts-len counts-long fresh-data fresh-front is-label kept-data kept-front
    leaf-label leaf-labels leaves-k leaves-m marks-long not-less open-list out-places paired-due range-due rest-is right-bit room-due
    same-l same-r size-b size-x size-y soft-places
    """.split()
)
# by crate: names that stand for another thing elsewhere
LOCAL = {
    "storage": {"count-of": "coded_count", "count_of": "coded_count"},
    "examples": {"count-of": "count_from"},
}
WORD = r"[^\s(){}\[\],;.λ→∀]+"
TOKEN = re.compile(r"[^\s(){}\[\],;.λ→∀·=|↦×`]+")
DECLARED = re.compile(r"^\s*(?:(?:abbrev|unfoldable|pub|data|record)\s+)*(" + WORD + r")(\s+[({].*)?\s*:\s*(.*)$")


def spelled(name):
    if name in FRESH:
        return FRESH[name]
    if name[0].isupper():
        return "".join(part[0].upper() + part[1:] for part in name.split("-"))
    return re.sub(r"([a-z0-9])([A-Z])", lambda m: m[1] + "_" + m[2].lower(), name).replace("-", "_")


def declared(files):
    """The names that these files declare and that are not spelled so yet, but for answers to goals."""
    names = set()
    for path in files:
        for line in open(path, encoding="utf-8"):
            m = DECLARED.match(line)
            if m and not line.strip().startswith("--") and not m[3].startswith("goal."):
                if "-" in m[1].strip("-") or re.match(r"[a-z_]+[A-Z]", m[1]):
                    names.add(m[1])
    return names


def foreign(text):
    """What a file takes from the library under its own name."""
    found = set()
    for m in re.finditer(r"use Rattle\.std\.[\w.+'-]*\.\{([^}]*)\}", text):
        found |= {x.strip() for x in m[1].split(",")}
    return found


def renamed(text, names, local):
    keep = foreign(text)

    def new(m):
        if m[0] in local:
            return local[m[0]]
        # a variable is no field, and the checker makes fields of such names
        is_field = m[0] in BOUND and text[m.start() - 1 : m.start()] == "."
        return spelled(m[0]) if m[0] in names and m[0] not in keep and not is_field else m[0]

    return TOKEN.sub(new, text)


def ghost_parts(text, change):
    """The text with what ghost lines and clauses say changed; code stays."""
    out, i = [], 0
    begin = re.compile(r"^\s*(ghost use |requires|ensures|ghost )", re.M)
    while m := begin.search(text, i):
        out.append(text[i : m.start()])
        if m[1] == "ghost use ":
            end = text.index(";", m.end()) + 1
        else:
            start = text.find("{", m.end())
            deep, end = 0, start
            while True:
                deep += (text[end] == "{") - (text[end] == "}")
                end += 1
                if not deep:
                    break
            line_end = text.find("\n", m.end())
            if start > line_end and "fn " in text[m.start() : line_end]:
                end = line_end
        out.append(change(text[m.start() : end]))
        i = end
    return "".join(out) + text[i:]


def main():
    antt = sorted(f for part in ("specs", "proofs") for f in glob.glob(f"crates/*/{part}/**/*.antt", recursive=True))
    names = declared(antt) | BOUND
    for path in antt + sorted(glob.glob("crates/*/src/**/*.rt", recursive=True)):
        text = open(path, encoding="utf-8").read()
        local = LOCAL.get(path.split("/")[1], {})
        change = lambda t: renamed(t, names, local)
        new = change(text) if path.endswith(".antt") else ghost_parts(text, change)
        if new != text:
            open(path, "w", encoding="utf-8").write(new)


main()
