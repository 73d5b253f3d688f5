#!/usr/bin/env python3
"""Lists the places of each point of docs/DESIGN-PASS.md in the sources of a commit, or of the working tree.

    python3 tools/places.py [COMMIT] [--list]

Prints a count for each kind of place, and with --list each place. It goes by the text alone: a place that it finds is one to
look at, and not always one to change.
"""
import collections
import re
import subprocess
import sys

KINDS = {
    "1 an error passed on by hand": [
        r"Err\((\w+)\) => (?:return )?Err\(\1\)",
        r"if let Err\((\w+)\) = [^{]*\{\s*return Err\(\1\);",
    ],
    "1 an answer that cannot fail, let go or taken apart": [r"let _ = ", r"Err\(_\) => unreachable\(\)"],
    "1 an error told again in other words": [r"let Ok\([^)]*\) = [^;]* else \{"],
    "1 a number that stands for none": [r"fn (?:lighter|leaf_weight|least_weight)\([^)]*\) -> usize"],
    "2 a row written from another, value by value": [
        r"for \((\w+), \w+\) in [\w.()]+\.iter\(\)\.enumerate\(\) \{\s*\w+\[\1\] = [^;]*;\s*\}",
    ],
    "2 a test of every value": [r"let mut all = true;", r"for level in levels \{\s*if level\.is_nan\(\)"],
    "2 the first value that a test picks": [r"for \(i, \w+\) in [\w.()]+\.iter\(\)\.enumerate\(\) \{\s*if [^{]*\{\s*return Some\(i\);"],
    "2 a word's length and bits tested": [r"!are_bits\(word\)"],
    "2 a pass over a tree in one direction": [r"fn (?:combine|take_apart)(?:_\w+)?\("],
    "2 a sum of shortfalls": [r"fn sum_shortfalls"],
    "2 a type that prints a row": [r"impl(?:<[^>]*>)? fmt::Display for"],
    "3 a counter raised by hand": [r"\b(?:next|leaf|run|n|at|from|sum|count|turns|place) \+= [^;]*;"],
    "3 a loop over places that reads by index": [r"for \w+ in (?:\()?0\.\.[^{]*\{"],
    "3 a while loop": [r"\bwhile [^{]*\{"],
    "4 printing by hand": [r"fn put_decimal", r"struct Refused"],
    "4 equality or copying by hand": [r"fn same_\w+", r"fn copy_from"],
    "6 a buffer cut to a length": [r"= \[(?:false|0|0u8|0i16); (?:MAX_LENGTH|LONGEST)\]", r"&mut \[\w+; MAX_LENGTH\]"],
    "6 a place in a buffer handed on": [r"\bat: usize"],
    "7 a function pointer, a dyn or a table of functions": [r"\bdyn \w", r"\bfn\([^)]*\) ->", r"\[fn\("],
}


def sources(commit):
    if commit:
        names = subprocess.run(["git", "ls-tree", "-r", "--name-only", commit, "crates"], capture_output=True, text=True, check=True)
        for name in names.stdout.split():
            if "/src/" in name and name.endswith(".rt"):
                yield name, subprocess.run(["git", "show", f"{commit}:{name}"], capture_output=True, text=True, check=True).stdout
    else:
        names = subprocess.run(["git", "ls-files", "crates"], capture_output=True, text=True, check=True)
        for name in names.stdout.split():
            if "/src/" in name and name.endswith(".rt"):
                try:
                    yield name, open(name, encoding="utf-8").read()
                except FileNotFoundError:
                    pass


def functions(text):
    """Each function's name, parameters and clauses."""
    for m in re.finditer(r"\bfn (\w+)(?:<[^{(]*>)?\(([^{]*?)\)(?: -> [^{]*?)?\s*((?:\n\s*(?:requires|ensures)[^\n]*)*)\s*[{;]", text):
        yield m.group(1), m.group(2), m.group(3)


def main():
    args = [a for a in sys.argv[1:] if a != "--list"]
    listed = "--list" in sys.argv[1:]
    files = list(sources(args[0] if args else None))
    for kind, patterns in KINDS.items():
        places = []
        for name, text in files:
            for pattern in patterns:
                for m in re.finditer(pattern, text):
                    places.append(f"{name}:{text.count(chr(10), 0, m.start()) + 1}")
        print(f"{len(places):4} {kind}")
        if listed:
            print("".join(f"        {p}\n" for p in sorted(places)), end="")
    facts = collections.Counter()
    together = collections.Counter()
    for name, text in files:
        if "/checks/" in name or "/tour/" in name:
            continue
        for function, parameters, clauses in functions(text):
            for m in re.finditer(r"requires(?: \w+)? \{ (.*?) \}(?:\n|$)", clauses):
                for fact in re.split(r"\) × \(", m.group(1)):
                    facts[re.sub(r"\.(now|old|new)|[()]", "", fact).strip()] += 1
            names = sorted({p.strip() for p in re.findall(r"(\w+: [^,]+)", parameters)})
            for i, one in enumerate(names):
                for other in names[i + 1:]:
                    together[f"{one}, {other}"] += 1
    print("   5 facts that three or more contracts require:")
    for fact, n in facts.most_common():
        if n >= 3:
            print(f"{n:8} {fact}")
    print("   5 pairs of parameters in three or more functions:")
    for pair, n in together.most_common():
        if n >= 3:
            print(f"{n:8} {pair}")


main()
