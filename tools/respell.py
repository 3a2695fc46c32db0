#!/usr/bin/env python3
"""Respells the names that this repository itself defines in specs/ and proofs/, once, at the top, after the kit's own
script for an older Rattle has run: words in snake case, as `seat_of` for seatOf and `run_more` for run-more. A dash stays
where it joins the names of two definitions, as in `write_set-applied`. Names of src/, generated names and strings stay.

usage: python3 tools/respell.py            rewrites the files below crates/
       python3 tools/respell.py --list     prints old and new, and names that would fall together, and writes nothing
"""
import glob
import re
import sys

# Names whose plain respelling is taken: by a tactic, a word of the library, or another definition of this repository.
CHOSEN = {
    "first_of": "first_given",
    "seat-of": "seat_part_of",
    "is-writer": "writer_is",
    "call-letter": "call_line_letter",
    "engine-letter": "engine_line_letter",
    "has-turn": "idle_has_turn",
    "refusal-at": "refusal_is",
    "partBy": "part_with_turn",
    "starts-with": "starts_then",
    "digit-value": "value_of_digit",
}
# Lemmas named after two definitions, which a dash joins.
JOINED = {"applied-put", "distinct-put", "written-put"}
JOINED |= {"writeSet-applied", "writeSet-written", "write_set-applied", "write_set-written"}
# a name right after `c.` is one that the check generates
TOKEN = re.compile(r"(?<![\w'\-·])(?<!\Wc\.)[A-Za-z][\w'\-]*")
HEAD = re.compile(r"^\s*(?:pub |abbrev |unfoldable |data |record |ruleset )*([A-Za-z][\w'\-]*)(?= *:)")
PARAMETERS = re.compile(r"^\s*(?:pub |mutual )*(?:data|record) ([A-Z][\w'\-]*)")
GENERATED = re.compile(r"^(loop|returns|invariant|decreases|overflow|offset|bounds|nonzero|prove|unreachable)-|-requires$|-law$")


def files(kinds):
    return sorted(f for k in kinds for f in glob.glob(f"crates/*/{k}", recursive=True))


def defined():
    """The names that stand before a colon at the head of a line, but for those that answer a goal of the check."""
    found = set()
    for f in files(["specs/**/*.antt", "proofs/**/*.antt"]):
        for line in open(f, encoding="utf-8"):
            for m in (HEAD.match(line), PARAMETERS.match(line)):
                if m and not re.search(r":\s*goal\.", line):
                    found.add(m.group(1))
    return {n for n in found if not GENERATED.search(n)}


def snake(word):
    return re.sub(r"(?<=[a-z0-9])([A-Z])", lambda m: "_" + m.group(1).lower(), word)


def new_name(name):
    if name in CHOSEN:
        return CHOSEN[name]
    if name[0].isupper():
        return name
    return snake(name) if name in JOINED else snake(name).replace("-", "_")


def table():
    return {n: new_name(n) for n in sorted(defined()) if new_name(n) != n}


def main():
    turned = table()
    names = defined()
    if "--list" in sys.argv:
        for old, new in turned.items():
            print(f"{old} {new}" + ("   FALLS TOGETHER" if new in names or list(turned.values()).count(new) > 1 else ""))
        return
    for f in files(["specs/**/*.antt", "proofs/**/*.antt", "src/**/*.rt"]):
        with open(f, encoding="utf-8") as it:
            text = it.read()
        new = TOKEN.sub(lambda m: turned.get(m.group(0), m.group(0)), text)
        if new != text:
            with open(f, "w", encoding="utf-8") as it:
                it.write(new)


main()
