#!/usr/bin/env python3
"""Gives the repository's own definitions and lemmas today's spelling: types in camel case, everything else in snake case.

usage: python3 tools/respell.py [--check]      at the top, once, after the kit's port.py

It reads what specs/ and proofs/ declare, and turns each whole word below crates/ that is spelled like a declared name
with a dash: in .antt files everywhere, and in .rt files wherever it stands, since there a dash between two words without
blanks stands in clauses and comments alone. Words in quotes stay. So do the names of goals, which the check makes.
Constructors in capitals and the aliases of imports are listed below. It refuses a new name that another name has already.
"""

import os
import re
import sys

# Names of goals and of what the check makes.
MADE = re.compile(r"^(returns|loop|invariant|decreases|overflow|index|if|in|requires|type|push-report-requires)(-|$)")
# The records of a sheet file, which were constructors in capitals.
CONSTRUCTORS = {"TS": "ts", "WT": "wt", "ND": "nd", "EN": "en"}
# Imports under another name.
ALIASES = {
    "chanceOf": "chance_of", "endsOf": "ends_of", "polynomialOf": "polynomial_of", "trimmedOf": "trimmed_of",
    "verdictOf": "verdict_of", "weightOf": "weight_from", "heldNeeds": "held_needs", "signedDecimal": "signed_decimal",
    "totalCall": "total_call", "bracketCall": "bracket_call", "judgeCall": "judge_call", "tryCall": "try_call",
    "sizeCall": "size_call", "setCall": "set_call", "fitCall": "fit_call", "strikeCall": "strike_call",
    "readingsCall": "readings_call", "putOutCall": "put_out_call", "callInCall": "call_in_call", "ownAlgebra": "own_algebra",
    "verdictAnswer": "verdict_answer", "refusedAnswer": "refused_answer", "placeAnswer": "place_answer",
    "needAnswer": "need_answer", "doneAnswer": "done_answer",
    "size-call": "size_call", "set-call": "set_call", "fit-call": "fit_call", "row-set": "row_set",
}
# Names of a source function, of which a definition is spelled alike: it comes into that file under another name.
FELL_TOGETHER = {("crates/totals/src/lib.rt", "total-from"): "total_from as total_joined"}
WORD = r"[^\s(){}\[\].;,@\"«»:]+"
DECLARED = re.compile(
    r"^(?:  )*(?:(?:pub|abbrev|data|record|opaque)\s+)*(" + WORD + r")((?:\s*\{[^}]*\}|\s*\([^)]*\))*)\s*:\s(.*)$"
)
TURNED = re.compile(r"\"(?:\\.|[^\"\\\n])*\"|[A-Za-z][\w'-]*[\w']|[A-Za-z]")


def files(ends):
    for folder, dirs, names in os.walk("crates"):
        dirs[:] = sorted(d for d in dirs if d != "out")
        for n in sorted(names):
            if n.endswith(ends):
                yield os.path.join(folder, n)


def is_type(text):
    return re.search(r"(^|→\s*|\s)Type( \d)?(\s+where)?$", text.strip()) is not None


def camel(name):
    return "".join(p[0].upper() + p[1:] for p in name.split("-"))


def declared():
    found = {}
    for path in files(".antt"):
        lines = open(path, encoding="utf-8").read().split("\n")
        for at, line in enumerate(lines):
            m = DECLARED.match(line)
            if not m or line.lstrip().startswith("--"):
                continue
            name, text = m.group(1), m.group(3)
            if "-" not in name or MADE.match(name) or not re.match(r"[A-Za-z]", name):
                continue
            made_type = re.match(r"\s*(?:(?:pub|abbrev)\s+)*(?:data|record)\s", line) is not None
            indent = len(line) - len(line.lstrip())
            for more in lines[at + 1 :]:
                if not more.strip() or len(more) - len(more.lstrip()) <= indent or more.strip().startswith(name + " "):
                    break
                text += " " + more.strip()
            kind = camel(name) if made_type or is_type(text) else name.lower().replace("-", "_")
            if found.setdefault(name, kind) != kind:
                sys.exit(f"respell: {name} is a type and not one")
    return found


def words(path):
    return set(TURNED.findall(open(path, encoding="utf-8").read()))


def main(argv):
    table = declared() | CONSTRUCTORS | ALIASES
    everywhere = set().union(*(words(p) for p in files((".antt", ".rt"))))
    for old, new in sorted(table.items()):
        if new in everywhere and old in everywhere:
            print(f"look: {old} becomes {new}, which stands somewhere already")
    if len(set(declared().values())) != len(declared()):
        sys.exit("respell: two names fall together")
    changed = 0
    for path in files((".antt", ".rt")):
        text = open(path, encoding="utf-8").read()
        capitals = path.startswith("crates/sheet_file/") and path.endswith(".antt")

        def turn(m):
            w = m.group(0)
            if w in CONSTRUCTORS:
                return CONSTRUCTORS[w] if capitals else w
            return table.get(w, w)

        new = text
        for (where, old), becomes in FELL_TOGETHER.items():
            if path == where:
                head, body = new.split("\nuse ", 1)
                new = head.replace(old, becomes) + "\nuse " + body.replace(old, becomes.split(" as ")[1])
        new = TURNED.sub(turn, new)
        if new != text:
            changed += 1
            if "--check" not in argv:
                open(path, "w", encoding="utf-8").write(new)
    print(f"respell: {len(table)} names, {changed} files")


main(sys.argv[1:])
