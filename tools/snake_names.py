#!/usr/bin/env python3
"""Brings the definitions and lemmas of this repository to the spelling of today's Rattle, after port.py has turned the rest.

usage: python3 tools/snake_names.py [--list]      at the top of the repository, once, on the tree that port.py leaves

A function that was written in camel case gets snake case, as `isEnd` -> `is_end`; types, records and facts keep their capital. A dash in the name of a
lemma stays where it joins the names of two definitions, as in `row_pieces-names`, and is an underscore elsewhere. Functions of src/, exported names,
strings, inputs and outputs keep their names. It reads what specs/ and proofs/ declare, and writes each use in .antt files, in clauses and in
`ghost use` lines. A name that would fall together with another of its module, or of a file that names both, is listed by name in APART.
"""

import glob
import re
import sys

WORD = r"[^\s(){}.;,@\"«»\[\]\\:]+"
DECLARED = re.compile(r"^(\s*)((?:abbrev |pub |unfoldable |data |record )*)(" + WORD + r")((?:\s+[({].*?[)}])*)\s+:\s+(.*)$")
# Names of std that lemmas are named after.
OF_STD = set("length drop take append cons set map replicate reverse swap get_or".split())
# Where two names would be one, or the plain respelling is a word of Rattle's or of this repository's code.
APART = {
    "align-slots": "align_slots_lem",
    "built_in": "built_in_lem",
    "cells-tell": "cells_tell_lem",
    "entry_of": "entry_of_lem",
    "event-at": "event_at_lem",
    "exit-of": "exit_of_lem",
    "goes_on": "goes_on_lem",
    "head-slots": "head_slots_lem",
    "is-value": "is_value_lem",
    "on-pieces": "on_pieces_lem",
    "one_more": "one_more_lem",
    "resolve-answer": "resolve_answer_lem",
    "resolve-slots": "resolve_slots_lem",
    "result_count": "result_count_lem",
    "row-events": "row_events_lem",
    "row-slot": "row_slot_lem",
    "row-slots": "row_slots_lem",
    "row_count": "row_count_lem",
    "sizeB": "size_b_of",
    "solid-in": "solid_in_lem",
    "tables-of": "tables_of_lem",
    "text-ahead": "text_ahead_lem",
    "text_in": "text_in_lem",
}


# Names by which a clause's file calls a definition.
CALLED = {"isDropped": "is_dropped", "isLean": "is_lean", "madeBy": "made_by", "withinList": "within_list"}


def files():
    return sorted(p for p in glob.glob("crates/**/*", recursive=True) if p.endswith((".antt", ".rt")) and "/out/" not in p)


def declared():
    """Each name that a file of specs/ or proofs/ declares, with the files, but for answers and walks of one function."""
    found = {}
    for path in files():
        if not re.search(r"/(specs|proofs)/[^/]*\.antt$", path):
            continue
        for line in open(path, encoding="utf-8"):
            it = DECLARED.match(line)
            if it and not line.lstrip().startswith("--") and it.group(3) not in ("let", "λ"):
                found.setdefault(it.group(3), []).append((path, it.group(2)))
    return found


def snake(word):
    word = re.sub(r"(?<=[a-z0-9])([A-Z]+)(?=$|[^A-Za-z]|[A-Z][a-z])", lambda m: "_" + m.group(1).lower(), word)
    return re.sub(r"(?<=[a-z0-9])([A-Z])", lambda m: "_" + m.group(1).lower(), word)


def respelled(name, functions):
    if name in APART:
        return APART[name]
    parts = [p if p[:1].isupper() else snake(p) for p in name.split("-")]
    out = parts[0]
    for i in range(1, len(parts)):
        left, right = "-".join(name.split("-")[:i]), "-".join(name.split("-")[i:])
        joins = (left in functions or left in OF_STD) and (right in functions or right in OF_STD)
        out += ("-" if joins or re.fullmatch(r"\d+", parts[i]) else "_") + parts[i]
    return out


def main(argv):
    names = declared()
    functions = {n for n, at in names.items() if "-" not in n and any("/specs/" in p or "abbrev" in k or "unfoldable" in k for p, k in at)}
    new = {n: respelled(n, functions) for n in names}
    new = {n: to for n, to in new.items() if n != to}
    if "--list" in argv:
        for n, to in new.items():
            print(n, to)
        return 0
    token = re.compile(r"\"(?:[^\"\\\n]|\\.)*\"|" + WORD)
    clause = re.compile(r"^\s*(?:ghost |pub ghost |requires|ensures|abbrev )|[≡→λ×∘]")
    for path in files():
        text = open(path, encoding="utf-8").read()
        if path.endswith(".antt"):
            # In what is written of one function's proof a name in snake case may be one that Rattle makes.
            of_one = not re.search(r"/(specs|proofs)/[^/]*\.antt$", path)
            here = {n: to for n, to in new.items() if not (of_one and "_" in n)}
            turned = token.sub(lambda m: here.get(m.group(0), m.group(0)), text)
        else:
            camel = CALLED | {n: to for n, to in new.items() if re.match(r"[a-z]+\w*[A-Z]", n)}
            turned = "\n".join(token.sub(lambda m: camel.get(m.group(0), m.group(0)), l) if not l.lstrip().startswith("//") else l for l in text.split("\n"))
        if turned != text:
            open(path, "w", encoding="utf-8").write(turned)
    return 0


if __name__ == "__main__":
    raise SystemExit(main(sys.argv[1:]))
