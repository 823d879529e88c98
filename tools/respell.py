#!/usr/bin/env python3
"""Respells the repository's own definitions and lemmas as today's Rattle spells them, once, after the kit's port.py (docs/PORT.md): words in snake
case, and a dash only between the names of two definitions. Names of functions in src/, of types and modules, and strings stay.

usage: python3 tools/respell.py [FOLDER]    over crates/ of FOLDER, the files of laws, proofs and code, and the wrong edits
       python3 tools/respell.py --list      the old and the new names, a line each; nothing is written

A lemma that would get the name of its definition, or of something else in its file, gets _lem behind it. A definition that would get the name of
the function that stands for it gets a name of its own, from FALLS_TOGETHER.
"""

import collections
import glob
import os
import re
import sys

FOLDERS = [a for a in sys.argv[1:] if not a.startswith("--")]
ROOT = FOLDERS[0] if FOLDERS else "."
TOKEN = re.compile(r"[A-Za-z_][A-Za-z0-9_'?!₀-₉-]*")
HEAD = re.compile(r"^(\s*)((?:(?:unfoldable|abbrev|private|pub|opaque|ruleset|instance)\s+)*)([^\s:({].*?)\s+:\s")

FALLS_TOGETHER = {
    "bodyFits": "body_fitting",
    "boxIn": "box_within",
    "boxOf": "box_asked",
    "copiesCovered": "copies_all_covered",
    "cornersAt": "corners_below",
    "entryFits": "entry_fitting",
    "entryNumber": "number_of_entry",
    "firstFault": "first_fault_of",
    "holdersListed": "holders_all_listed",
    "ownerOf": "owner_among",
    "remoteSlot": "remote_slot_of",
    "rowLength": "row_length_of",
    "sameCopy": "is_same_copy",
    "sameFields": "are_same_fields",
    "sameValue": "is_same_value",
    "setLines": "set_line_list",
    "valueFits": "value_fitting",
    "partBytes": "bytes_of_part",
}
# what port.py made of names with getD, which the library calls get_or now
PORTED = {"get_d_map": "get_or_map", "get_d_sets": "get_or_sets", "get_d_words": "get_or_words"}
# names of definitions of the library that stand in names of lemmas
OF_LIBRARY = {"length", "map", "append", "take", "drop", "get_or", "set", "replicate", "reverse"}


def paths(*patterns):
    return [p for pattern in patterns for p in sorted(glob.glob(os.path.join(ROOT, pattern), recursive=True))]


LAWS = [p for p in paths("crates/*/specs/**/*.antt", "crates/*/proofs/**/*.antt") if os.path.basename(p) != "Proof.antt"]
ALL = paths("crates/*/specs/**/*.antt", "crates/*/proofs/**/*.antt", "crates/*/src/**/*.rt")
PAGES = paths("README.md", "docs/*.md")
EDITS = paths("crates/*/must-fail/*.edit", "crates/*/edits/**/*.edit")


def read(path):
    with open(path, encoding="utf-8") as f:
        return f.read()


def declared():
    """Each name that a file of definitions or lemmas declares, with the files; and the definitions among them that are functions."""
    names, functions = collections.defaultdict(set), set(OF_LIBRARY)
    for p in LAWS:
        for line in read(p).split("\n"):
            line = re.sub(r"(^|\s)--( .*)?$", "", line)
            m = HEAD.match(line + " ")
            if m and len(m.group(1)) <= 4:
                for n in m.group(3).split():
                    if TOKEN.fullmatch(n):
                        names[n].add(p)
                        if re.search("unfoldable|abbrev", m.group(2)):
                            functions.add(n)
    return names, functions


def of_library():
    """Names that some file takes from a module of the library: they stay everywhere."""
    own = {os.path.basename(p) for p in paths("crates/*")}
    taken = set()
    for p in ALL:
        for m in re.finditer(r"\buse\s+([^\s{};]+)\.\{([^}]*)\}", read(p)):
            parts = m.group(1).split(".")
            if not (parts[0] == "Rattle" and parts[1] in own):
                taken.update(TOKEN.findall(m.group(2)))
    return taken


def snake(part):
    if part[:1].isupper():
        return part
    part = part.replace("getD", "get_or")
    return re.sub(r"([a-z0-9])([A-Z])", lambda m: m.group(1) + "_" + m.group(2).lower(), part)


def respelt(name, definitions):
    parts = name.split("-")
    both = len(parts) == 2 and all(p in definitions or p[:1].isupper() for p in parts)
    return ("-" if both else "_").join(snake(p) for p in parts)


def renaming():
    names, definitions = declared()
    where = collections.defaultdict(set)
    for p in ALL:
        for t in TOKEN.findall(read(p)):
            where[t].add(p)
    of_specs = {n for n, ps in names.items() if any("/specs/" in p for p in ps)}
    new = {n: respelt(n, set() if n in of_specs else definitions) for n in names}
    kept = of_library()
    new = {a: b for a, b in new.items() if a != b and a not in kept}
    new.update({a: b for a, b in {**FALLS_TOGETHER, **PORTED}.items() if a in names})
    wanted = collections.defaultdict(list)
    for a in sorted(new):
        wanted[new[a]].append(a)
    for b, olds in sorted(wanted.items()):
        for a in olds:
            others = [c for c in olds if c != a and re.search("[A-Z]", c)] if "-" in a else []
            if "-" in a and (where[a] & where[b] or others):
                new[a] = b + "_lem"
    left = [a for a in new if where[a] & where[new[a]] or [c for c in new if c != a and new[c] == new[a] and where[c] & where[a]]]
    return new, left


def main():
    if any(".Goals as goal" in read(p) for p in LAWS):
        print("respell: these files are spelled as they are today, and the goals' names in them are not this script's: nothing is done", file=sys.stderr)
        return 2
    new, left = renaming()
    if "--list" in sys.argv:
        for a in sorted(new):
            print(a, new[a])
    for a in left:
        print(f"falls together: {a} -> {new[a]}", file=sys.stderr)
    if "--list" in sys.argv or left:
        return 1 if left else 0
    for p in PAGES:
        text = read(p)
        out = re.sub(r"`[^`\n]*`", lambda m: TOKEN.sub(lambda t: new.get(t.group(0), t.group(0)), m.group(0)), text)
        if out != text:
            with open(p, "w", encoding="utf-8") as f:
                f.write(out)
    for p in ALL + EDITS:
        text = read(p)
        # in a proof file a field with a dash is one that the check makes: a step of the code
        made = os.path.basename(p) == "Proof.antt"

        def turn(m, made=made, text=text):
            t = m.group(0)
            return t if made and "-" in t and text[: m.start()].endswith(".") else new.get(t, t)

        out = TOKEN.sub(turn, text).replace("ListN.get_or_map", "ListN.get_or-map")
        if out != text:
            with open(p, "w", encoding="utf-8") as f:
                f.write(out)
    return 0


sys.exit(main())
