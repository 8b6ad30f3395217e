#!/usr/bin/env python3
"""Spells the repository's own definitions and lemmas as today's Rattle does: values and lemmas in snake case, types in camel case.

usage: python3 tools/respell.py [--list]      at the top of the repository, right after the kit's port.py, once

Taken are the names that .antt files below crates/ declare, at the top, in a module or in a `where`, and the fields of records.
Names that Rattle makes (of goals, answers and steps), those of the kit, and those of functions of src/ stay. It stops, with nothing
written, where two names of one crate would fall together, or a name of the kit's Prelude would be taken.
"""

import os
import re
import sys

WORD = r"[A-Za-zℕ-ℤ][\w'\-]*"
TOKEN = re.compile(r"(?<![\w'\-])" + WORD)
DECLARED = re.compile(r"^(\s*)((?:(?:pub|abbrev|unfoldable|private|opaque|data|record|inductive|constructor) )*)(" + WORD + r")\s*(?:[:({]|where\b|$)")
FIELD = re.compile(r"^\s+(" + WORD + r")\s*:\s")
MADE = re.compile(r":\s*(?:goal|need|needs|rules|given)\.\S+\s*$")


# Names that would fall together with another definition or with a function of src/, and what they are called; and those of one crate alone.
OTHERWISE = {
    "bit-and": "bit_of_and",
    "end-of": "end_behind",
    "finals-at": "finals_told",
    "first-of": "first_found",
    "gapAt": "nth_gap",
    "isHit": "sheet_hit",
    "mark-in": "mark_in_run",
    "refusalText": "text_of_refusal",
    "takeMark": "mark_taken",
    "trace-at": "trace_told",
    "word-at": "word_told",
}

WITHIN = {"signature": {"gapAt": "gap_at"}, "text": {"mark_of": "byte_mark"}}


def files(suffixes):
    for folder, dirs, names in os.walk("crates"):
        dirs[:] = sorted(d for d in dirs if d != "out")
        for n in sorted(names):
            if n.endswith(suffixes):
                yield os.path.join(folder, n)


def read(path):
    with open(path, encoding="utf-8") as f:
        return f.read()


def respelled(name):
    """A type keeps its capital and loses its dashes; all else goes to snake case."""
    if name in OTHERWISE:
        return OTHERWISE[name]
    name = re.sub(r"^get(?:D|_d)(?=[-_])", "get_or", name)
    if name[0].isupper():
        return re.sub(r"[-_]+([a-z])", lambda m: m.group(1).upper(), name)
    name = re.sub(r"(?<=[a-z0-9])([A-Z])(?=[a-z]|$|[-_])", lambda m: "_" + m.group(1).lower(), name)
    return name.replace("-", "_")


def declared():
    """Each name that an .antt file declares, with the files that do."""
    found = {}
    for path in files((".antt",)):
        lines = read(path).split("\n")
        for line in lines:
            code = line.split(" -- ")[0]
            if code.lstrip().startswith(("--", "use ", "pub use", "mod ", "pub mod ", "module ", "let ", "in ")) or MADE.search(code):
                continue
            m = DECLARED.match(code)
            if m and " : " in code + " ":
                found.setdefault(m.group(3), set()).add(path)
    return found


def kit_names():
    """Names that imports bring in from outside the repository, and the source's own names."""
    own = {c for c in os.listdir("crates")}
    kit, source = set(), set()
    for path in files((".antt", ".rt")):
        for m in re.finditer(r"use ((?:Rattle|native|lib|mathlib|Prim)\.[\w.\-']+)\.\{([^}]*)\}", read(path)):
            parts = m.group(1).split(".")
            if parts[0] == "Rattle" and parts[1] in own:
                if "declared" in parts:
                    source |= {n.strip().split(" as ")[0] for n in m.group(2).split(",")}
                continue
            for n in m.group(2).split(","):
                kit |= {w.strip() for w in n.strip().split(" as ")}
    for path in files((".rt",)):
        for line in read(path).split("\n"):
            code = line.split("//")[0]
            source |= set(re.findall(r"\b(?:fn|struct|enum|trait|const|static|mod|type)\s+(\w+)", code))
            if not code.startswith("ghost use"):
                source |= set(re.findall(r"\blet (?:mut )?(\w+)", code)) | set(re.findall(r"(?:^|[(,{]|pub )\s*(?:mut )?(\w+):\s", code)) | set(re.findall(r"\bghost (\w+)", code))
    return kit, source


def main():
    kit, source = kit_names()
    names = declared()
    change = {}
    for n in sorted(names):
        to = respelled(n)
        if to != n and n not in kit:
            change[n] = to
    bad = []
    taken = {}
    for n in list(names) + []:
        taken.setdefault(change.get(n, n), set()).add(n)
    for to, froms in sorted(taken.items()):
        if len(froms) > 1:
            bad.append(f"these fall together: {' '.join(sorted(froms))} -> {to}")
        for n in froms:
            if n in change and (to in kit):
                bad.append(f"the kit has the name already: {n} -> {to}")
            if n in change and (to in source):
                print(f"look: src/ has the name too: {n} -> {to}")
    for n, to in sorted(change.items()):
        if "--list" in sys.argv:
            print(f"{n} -> {to}")
    if bad:
        print("\n".join(bad))
        return 1
    if "--list" in sys.argv:
        return 0
    written = 0
    for path in files((".antt", ".rt")):
        old = read(path)
        new = []
        alone = {n: to for n, to in WITHIN.get(path.split(os.sep)[1], {}).items() if n in names}
        for line in old.split("\n"):
            if path.endswith(".rt") and '"' in line:
                new.append(line)
                continue
            spec = path.endswith(".antt") or re.search(r"\b(ghost|requires|ensures)\b", line)
            here = change | alone if spec else change
            new.append(TOKEN.sub(lambda m: here.get(m.group(0), m.group(0)), line))
        text = "\n".join(new)
        if text != old:
            written += 1
            with open(path, "w", encoding="utf-8") as f:
                f.write(text)
    print(f"{len(change)} names, {written} files")
    return 0


if __name__ == "__main__":
    raise SystemExit(main())
