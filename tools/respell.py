#!/usr/bin/env python3
"""Brings the names of this repository's definitions and lemmas to snake case: takeAt is take_at, stands-at-place is stands_at_place.

usage: tools/respell.py            at the top, once, after the kit's port.py
       tools/respell.py --look     says what would be renamed, and which names fall together; writes nothing

Types and modules keep their capitals, functions of src/ their names, and so do names that Rattle makes from the code. A name that would fall
together with another gets the one given in APART.
"""
import os
import re
import sys
from collections import defaultdict

TOP = os.path.dirname(os.path.dirname(os.path.abspath(__file__)))

# names that Rattle makes, or asks for by name
MADE = re.compile(r"^(decreases|invariant)-loop|^slice-aggregate-")
APART = {
    "asPlain": "plain_of",
    "first-words": "first_words_lem",
    "greatest-mixed": "greatest_mixed_lem",
    "in-turn": "one_after_another",
    "is-refused": "is_refused_lem",
    "line-at": "line_at_lem",
    "mask-of": "mask_of_lem",
    "mixed-head": "mixed_head_lem",
    "mixed-length": "mixed_length_lem",
    "no-mixed-mask": "no_mixed_mask_lem",
    "oneMore": "one_more_of",
    "said-of": "said_of_lem",
    "sector-ok": "sector_ok_lem",
    "sectors-ok": "sectors_ok_lem",
    "sent-length": "sent_length_lem",
    "settings-of": "settings_of_lem",
    "with-left": "with_left_lem",
    "with-settings": "with_settings_lem",
}
# and where only one file has both
APART_IN = {("crates/sensor/proofs/Miscounted.antt", "in-range"): "in_range_lem"}
DECLARED = re.compile(r"^(\s*)(?:abbrev |unfoldable |opaque |pub )*(?:(record|data) )?([^\s:(){}.,;]+)(?= [:({])")


def files(*ends):
    for root in ("crates", "docs/src/edits", "docs/src/rules"):
        for folder, dirs, names in os.walk(os.path.join(TOP, root)):
            dirs[:] = sorted(d for d in dirs if d not in ("out", "target"))
            for name in sorted(names):
                if name.endswith(ends):
                    yield os.path.join(folder, name)


def read(path):
    with open(path, encoding="utf-8") as f:
        return f.read()


def snake(name):
    name = re.sub(r"(?<=[a-z0-9])([A-Z])", lambda m: "_" + m.group(1).lower(), name)
    return name.replace("-", "_")


def declared():
    """each name that a file of specs/ or proofs/ declares, with those files"""
    found = defaultdict(set)
    for path in files(".antt"):
        for line in read(path).split("\n"):
            m = DECLARED.match(line)
            if m and not line.lstrip().startswith(("--", "use ", "import ")):
                found[m.group(3)].add(path)
    return found


def of_libraries():
    """names that some file imports from a library keep their spelling everywhere"""
    own = "|".join(sorted(os.listdir(os.path.join(TOP, "crates"))))
    lines = re.compile(r"use (?!Rattle\.(?:%s)\.)[\w.·]+\.\{([^}]*)\}" % own)
    return {item.strip() for path in files(".antt", ".rt") for m in lines.finditer(read(path)) for item in m.group(1).split(",")}


def table():
    names = {}
    kept = of_libraries()
    for name in declared():
        if not re.match(r"^[a-z][\w'-]*$", name) or MADE.match(name) or name in kept:
            continue
        new = APART.get(name, snake(name))
        if new != name:
            names[name] = new
    return names


def token(names):
    return re.compile(r"(?<![\w'·-])(" + "|".join(sorted(map(re.escape, names), key=len, reverse=True)) + r")(?![\w'-])")


def look(names):
    back = defaultdict(set)
    for old, new in names.items():
        back[new].add(old)
    every = declared()
    for new, olds in sorted(back.items()):
        if len(olds) > 1:
            print("together:", new, "from", ", ".join(sorted(olds)), [sorted(os.path.relpath(p, TOP) for p in every[o]) for o in olds])
        if new in every:
            print("there already:", new, "from", ", ".join(olds), sorted(os.path.relpath(p, TOP) for p in every[new]))
    for path in files(".antt", ".rt"):
        text = read(path)
        code = "\n".join(l for l in text.split("\n") if not l.lstrip().startswith(("--", "//")))
        used = defaultdict(set)
        for old in sorted(set(token(names).findall(code))):
            new = APART_IN.get((os.path.relpath(path, TOP), old), names[old])
            used[new].add(old)
            if len(used[new]) > 1:
                print("both in one file:", os.path.relpath(path, TOP), used[new])
            hits = [l.strip() for l in code.split("\n") if re.search(r"(?<![\w'·.-])" + re.escape(new) + r"(?![\w'-])", l)]
            if hits:
                print("in one file:", os.path.relpath(path, TOP), old, "->", new, "|", hits[0][:110])


def main():
    names = table()
    if "--look" in sys.argv:
        print(len(names), "names")
        look(names)
        return
    t = token(names)
    for path in files(".antt", ".rt", ".edit", ".twin"):
        text = read(path)
        here = os.path.relpath(path, TOP)
        new = t.sub(lambda m: APART_IN.get((here, m.group(1)), names[m.group(1)]), text)
        if new != text:
            with open(path, "w", encoding="utf-8") as f:
                f.write(new)
    print(len(names), "names respelled")


main()
