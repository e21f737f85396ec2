#!/usr/bin/env python3
"""Brings this repository's own definitions and lemmas to the spelling of today's Rattle.

usage: python3 tools/respell.py [FOLDER]     FOLDER is a checkout just as port.py left it; without one, the checkout of this file

port.py respells what the library names, and those of our names that were spelled like a name of the library. This script does the
rest, by text, once: in crates/, in every .antt file and in the ghost text of every .rt file.
- A word in lower camel case becomes snake case: `smallestNormal` is `smallest_normal`. A fact keeps its capital, and so do `T`, `K`
  and `D`, which are the letters of the papers that this product follows.
- A dash in a lemma's name stays where it joins two names, as in `val-pat`, "val of pat"; any other becomes `_`, as in `zeta_short`.
- `getD`, which the library now calls `get_or`, has that name in our lemmas' names too.
- A lemma that would then have its definition's name gets `_lem`.
Functions, exported names, strings, inputs and outputs keep their names; so does what Rattle itself names in proofs/F/.
"""

import collections
import glob
import os
import re
import sys

# names in which `-` joins two: these of the library, beside every definition of ours
LIBRARY = """length take drop map get_or set append sum size tab replicate paste div mod mul add sub pow min max suc zero one filled
take_while list""".split()

# lemmas that would have the name of a definition, where they are declared and used
LEMMAS = {
    "has_code": ["codearrays/proofs/Calls.antt"],
    "code_by": ["codes/proofs/Lifts.antt", "codes/proofs/PackedByLayout.antt"],
    "fields_in": ["codes/proofs/Lifts.antt", "codes/proofs/UnpackedByLayout.antt"],
    "value_read": ["lines/proofs/RoundTrips.antt"],
    "by_number": ["sweeps/proofs/Stretched.antt"],
    "by_row": ["sweeps/proofs/RowWords.antt"],
}
SEARCHED = {"sweeps/proofs/rows/by_row/Proof.antt": [("{by_row}", "{by_row_lem}"), ("search by_row", "search by_row_lem")]}

DECLARED = re.compile(
    r"^\s*(?:(abbrev pub|pub abbrev|unfoldable pub|pub unfoldable|abbrev|unfoldable|pub data|pub record|data|record|pub ruleset|ruleset|pub) )?"
    r"([^\s:(){},λ∷≡.]+)((?:\s*\([^()]*(?:\([^()]*\)[^()]*)*\)|\s*\{[^}]*\})*)\s*:(\s|$)"
)
TOKEN = re.compile(r"[^\s(){}\[\],.;:|`\"]+")


def snake(name):
    name = re.sub(r"^get_?[Dd](?=$|[-_])", "get_or", name.replace("get_d_", "get_or-"))
    name = re.sub(r"(?<=-)getD(?=$|-)", "get_or", name).replace("NaN", "Nan")
    return re.sub(r"(?<=[a-z0-9])([A-Z])", lambda m: "_" + m[1].lower(), name)


def joined(name, words):
    """The name with `_` for each dash that doesn't join two of the words."""
    parts = name.split("-")
    out = parts[0]
    for i in range(1, len(parts)):
        left = any("_".join(parts[k:i]) in words for k in range(i))
        right = any("_".join(parts[i:k]) in words for k in range(i + 1, len(parts) + 1))
        out += ("-" if left and right else "_") + parts[i]
    return out


def declared(path):
    with open(path, encoding="utf-8") as f:
        for line in f:
            if not line.lstrip().startswith("--") and (m := DECLARED.match(line)):
                yield m[2], m[1] in ("abbrev pub", "unfoldable pub")


def renamings(root):
    """Old name, new name, for every name that a file of specs/ or a file of lemmas declares."""
    specs = [d for p in glob.glob(root + "/crates/*/specs/*.antt") for d in declared(p)]
    lemmas = [d for p in glob.glob(root + "/crates/*/proofs/*.antt") for d in declared(p)]
    words = set(LIBRARY) | {snake(n) for n, computes in specs if computes and not n[0].isupper()}
    names = {n for n, _ in specs + lemmas}
    made = {}
    for n in sorted(names, key=lambda n: ("-" in n, n)):
        new = n
        if not n[0].isupper():
            new = snake(n)
        if "-" in new:
            new = joined(new, words)
        if "-" in n and (new in names - {n} or new in made.values()):
            new += "_lem"
        if new != n:
            made[n] = new
    return made, names


def main(argv):
    root = os.path.abspath(argv[0] if argv else os.path.join(os.path.dirname(os.path.abspath(__file__)), ".."))
    # nothing is written unless the files are as port.py left them
    for f, pairs in SEARCHED.items():
        path = f"{root}/crates/{f}"
        text = open(path, encoding="utf-8").read() if os.path.isfile(path) else ""
        if not all(a in text for a, _ in pairs):
            sys.exit(f"respell: {path} is not there as port.py left it: nothing was changed")
    for name, files in LEMMAS.items():
        for f in files:
            path = f"{root}/crates/{f}"
            text = open(path, encoding="utf-8").read()
            text = TOKEN.sub(lambda m: m[0] + "_lem" if m[0] == name else m[0], text)
            open(path, "w", encoding="utf-8").write(text)
    for f, pairs in SEARCHED.items():
        path = f"{root}/crates/{f}"
        text = open(path, encoding="utf-8").read()
        for a, b in pairs:
            text = text.replace(a, b)
        open(path, "w", encoding="utf-8").write(text)
    made, names = renamings(root)
    by_new = collections.defaultdict(list)
    for n in names:
        by_new[made.get(n, n)].append(n)
    together = {new: old for new, old in by_new.items() if len(old) > 1}
    for new, old in sorted(together.items()):
        print("together:", new, *sorted(old))
    changed = 0
    for path in sorted(glob.glob(root + "/crates/**/*.antt", recursive=True) + glob.glob(root + "/crates/*/src/*.rt")):
        if "/out/" in path:
            continue
        text = open(path, encoding="utf-8").read()
        new = TOKEN.sub(lambda m: made.get(m[0], m[0]), text)
        if new != text:
            changed += 1
            open(path, "w", encoding="utf-8").write(new)
    print(f"respell: {len(made)} names in {changed} files")


if __name__ == "__main__":
    main(sys.argv[1:])
