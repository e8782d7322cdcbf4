#!/usr/bin/env python3
"""Spells the definitions and lemmas of this repository as today's Rattle spells names: words in snake case, a dash only between two names.

usage: tools/spell_names.py    at the top of the repository, once, after the port's own script

A name is turned if an .antt file declares it: `isLetter` is `is_letter`, `and-three` is `and_three`, and `length-drop` stays where both
parts name definitions. Types, modules, Rust's own names and text in quotes keep their spelling. Names that would fall together are
listed, and nothing is written then.
"""

import collections
import os
import re
import sys

DECLARED = re.compile(r'^\s*(?:(?:pub|unfoldable|abbrev) )*([^\s(){}.;,@"«»:]+) :(?=\s)', re.M)
TOKEN = re.compile(r'"[^"\n]*"|[^\s(){}.;,@"«»⌜⌝]+')
IMPORT = re.compile(r"^ *use ([\w.]+)\.\{([^}]*)\}", re.M)
# Names of the library that stand in names of lemmas here.
LIBRARY = set(
    """length take drop map reverse append filter cons nil set sets get_or all first last replicate sum min max add sub mul
    div mod pow eqb leb ltb not and or cond fold concat""".split()
)


def files(root):
    for folder, folders, names in os.walk(os.path.join(root, "crates")):
        folders[:] = sorted(f for f in folders if f != "out")
        for name in sorted(names):
            if name.endswith((".antt", ".rt", ".edit")):
                yield os.path.join(folder, name)


def snake(word):
    return re.sub(r"(?<=[a-z0-9])([A-Z])", r"_\1", word).lower()


def group(word, is_name):
    """The parts of a name between dashes, joined by a dash where both sides name something and else by an underscore."""
    parts = [snake(p) for p in word.split("-")]
    done, here = "", parts[0]
    for part in parts[1:]:
        if here in is_name and part in is_name:
            done, here = done + here + "-", part
        else:
            here += "_" + part
    return done + here


def from_libraries(text, own):
    """What a file takes from modules that are not this repository's."""
    found = set()
    for m in IMPORT.finditer(text):
        if not m[1].startswith("Rattle.") or m[1].split(".")[1] not in own:
            found |= {it.split(" as ")[0].strip() for it in m[2].split(",")}
    return found


def main():
    root = os.getcwd()
    texts = {}
    for path in files(root):
        with open(path, encoding="utf-8") as f:
            texts[path] = f.read()
    own = set(os.listdir(os.path.join(root, "crates")))
    declared, in_specs = collections.defaultdict(set), set()
    for path, text in texts.items():
        if path.endswith(".antt"):
            for m in DECLARED.finditer(text):
                declared[m[1]].add(path)
                if "/specs/" in path:
                    in_specs.add(m[1])
    is_name = {snake(n) for n in in_specs if "-" not in n} | LIBRARY
    turned = {}
    for name in declared:
        if re.match(r"[a-z]", name) and re.search(r"[A-Z]|-", name) or re.match(r"[A-Z]+-[A-Z-]+$", name):
            new = group(name, is_name)
            if new != name:
                turned[name] = new
    # Where two would fall together, the definition has the name, and a lemma gets `_lem` behind it.
    alike = collections.defaultdict(set)
    for name in declared:
        alike[turned.get(name, name)].add(name)
    for new, olds in alike.items():
        first, *others = sorted(olds, key=lambda n: (n not in in_specs, "-" in n, n))
        for name in others:
            turned[name] = new + "_lem"
    # Two names of one spelling: both declared, or one a variable of antt's text, or a parameter, a constant or a type of Rust's.
    bad = []
    by_new = collections.defaultdict(set)
    for name in declared:
        by_new[turned.get(name, name)].add(name)
    bad += [(new, sorted(olds), sorted(os.path.relpath(p, root) for o in olds for p in declared[o])) for new, olds in by_new.items() if len(olds) > 1]
    for path, text in texts.items():
        if path.endswith(".antt"):
            bare = re.sub(r'--[^\n]*|"[^"\n]*"|(?<=use )[\w.]+', " ", text)
            here = set(re.findall(r'(?<![^\s(){};,@"«»])[^\s(){}.;,@"«»]+', bare))
        else:
            here = set(re.findall(r"\b(?:const|static) (\w+)|\b(\w+): ", text))
            here = {a or b for a, b in here} | set(re.findall(r"(?<![\w-])[a-z]\w*[A-Z]\w*(?![\w-])", text))
        theirs = from_libraries(text, own)
        by_new = collections.defaultdict(set)
        for t in here:
            by_new[t if t in theirs else turned.get(t, t)].add(t)
        bad += [(new, sorted(olds), os.path.relpath(path, root)) for new, olds in by_new.items() if len(olds) > 1]
    if bad:
        for row in bad:
            print("falls together:", *row)
        return 1
    for path, text in texts.items():
        theirs = from_libraries(text, own)

        def one(m):
            if m[0] in theirs:
                return m[0]
            # What stands behind a dot in snake case is a field, a module or a label.
            if "_" in m[0] and m.start() and text[m.start() - 1] == "." and "-" not in m[0]:
                return m[0]
            return turned.get(m[0], m[0])

        if path.endswith(".antt"):
            new = TOKEN.sub(one, text)
        else:
            # Rust's text is not cut as antt's: only names in camel case, whole.
            new = re.sub(r'"[^"\n]*"|(?<![\w-])[a-z]\w*[A-Z]\w*(?![\w-])', one, text)
        if new != text:
            with open(path, "w", encoding="utf-8") as f:
                f.write(new)
    print(f"{len(turned)} names")
    return 0


if __name__ == "__main__":
    raise SystemExit(main())
