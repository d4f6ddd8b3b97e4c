#!/usr/bin/env python3
"""Brings the names of this repository's own definitions and lemmas to the spelling of today's Rattle, once.

usage: python3 tools/respell.py [--dry]       at the top, after the toolchain's own script for the spelling of the library

A name in camel case becomes one in snake case, types and modules aside. A dash of a lemma's name stays where it joins two names, as in
`length-decimal`, and becomes an underscore where it joins words. A lemma that would then have its definition's name gets `_lem`. Names
in src/ are Rust's and stay. Must-fail edits follow. A name that a file takes from the library stays as it is in that file.
"""
import collections
import glob
import re
import sys

TOKEN = re.compile(r"[^\s(){}\[\];,.«»\"`|:]+")
DEFINED = re.compile(r"\s*(?:abbrev |unfoldable |pub )*([^\s:(){}]+) :(?=\s)")
TYPE = re.compile(r"\s*(?:abbrev )?(?:pub )?(?:data|record) ([^\s:(){}]+)")
USED = re.compile(r"^\s*(?:pub |ghost )?use ([^\s{]+?)(?:\.\{(.*)\}| as \S+)?;?\s*$")
OWN = re.compile(r"Rattle\.(\w+)\.")


def read(path):
    with open(path, encoding="utf-8") as f:
        return f.read()


def snake(word):
    return re.sub(r"(?<=[a-z0-9])([A-Z])(?=[a-z])", lambda m: "_" + m[1].lower(), word)


def is_camel(name):
    return name[0].islower() and re.search(r"[a-z0-9][A-Z][a-z]", name)


crates = sorted(p.split("/")[1] for p in glob.glob("crates/*/src"))
texts = sorted(glob.glob("crates/*/specs/**/*.antt", recursive=True) + glob.glob("crates/*/proofs/**/*.antt", recursive=True))
sources = sorted(glob.glob("crates/*/src/**/*.rt", recursive=True))
edits = sorted(glob.glob("crates/*/must-fail/*.edit"))
asked = [p for p in texts if p.endswith("/Proof.antt")]
stated = set()
own = collections.defaultdict(set)
types = set()
for path in texts:
    for line in read(path).split("\n"):
        if line.lstrip().startswith("--"):
            continue
        t = TYPE.match(line)
        if t:
            types.add(t[1])
        m = DEFINED.match(line)
        if m and path not in asked:
            own[m[1]].add(path)
            if "/specs/" in path:
                stated.add(m[1])

library = set()
taken = collections.defaultdict(set)  # what a file takes from the library
for path in texts + sources:
    for line in read(path).split("\n"):
        m = USED.match(line)
        if not m or not m[2]:
            continue
        o = OWN.match(m[1])
        if o and o[1] in crates:
            continue
        for it in m[2].split(","):
            name = it.strip().split(" ")[0]
            taken[path].add(name)
            library.add(name.strip("◌"))

known = {snake(n) if is_camel(n) else n for n in stated | library if "-" not in n and n}


def respelled(name):
    if name[0].isupper() and "-" not in name:
        return name
    if not is_camel(name) and "-" not in name:
        return name
    parts = [snake(p) if p and (p[0].islower() and re.search(r"[a-z0-9][A-Z][a-z]", p)) else p for p in re.split(r"(?<=[^-])-(?=.)", name)]
    if name in stated:
        return "_".join(parts)
    out = parts[0]
    for before, after in zip(parts, parts[1:]):
        out += ("-" if before in known and after in known else "_") + after
    return out


turned = {}
for name in own:
    new = respelled(name)
    if new != name:
        turned[name] = new
# Names that fall together: the definition keeps the name.
held = {turned.get(n, n) for n in stated}
for name in sorted(own):
    if name not in stated and turned.get(name, name) in held:
        turned[name] = turned.get(name, name) + "_lem"
# `in-range` is a lemma on the definition of that name, and a label; the library has a `slice_val`; and `all_sure` is a definition of proofs/.
turned["in-range"] = "in_range_lem"
turned["slice-val"] = "slice_value"
turned["all-sure"] = "all_sure_lem"
labels = {"in-range": "in_range"}


def turn(text, path, comments):
    out = []
    for line in text.split("\n"):
        mark = re.search(comments, line)
        code, said = (line[: mark.start()], line[mark.start():]) if mark else (line, "")

        def swap(m):
            name, before, after = m[0], m.string[: m.start()], m.string[m.end():]
            if name in taken[path]:
                return name
            if name in labels and (before.endswith(".") or after.startswith(" = ") or "/specs/" in path):
                return labels[name]
            # Behind a dot stands a label, or the module of a function.
            if (before.endswith(".") or path.endswith((".rt", ".edit"))) and turned.get(name, name).endswith("_lem"):
                return name
            return turned.get(name, name)

        code = TOKEN.sub(swap, code)
        said = re.sub(r"`[^`]*`", lambda m: TOKEN.sub(swap, m[0]), said)
        out.append(code + said)
    return "\n".join(out)


if "--dry" in sys.argv:
    for k in sorted(turned):
        print(k, "→", turned[k])
    sys.exit()
changed = 0
for path in texts + sources + edits:
    old = read(path)
    new = turn(old, path, r"(?<!\S)//" if path.endswith(".rt") else r"(?<!\S)--(?!\S)")
    before = set(TOKEN.findall(old))
    for name, other in turned.items():
        if name in before and other in before and name not in taken[path]:
            print("beside:", path, name, other)
    if new != old:
        changed += 1
        with open(path, "w", encoding="utf-8") as f:
            f.write(new)
print(changed, "files,", len(turned), "names")
