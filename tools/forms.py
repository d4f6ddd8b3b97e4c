#!/usr/bin/env python3
"""Counts the places of src/ in forms that today's Rattle has better ones for: docs/DESIGN-PASS.md, by its points.

usage: python3 tools/forms.py [-v] [COMMIT]     at the top; -v lists the places; COMMIT counts there and not in the files

It reads the text alone, so a place that it finds is one to look at. docs/DESIGN-PASS.md says which of them are kept, and why.
"""
import collections
import glob
import re
import subprocess
import sys

verbose = "-v" in sys.argv
commits = [a for a in sys.argv[1:] if a != "-v"]


def sources():
    if commits:
        names = subprocess.run(["git", "ls-tree", "-r", "--name-only", commits[0], "crates"], capture_output=True, text=True, check=True)
        for name in sorted(names.stdout.split()):
            if "/src/" in name and name.endswith(".rt"):
                shown = subprocess.run(["git", "show", f"{commits[0]}:{name}"], capture_output=True, text=True, check=True)
                yield name, shown.stdout
        return
    for name in sorted(glob.glob("crates/*/src/**/*.rt", recursive=True)):
        with open(name, encoding="utf-8") as f:
            yield name, f.read()


def bare(text):
    """The text without comments, each line where it was."""
    return re.sub(r"//[^\n]*", "", text)


FN = re.compile(r"^( *)(?:pub(?:\(crate\))? )?(?:extern \"C\" )?fn (\w+)(.*?)^\1\}", re.S | re.M)

files = {name: bare(text) for name, text in sources()}
functions = [(name, m[2], m[0], text.count("\n", 0, m.start()) + 1) for name, text in files.items() for m in FN.finditer(text)]


def at(name, text, place):
    return f"{name}:{text.count(chr(10), 0, place) + 1}"


def find(pattern, only=None, flags=re.M):
    return [f"{at(n, t, m.start())} {' '.join(m[0].split())}" for n, t in files.items() if not only or re.search(only, n)
            for m in re.finditer(pattern, t, flags) if not n.endswith("sine/src/table.rt")]


def parts(text):
    """Parameters and clauses of a function's text."""
    head = text.split("{\n", 1)[0]
    params = re.search(r"\((.*?)\)\s*(?:->|requires|ensures|\{|$)", text, re.S)
    given = [" ".join(p.split()) for p in params[1].split(",") if ":" in p] if params else []
    given = [re.sub(r"&'\w+ ", "&", p) for p in given]
    clauses = [" ".join(c.split()) for c in re.findall(r"requires(?: \w+)? \{ (.*?) \}\n", text, re.S)]
    return given, [c for clause in clauses for c in (re.split(r"\) × \(", clause.strip("()")) if ") × (" in clause else [clause])]


def groups(minimum=3):
    """Clauses, and pairs of parameters, that stand in so many functions or more."""
    facts, pairs = collections.defaultdict(set), collections.defaultdict(set)
    for name, fn, text, line in functions:
        given, clauses = parts(text)
        for clause in clauses:
            facts[clause].add((name, fn))
        for i, p in enumerate(given):
            for q in given[i + 1:]:
                pairs[p, q].add((name, fn))
    return ({f: w for f, w in facts.items() if len(w) >= minimum}, {p: w for p, w in pairs.items() if len(w) >= minimum})


def twins():
    """Functions whose bodies are the same but for names, numbers and types."""
    shapes = collections.defaultdict(list)
    for name, fn, text, line in functions:
        body = re.sub(r"(requires|ensures)(?: \w+)? \{.*?\}\n", "", text[text.find("("):], flags=re.S)
        tokens = re.findall(r"\w+|[^\w\s]", body)
        shape = tuple("N" if t[0].isdigit() else "I" if re.match(r"[a-z_A-Z]", t) and t not in
                      ("if", "else", "while", "for", "match", "let", "mut", "return", "in") else t for t in tokens)
        if len(shape) >= 30:
            shapes[shape].append(f"{name}:{line} {fn}")
    return [" ~ ".join(w) for w in shapes.values() if len(w) > 1]


facts, pairs = groups()
points = [
    ("1 enums with one bare variant and one of one value",
     find(r"enum \w+ \{\s*\w+,\s*\w+\([^,()]*\),?\s*\}|enum \w+ \{\s*\w+\([^,()]*\),\s*\w+,?\s*\}", flags=re.S)),
    ("1 a refusal's number as a field", find(r"^\s+pub number: u8")),
    ("1 a refusal's number as a result", find(r"fn \w*(?:refusal|_number)\([^{]*?-> u8", flags=re.S)),
    ("1 kinds of events as numbers", find(r"\b25[6-9]\b")),
    ("1 a flag, or the number of a kind, beside a value", find(r"^\s+(?:pub(?:\(crate\))? )?(?:whole|found|sound|measured|stage): (?:bool|u8)")),
    ("2 functions of one shape", twins()),
    ("2 types that differ in a type", find(r"struct (?:Sent|Reading|TapReading|Opened|OpenedTap|Opening|TapOpening|Sending|Block|TapBlock)\b")),
    ("3 loops that are no `for`", find(r"^\s*(?:while|loop)\b.*")),
    ("4 a `match` that gives a truth value", [f"{n}:{l} {fn}" for n, fn, t, l in functions if len(re.findall(r"=> (?:true|false)\b", t)) > 1]),
    ("4 least, greatest, magnitude and the like by hand",
     find(r"fn (?:least|greatest|less|larger|smaller|magnitude|natural|wide|narrow|anew|is_digit|starts_with|fitting|is_mark|is_doubtful)\b")),
    ("4 conversions as functions",
     find(r"fn (?:stage_of|stage_numbers|difference_of|difference_numbers|receiver_of|numbers_of|tap_of|reading_numbers|sending_of)\b")),
    ("4 a digit by 48", find(r"- 48\b|(?<!/ )\b48 \+")),
    ("5 a fact in the `requires` of three or more functions", [f"{len(w)}: {f}" for f, w in sorted(facts.items())]),
    ("5 two parameters that travel together in three or more functions", [f"{len(w)}: {p}, {q}" for (p, q), w in sorted(pairs.items())]),
    ("6 a length beside an array", find(r"^\s+pub bytes: \[u8; 5\],\s*pub len: usize", flags=re.M | re.S)),
    ("6 parallel arrays", find(r"^\s+let mut (\w+) = \[[^]]*; (.*)\];\n(?:\s+let mut \w+ = \[[^]]*; \2\];\n)+")),
    ("6 parallel slices of a function that C does not call",
     [f"{n}:{l} {fn}" for n, fn, t, l in functions if re.search(r"events: &mut \[u16\],\s*differences: &mut \[i64\]|signs: &(?:mut )?\[|c: &\[i64\]", t)
      and "fn modem_" not in t]),
    ("7 a parameter that says which step to take", [f"{n}:{l} {fn}" for n, fn, t, l in functions if re.search(r"\w+: bool\b", t.split("ensures")[0].split("{\n")[0])]),
]
for point, places in points:
    print(f"{point}: {len(places)}")
    if verbose:
        for place in places:
            print(f"    {place}")
