#!/usr/bin/env python3
"""Counts the places that docs/DESIGN-PASS.md speaks of, in the checkout in which it stands.

usage: docs/count_places.py [-v]     -v: each place too, one a line
"""
import collections, glob, os, re, sys

os.chdir(os.path.join(os.path.dirname(os.path.abspath(__file__)), ".."))
FN = re.compile(r"^( *)(?:#\[[^\n]*\]\n *)*(pub )?(?:unsafe )?(?:extern \"C\" )?fn (\w+)", re.M)


def close(text, i):
    """The bracket that closes the one at i."""
    depth = 0
    for j in range(i, len(text)):
        depth += (text[j] in "([{") - (text[j] in ")]}")
        if depth == 0:
            return j
    raise ValueError(text[i : i + 40])


def parts(text):
    """A list of parameters, cut at its own commas."""
    out, depth, start = [], 0, 0
    for j, c in enumerate(text):
        depth += (c in "([{<") - (c in ")]}>")
        if c == "," and depth == 0:
            out.append(text[start:j])
            start = j + 1
    return [p.strip() for p in out + [text[start:]] if p.strip()]


def functions():
    for path in sorted(glob.glob("crates/*/src/**/*.rt", recursive=True)):
        text = open(path, encoding="utf-8").read()
        crate = path.split("/")[1]
        for m in FN.finditer(text):
            a = text.index("(", m.end())
            b = close(text, a)
            body = re.compile(rf"(?:\n{m.group(1)}| )\{{\n").search(text, b)
            clauses = text[b : body.start()] if body else ""
            yield f"{crate}::{m.group(3)}", parts(text[a + 1 : b]), clauses


def grep(pattern):
    out = []
    for path in sorted(glob.glob("crates/*/src/**/*.rt", recursive=True)):
        for n, line in enumerate(open(path, encoding="utf-8"), 1):
            if re.search(pattern, line) and not line.lstrip().startswith("//"):
                out.append(f"{path[7:]}:{n}: {line.strip()}")
    return out


def fields(test):
    out = []
    for path in sorted(glob.glob("crates/*/src/**/*.rt", recursive=True)):
        text = open(path, encoding="utf-8").read()
        for m in re.finditer(r"^(?:pub )?struct (\w+)[^{;]*\{\n(.*?)^\}", text, re.M | re.S):
            names = re.findall(r"^\s+(?:pub )?(\w+): ([^\n]*),$", m.group(2), re.M)
            out += [f"{path.split('/')[1]}::{m.group(1)}.{n}" for n in test(names)]
    return out


def together(*names):
    """Functions that have parameters of all these names or types."""
    return [f for f, ps, _ in functions() if all(any(re.search(n, p) for p in ps) for n in names)]


def facts():
    """Conjuncts of `requires` that stand in three functions or more."""
    seen = collections.defaultdict(set)
    for f, _, clauses in functions():
        for r in re.findall(r"requires (?:\w+ )?\{(.*)\}", clauses):
            for c in re.split("×", re.sub(r"[()]", "", r)):
                seen[" ".join(c.split())].add(f)
    return [f"{len(v):4} {k}" for k, v in sorted(seen.items(), key=lambda x: -len(x[1])) if len(v) >= 3]


def proofs(kind):
    return [p[7:] for p in sorted(glob.glob("crates/*/proofs/**/*.antt", recursive=True)) if os.path.basename(p) == kind]


POINTS = [
    ("1a enums of the shape of Option or Result", lambda: grep(r"^(pub )?enum (Outcome|Checked|Place|Reading|Tried|Fate|Repaired|Opened|Verdict|FeederVerdict|FileVerdict|Rule)\b")),
    ("1b flags in structs", lambda: fields(lambda xs: [n for n, t in xs if t == "bool"])),
    ("1c numbers for kinds, causes, phases and sections", lambda: grep(r"^\s*(pub )?const (FIELD_(TEXT|NUMBER)|[RPCD][HEF]|NEXT_\w+|LINE_(ABSOLUTE|NEXT_PAGE|RELATIVE)|SOURCE_\w+|ADDEND_\w+|FORM|ORDER|IDLE|STARTED|RUNNING|NO_PHASE|RECORD|END|REFUSED|FIELDS|CONTROLS|GROUPS|LINES|ITEMS|COUNTERS|ADDENDS|LITERALS|PICTURES): ")),
    ("2 functions of a size in their name", lambda: grep(r"fn (copy|number|put|count|setting)(2|4|8|16)\b|fn put_to_\w+|fn (put_)?(eight|four|pair|two_pairs)\b")),
    ("3a while", lambda: grep(r"^\s*while ")),
    ("3b for over a range of indices", lambda: grep(r"^\s*for \w+ in [^.]*\.\.")),
    ("3c loops that keep a flag", lambda: grep(r"let mut ok = true")),
    ("4 conversions, equality, choices and printing by hand", lambda: grep(r"\bfn (wide|one_if|least|choose|is_same|same_bytes|say_number|rule_word|name|usage|help)\b|(?<!fn )\b(tables::wide|counts::one_if|counts::least)\(")),
    ("5a numbers of the tables beside their head", lambda: together(r"^t: &('\w+ )?\[u16\]", r"^h: Head")),
    ("5b kept, row and sums", lambda: together("^kept:", "^row:", "^sums:")),
    ("5c a flag beside the sums", lambda: together("^ok: bool", "^sums: &mut")),
    ("5d facts in three contracts or more", facts),
    ("6 arrays with a length or a place beside", lambda: fields(lambda xs: [n for n, t in xs if re.match(r"\[\w+; ", t)] if any(n in ("len", "count", "held", "waiting") for n, t in xs) else [])),
    ("7 enums whose variants say which step", lambda: grep(r"^(pub )?enum (Step|Turn|Asked|FeederCall|Program)\b")),
    ("8a files of answers", lambda: proofs("Answers.antt")),
    ("8b files of invariants", lambda: proofs("Invariants.antt")),
]

for name, find in POINTS:
    found = find()
    print(f"{len(found):5}  {name}")
    if "-v" in sys.argv:
        for x in found:
            print(f"           {x}")
lines = sum(len(open(p, encoding="utf-8").readlines()) for p in glob.glob("crates/*/proofs/**/*.antt", recursive=True))
code = sum(len(open(p, encoding="utf-8").readlines()) for p in glob.glob("crates/*/src/**/*.rt", recursive=True))
print(f"{lines:5}  lines in proofs/\n{code:5}  lines in src/")
