#!/usr/bin/env python3
"""Counts the places of the design pass (docs/DESIGN-PASS.md) in crates/*/src, at the top of a checkout: tools/design_counts.py [-v].

It goes by the text, so it finds candidates: the page says of each what became of it. With -v each place is listed."""
import re
import subprocess
import sys
from collections import defaultdict
from pathlib import Path

VERBOSE = "-v" in sys.argv
FILES = sorted(Path("crates").glob("*/src/**/*.rt"))
TEXT = {f: f.read_text() for f in FILES}


def code(text):
    """The text without comments."""
    return re.sub(r"//[^\n]*", "", text)


def lines(pattern, of=TEXT):
    """Places of lines that match."""
    return [
        f"{f}:{n}: {line.strip()}"
        for f, text in of.items()
        for n, line in enumerate(text.split("\n"), 1)
        if re.search(pattern, line)
    ]


def functions():
    """(file, line, name, signature, clauses, body) of each function with a body."""
    for f, text in TEXT.items():
        for m in re.finditer(r"^( *)(pub(?:\(crate\))? )?(?:const )?(?:extern \"C\" )?fn (\w+)", text, re.M):
            indent = m.group(1)
            end = text.find(f"\n{indent}}}\n", m.start())
            whole = text[m.start() : end if end > 0 else len(text)]
            open_at = re.search(rf"^(?:{indent}\{{|.*\) (?:-> .*)?\{{)$", whole, re.M)
            if not open_at:
                continue
            head, body = whole[: open_at.end()], whole[open_at.end() :]
            clause_at = re.search(r"^\s+(requires|ensures)\b", head, re.M)
            signature = head[: clause_at.start()] if clause_at else head
            clauses = head[clause_at.start() :] if clause_at else ""
            yield f, text.count("\n", 0, m.start()) + 1, m.group(3), signature, clauses, body


def shape(text):
    """The tokens, with each name and number replaced by its kind."""
    tokens = re.findall(r"\"[^\"]*\"|\w+|[^\w\s]", code(text))
    return tuple("n" if re.fullmatch(r"\d\w*", t) else "x" if re.fullmatch(r"\w+", t) and t not in KEPT else t for t in tokens)


KEPT = set("if else match while for in let mut return loop true false as usize u8 u16 u32 u64 bool self Some None Ok Err".split())


def twins(least=18):
    groups = defaultdict(list)
    for f, line, name, signature, clauses, body in functions():
        s = shape(body)
        if len(s) >= least:
            groups[s].append(f"{f}:{line}: {name}")
    return [", ".join(g) for g in groups.values() if len(g) > 1]


def repeated_facts():
    facts = defaultdict(list)
    for f, line, name, signature, clauses, body in functions():
        for c in re.findall(r"requires(?: \w+)? \{(.*?)\}\n", clauses + "\n", re.S):
            fact = re.sub(r"\b(\w+)\.(now|old)\b", r"_.\2", " ".join(c.split()))
            facts[fact].append(f"{f}:{line}: {name}")
    return [f"{k}  [{len(v)}] " + ", ".join(v) for k, v in facts.items() if len(v) > 2]


def travelling():
    sets = defaultdict(list)
    for f, line, name, signature, clauses, body in functions():
        found = re.search(r"\((.*)\)", signature, re.S)
        names = [" ".join(p.split()) for p in re.split(r",(?![^<(\[]*[>)\]])", found.group(1))] if found else []
        names = [p for p in names if ":" in p and not p.startswith("rt:")]
        for i in range(len(names) - 1):
            for j in range(i + 2, len(names) + 1):
                sets[tuple(names[i:j])].append(f"{name}")
    most = {k: v for k, v in sets.items() if len(v) > 2}
    longest = [k for k in most if not any(k != o and len(o) > len(k) and set(k) <= set(o) and len(most[o]) >= len(most[k]) for o in most)]
    return [f"({', '.join(k)})  [{len(most[k])}]" for k in sorted(longest, key=lambda k: -len(k))]


def consts():
    found = defaultdict(list)
    for f, text in TEXT.items():
        for m in re.finditer(r"^pub const ([A-Z0-9_]+): u8", text, re.M):
            found[str(f)].append(m.group(1))
    return [f"{k}: {', '.join(v)}" for k, v in found.items() if len(v) > 2]


COUNTS = [
    ("1 own enums of the shape of Result (a variant that carries a reason's number)", lambda: lines(r"^\s*(Refused|Fault)\(u8\)")),
    ("1 a number beside a value: reply, why, note, said, error", lambda: lines(r"^\s*pub(\(crate\))? (reply|why|note|said|error): u\d+,")),
    ("1 functions that answer a reason's number or 0", lambda: lines(r"ensures (reply |value )?\{ result$|ensures (reply |value )?\{ result ≡ (\w+\.)?(reply|\w*reason|first_holding|\w*_reply)\b")),
    ("1 '0 for none' and the like, in comments", lambda: lines(r"//.*\b(0|15) (for none|where)|//.*, or 0\b")),
    ("1 files of numbers for kinds (three or more pub const u8)", consts),
    ("2 groups of functions of one shape", twins),
    ("3 while loops", lambda: lines(r"^\s*('\w+: )?while ")),
    ("4 conversions of octets by hand", lambda: lines(r"% 256|256 \*")),
    ("4 lesser, copying, comparing, printing by hand: functions", lambda: lines(r"fn (least|less|one_less|same|same_symbols|put|keep|take_over|bit|text|number|octets|say|two|letter_at|octet_at)\(")),
    ("5 facts required by three functions or more", repeated_facts),
    ("5 parameters that three functions or more take together", travelling),
    ("6 parallel arrays, and buffers with a length beside", lambda: lines(r"const (PLACES|NUMBERS|CODES|FORMS|VALUES|NAMES)\b|wrote: usize,|pub body: u16")),
    ("7 switches on which step to run", lambda: lines(r"if table == |match form|Form::")),
    ("8 files of answers and invariants", lambda: [str(p) for p in sorted(Path("crates").glob("*/proofs/**/*.antt")) if p.name in ("Answers.antt", "Invariants.antt")]),
]

for name, find in COUNTS:
    places = find()
    print(f"{len(places):4} {name}")
    if VERBOSE:
        for p in places:
            print(f"       {p}")
