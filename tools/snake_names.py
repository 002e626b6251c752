#!/usr/bin/env python3
"""Gives the definitions and lemmas of this repository the spelling of today's Rattle: types in upper camel case, all else in snake case.

usage: snake_names.py [KIT]          at the top of the repository, once, on what port.py left; KIT is the kit's folder, /opt/rattle if left out

A name is turned if a file of specs/ or proofs/ of this repository declares it. A lemma whose name, written with dashes, would get the name of
something else, as `is-line` of `is_line`, ends in `_lem`. Names of the kit, of src/ and those that Rattle makes keep their spelling: in a
Proof.antt the goals, and the steps that are read of a goal's facts. Comments are turned inside backticks alone; pages likewise.
It prints, for each file, pairs of names that fall together there, and function parameters that would hide a word of their clauses.
"""
import collections
import os
import re
import sys

KIT = sys.argv[1] if len(sys.argv) > 1 else "/opt/rattle"
WORD = re.compile(r"[A-Za-z][A-Za-z0-9_'₀-₉ℕ]*(?:-[A-Za-z0-9_'₀-₉ℕ]+)*")
DECLARED = re.compile(
    r"^\s*(?:(?:pub|abbrev|unfoldable|pattern) )*([^\s(){}\[\],;.:=→λ\"]+)(?: \{[^{}]*\})?"
    r"(?: \([^()]*(?:\([^()]*\)[^()]*)*\)| \{[^{}]*\})* :(?: |$)(.*)"
)
HEAD = re.compile(r"^\s*(?:pub )?(?:record|data|ruleset) ([^\s(){}]+)")


def files(top, endings):
    for folder, folders, names in os.walk(top):
        folders[:] = sorted(it for it in folders if it not in ("out", ".git", "target"))
        for name in sorted(names):
            if name.endswith(endings):
                yield os.path.join(folder, name)


def read(path):
    with open(path, encoding="utf-8", errors="replace", newline="") as it:
        return it.read()


def is_old(name):
    return "-" in name or bool(re.match(r"^[a-z][A-Za-z0-9_'₀-₉]*[A-Z]", name))


def snake(name):
    if name[0].isupper():
        if re.fullmatch(r"[A-Z0-9]+(-[A-Z0-9]+)*", name):
            return name.lower().replace("-", "_")
        return "".join(it[0].upper() + it[1:] for it in name.split("-"))
    name = re.sub(r"(?<=[a-z0-9'])([A-Z])", r"_\1", name.replace("-", "_"))
    return name.lower().replace("𝓤", "𝓤")


def declared_in(text, is_walk):
    found = set()
    for line in text.split("\n"):
        if line.lstrip().startswith("--"):
            continue
        it = DECLARED.match(line)
        if it and not (is_walk and it[2].startswith("tie.")):
            found.add(it[1])
        it = HEAD.match(line)
        if it:
            found.add(it[1])
    return found


def main():
    texts = {p: read(p) for p in files("crates", (".antt", ".rt", ".edit"))}
    declared = collections.defaultdict(set)
    for path, text in texts.items():
        if path.endswith(".antt"):
            for name in declared_in(text, path.endswith("/Proof.antt")):
                declared[name].add(path)
    kit = set()
    for path in files(f"{KIT}/rattle", (".antt",)):
        kit.update(WORD.findall(read(path)))
    old = {it for it in declared if is_old(it) and WORD.fullmatch(it)}
    taken = {it for it in declared if it not in old} | {snake(it) for it in old if "-" not in it}
    new = {}
    for name in old:
        to = snake(name)
        if "-" in name and not name[0].isupper() and to in taken:
            to += "_lem"
        new[name] = to
    new.update({it: it + "_lem" for it in ALSO})
    new["bit-and"] = "bit_and_lem"
    # a name that the kit has, too, counts as the kit's only where a file brings it from there
    of_kit = set()
    for path, text in texts.items():
        for it in re.finditer(r"^\s*(?:pub |ghost )*use ([^{}\s]*)\.\{([^}]*)\}", text, re.M):
            if not (it[1].startswith("Rattle.") and os.path.isdir("crates/" + it[1].split(".")[1])):
                of_kit.update(w.strip().split(" ")[0] for w in it[2].split(","))
    shared = {it for it in old if it in kit and it in of_kit}
    hidden, together = [], []
    for path, text in texts.items():
        is_walk = path.endswith("/Proof.antt")
        here = {}
        own = declared_in(text, is_walk)
        brought = set()
        for it in re.finditer(r"^\s*(?:pub |ghost )*use Rattle\.(\w+)\.[^{}\n]*\.\{([^}]*)\}", text, re.M):
            if os.path.isdir(f"crates/{it[1]}"):
                brought.update(w.strip().split(" ")[0] for w in it[2].split(","))
        goals = set()
        if is_walk:
            goals = {m[1] for m in (DECLARED.match(l) for l in text.split("\n")) if m and m[2].startswith("tie.")}

        def turned(m):
            name = m[0]
            before = text_now[: m.start()]
            if (path.removeprefix("crates/"), name) in THERE and not before.endswith("."):
                return name + "_lem"
            if name not in new or name in goals or before.count('"') % 2 or (name in ALSO and path.endswith(".rt")):
                return name
            if name in shared and name not in own and name not in brought and not before.endswith("."):
                return name
            chain = re.search(r"([A-Za-z_#][\w'₀-₉-]*)((?:\.[\w'₀-₉ℕ-]+)*)\.$", before[-200:])
            if is_walk and before.endswith(("tie.", "goal.")):
                return name
            if chain and is_walk and "-" in name and chain[1] not in ("spec", "calls"):
                # a step of the facts that a goal has, unless this repository has a field of that name
                if name in GENERATED or not any("/Proof.antt" not in p for p in declared[name]):
                    return name
                if chain[1] in ("c", "a") and chain[2].count(".") < 1:
                    return name
            here.setdefault(new[name], set()).add(name)
            return new[name]

        lines = []
        for line in text.split("\n"):
            mark = "--" if path.endswith(".antt") else "//"
            stripped = line.lstrip()
            if path.endswith(".edit") and not re.match(r"^(old|new): ", line):
                lines.append(re.sub(r"`[^`]*`", lambda q: WORD.sub(lambda m: new.get(m[0], m[0]) if m[0] not in shared else m[0], q[0]), line))
                continue
            if stripped.startswith(mark):
                lines.append(re.sub(r"`[^`]*`", lambda q: WORD.sub(lambda m: new.get(m[0], m[0]) if m[0] not in shared else m[0], q[0]), line))
                continue
            text_now = line
            lines.append(WORD.sub(turned, line))
        out = "\n".join(lines)
        for to, froms in here.items():
            words = set(WORD.findall(text))
            if len(froms) > 1 or (to in words and not path.endswith(".edit")):
                together.append(f"{path}: {to}: {', '.join(sorted(froms))}{' and itself' if to in words else ''}")
        if path.endswith(".rt"):
            for fn in re.finditer(r"fn (\w+)[^{;]*?\(([^)]*)\)((?:.|\n)*?)\n\s*\{\n", out):
                params = set(re.findall(r"(\w+):", fn[2]))
                for clause in re.finditer(r"(?:requires|ensures)[^{]*\{(.*)\}", fn[3]):
                    used = set(re.findall(r"(?<![\w.])([a-z]\w*)", clause[1])) & params & set(new.values())
                    for it in used:
                        hidden.append(f"{path}: {fn[1]}: {it}")
        if out != text:
            with open(path, "w", encoding="utf-8", newline="") as it:
                it.write(out)
    pages = [p for p in files(".", (".md",)) if not p.startswith("./crates")]
    for path in pages + [p for p in files("crates", (".md",))]:
        text = read(path)
        out = re.sub(r"`[^`\n]*`", lambda q: WORD.sub(lambda m: new.get(m[0], m[0]) if m[0] not in shared else m[0], q[0]), text)
        if out != text:
            with open(path, "w", encoding="utf-8", newline="") as it:
                it.write(out)
    print(len(new), "names turned; the kit has, too:", *sorted(shared))
    print(*together, *[f"hidden: {it}" for it in hidden], sep="\n")


# Lemmas in snake case already that would have the name of what they speak of, everywhere or in a file.
ALSO = "is_body next_place laid_out no_code kept_on".split()
THERE = {("report/proofs/Books.antt", "in_order")}
GENERATED = set(
    "loop-test loop-again loop-holds loop-less in-loop after-loop".split()
)
main()
