#!/usr/bin/env python3
"""Brings the repository's own names of specs/ and proofs/ to today's spelling: words in snake case, types and facts in
upper camel case, with no dash. Run once, at the top of the repository, after port.py and before any edit by hand.

Only names that a file of specs/ or proofs/ defines are turned, wherever they stand in .antt files, in clauses and ghost
lines of .rt files and in must-fail edits. Names that Rattle makes (goals, steps) and the library's names are left, as
are comments of .rt files, strings, functions of src/, inputs and outputs. Cycles of calls get a short name.
It stops, and writes nothing, where two names would fall together.
"""

import os
import re
import sys

WORD = re.compile(r"[^\s(){}\[\].,;:∷⟨⟩\"'`|]+(?:'+)?")
HEAD = re.compile(r"^( *)((?:(?:abbrev|unfoldable|pub|mutual) )*)(record |data )?([^\s(){}.,;:]+) :(?= )")
TYPE = re.compile(r"^ *(?:(?:pub|abbrev) )*(?:record|data) ([^\s(){}.,;:]+)")
GOAL = re.compile(r": (?:goal|rules|lts|steps|by)\.")
# a fact that would have the name of a type of src/
OTHER = {"At-lane": "JudgedAtLane"}
CYCLES = {"shift": "shifting", "start": "starting", "atom": "grammar"}
LIBRARY = re.compile(r"(?m)^ *(?:ghost )?use (?:Rattle\.(?:std|core)\b|(?!Rattle\.))[^{;\n]*\{([^}]*)\}")


def files(root):
    for folder, dirs, names in os.walk(os.path.join(root, "crates")):
        dirs[:] = sorted(d for d in dirs if d != "out")
        for n in sorted(names):
            if n.endswith((".antt", ".rt", ".edit")):
                yield os.path.join(folder, n)


def camel(word):
    return "".join(p[:1].upper() + p[1:] for p in word.split("-"))


def spelled(word):
    if word in OTHER:
        return OTHER[word]
    return camel(word) if word[:1].isupper() else word.replace("-", "_")


def own_names(root):
    """The names with a dash that specs/ and proofs/ define: all, and those of fields."""
    names, fields, plain = {}, set(), {}
    for p in files(root):
        if not p.endswith(".antt"):
            continue
        inside, indent = None, 0
        with open(p, encoding="utf-8") as f:
            for line in f:
                if re.match(r" *--", line):
                    continue
                t = TYPE.match(line)
                if t:
                    inside = "record" if "record" in line.split(t.group(1))[0] else "data"
                    indent = len(line) - len(line.lstrip())
                    (names if "-" in t.group(1) else plain).setdefault(t.group(1), p)
                    continue
                if line.strip() and len(line) - len(line.lstrip()) <= indent:
                    inside = None
                m = HEAD.match(line)
                if not m or GOAL.search(line):
                    continue
                word = m.group(4)
                if "=" in line.split(":")[0]:
                    continue
                if "-" in word:
                    names.setdefault(word, p)
                    if inside == "record":
                        fields.add(word)
                else:
                    plain.setdefault(word, p)
    return names, fields, plain


def library_names(root):
    """The names that the files take from the library: an own name that is spelled so is left to the reader."""
    found = set()
    for p in files(root):
        if not p.endswith(".antt"):
            continue
        with open(p, encoding="utf-8") as f:
            for m in LIBRARY.finditer(f.read()):
                found |= {item.strip().split(" as ")[0] for item in m.group(1).split(",")}
    return found


def in_clause(text):
    """The parts of a .rt file that are antt: ghost lines and the braces of clauses and ghost members."""
    spans = []
    for m in re.finditer(r"(?m)^ *ghost use [^;]*;", text):
        spans.append(m.span())
    for m in re.finditer(r"(?:\b(?:requires|ensures)\b(?: [a-z_0-9]+)? |\bghost [a-z_A-Z0-9]+(?:: | = ))\{", text):
        at, depth = m.end(), 1
        while depth:
            depth += {"{": 1, "}": -1}.get(text[at], 0)
            at += 1
        spans.append((m.start(), at))
    return spans


def turned(text, names, fields):
    aliases = set(re.findall(r"(?m)^ *(?:ghost )?use [\w.+]+ as (\w+)", text)) - {"goal"}

    def one(m):
        w = m.group(0)
        if w not in names:
            return w
        if m.start() and text[m.start() - 1] == "." and w not in fields:
            before = re.search(r"([^\s(){}\[\],;]+)\.$", text[: m.start()])
            module = before and (before.group(1) in aliases or re.fullmatch(r"(?:[\w'+-]+\.)*[A-Z]\w*", before.group(1)))
            if not module or before.group(1).split(".")[0] in ("c", "w", "goal", "l", "g"):
                return w
        return spelled(w)

    return WORD.sub(one, text)


def main(root):
    names, fields, plain = own_names(root)
    library = library_names(root)
    clash = [n for n in names if n in library]
    for n in clash:
        print(f"look: {n} of {names[n]} is also a name of the library that is cited: left")
        del names[n]
    new = {}
    for n in names:
        new.setdefault(spelled(n), []).append(n)
    bad = [f"{v} would be {k}" for k, v in new.items() if len(v) > 1]
    bad += [f"{v[0]} would be {k}, which {plain[k]} has" for k, v in new.items() if k in plain]
    bad += [f"{v[0]} would be {k}, which the library has" for k, v in new.items() if k in library]
    if bad:
        print("\n".join("stop: " + b for b in bad))
        return 1
    changed = 0
    for p in files(root):
        with open(p, encoding="utf-8") as f:
            old = f.read()
        if p.endswith(".rt"):
            text, at = "", 0
            for a, b in sorted(in_clause(old)):
                if a < at:
                    continue
                text += old[at:a] + turned(old[a:b], names, fields)
                at = b
            text += old[at:]
        else:
            text = turned(old, names, fields)
        for first, short in CYCLES.items():
            text = re.sub(rf"\b{first}(?:_{first}|_branch)_[a-z_]+(?=\)\]|\.)", short, text)
        if text != old:
            changed += 1
            with open(p, "w", encoding="utf-8") as f:
                f.write(text)
    for folder, dirs, _ in os.walk(os.path.join(root, "crates")):
        dirs[:] = [d for d in dirs if d != "out"]
        for d in list(dirs):
            for first, short in CYCLES.items():
                if re.fullmatch(rf"\+{first}(?:_{first}|_branch)_[a-z_]+", d):
                    os.rename(os.path.join(folder, d), os.path.join(folder, "+" + short))
                    dirs[dirs.index(d)] = "+" + short
    print(f"{len(names)} names, {changed} files")
    return 0


if __name__ == "__main__":
    raise SystemExit(main(sys.argv[1] if len(sys.argv) > 1 else "."))
