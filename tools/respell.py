#!/usr/bin/env python3
"""Brings the repository's own definitions and lemmas to one spelling.

usage: python3 tools/respell.py [--list]      at the top of the repository

Definitions, records, fields and lemmas of specs/ and proofs/ get snake case, types and facts upper camel case. In a lemma's
name a dash stays between two names of definitions, as in `length-written`. Functions, types and fields of src/, strings and
comments keep their names. --list prints the names and writes nothing. Run it once, right after the kit's port.py.
"""
import os
import re
import sys
from collections import defaultdict

SIGNATURE = re.compile(
    r"^(?P<indent> *)(?P<how>(?:abbrev |unfoldable )?(?:pub )?(?:abbrev |unfoldable |record |data )?)"
    r"(?P<name>[^\s(){}\[\]:;,.=]+)(?P<params>(?: +[({].*?)?) : (?P<type>.*)$"
)
NOT_NAMES = {"let", "use", "module", "in", "elim", "rw", "simp", "cc", "record", "data", "pub", "unfolding", "where"}
TOKEN = re.compile(r"[^\s(){}\[\]:;,.=|«»]+|[=|:]+")


def files(top, ending):
    """The paths below crates/ of the files with this ending, made folders aside."""
    for folder, dirs, names in os.walk(os.path.join(top, "crates")):
        dirs[:] = sorted(d for d in dirs if d != "out")
        for name in sorted(names):
            if name.endswith(ending):
                yield os.path.join(folder, name)


def read(path):
    with open(path, encoding="utf-8") as f:
        return f.read()


def declared(text):
    """The names that a file declares: name, kind ('type', 'word', 'lemma' or 'field')."""
    inside, found = None, []
    for line in text.splitlines():
        m = SIGNATURE.match(line)
        indent = len(line) - len(line.lstrip())
        if inside is not None and line.strip() and indent <= inside:
            inside = None
        if not m or m["name"] in NOT_NAMES or m["name"].startswith("--"):
            continue
        name, how, kind = m["name"], m["how"].split(), "lemma"
        if m["type"].startswith("goal."):
            continue
        if "record" in how or "data" in how:
            kind = "type"
            if line.rstrip().endswith("where"):
                inside = indent
        elif inside is not None:
            kind = "field"
        elif name[0].isupper():
            kind = "type"
        elif "abbrev" in how or "unfoldable" in how:
            kind = "word"
        elif "pub" not in how and indent > 0 and not line.startswith("  "):
            continue
        found.append((name, kind))
    return found


def snake(name):
    return name.replace("-", "_")


def camel(name):
    parts = re.split(r"[-_]", name)
    return "".join(p[:1].upper() + p[1:] for p in parts if p)


def lemma(name, words):
    """A lemma's name: a dash between two words that are names of definitions, else an underscore."""
    parts = name.split("-")
    groups, i = [], 0
    while i < len(parts):
        for j in range(len(parts), i, -1):
            if "_".join(parts[i:j]) in words:
                groups.append(("_".join(parts[i:j]), True))
                i = j
                break
        else:
            groups.append((parts[i], False))
            i += 1
    out = groups[0][0]
    for (_, before), (g, is_word) in zip(groups, groups[1:]):
        out += ("-" if before and is_word else "_") + g
    return out


def plan(top):
    kinds, where = defaultdict(set), defaultdict(set)
    for path in files(top, ".antt"):
        for name, kind in declared(read(path)):
            kinds[name].add(kind)
            where[name].add(os.path.relpath(path, top))
    words = {snake(n) for n, k in kinds.items() if "word" in k} | {"length", "take", "drop", "get_or", "set", "map", "filter", "reverse"}
    new = {}
    for name, k in kinds.items():
        if "type" in k:
            to = camel(name) if "-" in name or "_" in name else name
        elif k & {"word", "field"} or not k & {"lemma"}:
            to = snake(name)
        else:
            to = lemma(name, words)
        if to != name:
            new[name] = to
    fields = {n for n, k in kinds.items() if "field" in k}
    return kinds, where, new, fields


def imported_elsewhere(text):
    """Names that a file imports from outside the repository's own specs/ and proofs/."""
    out = set()
    for m in re.finditer(r"use ([A-Za-z_.+0-9'-]+)\.\{([^}]*)\}", text):
        path = m[1]
        own = re.match(r"Rattle\.(\w+)\.(specs|proofs)\.", path + ".")
        made = re.search(r"\.(Goals|Given|Tie|TheVariants|TheConstants)$", path) or ".declared." in path
        if not own or own[1] in ("std", "core") or made:
            for it in m[2].split(","):
                out.add(it.strip().split(" as ")[-1].strip())
    return out


def turn(text, new, fields, is_antt):
    """The text of a file with its names respelled: of a source file only in the lines that say something ghost."""
    skip = imported_elsewhere(text)

    def is_turned(line):
        if is_antt:
            return not line.lstrip().startswith("--")
        return not line.lstrip().startswith("//") and re.search(r"\b(ghost|requires|ensures|law)\b", line)

    def word(line, m):
        t, i = m[0], m.start()
        if t not in new or t in skip:
            return t
        behind_dot = i > 0 and line[i - 1] == "." and not (is_antt and i > 1 and line[i - 2].isspace())
        if behind_dot and (t not in fields or is_antt and line[:i].endswith("goal.")):
            return t
        return new[t]

    lines = text.split("\n")
    return "\n".join(TOKEN.sub(lambda m, line=line: word(line, m), line) if is_turned(line) else line for line in lines)


def rust_names(top):
    out = set()
    for path in files(top, ".rt"):
        for m in re.finditer(r"\b(?:fn|struct|enum|trait|type|const|static|mod) (\w+)|\b(\w+): ", read(path)):
            out.add(m[1] or m[2])
    return out


def main(argv):
    top = os.getcwd()
    kinds, where, new, fields = plan(top)
    together = defaultdict(set)
    for n in kinds:
        together[new.get(n, n)].add(n)
    source = rust_names(top)
    for to, froms in sorted(together.items()):
        if len(froms) > 1:
            print("fall together:", to, sorted(froms), sorted({w for n in froms for w in where[n]}))
    for n, to in sorted(new.items()):
        if to in source:
            print("a name of src/:", n, "->", to, sorted(kinds[n]), sorted(where[n]))
    if "--list" in argv:
        for n, to in sorted(new.items()):
            print(sorted(kinds[n]), n, "->", to)
        return 0
    for ending in (".antt", ".rt"):
        for path in files(top, ending):
            text = read(path)
            to = turn(text, new, fields, ending == ".antt")
            if to != text:
                with open(path, "w", encoding="utf-8") as f:
                    f.write(to)
    return 0


if __name__ == "__main__":
    raise SystemExit(main(sys.argv[1:]))
