#!/usr/bin/env python3
"""Lists the places in src/ that an older form of the language may have shaped.

    python3 tools/places.py [POINT..]

Each point is one search over the sources outside tests; what it lists is to be
read, since not every place that it finds is one. docs/DESIGN-PASS.md says what
became of each.
"""
import glob
import itertools
import os
import re
import sys

KEYWORDS = set(
    "fn let mut match if else for in while loop return Ok Err Some None pub self struct enum impl ref break as".split()
)


def sources():
    top = os.path.dirname(os.path.dirname(os.path.abspath(__file__)))
    for path in sorted(glob.glob(top + "/crates/*/src/**/*.rt", recursive=True)):
        crate = path.split("/crates/")[1].split("/")[0]
        if not crate.endswith("_tests"):
            yield os.path.relpath(path, top), open(path).read()


def line_of(text, at):
    return text.count("\n", 0, at) + 1


def block(text, at):
    """The text from `at` on up to the brace that closes the next one."""
    depth = 0
    for i in range(text.index("{", at), len(text)):
        depth += {"{": 1, "}": -1}.get(text[i], 0)
        if depth == 0:
            return text[at : i + 1]
    return text[at:]


def functions(text):
    """Each function: where it stands, its name, its parameters, its clauses and its body."""
    for m in re.finditer(r"\bfn (\w+)(<[^(]*>)?\(", text):
        depth, i = 1, m.end()
        while depth:
            depth += {"(": 1, ")": -1}.get(text[i], 0)
            i += 1
        parameters = text[m.end() : i - 1]
        end = re.compile(r"^[ \t]*\{[ \t]*$|\{[^{}\n]*\}?[ \t]*$|;[ \t]*$", re.M)
        head, at = "", i
        lines = text[i:].split("\n")
        clauses = []
        for n, line in enumerate(lines):
            word = line.strip()
            if n == 0 and (word.endswith("{") or word.endswith(";")):
                at = i + len(line) - 1
                break
            if word.startswith(("requires", "ensures")):
                clauses.append(word.rstrip(";"))
                if word.endswith(";"):
                    at = None
                    break
            elif n and (word == "{" or word == "{}"):
                at = i + sum(len(x) + 1 for x in lines[:n]) + line.index("{")
                break
        body = block(text, at) if at and text[at] == "{" else ""
        yield line_of(text, m.start()), m.group(1), parameters, clauses, body


def named_parameters(parameters):
    return [p.strip() for p in re.split(r",(?![^<]*>)", parameters) if ":" in p]


def point_1():
    for path, text in sources():
        for m in re.finditer(r"\benum (\w+)(<[^{]*>)? \{", text):
            inside = block(text, m.start())
            inside = re.sub(r"//.*", "", inside[inside.index("{") + 1 : -1])
            inside = re.sub(r"\{[^{}]*\}", "()", inside)
            variants = [v.strip() for v in inside.split(",") if v.strip()]
            if len(variants) == 2 and any("(" in v for v in variants):
                yield path, line_of(text, m.start()), "enum of two: " + m.group(1)
            if any(v.startswith(("Refused", "Failed")) for v in variants) and len(variants) > 2:
                yield path, line_of(text, m.start()), "an error among answers: " + m.group(1)
        for m in re.finditer(r"\bflag: u8\b", text):
            yield path, line_of(text, m.start()), "a flag as a number, with a value beside it"
        for m in re.finditer(r"\b(?:enum|struct) (\w+)(<[^{]*>)? \{", text):
            inside = block(text, m.start())
            fields = re.findall(r"\b(block|digits|kind): u8\b", inside)
            if "values: Values" in inside:
                fields += ["number"]
            for field in fields:
                yield path, line_of(text, m.start()), f"a number for a kind: {m.group(1)}.{field}"


def point_2():
    shapes = {}
    for path, text in sources():
        for line, name, parameters, clauses, body in functions(text):
            words = re.findall(r"\w+|[^\w\s]", re.sub(r"//.*", "", body))
            shape = " ".join(
                w if w in KEYWORDS or not re.match(r"\w", w) else ("0" if w[0].isdigit() else "x") for w in words
            )
            if len(words) > 12:
                shapes.setdefault(shape, []).append((path, line, name))
    for places in shapes.values():
        if len(places) > 1:
            for path, line, name in places:
                others = ", ".join(n for p, l, n in places if (p, l) != (path, line))
                yield path, line, f"{name} has the shape of {others}"
    enums = {}
    for path, text in sources():
        for m in re.finditer(r"\b(?:enum|struct) (\w+)(<[^{]*>)? \{", text):
            body = block(text, m.start())
            names = re.sub(r"//.*|ghost.*|#.*|: *[^,{}]+|\([^)]*\)|pub ", "", body[body.index("{") :])
            names = re.sub(r"\s", "", names)
            if names.count(",") > 1:
                enums.setdefault(names, []).append((path, line_of(text, m.start()), m.group(1)))
    for places in enums.values():
        if len(places) > 1:
            for path, line, name in places:
                others = ", ".join(n for p, l, n in places if (p, l) != (path, line))
                yield path, line, f"type {name} has the parts of {others}"


def point_3():
    for path, text in sources():
        for m in re.finditer(r"^ *(?:'\w+: )?(while\b.*|loop \{|for \w+ in [^{]*\.\.[^{]*\{)", text, re.M):
            yield path, line_of(text, m.start(1)), m.group(1)


def point_4():
    for path, text in sources():
        for m in re.finditer(r"Some\((\w+)\) => Some\(|Some\(\w+\) => (\w+),\s*None => (?:&\[\]|None|0)", text):
            yield path, line_of(text, m.start()), "Option by hand: " + m.group(0).split("\n")[0]
        for m in re.finditer(r"self\.(\w+) == other\.\1 &&", text):
            yield path, line_of(text, m.start()), "equality by hand"
        for line, name, parameters, clauses, body in functions(text):
            if re.match(r"(from_(?!be|str)\w+|as_\w+_\w+|refusal|octet_of)$", name):
                yield path, line, "conversion by hand: " + name
            if re.search(r"(_line|_text|_start)$|^show", name) or name == "shown":
                yield path, line, "printing by hand: " + name


def point_5():
    facts, groups = {}, {}
    for path, text in sources():
        crate = path.split("/")[1]
        for line, name, parameters, clauses, body in functions(text):
            for clause in clauses:
                fact = re.sub(r"^(requires|ensures)( \w+)? ", "", clause)
                if clause.startswith("requires") or "IfOk result" in clause:
                    facts.setdefault((crate, fact), []).append((path, line, name))
            named = named_parameters(parameters)
            for pair in itertools.combinations(named, 2):
                groups.setdefault((crate, pair), []).append((path, line, name))
    for (crate, fact), places in facts.items():
        if len(places) > 2:
            yield places[0][0], places[0][1], f"{len(places)} contracts say {fact}"
    for (crate, pair), places in groups.items():
        if len(places) > 2:
            yield places[0][0], places[0][1], f"{len(places)} functions take {pair[0]}, {pair[1]}"


def point_6():
    for path, text in sources():
        for m in re.finditer(r"\bstruct (\w+)(<[^{]*>)? \{", text):
            body = re.sub(r"//.*|ghost.*", "", block(text, m.start()))
            arrays = re.findall(r"(\w+): \[([^;]+); (\w+)\]", body)
            counts = re.findall(r"\b(count|used|len|length): usize", body)
            if arrays and counts:
                yield path, line_of(text, m.start()), f"{m.group(1)}: {arrays[0][0]} with {counts[0]} beside"
            for (a, _, n), (b, _, k) in itertools.combinations(arrays, 2):
                if n == k or {n, k} == {"POOL_OCTETS", "BLOCKS"}:
                    yield path, line_of(text, m.start()), f"{m.group(1)}: {a} and {b} are parallel"
            for name, kind, _ in arrays:
                if kind in ("u16", "usize"):
                    yield path, line_of(text, m.start()), f"{m.group(1)}: {name} is an array of indices or counts"


def point_7():
    for path, text in sources():
        for m in re.finditer(r"\bmatch [^{]*\{", text):
            arms = re.findall(r"=>\s*\{?\s*(?:\w+\()*(?:Some|Ok|Err)?\(?(?:\w+(?:::|\.))*(\w+)\(", block(text, m.start()))
            if len(set(arms)) > 3:
                yield path, line_of(text, m.start()), "arms that call: " + ", ".join(arms)
        for m in re.finditer(r"\bfn\(|\bdyn \w+|Box<dyn", text):
            yield path, line_of(text, m.start()), m.group(0)


def point_8():
    top = os.path.dirname(os.path.dirname(os.path.abspath(__file__)))
    for crate in sorted(os.listdir(top + "/crates")):
        files = glob.glob(f"{top}/crates/{crate}/proofs/**/*.antt", recursive=True)
        if files:
            lines = sum(open(f).read().count("\n") for f in files)
            yield f"crates/{crate}/proofs", lines, f"{len(files)} files"


POINTS = {"1": point_1, "2": point_2, "3": point_3, "4": point_4, "5": point_5, "6": point_6, "7": point_7, "8": point_8}


def main():
    for name in sys.argv[1:] or POINTS:
        found = list(POINTS[name]())
        print(f"point {name}: {len(found)}")
        for path, line, what in found:
            print(f"  {path}:{line}: {what}")


main()
