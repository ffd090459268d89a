#!/usr/bin/env python3
"""Prints places of crates/*/src that docs/DESIGN-PASS.md counts.

twins     functions and types of one shape: equal, or nearly so, once names, numbers and types are put aside
facts     facts that stand in the contracts of three functions or more
together  parameters that three functions or more have together
"""
import difflib, itertools, pathlib, re, sys

ROOT = pathlib.Path(__file__).resolve().parent.parent
WORDS = set("fn pub let mut if else match while loop for in return struct enum impl self Self as const true false break ref move use".split())
TOKEN = re.compile(r"[A-Za-z_][A-Za-z_0-9]*|0x[0-9A-Fa-f_]+|[0-9][0-9_a-z]*|\"[^\"]*\"|'[^']*'|b\"[^\"]*\"|[^\sA-Za-z0-9_]")


def sources():
    for path in sorted(ROOT.glob("crates/*/src/**/*.rt")):
        if path.name == "entries.rt":
            continue
        yield path.relative_to(ROOT), re.sub(r"//[^\n]*", "", path.read_text())


def closed(text, start, pair="{}"):
    """The place after the bracket that closes the one at start."""
    depth = 0
    for i in range(start, len(text)):
        depth += {pair[0]: 1, pair[1]: -1}.get(text[i], 0)
        if depth == 0:
            return i + 1
    return len(text)


def functions():
    """Each function: its file, name, parameters, clauses and body."""
    for path, text in sources():
        for found in re.finditer(r"\bfn (\w+)(<(?:[^()]|\([^()]*\))*?>)?\(", text):
            opened = found.end() - 1
            end = closed(text, opened, "()")
            parameters = [re.sub(r"\s+", " ", p).strip() for p in re.split(r",(?![^<\[(]*[>\])])", text[opened + 1 : end - 1])]
            clauses, at = [], end
            while True:
                more = re.compile(r"(?:[^{;\[]|\[[^\]]*\])*?\b(requires|ensures)\b[^{]*").match(text, at)
                if not more or text[more.end() : more.end() + 1] != "{":
                    break
                at = closed(text, more.end())
                clauses.append(re.sub(r"\s+", " ", text[more.end() + 1 : at - 1]).strip())
            body = text.find("{", at)
            if ";" in re.sub(r"\[[^\]]*\]", "", text[at:body]) and not clauses:
                continue
            yield path, found.group(1), [p for p in parameters if p], clauses, text[body : closed(text, body)]


def shape(body):
    return tuple(t if t in WORDS or not (t[0].isalnum() or t[0] in "_\"'") else "x" for t in TOKEN.findall(body))


def types():
    for path, text in sources():
        for found in re.finditer(r"\b(struct|enum) (\w+)[^;{]*[;{]", text):
            end = closed(text, found.end() - 1) if text[found.end() - 1] == "{" else found.end()
            yield path, found.group(2), text[found.start() : end]


def alike(a, b):
    return a == b or min(len(a), len(b)) > 24 and difflib.SequenceMatcher(None, a, b, False).ratio() > 0.92


def twins():
    shapes = [(f"{path.parts[1]}::{name}", shape(body)) for path, name, _, _, body in functions() if len(shape(body)) > 16]
    shapes += [(f"{path.parts[1]}::{name}", shape(text)) for path, name, text in types()]
    groups = []
    for name, one in shapes:
        group = next((g for g in groups if any(alike(one, other) for _, other in g)), None)
        groups.append([(name, one)]) if group is None else group.append((name, one))
    return sorted(", ".join(name for name, _ in group) for group in groups if len(group) > 1)


def facts():
    stand = {}
    for path, name, _, clauses, _ in functions():
        if path.parts[1] == "drive":
            continue
        for fact in {fact.strip(" ()") for clause in clauses for fact in clause.split("×")}:
            stand.setdefault(fact, []).append(f"{path.parts[1]}::{name}")
    return sorted(f"{fact}: {', '.join(names)}" for fact, names in stand.items() if len(names) > 2)


def together():
    have = {}
    for path, name, parameters, _, _ in functions():
        if path.parts[1] != "drive":
            have[f"{path.parts[1]}::{name}"] = frozenset(re.sub(r"\bmut (?=\w+:)", "", p) for p in parameters if ":" in p)
    sets = {a & b for a, b in itertools.combinations(have.values(), 2) if len(a & b) > 1}
    rows = []
    for one in sets:
        names = sorted(name for name, parameters in have.items() if one <= parameters)
        if len(names) > 2:
            rows.append((names, sorted(one)))
    return sorted(f"{'; '.join(one)}: {', '.join(names)}" for names, one in rows)


for word in sys.argv[1:] or ["twins", "facts", "together"]:
    rows = {"twins": twins, "facts": facts, "together": together}[word]()
    print(f"{word}: {len(rows)}")
    for row in rows:
        print("  " + row)
