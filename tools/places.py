#!/usr/bin/env python3
"""Counts, crate by crate, the places in src/ that docs/DESIGN-PASS.md speaks of: `python3 tools/places.py [-v POINT]`.

The points are those of that page; each count is by the text alone, so it says where to look, not what is wrong there.
"""
import collections
import pathlib
import re
import sys

ROOT = pathlib.Path(__file__).resolve().parent.parent
ABSENT = r"(None|Nothing|Not|Nil|Bad|End|Free|Unset|Unbounded|Refused|Malformed|Unknown|Declined|Broken|Short)"
NUMBERED = r"\b(cause|kind|why|refusal|refused|phase|mode|status|flag|flagged|answer): u(8|32)\b"
FLAGS = r"^\s+(pub )?(ok|known|begun|found|held|good|over|read|set|ordered|is|failed|unread|done): bool,"
SWITCH = r"\b(write|unset|second|last|from_init|lone|judge|[a-z_]*_only): bool\b"


def crates():
    for line in (ROOT / "crates.txt").read_text().splitlines():
        if line and not line.startswith("#"):
            yield re.split(r"[: ]", line)[0]


def sources(crate):
    for path in sorted((ROOT / "crates" / crate / "src").rglob("*.rt")):
        yield path, re.sub(r"//[^\n]*", "", path.read_text())


def line_of(text, at):
    return text.count("\n", 0, at) + 1


def hits(path, text, pattern):
    for m in re.finditer(pattern, text, re.M):
        yield path, line_of(text, m.start()), " ".join(m.group(0).split())[:90]


def functions(text):
    """Name, place, head, contract and body of each function."""
    for m in re.finditer(r"\bfn (\w+)(<[^>]*>)?\(", text):
        body = text.find("\n{", m.start())
        start = m.start()
        depth, at = 0, m.end() - 1
        while True:
            depth += {"(": 1, ")": -1}.get(text[at], 0)
            at += 1
            if depth == 0:
                break
        end_head = at
        # the body is the first brace that opens at a line's end or alone on a line
        b = re.compile(r"\{[ \t]*\n").search(text, end_head)
        if not b:
            continue
        depth, j = 0, b.start()
        while j < len(text):
            depth += {"{": 1, "}": -1}.get(text[j], 0)
            j += 1
            if depth == 0:
                break
        yield m.group(1), start, text[start:end_head], text[end_head:b.start()], text[b.start():j]


def enums(text):
    for m in re.finditer(r"\benum (\w+)[^{]*\{(.*?)\n\s*\}", text, re.S):
        inner = re.sub(r"\{[^{}]*\}", "{}", m.group(2))
        yield m.group(1), m.start(), re.findall(r"^\s*(\w+)\s*[({,=]", inner, re.M)


def own_shapes(path, text):
    for name, at, variants in enums(text):
        if len(variants) <= 3 and any(re.fullmatch(ABSENT, v) for v in variants):
            yield path, line_of(text, at), "enum " + name
    yield from hits(path, text, FLAGS)
    yield from hits(path, text, NUMBERED)


def shape(body):
    tokens = re.findall(r"\w+|[^\s\w]", body)
    keep = {"if", "else", "let", "mut", "match", "return", "while", "loop", "for", "in", "as", "true", "false"}
    names = {}
    return " ".join(t if t in keep or not re.match(r"\w", t) else names.setdefault(t, "x%d" % len(names)) for t in tokens), len(tokens)


def twins(path, text, seen):
    for name, at, head, _, body in functions(text):
        form, length = shape(body)
        if length >= 16:
            seen[form].append((path, line_of(text, at), "fn " + name))


def loops(path, text):
    yield from hits(path, text, r"^\s*('\w+: )?(while\b(?! let)|loop \{)|\bfor \w+ in 0\.\.")


def by_hand(path, text):
    yield from hits(path, text, r"\bas [ui](8|16|32|64|size)\b")
    yield from hits(path, text, r"\btext::\w+\(|errors::\w+\(")
    yield from hits(path, text, r"\bfn (same|equal|copy|less|order|compare|is_same)\w*\(")


def repeated_facts(crate, files):
    facts = collections.defaultdict(list)
    groups = collections.defaultdict(list)
    for path, text in files:
        for name, at, head, contract, _ in functions(text):
            seen = set()
            for clause in re.findall(r"requires\s*(?:\w+\s*)?\{(.*)\}", contract):
                for part in clause.split(" × "):
                    part = re.sub(r"\.(old|now)\b", "", part.strip(" ()"))
                    if len(part) > 8 and part not in seen:
                        seen.add(part)
                        facts[part].append((path, line_of(text, at), "%s: %s" % (name, part[:60])))
            names = re.findall(r"\b(\w+): ", head)
            for i in range(len(names) - 2):
                groups[tuple(names[i:i + 3])].append((path, line_of(text, at), "%s: %s" % (name, ", ".join(names[i:i + 3]))))
    out = []
    for found in list(facts.values()) + list(groups.values()):
        if len(found) >= 3:
            out += found
    return sorted(set(out), key=str)


def buffers(path, text):
    for name, at, head, _, _ in functions(text):
        parts = re.findall(r"(\w+): ([^,()]+(?:\([^)]*\))?)", head)
        names = [p[0] for p in parts]
        if {"times", "tags"} <= set(names):
            yield path, line_of(text, at), "fn %s: times, tags" % name
        if any("[" in p[1] for p in parts) and {"n", "count"} & set(names):
            yield path, line_of(text, at), "fn %s: a length beside a slice" % name


def switches(path, text):
    yield from hits(path, text, SWITCH)
    yield from hits(path, text, r"^\s*if \w+ == b\"[^\n]*|^\s*if (is|name_is|words::is)\([^\n]*b\"[^\n]*")


def proofs(crate):
    for path in sorted((ROOT / "crates" / crate / "proofs").rglob("*.antt")):
        if path.name != "Lib.antt":
            yield path, 1, "%d lines" % path.read_text().count("\n")


def places():
    table = {point: {} for point in range(1, 9)}
    for crate in crates():
        files = list(sources(crate))
        seen = collections.defaultdict(list)
        for path, text in files:
            twins(path, text, seen)
        each = {
            1: [h for f in files for h in own_shapes(*f)],
            2: [h for found in seen.values() if len(found) > 1 for h in found],
            3: [h for f in files for h in loops(*f)],
            4: [h for f in files for h in by_hand(*f)],
            5: repeated_facts(crate, files),
            6: [h for f in files for h in buffers(*f)],
            7: [h for f in files for h in switches(*f)],
            8: list(proofs(crate)),
        }
        for point, found in each.items():
            table[point][crate] = found
    return table


def main():
    table = places()
    if len(sys.argv) == 3 and sys.argv[1] == "-v":
        for crate, found in table[int(sys.argv[2])].items():
            for path, line, what in found:
                print("%s:%d: %s" % (path.relative_to(ROOT), line, what))
        return
    print("%-18s" % "crate" + "".join("%6d" % point for point in table))
    for crate in crates():
        print("%-18s" % crate + "".join("%6d" % len(table[point][crate]) for point in table))
    print("%-18s" % "all" + "".join("%6d" % sum(len(f) for f in table[point].values()) for point in table))


if __name__ == "__main__":
    main()
