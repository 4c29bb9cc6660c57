#!/usr/bin/env python3
"""Lists the places in crates/*/src that docs/DESIGN-PASS.md counts, point by point.

    python3 tools/design_places.py            how many, for each point
    python3 tools/design_places.py 3          the places of point 3, one a line
"""
import collections
import difflib
import glob
import re
import sys

FILES = sorted(glob.glob("crates/*/src/**/*.rt", recursive=True))
TEXT = {f: open(f).read() for f in FILES}


def lines(pattern, where=lambda f: True):
    found = []
    for f in FILES:
        if where(f):
            for n, line in enumerate(TEXT[f].splitlines(), 1):
                if re.search(pattern, line) and not line.lstrip().startswith(("//", "ghost", "use ", "ensures", "requires")):
                    found.append(f"{f}:{n}: {line.strip()}")
    return found


def functions():
    """Every function: its file, line, name, parameters, result, clauses and body."""
    for f in FILES:
        text = TEXT[f]
        for m in re.finditer(r"^( *)(?:pub(?:\(\w+\))? )?(?:extern \"C\" )?fn (\w+)[^(]*\(", text, re.M):
            depth, i = 1, m.end()
            while depth:
                depth += {"(": 1, ")": -1}.get(text[i], 0)
                i += 1
            params = text[m.end():i - 1]
            rest = text[i:]
            end = re.search(rf"^{m.group(1)}\}}|;$|^{m.group(1)}\{{\}}", rest, re.M)
            rest = rest[:end.end()] if end else rest
            head, _, body = rest.partition(f"\n{m.group(1)}{{\n")
            if not body:
                head, _, body = rest.partition("{")
                if "requires" in rest or "ensures" in rest:
                    body = ""
                    head = rest
            line = text[:m.start()].count("\n") + 1
            yield f, line, m.group(2), params, head, body


def point1():
    found = lines(r"\b(kind|mode|code|pipeline|present|state|status|bytes)\b: u(8|16|32|64)\b")
    found += lines(r"^    (pub(\(crate\))? )?\w+: bool,$")
    for f, line, name, params, head, body in functions():
        result = head.split("\n")[0]
        if re.search(r"-> (u8|u32)\b", result) and re.search(r"status|number|code|jorumspit", name):
            found.append(f"{f}:{line}: fn {name}{result}")
        if re.search(r"Result<(bool|.*, u(8|16|32|64))", result):
            found.append(f"{f}:{line}: fn {name}{result}")
        if "&mut" in params and re.search(r"-> bool", result):
            found.append(f"{f}:{line}: fn {name}{result}")
    return found


def point2():
    shapes = []
    for f, line, name, params, head, body in functions():
        tokens = re.findall(r"\w+|[^\w\s]", body)
        names = {}
        shape = [t if not re.match(r"\w", t) or t in KEYWORDS else names.setdefault(t, "x") for t in tokens]
        if len(shape) >= 24:
            shapes.append((f, line, name, shape))
    found = []
    for i, (f, line, name, shape) in enumerate(shapes):
        for g, other, twin, same in shapes[i + 1:]:
            if difflib.SequenceMatcher(None, shape, same, autojunk=False).ratio() >= 0.88 and abs(len(shape) - len(same)) <= 6:
                found.append(f"{f}:{line}: {name} and {g}:{other}: {twin}")
    return found


KEYWORDS = {"let", "mut", "if", "else", "match", "for", "in", "return", "Ok", "Err", "Some", "None", "self", "as", "while"}


def point3():
    return lines(r"\bfor \w+ in [\w.]+\.\.|\.enumerate\(\)|\bwhile\b|\bloop \{")


def point4():
    found = lines(r"\bas (u8|u16|u32|u64|usize|u128)\b")
    found += lines(r"^ *write!\(|= write!\(| write!\($")
    for f, line, name, params, head, body in functions():
        if re.search(r"^(is|code|number|words|family|empty|use_from|raw_step|is_of|is_digit|number_below)$|^from_(?!le)|^to_|_of$|^read_(range|step)$|^byte_size$", name):
            found.append(f"{f}:{line}: fn {name}")
    return found


def point5():
    groups = collections.defaultdict(list)
    facts = collections.defaultdict(list)
    for f, line, name, params, head, body in functions():
        names = [p.split(":")[0].strip() for p in re.split(r",\s*(?![^<]*>)", params) if ":" in p]
        for i in range(len(names)):
            for k in (3, 4, 5):
                if i + k <= len(names):
                    groups[tuple(names[i:i + k])].append(f"{f}:{line} {name}")
        for fact in re.findall(r"requires ?\w* \{ (.*) \}", head):
            facts[re.sub(r"\b(old|now|new)\b", "_", fact)].append(f"{f}:{line} {name}")
    found = []
    kept = [g for g in groups if len(groups[g]) >= 3]
    for g in kept:
        if not any(set(g) < set(h) and len(groups[h]) >= len(groups[g]) for h in kept):
            found.append(f"parameters {', '.join(g)}: {len(groups[g])} functions: {'; '.join(groups[g])}")
    for fact, where in facts.items():
        if len(where) >= 3:
            found.append(f"fact {fact}: {len(where)} functions: {'; '.join(where)}")
    return found


def point6():
    return lines(r"^    (pub(\(\w+\))? )?(\w+): \[.*; ?\w+\],$") + lines(r"^    (pub(\(\w+\))? )?(len|count|depth|made|blocks|source_count|draws|batches): (usize|u64),$") + lines(r"let mut (found|count)\w*: usize")


def point7():
    return lines(r"\bdyn \w|Box<|: fn\(|-> fn\(|impl Fn|FnOnce|FnMut|match (command|step)\b")


def point8():
    counted = collections.Counter()
    for f in glob.glob("crates/*/proofs/**/*.antt", recursive=True):
        counted[f.split("/")[1]] += sum(1 for _ in open(f))
    return [f"{crate}: {n} lines of proofs" for crate, n in sorted(counted.items())]


POINTS = [point1, point2, point3, point4, point5, point6, point7, point8]

if __name__ == "__main__":
    if len(sys.argv) > 1:
        print("\n".join(POINTS[int(sys.argv[1]) - 1]()))
    else:
        for n, point in enumerate(POINTS, 1):
            print(f"point {n}: {len(point())}")
