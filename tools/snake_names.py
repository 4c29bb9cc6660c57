#!/usr/bin/env python3
"""Brings the names that this repository's specs/ and proofs/ define to snake case (types and facts: camel case).

usage: python3 tools/snake_names.py [--dry] [FOLDER]

It was run once, right after the kit's script that turns an older repository, when the repository moved to
rattle-kit-13f: docs/PORT.md. It changes .antt files and, in .rt files, imports, clauses, ghost members and
comments. Functions of src/, strings, inputs and outputs keep their names. It refuses to write where two names would
fall together; `OTHERWISE` has the names for which plain snake case would.
"""
import os
import re
import sys

# old name -> new name, where plain snake case is taken: by another name of the same file, a field or a parameter.
OTHERWISE = {
    "bindingSize": "binding_size_of",
    "dynamicOffset": "dynamic_offset_of",
    "indexLimit": "index_limit_of",
    "buffer-at": "buffer_at_lem",
    "line-text": "line_text_lem",
    "lines-text": "lines_text_lem",
    "place-words": "place_words_lem",
    "recorded-all": "recorded_all_lem",
    "source-at": "source_at_lem",
    "source-cell": "source_cell_lem",
    "source-count": "source_count_lem",
    "from-instance": "from_instance_lem",
}
PARAMETERS = {"fromInstance"}  # of a module
# The kit's script had turned this lemma's name to the one that the definition beside it takes now.
FIELDS = {"currentDestination", "currentMetadata"}  # fields of a record, beside fields of src/
LEMMAS = {
    "crates/batcher/proofs/Pushing.antt": {"same_key": "same_key_lem"},
    "crates/batcher/proofs/Holding.antt": {"same_key": "same_key_lem"},
}
TOKEN = re.compile(r"[^\s(){}\[\],;.«»:]+")
FUNCTIONS = set()
GENERATED = {"Answers.antt", "Choices.antt", "Invariants.antt", "Proof.antt"}
DEFINES = re.compile(r"^\s*((?:abbrev |pub |unfoldable |data |record |ruleset )*)([^\s:(){}=,;.]+)\s*(?:\{[^}]*\}\s*)?:(?!=)\s*(.*)$")


def texts(root, ending):
    for folder, dirs, files in os.walk(os.path.join(root, "crates")):
        dirs[:] = sorted(d for d in dirs if d not in ("out", "must-fail"))
        for f in sorted(files):
            if f.endswith(ending):
                yield os.path.join(folder, f)


def snake(name):
    if name in OTHERWISE:
        return OTHERWISE[name]
    if re.match(r"^[a-z]", name):
        name = re.sub(r"([a-z0-9])([A-Z])(?=[a-z0-9]|$|-|')", lambda m: m[1] + "_" + m[2].lower(), name)
        return re.sub(r"-(?=[a-zA-Z0-9])", "_", name)
    return "".join(w[:1].upper() + w[1:] for w in name.split("-"))


def code(line):
    return line.split("--", 1)[0]


def defined(root):
    names = {name: set() for name in PARAMETERS}
    for path in texts(root, ".antt"):
        generated = os.path.basename(path) in GENERATED
        with open(path, encoding="utf-8") as f:
            for line in f:
                m = DEFINES.match(code(line))
                if not m or m[2] in ("use", "in", "let") or (generated and m[3].startswith("goal.")):
                    continue
                new = snake(m[2])
                if new != m[2]:
                    names.setdefault(m[2], set()).add(path)
    return names


def turned(text, names, lemmas=None):
    return TOKEN.sub(lambda m: (lemmas or {}).get(m[0]) or (snake(m[0]) if m[0] in names else m[0]), text)


def turn_antt(text, names, lemmas=None):
    out = []
    for line in text.split("\n"):
        if re.match(r"\s*use Rattle\.(std|core|std_\w+)\.", line):
            out.append(line)
            continue
        at = line.find("--")
        if at < 0:
            out.append(turned(line, names, lemmas))
        else:
            out.append(turned(line[:at], names, lemmas) + camel_only(line[at:], names))
    return "\n".join(out)


def own_name(text):
    """The library's `AllByRecursion` under its own name: the gate takes no other for it."""
    if "AllByRecursion as All" not in text:
        return text
    out = []
    for line in text.replace("AllByRecursion as All", "AllByRecursion").split("\n"):
        at = line.find("--")
        at = len(line) if at < 0 else at
        out.append(TOKEN.sub(lambda m: "AllByRecursion" if m[0] == "All" else m[0], line[:at]) + line[at:])
    return "\n".join(out)


def camel_only(comment, names):
    """In prose only camel case is surely a name."""
    return re.sub(r"[A-Za-z][A-Za-z0-9]*", lambda m: snake(m[0]) if m[0] in names and re.search(r"[a-z][A-Z]", m[0]) else m[0], comment)


def strings(line):
    return [(m.start(), m.end()) for m in re.finditer(r'"(?:\\.|[^"\\])*"', line)]


def turn_rt(text, names):
    """Ghost text: imports, clauses, ghost members, and comments."""
    out = []
    deep = 0
    for line in text.split("\n"):
        comment = ""
        at = line.find("//")
        if at >= 0 and not any(a <= at < b for a, b in strings(line)):
            line, comment = line[:at], line[at:]
        if deep == 0 and re.match(r"\s*(ghost use|pub ghost use)\b", line):
            line = line if "Rattle.std." in line else turned(line, names)
            if "{" in line and "}" not in line:
                deep = 1
        elif deep == 0 and re.match(r"\s*(requires|ensures)\b|\s*ghost \w+\s*[:=]", line):
            m = re.match(r"\s*(?:requires|ensures)\*?\s*\w*\s*|\s*ghost \w+\s*[:=]", line)
            head, rest = line[: m.end()], line[m.end() :]
            line = head + turned(rest, names)
            deep = rest.count("{") - rest.count("}")
        elif deep > 0:
            line = turned(line, names)
            deep += line.count("{") - line.count("}")
        out.append(line + camel_only(comment, names))
    return "\n".join(out)


def ghost_tokens(path, text):
    if path.endswith(".antt"):
        return set(t for line in text.split("\n") for t in TOKEN.findall(code(line)))
    return set(re.findall(r"[A-Za-z_][A-Za-z0-9_']*", re.sub(r"//.*", "", text)))


def is_function(root, name):
    """A definition may have the name of a function of src/: a clause never means the function."""
    if not FUNCTIONS:
        for path in texts(root, ".rt"):
            with open(path, encoding="utf-8") as f:
                FUNCTIONS.update(re.findall(r"\bfn (\w+)", f.read()))
    return name in FUNCTIONS


def main(argv):
    dry = "--dry" in argv
    rest = [a for a in argv if a != "--dry"]
    root = rest[0] if rest else "."
    names = defined(root)
    bad = []
    new_of = {}
    for old in names:
        new_of.setdefault(snake(old), set()).add(old)
    for new, olds in sorted(new_of.items()):
        if len(olds) > 1:
            bad.append(f"two names become {new}: {', '.join(sorted(olds))}")
    changed = {}
    for path in list(texts(root, ".antt")) + list(texts(root, ".rt")):
        with open(path, encoding="utf-8") as f:
            text = f.read()
        lemmas = {old: new for old, new in LEMMAS.get(os.path.relpath(path, root), {}).items() if new not in text}
        new = own_name(turn_antt(text, names, lemmas)) if path.endswith(".antt") else turn_rt(text, names)
        if new == text:
            continue
        before, after = ghost_tokens(path, text), ghost_tokens(path, new)
        for old in sorted(before & set(names)):
            if snake(old) in before and old not in after and snake(old) not in lemmas and old not in FIELDS and not is_function(root, snake(old)):
                bad.append(f"{path}: {old} becomes {snake(old)}, which stands there already")
        changed[path] = new
    for b in bad:
        print("together: " + b)
    print(f"{len(names)} names, {len(changed)} files" + ("" if not dry else ", nothing written"))
    if bad and not dry:
        print("nothing written")
        return 1
    if not dry:
        for path, new in changed.items():
            with open(path, "w", encoding="utf-8") as f:
                f.write(new)
    return 0


if __name__ == "__main__":
    raise SystemExit(main(sys.argv[1:]))
