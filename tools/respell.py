#!/usr/bin/env python3
"""Brings the names that this repository's definitions and lemmas have to today's spelling: words in snake case, types in
camel case. Run once, at the top, after the kit's own port.py; it rewrites specs/, proofs/, the clauses of src/ and docs.

    python3 tools/respell.py           rewrites
    python3 tools/respell.py --list    prints the names, old and new, and those that would fall together
"""
import glob
import re
import sys

SPLIT = re.compile(r"([\s(){}\[\];,.`\"|]+)")
DEFINES = re.compile(r"^\s*(?:pub |abbrev |unfoldable )*(?:record |data |ruleset )?([^\s(){}\[\];,.:]+)(?: :|\s*[({].*[)}] :)")
# a goal of a function, which Rattle names
GOAL = re.compile(r":\s*(?:goal|need|given)\.")
USES = re.compile(r"^\s*(?:ghost )?(?:pub )?use ([^{]+)\{([^}]*)\}")
OWN = set(p.split("/")[1] for p in glob.glob("crates/*/"))


def antt():
    return sorted(glob.glob("crates/*/specs/**/*.antt", recursive=True) + glob.glob("crates/*/proofs/**/*.antt", recursive=True))


def text(path):
    with open(path, encoding="utf-8") as f:
        return f.read()


def defined():
    names = {}
    for path in antt():
        for line in text(path).split("\n"):
            if line.lstrip().startswith(("--", "use ", "let ", "pub use ")) or GOAL.search(line):
                continue
            found = DEFINES.match(line)
            if found:
                names.setdefault(found.group(1), set()).add(path)
    return names


def spelled(name):
    """The name in today's spelling: a dash stays beside an operator."""
    if not re.fullmatch(r"[A-Za-z0-9_'-]+", name):
        return name
    if name[0].isupper():
        return "".join(w[:1].upper() + w[1:] for w in name.split("-"))
    name = name.replace("getD", "get_or").replace("-", "_")
    return re.sub(r"(?<=[a-z0-9])([A-Z])", lambda m: "_" + m.group(1).lower(), name)


def imported(body):
    """The names that a file has from libraries of the kit."""
    names = set()
    for line in body.split("\n"):
        found = USES.match(line)
        if found:
            parts = found.group(1).strip().rstrip(".").split(".")
            if not (parts[0] == "Rattle" and len(parts) > 1 and parts[1] in OWN):
                for n in found.group(2).split(","):
                    names.add(n.split(" as ")[-1].strip())
                    names.add(n.split(" as ")[0].strip())
    return names


def turned(body, names, skip):
    out = []
    for piece in SPLIT.split(body):
        out.append(names[piece] if piece in names and piece not in skip else piece)
    return "".join(out)


def turned_source(body, names, skip):
    """Clauses and imports of a source file; comments and strings stay."""
    lines = []
    for line in body.split("\n"):
        at = line.find("//")
        code, rest = (line, "") if at < 0 else (line[:at], line[at:])
        parts = re.split(r'("(?:[^"\\]|\\.)*")', code)
        lines.append("".join(p if p.startswith('"') else turned(p, names, skip) for p in parts) + rest)
    return "\n".join(lines)


def main():
    names = {n: spelled(n) for n in defined() if spelled(n) != n}
    tokens = {}
    for path in antt():
        for token in set(SPLIT.split(text(path))):
            tokens.setdefault(token, set()).add(path)
    if "--list" in sys.argv[1:]:
        whose = defined()
        back = {}
        for old, new in sorted(names.items()):
            print(old, new)
            back.setdefault(new, []).append(old)
        for new, olds in sorted(back.items()):
            if len(olds) > 1:
                print("fall together:", *olds)
            if new in tokens:
                both = tokens[new] & set().union(*(tokens.get(o, set()) for o in olds))
                print("stands already:", new, "(own)" if new in whose else "", *sorted(tokens[new])[:3], "| in one file:", *sorted(both)[:5])
        return
    for path in antt():
        body = text(path)
        new = turned(body, names, imported(body))
        if new != body:
            open(path, "w", encoding="utf-8").write(new)
    for path in glob.glob("crates/*/src/**/*.rt", recursive=True):
        body = text(path)
        new = turned_source(body, names, imported(body))
        if new != body:
            open(path, "w", encoding="utf-8").write(new)
    for path in ["README.md"] + glob.glob("docs/*.md"):
        body = text(path)
        new = re.sub(r"`[^`\n]+`", lambda m: turned(m.group(0), names, set()), body)
        if new != body:
            open(path, "w", encoding="utf-8").write(new)


main()
