#!/usr/bin/env python3
"""Brings the names of this repository's own definitions and lemmas to the spelling of Rattle's library: words in snake case, a dash
only beside a type's name or an operator, or between two names of the library, and an apostrophe for a prime.

usage: python3 tools/respell.py [--list]     at the top of the repository; --list prints old and new name of each, and changes nothing

Run once, after port.py. It renames what .antt files of this repository declare, wherever it is named: in .antt files, in the
clauses of .rt files, in must-fail edits and, between backquotes, in comments and pages.
"""

import os
import re
import sys

MODIFIERS = r"(?:(?:pub|abbrev|unfoldable|unfold|data|record|infixl|infixr|infix)\s+)*"
NAME = r"[^\s(){}.;,:«»`]+"
SIGNATURE = re.compile(rf"^(\s*)({MODIFIERS})({NAME}(?:\s+{NAME})*)\s+:(?:\s|$)")
FUNCTION = re.compile(rf"^(?:abbrev|unfoldable)\s+(?:pub\s+)?({NAME})\s+:")
TYPE = re.compile(rf"^\s*(?:pub\s+)?(?:data|record)\s+({NAME})")
# parts that are names of the library: between two names a dash stays
LIBRARY = {"length", "take", "drop", "append", "map", "get_or", "set", "cond", "eqb", "leb", "ltb", "reverse", "replicate"}


def files(root, ending, below="crates"):
    for folder, dirs, names in os.walk(os.path.join(root, below)):
        dirs[:] = sorted(d for d in dirs if d not in ("out", ".git"))
        for name in sorted(names):
            if name.endswith(ending):
                yield os.path.join(folder, name)


def read(path):
    with open(path, encoding="utf-8") as f:
        return f.read()


def is_walk(path):
    return os.path.basename(path) in ("Proof.antt", "Answers.antt", "Invariants.antt")


def declared(root):
    """Names that are declared, those of them that are defined by equations that others read, and types."""
    names, functions, types, fields = {}, set(), set(), set()
    for path in files(root, ".antt"):
        inside = None
        for line in read(path).split("\n"):
            if line.strip().startswith("--") or line.strip().startswith("use ") or line.strip().startswith("pub use "):
                continue
            t = TYPE.match(line)
            if t:
                types.add(t.group(1))
                inside = line
                continue
            m = SIGNATURE.match(line)
            if not m:
                if line and not line[0].isspace():
                    inside = None
                continue
            if not m.group(1) and not re.match(r"^(pub|abbrev|unfoldable)?\s*(data|record)", line):
                inside = None
            if is_walk(path) and re.search(r"\b(tie|goal)\.", line):
                continue
            for name in m.group(3).split():
                names.setdefault(name, path)
                if inside and re.search(r"\brecord\b", inside):
                    fields.add(name)
                elif inside or "/specs/" in path:
                    functions.add(name)
            f = FUNCTION.match(line)
            if f:
                functions.add(f.group(1))
    return names, functions, types, fields


def snake(part):
    """camelCase to snake_case; what begins with a capital is a type's name and stays."""
    if not part or not part[0].islower():
        return part
    return re.sub(r"(?<=[a-z0-9])([A-Z])(?![A-Z])", lambda m: "_" + m.group(1).lower(), part)


def new_name(name, functions, types, fields):
    base = name.replace("′", "'")
    parts = base.split("-")
    if len(parts) == 1 or base.startswith("-") or "◌" in base:
        return snake(base)

    def is_type(part):
        return not part[:1].isalnum() or part[0].isupper()

    out = snake(parts[0])
    for before, after in zip(parts, parts[1:]):
        joins = name not in fields and (is_type(before) or is_type(after) or before in LIBRARY and after in LIBRARY)
        out += ("-" if joins else "_") + snake(after)
    return out


TOKEN = re.compile(r"(?<![\w.])(?:[^\s(){}.;,«»`\"]+)|(?<=\.)[^\s(){}.;,«»`\"]+")


def renamed(text, table):
    """A name behind a dot is a field, a constructor or a part of a path: a snake name there may be Rust's, and stays."""

    def to(m):
        name = m.group(0)
        after_dot = m.start() > 0 and text[m.start() - 1] == "."
        if after_dot and "_" in name and "-" not in name:
            return name
        return table.get(name, name)

    return TOKEN.sub(to, text)


def in_backquotes(text, table):
    return re.sub(r"`[^`\n]+`", lambda m: renamed(m.group(0), table), text)


def turned(path, text, table):
    mark = "//" if path.endswith(".rt") else "#" if path.endswith(".edit") else "--"
    camel = {a: b for a, b in table.items() if "-" not in a and "_" not in a}
    if path.endswith(".rt") or path.endswith(".edit") and "\nfile: src/" in "\n" + text:
        table = camel
    if path.endswith(".md"):
        return in_backquotes(text, {a: b for a, b in table.items() if a in camel or "-" in a})
    lines = []
    for line in text.split("\n"):
        if line.strip().startswith(mark):
            lines.append(in_backquotes(line, table))
            continue
        if path.endswith(".rt"):
            lines.append(renamed(line, table))
            continue
        lines.append(renamed(line, table).replace("′", "'"))
    return "\n".join(lines)


def table_of(names, functions, types, fields):
    """New names by old ones. Where several would have one name, a definition keeps it, and a lemma gets `_lem` after it. Fields have names of their own."""
    table = {o: new_name(o, functions, types, fields) for o in fields}
    together = {}
    for name in set(names) - fields:
        together.setdefault(new_name(name, functions, types, fields), []).append(name)
    for to, origins in sorted(together.items()):
        origins.sort(key=lambda o: (o not in functions, o))
        definitions = [o for o in origins if o in functions] or origins[:1]
        if len(definitions) > 1:
            print("two definitions fall together:", to, "<-", ", ".join(f"{o} ({names[o]})" for o in definitions))
        others = [o for o in origins if o not in definitions]
        if len(others) > 1:
            print("two lemmas fall together:", to, "<-", ", ".join(f"{o} ({names[o]})" for o in others))
        for o in definitions:
            table[o] = to
        for o in others:
            table[o] = to + "_lem"
    return {o: to for o, to in table.items() if o != to}


def main(argv):
    root = os.getcwd()
    names, functions, types, fields = declared(root)
    table = table_of(names, functions, types, fields)
    if argv[1:] == ["--list"]:
        for name, to in sorted(table.items()):
            print(name, to)
        return 0
    pages = [os.path.join(root, "README.md")] + [p for p in files(root, ".md", "docs") if os.path.basename(p) != "PORT.md"]
    for path in [*files(root, ".antt"), *files(root, ".rt"), *files(root, ".edit"), *pages]:
        text = read(path)
        to = turned(path, text, table)
        if to != text:
            with open(path, "w", encoding="utf-8") as f:
                f.write(to)
    print(f"respell: {len(table)} names")
    return 0


if __name__ == "__main__":
    raise SystemExit(main(sys.argv))
