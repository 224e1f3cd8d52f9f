#!/usr/bin/env python3
"""Brings the repository's own names to the toolchain's spelling, once, after port.py: definitions, constructors and record fields in
snake case. A lemma keeps the dashes that join the names in it. Names of Rattle source are left alone.

usage: python3 tools/respell.py            at the top of the repository
       python3 tools/respell.py --list     only says what it would do, and which names fall together
"""

import os
import re
import sys

# a name that would fall together with one of Rattle source or of the library gets another one
OTHERWISE = {
    "bucket-checks": "bucket_numbered",
    "settings-checks": "settings_numbered",
    "former-checks": "former_numbered",
    "tag-checks": "tag_numbered",
    "view-checks": "view_numbered",
    "clear-table": "clear_for_table",
    "fileLength": "length_of_file",
    "packedLength": "length_of_packed",
    "afterMap": "settings_after_map",
    "afterMap4": "settings_after_map4",
    "inOrder": "first_in_order",
    "hold-is": "hold_answers",
    "leftOver": "bytes_left_over",
    "powerBelow": "is_power_below",
}

WORD = r"[\w'₀-₉·\-]"
DECLARED = re.compile(r"^(\s*)((?:abbrev|unfoldable|opaque)\s+)?(pub\s+)?(data\s+|record\s+)?([^\s:()|=.{},]+)\s*(?:\(.*\)\s*)?:\s")
CLAUSE = re.compile(r"^\s*(requires|ensures)\b")


def antt_files():
    for folder, dirs, files in os.walk("crates"):
        dirs[:] = sorted(d for d in dirs if d != "out")
        for f in sorted(files):
            if f.endswith(".antt"):
                yield os.path.join(folder, f)


def source_files():
    for folder, dirs, files in os.walk("crates"):
        dirs[:] = sorted(d for d in dirs if d != "out")
        for f in sorted(files):
            if f.endswith(".rt"):
                yield os.path.join(folder, f)


def others():
    """The must-fail edits, and the pages, where only what stands in backticks is turned."""
    for folder, dirs, files in os.walk("."):
        dirs[:] = sorted(d for d in dirs if d not in ("out", "target", ".git"))
        for f in sorted(files):
            if f.endswith((".edit", ".md")):
                yield os.path.join(folder, f)


def read(path):
    with open(path, encoding="utf-8") as f:
        return f.read()


def declared():
    """Each name that an .antt file declares, and whether a file of specs/ does."""
    names = {}
    for path in antt_files():
        if "/proofs/" in path and os.path.basename(path) in ("Proof.antt", "Answers.antt", "Invariants.antt"):
            continue
        for line in read(path).splitlines():
            m = DECLARED.match(line)
            if m and m.group(5) not in ("--", "let", "where", "_"):
                names[m.group(5)] = names.get(m.group(5), False) or "/specs/" in path
    return names


def snake(name):
    return re.sub(r"([a-z0-9])([A-Z])", lambda m: m.group(1) + "_" + m.group(2).lower(), name)


def turned(name, in_specs):
    if not name[0].islower():
        return name
    # parts that are types keep their capital, as in a lemma on one
    parts = [snake(p) if p and p[0].islower() else p for p in name.split("-")]
    return ("_" if in_specs else "-").join(parts)


def clauses(text):
    """The text of a source file, in pieces: (is ghost, piece). Ghost are `ghost use` lines and clauses."""
    out, ghost, depth = [], False, 0
    for line in text.splitlines(keepends=True):
        if not ghost:
            if line.lstrip().startswith("ghost "):
                ghost = True
                ends = "use" if line.lstrip().startswith("ghost use") else "brace"
            elif CLAUSE.match(line):
                ghost, ends = True, "brace"
        out.append((ghost, line))
        if ghost:
            depth += line.count("{") - line.count("}")
            if depth <= 0 and (ends == "brace" or ";" in line):
                ghost, depth = False, 0
    return out


def main(argv):
    names = declared()
    table = {}
    for name, in_specs in names.items():
        to = OTHERWISE.get(name) or turned(name, in_specs)
        if to != name:
            table[name] = to
    for path in list(antt_files()) + list(source_files()):
        for line in read(path).splitlines():
            if re.match(r"^(ghost )?use ", line):
                for name in re.findall(r" as ([a-z][\w]*)", line):
                    if turned(name, True) != name:
                        table[name] = turned(name, True)
    tokens = set()
    for path in antt_files():
        tokens |= set(re.findall(WORD + "+", read(path)))
    items = set()
    for path in source_files():
        items |= set(re.findall(r"\b(?:fn|const|mod) (\w+)", read(path)))
    if "--list" in argv:
        for name, to in sorted(table.items()):
            notes = [n for n, there in (("used", to in tokens), ("item", to in items), ("twice", list(table.values()).count(to) > 1)) if there]
            print(name, to, *notes)
        return 0
    one = re.compile("(?<!" + WORD + ")(" + "|".join(re.escape(n) for n in sorted(table, key=len, reverse=True)) + ")(?!" + WORD + ")")
    said = lambda t: one.sub(lambda m: table[m.group(1)], t)
    for path in antt_files():
        text = read(path)
        # comments too: they name the definitions
        new = said(text)
        if new != text:
            with open(path, "w", encoding="utf-8") as f:
                f.write(new)
    for path in source_files():
        text = read(path)
        new = "".join(said(piece) if ghost else piece for ghost, piece in clauses(text))
        if new != text:
            with open(path, "w", encoding="utf-8") as f:
                f.write(new)
    for path in others():
        text = read(path)
        new = said(text) if path.endswith(".edit") else re.sub(r"`[^`\n]+`", lambda m: said(m.group(0)), text)
        if new != text:
            with open(path, "w", encoding="utf-8") as f:
                f.write(new)
    print(f"respell: {len(table)} names")
    return 0


if __name__ == "__main__":
    raise SystemExit(main(sys.argv[1:]))
