#!/usr/bin/env python3
"""Respells this repository's own definitions and lemmas: words in snake case, types and facts in camel case.

usage: python3 tools/respell.py [ROOT]     once, after the kit's port.py, over ROOT (this repository)

respelled.txt, beside this script, has a line OLD NEW for each name. Names are replaced as whole tokens: in .antt files
everywhere but in strings, in .rt files in ghost lines and clauses, in must-fail edits of .antt files. Comments follow only where the
name could be no English word. Strings, inputs, outputs, and names of the code and of generated goals stay.
"""
import os
import re
import sys

HERE = os.path.dirname(os.path.realpath(__file__))
TOKEN = re.compile(r'"(?:[^"\\]|\\.)*"|[^\s(){}\[\];,.:λ∷«»@"`]+')
HEADER = re.compile(r"^--   (\S(?:.*?\S)?)(\s{2,})(\S.*)$")
CLAUSE = re.compile(r"\b(ghost|requires|ensures|tactic)\b")


def load():
    with open(os.path.join(HERE, "respelled.txt"), encoding="utf-8") as f:
        return dict(line.split() for line in f if line.strip())


def respell(text, table):
    return TOKEN.sub(lambda m: table.get(m.group(0), m.group(0)), text)


def no_english(table):
    return {old: new for old, new in table.items() if re.search(r"[A-Z]", old)}


def header(lines, table):
    """Words and their columns in the list of words that opens a file."""
    out, block = [], []

    def flush():
        rows = []
        for line in block:
            m = HEADER.match(line)
            if m and not line.startswith("--      "):
                rows.append((respell(m.group(1), table), respell(m.group(3), no_english(table)), len("--   " + m.group(1) + m.group(2))))
            else:
                rows.append((None, respell(line, no_english(table)), None))
        old = {column for word, _, column in rows if word is not None}
        if len(old) == 1:
            old = old.pop()
            width = max(len(word) for word, _, _ in rows if word is not None)
            new = max(old, 5 + width + 2) if any(5 + len(word) + 2 > old for word, _, _ in rows if word is not None) else old
            for word, rest, _ in rows:
                if word is not None:
                    out.append(("--   " + word).ljust(new) + rest)
                else:
                    words = rest[2:].strip()
                    out.append("--" + " " * (new - 2) + words if rest.startswith("--" + " " * (old - 2)) else rest)
        else:
            for word, rest, column in rows:
                out.append(rest if word is None else ("--   " + word + "  ").ljust(column) + rest)
        block.clear()

    for line in lines:
        if line.startswith("--   "):
            block.append(line)
        else:
            if block:
                flush()
            out.append(line)
    if block:
        flush()
    return out


def antt(text, table):
    lines = []
    for line in header(text.split("\n"), table):
        if line.lstrip().startswith("--"):
            lines.append(line if line.startswith("--   ") else respell(line, no_english(table)))
        else:
            code, mark, comment = line.partition(" -- ")
            lines.append(respell(code, table) + mark + respell(comment, no_english(table)))
    return "\n".join(lines)


def rt(text, table):
    lines, depth = [], 0
    for line in text.split("\n"):
        code, mark, comment = (line, "", "") if "//" not in line else line.partition("//")
        inside = depth > 0 or CLAUSE.search(code)
        if inside and not code.lstrip().startswith("ghost use"):
            depth = max(0, depth + code.count("{") - code.count("}")) if depth or CLAUSE.search(code) else 0
            if depth and not re.search(r"\b(requires|ensures|ghost)\b", code) and not code.strip():
                depth = 0
        lines.append((respell(code, table) if inside else code) + mark + respell(comment, no_english(table)))
    return "\n".join(lines)


def edit(text, table):
    if not re.search(r"^file: .*\.antt$", text, re.M):
        return text
    return "\n".join(respell(l, table) if l.startswith(("old: ", "new: ")) else l for l in text.split("\n"))


def main(root):
    table = load()
    turns = {".antt": antt, ".rt": rt, ".edit": edit}
    changed = 0
    for folder, dirs, files in os.walk(os.path.join(root, "crates")):
        dirs[:] = sorted(d for d in dirs if d != "out")
        for name in sorted(files):
            turn = turns.get(os.path.splitext(name)[1])
            if turn is None:
                continue
            path = os.path.join(folder, name)
            with open(path, encoding="utf-8") as f:
                old = f.read()
            new = turn(old, table)
            if new != old:
                changed += 1
                with open(path, "w", encoding="utf-8") as f:
                    f.write(new)
    print(f"respell: {changed} files changed")


if __name__ == "__main__":
    main(sys.argv[1] if len(sys.argv) > 1 else os.path.dirname(HERE))
