#!/usr/bin/env python3
"""Spells tests and places in specs/ and must-fail edits as the library's words do: a == b, nat_lt a b, nat_le a b, slice_index xs i.

usage: tools/spell_tests.py CRATE..     at the top of the repository

Each word means what the older one did: eqb, ltb, leb and get_or of the same library.
"""
import glob
import re
import sys


def atom(text, i):
    """The argument that begins at i, after blanks: its end."""
    while text[i] == " ":
        i += 1
    start = i
    if text[i] == "(":
        depth = 0
        while True:
            depth += {"(": 1, ")": -1}.get(text[i], 0)
            i += 1
            if depth == 0:
                break
        while i < len(text) and re.match(r"[\w'.]", text[i]):
            i += 1
        return start, i
    while i < len(text) and re.match(r"[\w'.«»\-]", text[i]):
        i += 1
    return start, i


def bare(arg):
    """An argument without its brackets where it is a plain call."""
    if arg.startswith("(") and arg.endswith(")") and not re.search(r"[-+*/%^(∷]| \+\+ ", arg[1:-1].replace("◌", "")):
        return arg[1:-1]
    return arg


def turned(text):
    word = re.compile(r"(?<![\w'.\-◌])(eqb|ltb|leb|get_or)(?= [\w(«])")
    at = 0
    while True:
        m = word.search(text, at)
        if not m:
            return text
        name = m.group(1)
        if name in ("ltb", "leb"):
            new = {"ltb": "nat_lt", "leb": "nat_le"}[name]
            text = text[: m.start()] + new + text[m.end():]
            at = m.start() + len(new)
            continue
        s1, e1 = atom(text, m.end())
        s2, e2 = atom(text, e1)
        a, b = text[s1:e1], text[s2:e2]
        if name == "get_or":
            s3, e3 = atom(text, e2)
            c = text[s3:e3]
            new = f"slice_index {a} {b}" if c == "0" else f"slice_index_or {a} {b} {c}"
            text = text[: m.start()] + new + text[e3:]
            at = m.start() + len("slice_index")
            continue
        new = f"{bare(a)} == {bare(b)}"
        inside = m.start() > 0 and text[m.start() - 1] == "(" and e2 < len(text) and text[e2] == ")"
        alone = re.search(r"= ?$", text[: m.start()]) and text[e2: e2 + 1] in ("\n", "", ";")
        text = text[: m.start()] + (new if inside or alone else f"({new})") + text[e2:]
        at = m.start()


def imports(line, body):
    m = re.match(r"^(use Rattle\.std\.specs\.Prelude\.\{)(.*)(\})$", line)
    if not m:
        return line
    names = [n.strip() for n in m.group(2).split(",")]
    for old in ("eqb", "ltb", "leb", "get_or"):
        if old in names and not re.search(rf"(?<![\w'.\-◌]){old}(?![\w'\-])", body):
            names.remove(old)
    for new, mark in (("◌==◌", " == "), ("nat_lt", "nat_lt "), ("nat_le", "nat_le "), ("slice_index", "slice_index "), ("slice_index_or", "slice_index_or ")):
        if mark in body and new not in names:
            names.append(new)
    return m.group(1) + ", ".join(names) + m.group(3)


for crate in sys.argv[1:]:
    for path in sorted(glob.glob(f"crates/{crate}/specs/*.antt")):
        lines = open(path, encoding="utf-8").read().split("\n")
        code = [li for li in lines if not li.startswith("use ") and not li.startswith("--")]
        if not re.search(r"(?<![\w'.\-◌])(eqb|ltb|leb|get_or)(?![\w'\-])", "\n".join(code)):
            continue
        out = [li if li.startswith(("use ", "--")) else turned(li) for li in lines]
        body = "\n".join(li for li in out if not li.startswith("use "))
        open(path, "w", encoding="utf-8").write("\n".join(imports(li, body) for li in out))
    for path in sorted(glob.glob(f"crates/{crate}/must-fail/*.edit")):
        lines = open(path, encoding="utf-8").read().split("\n")
        if any(li.startswith("file: specs/") for li in lines):
            open(path, "w", encoding="utf-8").write("\n".join(turned(li) if li.startswith(("old:", "new:")) else li for li in lines))
