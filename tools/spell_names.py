#!/usr/bin/env python3
"""Brings the project's own definitions and lemmas to one spelling, in specs/, proofs/ and the clauses of src/.

usage: tools/spell_names.py [--list]     at the top of the repository, once, right after port.py

Words are in snake case, types and modules in camel case; a dash is left only between two names of definitions, as in length-drop. Names of src/ (functions,
fields, types, constants), generated names and the library's names keep their spelling. --list prints the renamings and touches nothing.
"""
import glob
import os
import re
import subprocess
import sys

WORD = re.compile(r"[^\W\d][\w'\-]*|\d[\w'\-]*")
HEAD = re.compile(r"^(?:(?:unfoldable|abbrev|pub) )*([^\s:({«]+)(?: \{[^}]*\})?\s*:(?!:)")
# a lemma that would have a function's or another lemma's name
SUFFIX = "_lem"
# words of the library on lists and numbers that a lemma's name begins with or ends in
LISTS = {"length", "take", "drop", "map", "get_or", "sum"}
# where the plain spelling is a name of the library, or two names would fall together
CHOSEN = {
    "amountOf": "amount_from",
    "noElement": "blank_element",
    "noTarget": "blank_target",
    "errCHECK-ERASED": "err_check_erased",
    "countBy": "counting_by",
    "digitsOf": "digits_in",
    "littleEndian": "little_endian_value",
    "dfuDNLOAD-IDLE": "dfu_dnload_idle",
    "dfuDNLOAD-SYNC": "dfu_dnload_sync",
    "dfuMANIFEST-SYNC": "dfu_manifest_sync",
    "dfuMANIFEST-WAIT-RESET": "dfu_manifest_wait_reset",
    "dfuUPLOAD-IDLE": "dfu_upload_idle",
}
# the kit's library, whose names own names are to keep clear of
LIBRARY = os.path.join(os.path.dirname(subprocess.run(["rt", "doc"], capture_output=True, text=True, check=True).stdout.strip()), "rattle")


def antt():
    return sorted(glob.glob("crates/*/specs/**/*.antt", recursive=True) + glob.glob("crates/*/proofs/**/*.antt", recursive=True))


def declared(path):
    """The names that a file declares: (kind, name, type), kind 'def', 'type', 'part'."""
    lines = open(path, encoding="utf-8").read().split("\n")
    inside = None
    for line in lines:
        if not line.strip() or line.lstrip().startswith("--"):
            continue
        if not line.startswith(" "):
            inside = None
            if re.match(r"^((unfoldable|abbrev|pub) )*(use|mod|infix|infixl|infixr|unfolding|open) ", line):
                continue
            m = re.match(r"^(?:pub )?(data|record) ([^\s:({«]+)", line)
            if m:
                inside = m.group(1)
                yield "type", m.group(2), line
                continue
            m = HEAD.match(line)
            if m:
                yield "def", m.group(1), line[m.end():].strip()
        else:
            m = re.match(r"^ +(?:pub )?([^\s:({«]+) :", line)
            if m and (inside or "/proofs/" in path):
                yield "part", m.group(1), line


def snake(word):
    if word.isupper():
        return word
    w = re.sub(r"([A-Z]+)([A-Z][a-z])", r"\1_\2", word)
    w = re.sub(r"([a-z0-9])([A-Z])", r"\1_\2", w)
    return w.lower()


def part(word):
    """One part of a dashed name."""
    if word[:1].isupper():
        return word
    return snake(word)


def library_words():
    words = set()
    for p in glob.glob(LIBRARY + "/core/specs/**/*.antt", recursive=True) + glob.glob(LIBRARY + "/std*/specs/**/*.antt", recursive=True) + glob.glob(LIBRARY + "/logic/Lib/**/*.antt", recursive=True) + glob.glob(LIBRARY + "/std*/proofs/*.antt") + glob.glob(LIBRARY + "/std/lemmas/**/*.antt", recursive=True):
        for line in open(p, encoding="utf-8"):
            m = re.match(r"^(?:(?:unfoldable|abbrev|pub) )+([^\s:({«]+)", line)
            if m and m.group(1) not in ("use", "mod", "data", "record"):
                words.add(m.group(1))
    return words


def sources():
    """Names of src/: functions, and fields, types, variants, constants."""
    fns, others = set(), set()
    for p in glob.glob("crates/*/src/**/*.rt", recursive=True):
        t = open(p, encoding="utf-8").read()
        fns |= set(re.findall(r"\bfn (\w+)", t))
        others |= set(re.findall(r"^\s*(?:pub(?:\([a-z]+\))? )?(\w+): ", t, re.M))
        others |= set(re.findall(r"\b(?:const|static|struct|enum|type) (\w+)", t))
    return fns, others


def joined(parts, names):
    """The parts joined: a dash only where each side is the name of a definition."""
    n = len(parts)
    if n == 1:
        return parts[0]

    def cut(i):
        if i == n:
            return []
        for j in range(n, i, -1):
            name = "_".join(parts[i:j])
            if name in names:
                rest = cut(j)
                if rest is not None:
                    return [name] + rest
        return None

    found = cut(0)
    if found and len(found) > 1:
        return "-".join(found)
    out = parts[0]
    for a, b in zip(parts, parts[1:]):
        out += ("-" if a[:1].isupper() or b[:1].isupper() else "_") + b
    return out


def renamings():
    own, tokens, kinds = {}, set(), {}
    for path in antt():
        text = open(path, encoding="utf-8").read()
        tokens |= set(WORD.findall(text))
        if path.endswith("/Proof.antt"):
            continue
        for kind, name, typ in declared(path):
            if name.startswith("◌"):
                continue
            own.setdefault(name, []).append((path, kind))
    fns, others = sources()
    library = library_words()
    names = {snake(n) for n, places in own.items() if any("/specs/" in p for p, _ in places) and "_" in snake(n)} | LISTS
    fixed = {}
    for name in own:
        if name in library or name.isupper() or re.match(r"^DFU_", name):
            continue
        if name in CHOSEN:
            fixed[name] = CHOSEN[name]
            continue
        parts = [part(p) for p in name.split("-") if p]
        new = joined(parts, names)
        if new != name:
            fixed[name] = new
    # a lemma that would have a definition's name gets an ending
    by_new = {}
    for name in own:
        by_new.setdefault(fixed.get(name, name), []).append(name)
    for new, olds in by_new.items():
        if len(olds) > 1:
            defs = [n for n in olds if any("/specs/" in p for p, _ in own[n])]
            for n in olds:
                if n in fixed and n not in defs and n not in CHOSEN:
                    fixed[n] = new + SUFFIX
    taken = {}
    for name in list(own) + list(tokens):
        if name not in fixed:
            taken.setdefault(name, []).append(name)
    for name, new in fixed.items():
        taken.setdefault(new, []).append(name)
    clashes = []
    for name in sorted(fixed):
        new = fixed[name]
        if len(set(taken[new])) > 1:
            clashes.append((name, new, sorted(set(taken[new])), "function" if new in fns and new not in own else "own" if new in own else "token"))
        elif new in fns:
            clashes.append((name, new, [new], "function"))
        elif new in others:
            clashes.append((name, new, [new], "field"))
        elif new in library:
            clashes.append((name, new, [new], "library"))
    return fixed, clashes, own


def respelled(text, fixed):
    return WORD.sub(lambda m: fixed.get(m.group(0), m.group(0)), text)


def source(text, fixed):
    """A file of src/: names of clauses, in code outside comments and texts; dashed ones in ghost lines alone."""
    out = []
    for line in text.split("\n"):
        bare = line.strip()
        if bare.startswith("//"):
            out.append(line)
        elif bare.startswith(("ghost use", "requires", "ensures", "ghost ")):
            out.append(respelled(line, fixed))
        elif '"' in line:
            out.append(line)
        else:
            plain = {n: new for n, new in fixed.items() if "-" not in n and n.lower() != n}
            out.append(respelled(line, plain))
    return "\n".join(out)


def turn(fixed):
    for path in antt() + sorted(glob.glob("crates/*/src/**/*.rt", recursive=True)):
        text = open(path, encoding="utf-8").read()
        new = source(text, fixed) if path.endswith(".rt") else respelled(text, fixed)
        if new != text:
            open(path, "w", encoding="utf-8").write(new)
    for path in sorted(glob.glob("crates/*/must-fail/*.edit")):
        text = open(path, encoding="utf-8").read()
        new = "\n".join(respelled(li, fixed) if li.startswith(("old:", "new:")) else li for li in text.split("\n"))
        if new != text:
            open(path, "w", encoding="utf-8").write(new)


def main():
    fixed, clashes, own = renamings()
    if "--list" in sys.argv:
        for n in sorted(fixed):
            print(n, fixed[n])
        print("CLASHES")
        for c in clashes:
            print(*c)
        return
    turn(fixed)
    print(f"{len(fixed)} names respelled")


if __name__ == "__main__":
    main()
