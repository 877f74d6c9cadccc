#!/usr/bin/env python3
"""Brings the names of the repository's own definitions and lemmas to the spelling of today's Rattle.

usage: tools/respell.py [--list]      at the top of the repository, right after port.py

Functions, lemmas and fields are in snake case; types and modules keep their capitals. A dash stays where it joins the names of two definitions, as in `length-drop`, and
after a type at the head of a name; a plain word hangs on by `_`. A lemma that would get a name that is in use ends in `_lem`.
It renames whole words in crates/*/specs, crates/*/proofs, the ghost lines and clauses of crates/*/src, the must-fail edits and the pages, and writes nothing else.
--list prints the table and changes nothing.
"""
import collections
import glob
import re
import sys

WORD = re.compile(r"[A-Za-zα-ωΑ-Ω_][A-Za-z0-9_'′₀-₉α-ωΑ-Ω≢≤-]*")
PLAIN = "is are to of in at as by for from so no on with has long past open or that".split()
LAWS = "add sub mul div mod le lt eq ne and or not suc zero nil cons append iff min max mem pow all any map length take drop get get_or set replicate reverse sum cond none some".split()
DECLARED = re.compile(r"\s*((?:(?:abbrev|unfoldable|pub|pattern)\s+)*)([^\s:({=,]+)(\s*\{[^}]*\})?\s*((?:[({][^)}]*[)}]\s*)*):(\s|$)")
KIND = re.compile(r"\s*(?:pub\s+)?(data|record|ruleset)\s+([^\s:({=]+)")
CONSTRUCTORS = re.compile(r"\s{2,}([a-z][\w'-]*(?:\s+[a-z][\w'-]*)*)\s:\s")


def antt():
    return sorted(glob.glob("crates/*/specs/**/*.antt", recursive=True) + glob.glob("crates/*/proofs/**/*.antt", recursive=True))


def sources():
    return sorted(glob.glob("crates/*/src/**/*.rt", recursive=True))


def edits():
    return sorted(glob.glob("crates/*/must-fail/*.edit"))


def pages():
    return sorted(glob.glob("*.md") + glob.glob("docs/**/*.md", recursive=True))


def read(path):
    with open(path, encoding="utf-8") as f:
        return f.read()


def code(line):
    return "" if line.strip().startswith("--") else line


def snake(part):
    if part[:1].isupper():
        return part
    if part == "getD":
        return "get_or"
    return re.sub(r"([a-z0-9])([A-Z])", r"\1_\2", part).lower()


def declared():
    """The names that the specs and the lemma files declare, and of these the ones that specs declare."""
    names, specs = collections.OrderedDict(), set()
    for path in antt():
        if path.endswith("/Proof.antt"):
            continue
        for line in read(path).split("\n"):
            line = code(line)
            if re.match(r"\s*(use|let|mod|pub mod|module)\b", line):
                continue
            found = []
            m = DECLARED.match(line)
            if m:
                found.append(m.group(2))
            m = KIND.match(line)
            if m:
                found.append(m.group(2))
            m = CONSTRUCTORS.match(line)
            if m:
                found += m.group(1).split()
            for n in found:
                if WORD.fullmatch(n) and n not in ("pub", "in", "where"):
                    names.setdefault(n, path)
                    if "/specs/" in path:
                        specs.add(n)
    return names, specs


def table():
    names, specs = declared()
    known = {snake(n) for n in specs if "-" not in n} | set(LAWS)
    known -= set(PLAIN)
    used = collections.Counter()
    for path in antt():
        for line in read(path).split("\n"):
            # not a module's name, a projection or a field of a record
            line = re.sub(r"(proofs|contracts)\.[a-z_0-9.+]+", "", code(line))
            line = re.sub(r"\.[a-z][\w'-]*|[{;] *[a-z][\w'-]* =|^ *[a-z][\w'-]* =(?=.*;$)", "", line)
            used.update(WORD.findall(line))
    functions = set()
    for path in sources():
        functions |= set(re.findall(r"\bfn\s+([a-z_0-9]+)", read(path)))

    def spelled(name):
        parts = [snake(p) for p in name.split("-")]
        joined, i = [], 0
        while i < len(parts):
            for j in range(len(parts), i, -1):
                if j == i + 1 or ("_".join(parts[i:j]) in known and all(p for p in parts[i:j])):
                    joined.append("_".join(parts[i:j]))
                    i = j
                    break
        out = joined[0]
        for before, after in zip(joined, joined[1:]):
            keeps = (before in known and after in known) or (out == before and before[:1].isupper()) or not before or not after
            out += ("-" if keeps else "_") + after
        return out

    renamed, taken = {}, set()
    for old in sorted(names, key=lambda n: (n not in specs, "-" in n)):
        if old[:1].isupper() and "-" not in old:
            continue
        new = spelled(old)
        if new == old:
            continue
        lemma = old not in specs
        if not lemma and used[new] and new in names and new not in specs:
            # port.py had given the definition's new name to a lemma
            renamed[new] = new + "_lem"
            taken.add(new + "_lem")
            used[new] = 0
        if new in taken or used[new] or (lemma and new in functions):
            new += "_lem" if lemma else "_holds"
        if new in taken or used[new]:
            print(f"respell: {old}: {new} is in use", file=sys.stderr)
            continue
        taken.add(new)
        renamed[old] = new
    return renamed


def respell(text, renamed):
    return WORD.sub(lambda m: renamed.get(m.group(0), m.group(0)), text)


def main():
    renamed = table()
    if "--list" in sys.argv[1:]:
        for old, new in renamed.items():
            print(old, new)
        return
    changed = 0
    for path in antt() + sources() + edits() + pages():
        text = read(path)
        if path.endswith(".antt"):
            new = respell(text, renamed)
        elif path.endswith(".rt"):
            # Rust's own names are in snake case already; a dash there is a minus.
            plain = {o: n for o, n in renamed.items() if "-" not in o}
            new = "\n".join(
                respell(line, renamed if re.match(r"\s*ghost use", line) else plain) for line in text.split("\n")
            )
        elif path.endswith(".edit"):
            new = respell(text, renamed)
        else:
            new = re.sub(r"`[^`\n]*`", lambda m: respell(m.group(0), renamed), text)
        if new != text:
            with open(path, "w", encoding="utf-8") as f:
                f.write(new)
            changed += 1
    print(f"respell: {len(renamed)} names, {changed} files")


main()
