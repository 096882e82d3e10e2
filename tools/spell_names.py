#!/usr/bin/env python3
"""Turns the repository's own names to the spelling of today's Rattle.

usage: python3 tools/spell_names.py [--dry]

Words are in snake case, types and modules in camel case. A dash joins two names, as in `length-table_bytes`; a plain word is added with `_`.
It goes over the crates (definitions, lemmas, clauses, edits) and the names that documents cite. Run it once, right after port.py, at the top.
Functions of src/, exported C names, strings, inputs and outputs keep their names.
"""

import os
import re
import sys

KIT = "/opt/rattle"
WORD = r"[A-Za-z_][A-Za-z0-9_'\u2080-\u2089-]*[A-Za-z0-9_'\u2080-\u2089]|[A-Za-z_]"
TOKEN = re.compile(r"(?<![\w'\u2080-\u2089-])(?:" + WORD + r")(?![\w'\u2080-\u2089])")
SIGNED = re.compile(r"\s*(?:(?:unfoldable|abbrev|pub|data|record|ruleset|field) )*([A-Za-z_][^\s:(){}]*)(?: [^:]*)? :(?: |$)")
# functions of the library by which lemmas are named
LIBRARY = {"length", "take", "drop", "get_or", "set", "sets", "sum", "append", "replicate", "map", "all", "reverse", "get", "cond"}
# laws that would have the name of what they speak of, some under port.py's spelling
BY_HAND = {"bit-or": "bit-bit_or"} | {n: n + "_lem" for n in ("counts_start", "field_fits", "fields_fit", "none_free", "seen_bytes")}


def files(*ends, below="crates"):
    for folder, dirs, names in os.walk(below):
        dirs[:] = sorted(d for d in dirs if d not in ("out", ".git", "build", "target"))
        for n in sorted(names):
            if n.endswith(ends):
                yield os.path.join(folder, n)


def text_of(path):
    with open(path, encoding="utf-8") as f:
        return f.read()


def uncommented(text):
    return re.sub(r"--.*", "", text)


def tokens(text):
    return TOKEN.findall(text)


def kit_names():
    """Every word of the kit's own logic."""
    found = set()
    for base in ("rattle", "logic_built"):
        for p in files(".antt", below=os.path.join(KIT, base)):
            with open(p, encoding="utf-8", errors="replace") as f:
                found |= set(tokens(uncommented(f.read())))
    return found


def snake(part):
    """One part of a name, between dashes."""
    if not part[:1].islower() or not re.search("[A-Z]", part):
        return part
    part = re.sub(r"([a-z0-9])([A-Z])", r"\1_\2", part)
    part = re.sub(r"([A-Z])([A-Z][a-z])", r"\1_\2", part)
    return part.lower()


def defined():
    """The names that specs/ and the laws of proofs/ declare; the first also alone."""
    specs, laws = set(), set()
    for p in files(".antt"):
        if os.path.basename(p) in ("Proof.antt", "Answers.antt", "Invariants.antt"):
            continue
        for line in uncommented(text_of(p)).splitlines():
            m = SIGNED.match(line)
            if m:
                (specs if "/specs/" in p else laws).add(m.group(1))
    return specs, laws


def spelling(name, words):
    parts = name.split("-")
    done = snake(parts[0])
    for before, part in zip(parts, parts[1:]):
        if part == "":
            return None
        fact = part[:1].isupper() and len(part) > 1 or before[:1].isupper() and len(before) > 1
        joined = fact or snake(before) in words and snake(part) in words
        done += ("-" if joined else "_") + (part if fact else snake(part) if len(part) > 1 else part.lower())
    return done


def renamings():
    specs, laws = defined()
    kit = kit_names()
    words = {snake(n) for n in specs if "-" not in n and snake(n) != n} | LIBRARY
    seen = set()
    for p in files(".antt", ".rt"):
        seen |= set(tokens(uncommented(text_of(p)) if p.endswith(".antt") else text_of(p)))
    new = {}
    for n in sorted(seen | specs | laws):
        camel = any(snake(q) != q for q in n.split("-"))
        dashed = "-" in n and n in specs | laws
        if not (camel or dashed or n in BY_HAND):
            continue
        if n in kit and n not in specs | laws:
            continue
        to = BY_HAND.get(n) or (spelling(n, words) if dashed else "-".join(snake(q) for q in n.split("-")))
        if to and to != n:
            new[n] = to
    taken = {to for n, to in new.items() if "-" not in n} | {n for n in specs | laws if n not in new}
    for n in new:
        if "-" in n and n not in BY_HAND and new[n] in taken:
            new[n] += "_lem"
    return new, seen, kit, specs | laws


def turned(text, new):
    return TOKEN.sub(lambda m: new.get(m.group(0), m.group(0)), text)


def outside_strings(text, new):
    """A source's text: strings stay."""
    return "".join(t if i % 2 else turned(t, new) for i, t in enumerate(re.split(r'("(?:[^"\\]|\\.)*")', text)))


def quoted(text, new):
    """A document's text: a name with a dash is turned where it is quoted, a camel one everywhere."""
    camel = {n: t for n, t in new.items() if re.search("[a-z][A-Z]", n)}
    return "".join(turned(t, new if i % 2 else camel) for i, t in enumerate(re.split(r"(`[^`\n]*`)", text)))


def plain(name):
    """A name without what sets spellings apart."""
    return re.sub(r"[-_]", "", name).lower()


def caught_up(text, now, by_plain, everywhere):
    """Names that port.py had turned in the crates, and that stand in edits and documents as they were."""

    def to(m):
        n = m.group(0)
        if n in now or not re.search("-|[a-z][A-Z]", n):
            return n
        found = by_plain.get(plain(n), set())
        return found.copy().pop() if len(found) == 1 else n

    if everywhere:
        return TOKEN.sub(to, text)
    return "".join(TOKEN.sub(to, t) if i % 2 else t for i, t in enumerate(re.split(r"(`[^`\n]*`)", text)))


def catch_up():
    now = set()
    for p in files(".antt", ".rt"):
        now |= set(tokens(uncommented(text_of(p))))
    by_plain = {}
    for n in now:
        by_plain.setdefault(plain(n), set()).add(n)
    for ends, below, everywhere in ((".edit", "crates", True), (".md", ".", False)):
        for p in list(files(ends, below=below)):
            old = text_of(p)
            fresh = caught_up(old.replace("\u2032", "'") if everywhere else old, now, by_plain, everywhere)
            if fresh != old:
                with open(p, "w", encoding="utf-8") as f:
                    f.write(fresh)


def main(dry):
    new, seen, kit, own = renamings()
    back = {}
    for n, to in new.items():
        back.setdefault(to, []).append(n)
    for to, ns in sorted(back.items()):
        if len(ns) > 1:
            print(f"together: {' '.join(ns)} -> {to}")
        if to in seen or to in own:
            print(f"there already: {' '.join(ns)} -> {to}")
        if to in kit:
            print(f"in the kit: {' '.join(ns)} -> {to}")
    for n in sorted(set(new) & kit):
        print(f"was in the kit: {n} -> {new[n]}")
    if dry:
        for n in sorted(new):
            print(f"{n} -> {new[n]}")
        return
    jobs = [(files(".antt", ".edit"), turned), (files(".rt"), outside_strings), (files(".md", below="."), quoted)]
    for paths, how in jobs:
        for p in list(paths):
            old = text_of(p)
            fresh = how(old, new)
            if fresh != old:
                with open(p, "w", encoding="utf-8") as f:
                    f.write(fresh)
    catch_up()
    print(f"{len(new)} names")


if __name__ == "__main__":
    main("--dry" in sys.argv)
