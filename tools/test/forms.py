#!/usr/bin/env python3
"""Counts the places in crates/*/src where an older form of Rattle stands, point by point (docs/DESIGN-PASS.md says what each is).

    python3 tools/test/forms.py [ROOT] [-l]      the counts of the tree at ROOT (default: this one); -l also lists the places
"""
import collections
import pathlib
import re
import sys


def functions(text):
    """Each function of a file: its name, the line it begins on, its parameters, its clauses and its body."""
    for found in re.finditer(r"^( *)(?:pub(?:\(crate\))? )?(?:extern \"C\" )?fn (\w+)(?:<[^(]*>)?\(", text, re.M):
        at, depth = found.end(), 1
        while depth:
            depth += {"(": 1, ")": -1}.get(text[at], 0)
            at += 1
        body = re.compile(r"^" + found[1] + r"\{\n(.*?)^" + found[1] + r"\}", re.M | re.S).search(text, at)
        head = text[at:body.start()] if body else ""
        if not body or re.search(r"^" + found[1] + r"(?:pub )?fn ", head, re.M):
            short = re.compile(r"[^\n]*\{([^\n]*)\}").match(text, at)
            head, inside = ("", short[1]) if short else (head, "")
        else:
            inside = body[1]
        yield found[2], text.count("\n", 0, found.start()) + 1, text[found.end():at - 1], head, inside


def enums(text):
    """Each enum of a file: its name, its line and its variants, each with whether it holds something."""
    text = re.sub(r"//.*", "", text)
    for found in re.finditer(r"^(?:pub )?enum (\w+)[^{]*\{\n(.*?)^\}", text, re.M | re.S):
        variants = re.findall(r"^    (\w+)( \{|\(|,| =)", found[2], re.M)
        yield found[1], text.count("\n", 0, found.start()) + 1, [(name, mark in (" {", "(")) for name, mark in variants]


def shape(body):
    """A body without its names and numbers."""
    body = re.sub(r"//.*", "", body)
    body = re.sub(r"\b(?!if\b|else\b|match\b|let\b|mut\b|return\b|while\b|loop\b|as\b|for\b|in\b)[A-Za-z_]\w*", "n", body)
    return re.sub(r"\s+", "", re.sub(r"\b\d\w*", "0", body))


def main():
    arguments = [a for a in sys.argv[1:] if a != "-l"]
    root = pathlib.Path(arguments[0] if arguments else pathlib.Path(__file__).resolve().parents[2])
    places = collections.defaultdict(list)
    shapes, facts, takers = (collections.defaultdict(list) for _ in range(3))
    for path in sorted(root.glob("crates/*/src/*.rt")):
        text = path.read_text()
        code = re.sub(r"^#\[cfg\(test\)\].*\Z", "", text, flags=re.M | re.S)
        name = str(path.relative_to(root / "crates"))
        exports = name.startswith("flow_c/")

        def put(point, at, what):
            line = at if isinstance(at, int) and at < 0 else code.count("\n", 0, at) + 1
            places[point].append(f"{name}:{line}: {what}")

        for enum, line, variants in enums(code):
            if len(variants) == 2 and (variants[0][1] != variants[1][1] or "Refused" in dict(variants)):
                places["1 enums of the shape of Option or Result"].append(f"{name}:{line}: {enum}")
            elif len(variants) > 2 and any(v in ("Nothing", "Neither", "Unfit") for v, _ in variants):
                places["1 enums with a variant for nothing"].append(f"{name}:{line}: {enum}")
        for found in re.finditer(r"\bkind: usize|\brefusal: usize", code):
            put("1 numbers for kinds and refusals: parameters and fields", found.start(), found[0])
        for found in re.finditer(r"^ *match (?:kind|code|entry)\b[^\n]*\{\n", code, re.M):
            put("1 numbers for kinds and refusals: matches", found.start(), found[0].strip())
        for found in re.finditer(r"^ *(?:while|loop)\b[^\n]*", code, re.M):
            rest = code[found.start():]
            body = rest[:re.search(r"^" + re.match(" *", found[0])[0] + r"\}", rest, re.M).start()]
            counted = re.search(r"^ *(\w+) \+= 1;", body, re.M)
            put("3 loops that count an index" if counted else "3 other while and loop", found.start(), found[0].strip())
        for found in re.finditer(r"\{\s*1(?:u\d+)?\s*\} else \{\s*0\s*\}|\{\s*true\s*\} else\b|else \{\s*false\s*\}", code):
            put("4 numbers and truths of a truth by if", found.start(), " ".join(found[0].split()))
        for found in re.finditer(r"^ *let [\w:]+(?: \{[^}]*\})? = \w+ else \{\s*return (?:false|true|[\w:]*(?:Refused)?\b[^;]*);\s*\};", code, re.M):
            put("4 equality by let .. else", found.start(), " ".join(found[0].split())[:60])
        for fn, line, parameters, head, body in functions(code):
            where = f"{name}:{line}: {fn}"
            if re.fullmatch(r"(?:number_of|place_of|same|rolls|bit|size_of|bytes_of|digit_if|either)", fn):
                places["4 conversions and equality as functions"].append(where)
            if len(shape(body)) > 24 and not exports and fn != "main" or fn == "main":
                shapes[shape(body)].append(where)
            names = [re.sub(r"\s+", " ", p).strip() for p in parameters.split(",") if ":" in p]
            for parameter in names:
                takers[name.split("/")[0], parameter].append(where)
            beside = re.search(r"\b(?:count|nodes|height): usize", parameters)
            if beside and "[" in parameters:
                places["6 slices with a length beside them"].append(f"{where}: {beside[0]}")
            for clause in re.findall(r"^ +(?:requires)(?: \w+)? \{(.*?)\}$", head, re.M | re.S):
                for fact in {re.sub(r"\.(old|now)", "", " ".join(f.split())) for f in re.split(r" × |\n +× ", clause)}:
                    facts[fact.strip("() ")].append(where)
        for found in re.finditer(r"\b(?:2 \* n|4 \* i|size \* k|2 \* at)\b(?! [+]? ?\d* ?<)", re.sub(r"^ +(?:requires|ensures).*", lambda clause: " " * len(clause[0]), code, flags=re.M)):
            put("6 elements cut out of a slice of words or bytes by arithmetic", found.start(), found[0])
        for found in re.finditer(r"^ *match (?:job|class|board|entry|due)\b[^\n]*", code, re.M):
            put("7 switches on which step to run", found.start(), found[0].strip())
    for same in shapes.values():
        if len(same) > 1:
            places["2 functions of one shape"].extend(f"{where} (with {len(same) - 1} more)" for where in same)
    for fact, users in sorted(facts.items()):
        if len(users) > 2:
            places["5 facts that three or more functions require"].append(f"{fact}: {len(users)} functions")
    groups = collections.defaultdict(list)
    for (crate, parameter), users in sorted(takers.items()):
        if len(users) > 2:
            groups[crate, tuple(users)].append(parameter)
    for (crate, users), parameters in sorted(groups.items()):
        if len(parameters) > 1:
            places["5 parameters that always travel together, in three or more functions of a crate"].append(
                f"{crate}: ({', '.join(parameters)}): {len(users)} functions")
    for path in sorted(root.glob("crates/*/proofs/**/Answers.antt")):
        text = path.read_text()
        lines = [" ".join(line.split()) for line in text.split("\n") if re.match(r"\s+let ", line)]
        repeated = sum(n for n in collections.Counter(lines).values() if n > 1)
        places["8 answers"].extend([str(path)] * len(re.findall(r"^pub [\w-]+ : goal\.", text, re.M)))
        places["8 lines of answers"].extend([str(path)] * text.count("\n"))
        places["8 let lines that stand more than once in their file"].extend([str(path)] * repeated)
    for point in sorted(places):
        print(f"{len(places[point]):5}  {point}")
        if "-l" in sys.argv and not point.startswith("8"):
            for place in places[point]:
                print(f"         {place}")


main()
