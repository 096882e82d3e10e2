#!/usr/bin/env python3
"""Says of each must-fail edit what refused it first, by what `rt must-fail` says of it: edits.py

An edit shows something only where it is refused at a fact: something that no longer holds of the code or the definitions as
edited. A proof may also be refused for how it is written, as where a path in it leads to another place than before; then no fact
was looked at, and the edit shows nothing. The comment of an edit names the fact, or the function whose contract it is. Exits
with 1 where an edit was refused otherwise, or elsewhere than its comment says, or was not tried.

What has not changed since `rt ci` or `rt must-fail` tried it is not tried again. rt says of an edit the place of its first
refusal and how the message begins. It passes over messages of proof files in which a name is missing, as where the edit gives
a goal another name: an answer is then not found, and that the goal is not proved without it shows nothing either.
"""
import glob
import os
import re
import subprocess
import sys

# What antt and rattle say where a statement does not hold.
FACTS = (
    "the two types",  # .. differ, as printed or computed: this is proved, and that is asked
    "the two indices",
    "` ≟ `",  # two terms that would have to be one, and are not
    "lands at index",
    "expected type",
    "`omega`: the goal does not follow",
    "list the missing equation",  # `cc`: the equations there do not give it
    "`search`: no proof of",
    "`rw`: no occurrence of",  # an equation about another value than the one that stands there now
    "give a proof of that as the last argument",  # an equation whose two sides are no longer one
    "it is not proved that",  # a contract
)


def function_at(crate, path, line):
    """The function of the crate's sources in which a line stands, or before which as an attribute. An edit changes no line's number."""
    with open(f"crates/{crate}/{path}") as file:
        lines = file.read().split("\n")
    last = int(line)
    while lines[last - 1].lstrip().startswith("#["):
        last += 1
    head = r"^\s*(?:pub(?:\([^)]*\))? )?(?:const )?(?:unsafe )?(?:extern \"C\" )?fn (\w+)"
    return re.findall(head, "\n".join(lines[:last]), re.M)[-1]


def is_answered(crate, function, message):
    """Has the function's proof an answer to a goal of this kind (`returns`, ..), which the edit may have given another name?"""
    kind = re.search(r"\(`([^`-]+)", message)
    files = glob.glob(f"crates/{crate}/proofs/**/{function}/Answers.antt", recursive=True)
    answers = "".join(open(file).read() for file in files)
    return kind is None or re.search(rf"^pub {kind[1]}\b", answers, re.M) is not None


def is_named(crate, comment, place, message):
    """Does the comment name the declaration or the function, or one of a cycle's functions, where the first error is?"""
    path, line, _ = place.split(":")
    folder = path.split("/")[-2]
    refused = re.findall(r"`([^`]+)`", message)[:1]
    if path.startswith("src/"):
        refused.append(function_at(crate, path, line))
    elif folder.startswith("+"):
        # a goal is named after its function there
        refused += [name.split("-")[0] for name in refused]
    else:
        refused.append(folder)
    return not set(re.findall(r"`([^`]+)`", comment)).isdisjoint(refused)


def judged(crate, comment, said):
    """(is it in order?, what to print)"""
    first = re.fullmatch(r"refused, as it must be: (?:note: )?(?:\./)?((?:src|specs|proofs)/\S+:\d+:\d+): (?:error: )?(.*)", said)
    if first is None:
        return False, said
    place, message = first[1], first[2]
    fact, named = any(words in message for words in FACTS), is_named(crate, comment, place, message)
    if place.startswith("src/"):
        function = function_at(crate, *place.split(":")[:2])
        fact = fact and not is_answered(crate, function, message)
    kind = "NO FACT" if not fact else "a fact" if named else "a fact that its comment does not name"
    return fact and named, f"{kind}: {place}: {message[:100]}"


def main():
    os.chdir(os.path.dirname(os.path.abspath(__file__)) + "/../..")
    edits = sorted(glob.glob("crates/*/must-fail/*.edit"))
    tried = subprocess.run(["rt", "must-fail"], stdin=subprocess.DEVNULL, stdout=subprocess.PIPE, text=True)
    said = dict(re.findall(r"^rt: must-fail (\S+)\.edit: (.*)$", tried.stdout, re.M))
    good = 0
    for edit in edits:
        crate, name = edit.split("/")[1], os.path.basename(edit).removesuffix(".edit")
        with open(edit) as file:
            comment = file.read().split("\nfile: ")[0]
        in_order, words = judged(crate, comment, said.get(f"{crate}/{name}", "rt must-fail does not say that it was tried"))
        good += in_order
        print(f"{crate}/{name}: {words}")
    print(f"edits: {good} refused first at the fact that the comment names, {len(edits) - good} not")
    return 0 if edits and good == len(edits) else 1


sys.exit(main())
