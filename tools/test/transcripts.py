#!/usr/bin/env python3
"""Runs transcripts of the command and compares: transcripts.py FOLDER-OF-FLOW FILE..

A transcript is a file of commands, `$ COMMAND`, each followed by the lines that it prints and, where its exit status is not 0,
by `? STATUS` or `(exit status STATUS)`; of a pipe the status is that of its last part that failed. Lines on standard error begin
with `! ` and stand behind those on standard output. A command that ends in <<END goes on up to the line END. Lines that begin
with `#`, and blank ones before a command, are for the reader. Each file is played in a fresh folder; EXAMPLES names that of the
example sources, TERMINAL is terminal.py, and FAILING the library of failing.c. Of a Markdown file the blocks marked `console`
are taken, in which standard error has no mark.
"""
import difflib
import os
import re
import subprocess
import sys
import tempfile


def transcript_lines(path):
    with open(path) as file:
        text = file.read()
    if path.endswith(".md"):
        text = "\n".join(re.findall(r"^```console\n(.*?)^```$", text, re.M | re.S))
    return [line for line in text.split("\n") if not line.startswith("#")]


def trimmed(lines):
    while lines and not lines[-1]:
        lines = lines[:-1]
    return lines


def commands_of(lines):
    """Yields (command, expected lines, expected status)."""
    at = next((i for i, line in enumerate(lines) if line.startswith("$ ")), len(lines))
    while at < len(lines):
        command, at = [lines[at][2:]], at + 1
        while command[0].endswith("<<END") and command[-1] != "END":
            command.append(lines[at])
            at += 1
        expected, status = [], 0
        while at < len(lines) and not lines[at].startswith("$ "):
            ended = re.fullmatch(r"\? (\d+)|\(exit status (\d+)\)", lines[at])
            if ended:
                status = int(ended[1] or ended[2])
            else:
                expected.append(lines[at])
            at += 1
        yield "\n".join(command), trimmed(expected), status


def play(command, folder, environment, mark):
    ran = subprocess.run(["bash", "-o", "pipefail", "-c", command], cwd=folder, env=environment, capture_output=True, timeout=60)
    out = ran.stdout.decode(errors="backslashreplace").split("\n")
    err = ran.stderr.decode(errors="backslashreplace").split("\n")
    return trimmed(trimmed(out) + [mark + line for line in trimmed(err)]), ran.returncode


def play_file(path, environment):
    """Returns how many commands were played and how many of them failed."""
    mark = "" if path.endswith(".md") else "! "
    played = failed = 0
    with tempfile.TemporaryDirectory() as folder:
        for command, expected, status in commands_of(transcript_lines(path)):
            lines, got = play(command, folder, environment, mark)
            played += 1
            if (lines, got) == (expected, status):
                continue
            failed += 1
            print(f"{path}: $ {command}")
            both = expected + [f"? {status}"], lines + [f"? {got}"]
            print("\n".join(difflib.unified_diff(*both, "expected", "got", lineterm="")))
    return played, failed


def main():
    flow, *paths = sys.argv[1:]
    folder = os.path.abspath(flow)
    tests = os.path.dirname(os.path.abspath(__file__))
    environment = dict(os.environ, PATH=folder + ":" + os.environ["PATH"], FAILING=folder + "/test/failing.so",
                       EXAMPLES=os.path.normpath(tests + "/../../examples"), TERMINAL=tests + "/terminal.py", LC_ALL="C")
    counts = [play_file(path, environment) for path in paths]
    played, failed = sum(count[0] for count in counts), sum(count[1] for count in counts)
    print(f"transcripts: {played} commands of {len(paths)} files, {failed} failed")
    return 1 if failed or not all(count[0] for count in counts) else 0


sys.exit(main())
