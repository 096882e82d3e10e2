#!/usr/bin/env python3
"""Runs a command of the shell on a terminal of its own: terminal.py COMMAND.

Standard input is typed there, in which the byte 4 at the start of a line ends it; what the terminal shows is printed without
its carriage returns; and the exit status is the command's.
"""
import os
import pty
import sys


def shown(terminal):
    return os.read(terminal, 4096).replace(b"\r", b"")


sys.exit(os.waitstatus_to_exitcode(pty.spawn(["sh", "-c", sys.argv[1]], shown)))
