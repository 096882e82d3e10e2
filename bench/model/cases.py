# Writes crates/cases/stdin and stdout: calls of the six entries, and what the documents say that they leave, by model.py; and a long table with
# its hardened form for crates/harden_long.
import os, sys, threading
sys.dont_write_bytecode = True
sys.setrecursionlimit(100000); threading.stack_size(512 * 1024 * 1024)   # tables nest 4,096 deep
from calls import calls, write_files, NAMES
from sheet_cases import add_sheet_cases
from machine_cases import add_machine_cases
from harden_cases import add_harden_cases, add_hardened_runs
from tree_cases import add_tree_cases
from questions_cases import add_questions_cases
from rollback_cases import add_rollback_cases
from nought_cases import add_nought_cases
from context_cases import add_context_cases
from version_cases import add_version_cases
from long_table import write_long_table
CRATES = os.path.dirname(os.path.abspath(__file__)) + '/../../crates/'
FOLDER = CRATES + 'cases/'
written = []
def main():
    for add in (add_sheet_cases, add_machine_cases, add_harden_cases, add_hardened_runs, add_tree_cases, add_questions_cases, add_rollback_cases,
                add_nought_cases, add_context_cases, add_version_cases): add()
    write_files(FOLDER)
    write_long_table(CRATES + 'harden_long/')
    written.append({name: sum(call[0] == entry for call in calls) for entry, name in NAMES.items()})
thread = threading.Thread(target=main); thread.start(); thread.join()
print(written[0] if written else sys.exit(1), {name: os.path.getsize(FOLDER + name) for name in ('stdin', 'stdout')})
