#!/bin/sh
# Shows the command at work on a program of examples/, in a folder that is removed again: demo.sh FOLDER-OF-FLOW
set -u
flow=$(cd "$1" && pwd) || exit 1
examples=$(cd "$(dirname "$0")/../examples" && pwd) || exit 1
PATH=$flow:$PATH
folder=$(mktemp -d) || exit 1
trap 'rm -rf "$folder"' EXIT
trap 'exit 1' HUP INT TERM
cd "$folder" && cp "$examples/bounds.flow" . || exit 1

# play STATUS COMMAND: prints the command, then what it prints; it must end with this status.
play() {
    printf '\n$ %s\n' "$2"
    sh -c "$2"
    status=$?
    [ "$status" -eq 0 ] || printf '(exit status %d)\n' "$status"
    [ "$status" -eq "$1" ] && return
    echo "demo: exit status $1 was expected" >&2
    exit 1
}

attack='"force; load keys 0; step" i=4,keys=77 i=4,keys=78'

echo "A program as text, its table, and the labels that the library finds:"
play 0 'cat bounds.flow'
play 0 'flow assemble -o bounds.tab bounds.flow'
play 0 'flow list --names bounds.flow bounds.tab'
printf '\nThe processor guesses wrong at the branch, and reads the secret cell of keys.  It holds 77 or 78: does it show?\n'
play 3 "flow attack --names bounds.flow bounds.tab $attack"
printf '\nIt does.  The same of the hardened table:\n'
play 0 'flow harden -o hardened.tab bounds.tab'
play 0 'flow list --flag --names bounds.flow hardened.tab'
play 0 "flow attack --flag --names bounds.flow hardened.tab $attack"
