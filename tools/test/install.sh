#!/bin/sh
# Installs into an empty folder and uses what was installed, as a program's maker would: every file, pkg-config, C, C++, Python.
# `make check-install` gives MAKE, BUILD and CC.  Ends with the number of checks that passed, or at the first that fails.
set -eu

root=$(mktemp -d)
trap 'rm -rf "$root"' EXIT
prefix=/opt/flow
installed=$root/destdir$prefix
passed=0

# expect WHAT EXPECTED GOT
expect() {
    if [ "$2" != "$3" ]; then
        printf 'install: %s\nexpected:\n%s\ngot:\n%s\n' "$1" "$2" "$3" >&2
        exit 1
    fi
    passed=$((passed + 1))
}

# ---- What is installed ----

mkdir "$root/destdir"
"$MAKE" --no-print-directory BUILD="$BUILD" DESTDIR="$root/destdir" PREFIX=$prefix install > "$root/log" 2>&1 || {
    cat "$root/log" >&2
    exit 1
}

expect "the files and their modes" "755 ./bin/flow
644 ./include/flow.h
644 ./include/flow_words.h
644 ./lib/libflow.a
777 ./lib/libflow.so
755 ./lib/libflow.so.1
644 ./lib/pkgconfig/flow.pc
644 ./share/man/man1/flow.1" "$(cd "$installed" && find . ! -type d -exec stat -c '%a %n' {} + | LC_ALL=C sort -k 2)"
expect "nothing stands outside the prefix" "./opt ./opt/flow" \
    "$(cd "$root/destdir" && echo $(find . -mindepth 1 -maxdepth 2 | LC_ALL=C sort))"
expect "the link to the shared library" libflow.so.1 "$(readlink "$installed/lib/libflow.so")"
expect "the shared library exports the entries alone" \
    "flow_guess flow_harden flow_questions flow_rollback flow_run flow_sheet" \
    "$(echo $(nm -D --defined-only "$installed/lib/libflow.so.1" | awk '{print $3}' | LC_ALL=C sort))"

expect "the library has no memory of its own to write, so that many threads may call it" "" \
    "$(size -A "$installed/lib/libflow.a" | awk '$1 ~ /^\.(data|bss|tdata|tbss)/ && $2 > 0')"

expect "the library needs one name from outside, so that it links alone" memset \
    "$(echo $(nm -u "$installed/lib/libflow.a" | awk '$1 == "U" {print $2}'))"

# ---- The release is one number ----

release=$(sed -n 's/^## \([0-9.]*\) .*/\1/p' CHANGELOG.md | head -n 1)
expect "flow.h and CHANGELOG.md name one release" "#define FLOW_RELEASE \"$release\"" \
    "$(grep '^#define FLOW_RELEASE' "$installed/include/flow.h")"
expect "flow --version" "flow $release" "$("$installed/bin/flow" --version)"

# The file says where it will stand, not where it was put for now: the test gives that.
export PKG_CONFIG_LIBDIR="$installed/lib/pkgconfig"
expect "the prefix of flow.pc" $prefix "$(pkg-config --variable=prefix flow)"
expect "the release of flow.pc" "$release" "$(pkg-config --modversion flow)"
cflags=$(pkg-config --define-variable=prefix="$installed" --cflags flow)
libs=$(pkg-config --define-variable=prefix="$installed" --libs flow)

# ---- A program in C, by the shared library and by the archive ----

cat > "$root/program.c" << 'END'
#include <stdio.h>
#include "flow.h"
#include "flow_words.h"

/* Document 01's example. */
static const uint8_t table[] = {10, 0, 1, 0, 1, 0, 0, 0, 1, 0, 10, 0, 3, 0, 0, 0, 0, 0, 0, 0, 4, 0, 48, 0};

static const uint8_t numbers[] = {1, 2, 3, 4, 5, 6, 7, 8, 9, 10, 11, 12, 13, 14, 15, 16};

static void print_number(size_t i)
{
    uint64_t number = flow_answer_number(numbers, sizeof numbers, i);
    printf("%s %llx\n", number == FLOW_NO_NUMBER ? "none" : "number", (unsigned long long)number);
}

static void harden(size_t length)
{
    uint8_t hardened[FLOW_TABLE_BYTES], answer[FLOW_ANSWER_BYTES];
    uint64_t refusal = flow_harden(table, length, hardened, sizeof hardened, answer, sizeof answer);
    unsigned long second = (unsigned long)flow_answer_number(answer, sizeof answer, 1);
    printf("%s, %lu:", flow_refusal_words(refusal), second);
    for (size_t i = 0; refusal == FLOW_ACCEPTED && i < second; i++)
        printf(" %d", hardened[i]);
    printf("\n");
}

int main(void)
{
    printf("%s\n", FLOW_RELEASE);
    printf("%u variables in %u bytes, %u in %u\n", flow_max_variables(FLOW_VERSION), (unsigned)flow_mask_bytes(FLOW_VERSION),
           flow_max_variables(FLOW_VERSION_2), (unsigned)flow_mask_bytes(FLOW_VERSION_2));
    harden(sizeof table);
    harden(sizeof table - 1);
    print_number(1);
    print_number(2);
    printf("%s\n", flow_end_words(FLOW_FINISHED));
    return 0;
}
END

expected="$release
32 variables in 4 bytes, 64 in 8
accepted, 24: 10 0 1 0 1 0 1 0 1 0 10 0 3 0 0 0 0 0 0 0 4 0 48 0
the table is cut: fewer bytes remain than the record needs, 20:
number 100f0e0d0c0b0a09
none ffffffffffffffff
finished"
strict="-O2 -Wall -Wextra -Werror -pedantic"

# What the program needs at run time of this library.
needed() {
    readelf -d "$1" | sed -n 's/.*NEEDED.*\[\(libflow[^]]*\)\].*/\1/p'
}

$CC -std=c11 $strict $cflags "$root/program.c" $libs -o "$root/shared"
expect "C, shared: what it needs" libflow.so.1 "$(needed "$root/shared")"
expect "C, shared" "$expected" "$(LD_LIBRARY_PATH="$installed/lib" "$root/shared")"

$CC -std=c11 $strict $cflags "$root/program.c" -Wl,-Bstatic $libs -Wl,-Bdynamic -o "$root/static"
expect "C, static: what it needs" "" "$(needed "$root/static")"
expect "C, static" "$expected" "$("$root/static")"

if command -v g++ > "$root/log"; then
    g++ -std=c++11 $strict $cflags -x c++ "$root/program.c" -x none $libs -o "$root/c++"
    expect "C++" "$expected" "$(LD_LIBRARY_PATH="$installed/lib" "$root/c++")"
else
    echo "install: no g++, the headers are not tried in C++"
fi

# ---- Python ----

FLOW_LIBRARY=$installed/lib/libflow.so.1 PYTHONDONTWRITEBYTECODE=1 python3 python/test_flow.py > "$root/log" 2>&1 || {
    cat "$root/log" >&2
    exit 1
}
expect "the Python test" OK "$(tail -n 1 "$root/log")"

# ---- The man page: formatted without a warning, and its synopsis is what the commands say of their usage ----

usage() {
    "$installed/bin/flow" --help | sed -n '/^$/,/^$/s/^flow [a-z].*/&/p'
}

if command -v groff > "$root/log"; then
    groff -man -ww -Tascii -P-cbou -rLL=200n "$installed/share/man/man1/flow.1" > "$root/page" 2> "$root/log" || true
    expect "the man page has no warnings" "" "$(cat "$root/log")"
    expect "the synopsis" "$(usage)
flow [COMMAND] --help
flow --version" "$(sed -n '/^SYNOPSIS/,/^DESCRIPTION/s/^ *\(flow .*\)/\1/p' "$root/page")"
else
    echo "install: no groff, the man page is not formatted"
fi

echo "install: $passed checks passed"
