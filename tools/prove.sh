#!/bin/sh
# Proves the crates and builds target/staticlib/libflow.a: prove.sh ROOT LOG
#
# The prover says hundreds of lines.  All of them go to the log; those of rt itself, one for each crate, are shown as they come.
set -u
root=$1
log=$2

# Reads line by line, which no other tool is sure to do from a pipe without waiting for more.
show() {
    while IFS= read -r line || [ -n "$line" ]; do
        printf '%s\n' "$line" >&5
        case $line in
        "rt: "*) printf '%s\n' "$line" ;;
        esac
    done 5> "$log"
}

# rt puts the archive of the crate into its own folder.
prove() {
    (cd "$root/crates/flow_c" && rt lib && mkdir -p ../../target/staticlib && cp out/libflow_c.a ../../target/staticlib/libflow.a) 2>&1
}

# The status of a pipe is that of its last part: rt's own comes by file 4.
exec 3>&1
status=$({ { prove 3>&- 4>&-; echo $? >&4; } | show >&3; } 4>&1)
if [ "$status" != 0 ]; then
    echo "rt lib of flow_c failed with status $status; $log ends with:" >&2
    tail -n 20 "$log" >&2
fi
exit "${status:-1}"
