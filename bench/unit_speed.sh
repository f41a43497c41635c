#!/usr/bin/env bash
# How many milliseconds of processor time a unit file takes to be read, on the average of so many readings (10 without an argument):
# one of a million references (13,000,062 bytes), and two with 100,000 and 200,000 types, each declared by a unit of its own (1,400,062
# and 2,800,062 bytes). The making of the file, timed apart by a run with one reading, is not counted. Needs the built program:
# `rt run unit_loop` makes it.
set -e
cd "$(dirname "$0")/../crates/unit_loop"
[ -x out/unit_loop ] || rt run >/dev/null
times=${1:-10}

# The processor time of a run with so many references, readings and types, in milliseconds.
milliseconds() {
    local TIMEFORMAT='%3U %3S' spent
    spent=$({ time ./out/unit_loop "$@" >/dev/null; } 2>&1)
    awk '{ print int(1000 * ($1 + $2)) }' <<<"$spent"
}

# The processor time of one reading of a file with so many references and types.
reading() {
    local once more
    once=$(milliseconds "$1" 1 "$2")
    more=$(milliseconds "$1" $((times + 1)) "$2")
    echo "$1 references, $2 types: $(((more - once) / times)) milliseconds a reading"
}

reading 1000000 0
reading 0 100000
reading 0 200000
