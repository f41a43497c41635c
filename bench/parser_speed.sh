#!/usr/bin/env bash
# How many milliseconds the lexer and the parser take together for programs of 262,144, 524,288 and 1,048,576 bytes of ordinary
# Pascal, on the average of so many readings (20 without an argument): each is to take twice as long as the one before. Needs the
# built program: `rt run parser_loop` makes it.
set -e
cd "$(dirname "$0")/../crates/parser_loop"
[ -x out/parser_loop ] || rt run >/dev/null
times=${1:-20}
for length in 262144 524288 1048576; do
    start=$(date +%s%N)
    ./out/parser_loop "$length" 0 "$times"
    nanoseconds=$(($(date +%s%N) - start))
    echo "$((nanoseconds / times / 1000000)) milliseconds a reading"
done
