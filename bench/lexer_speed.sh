#!/usr/bin/env bash
# How many milliseconds the lexer takes for a text of 1,048,576 bytes of ordinary Pascal, on the average of so many readings
# (20 without an argument). Needs the built program: `rt run parser_loop` makes it.
set -e
cd "$(dirname "$0")/../crates/parser_loop"
[ -x out/parser_loop ] || rt run >/dev/null
times=${1:-20}
start=$(date +%s%N)
./out/parser_loop 1048576 "$times" 0
nanoseconds=$(($(date +%s%N) - start))
echo "$((nanoseconds / times / 1000000)) milliseconds a reading"
