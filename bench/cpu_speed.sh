#!/usr/bin/env bash
# How many million instructions a second of processor time the machine executes, on a loop of register, memory, stack, call
# and jump instructions. Needs the built program: `rt run cpu_loop` makes it.
set -e
cd "$(dirname "$0")/../crates/cpu_loop"
[ -x out/cpu_loop ] || rt run >/dev/null
steps=${1:-200000000}
TIMEFORMAT=%U
seconds=$( { time ./out/cpu_loop "$steps" >/dev/null; } 2>&1 )
python3 -c 'import sys; print(f"{float(sys.argv[1]) / 1e6 / float(sys.argv[2]):.0f} million instructions a second")' "$steps" "$seconds"
