#!/usr/bin/env bash
# How many million instructions a second `tp run` executes, and beside it DOSBox by its interpreting core, both on the
# executable of loop_exe.py: by processor time, less that of a run of one round. Both must end with the executable's
# code, 7. DOSBox is Debian's package dosbox; where it isn't installed, that is said.
#   dosbox_speed.sh [ROUNDS]    at most 65535; 3,843 instructions each
set -u
cd "$(dirname "$0")" || exit 1
rounds=${1:-20000}
folder=$(mktemp -d)
trap 'rm -rf "$folder"' EXIT
export SDL_VIDEODRIVER=dummy SDL_AUDIODRIVER=dummy
TIMEFORMAT=%U

by_tp() {
    ../tp -C "$folder" run loop
    [ $? = 7 ]
}

by_dosbox() {
    rm -f "$folder/ended.txt" "$folder/ENDED.TXT"
    timeout 600 dosbox -conf "$folder/dosbox.conf" -noconsole >/dev/null 2>&1
    [ -e "$folder/ended.txt" ] || [ -e "$folder/ENDED.TXT" ]
}

# Prints a name and the millions of instructions a second of a way to run the executable.
measure() {
    local first last count
    python3 loop_exe.py "$folder/loop.exe" 1 >/dev/null
    first=$( { time "$2" >/dev/null 2>&1 || echo failed; } 2>&1 )
    count=$(python3 loop_exe.py "$folder/loop.exe" "$rounds")
    last=$( { time "$2" >/dev/null 2>&1 || echo failed; } 2>&1 )
    case "$first$last" in
    *failed*) echo "$1: the executable did not end with code 7" ;;
    *) python3 -c 'import sys
name, count, first, last = sys.argv[1], *map(float, sys.argv[2:])
print(f"{name}: {count / 1e6 / max(last - first, 0.01):.0f} million instructions a second")' "$1" "$count" "$first" "$last" ;;
    esac
}

# So that no build is measured.
../tp >/dev/null 2>&1
measure 'tp run' by_tp
if command -v dosbox >/dev/null; then
    cat >"$folder/dosbox.conf" <<END
[sdl]
output=surface
[cpu]
core=normal
cycles=max
[mixer]
nosound=true
[autoexec]
mount c $folder
c:
loop.exe
if errorlevel 7 echo ended > ended.txt
exit
END
    measure 'DOSBox, core=normal, cycles=max' by_dosbox
else
    echo 'DOSBox is not installed'
fi
