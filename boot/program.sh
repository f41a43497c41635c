# shellcheck shell=bash
# Which file is the program `tp` for the sources of this clone, and how it comes to be. Read by ./tp, ./test and boot/renew.
#   crates/tp/out/tp  what rt built over proved crates: for these sources where none of them is newer
#   boot/tp.gz        the same, packed, for x86-64 Linux: for the sources whose sum is boot/sum
#   boot/tp           boot/tp.gz unpacked, which git ignores
top=$(dirname "$(dirname "$(readlink -f "${BASH_SOURCE[0]}")")")
out=$top/crates/tp/out
built=$out/tp
packed=$top/boot/tp.gz
unpacked=$top/boot/tp
# There while a build is at work, or after one that was killed: its program may be cut off. Its time is that of the build's start.
mark=$out/tp.started

# The lines of crates.txt for tp and the crates below it, in the order in which rt proves them: each after those that it uses.
crate_lines() {
    awk '
        function visit(name,   i, n, words) {
            if (name in seen || !(name in uses)) return
            seen[name] = 1
            n = split(uses[name], words, /[ \t,]+/)
            for (i = 1; i <= n; i++) visit(words[i])
            print line[name]
        }
        { sub(/[ \t]*#.*/, "") }
        NF {
            name = $1
            sub(/:.*/, "", name)
            line[name] = $0
            uses[name] = index($0, ":") ? substr($0, index($0, ":") + 1) : ""
        }
        END { visit("tp") }' "$top/crates.txt"
}

# Sets `names` to the crates at and below tp, and `sources` to where the texts stand that determine the program and its proofs.
find_sources() {
    local name part
    mapfile -t names < <(crate_lines | sed 's/[: ].*//')
    sources=(HANDLES)
    for name in "${names[@]}"; do
        for part in src specs proofs; do
            [ ! -d "$top/crates/$name/$part" ] || sources+=("crates/$name/$part")
        done
    done
}

# The sum of these texts, by their names and bytes, so that it is the same in any folder, with git or without.
sum_of_sources() (
    cd "$top" || exit
    export LC_ALL=C
    {
        crate_lines
        find "${sources[@]}" -type f \( -name '*.rt' -o -name '*.antt' -o -name HANDLES \) -print0 | sort -z | xargs -0 sha256sum
    } | sha256sum | cut -d ' ' -f 1
)

# Whether the program $1 is there and find's test $2 (-newer or -cnewer) holds of none of these files and folders beside the sources.
is_newest() (
    cd "$top" || exit
    [ -x "$1" ] && [ -z "$(find "${sources[@]}" "${@:3}" "$2" "$1" -print -quit)" ]
)

is_built() {
    [ ! -e "$mark" ] && is_newest "$built" -newer crates.txt
}

# Whether boot/tp was unpacked after all that it stands for was put here. By the time of that, which unlike a file's own time no
# tar or cp sets back.
is_unpacked() {
    [ -f "$packed" ] && [ -f "$top/boot/sum" ] && is_newest "$unpacked" -cnewer crates.txt boot/sum boot/tp.gz
}

# Unpacks the boot program where it stands for the sources, or says in `why` why it can't be used. Where boot/ can't be written, it is
# unpacked for this run alone, into a file that loses its name.
unpack() {
    local new place=$unpacked
    why='there is no boot program'
    [ -f "$packed" ] && [ -f "$top/boot/sum" ] || return 1
    why='there is no room for the boot program'
    if ! new=$(mktemp "$top/boot/.new.XXXXXX" 2>/dev/null); then
        new=$(mktemp) || return 1
        place=''
    fi
    # (unpacked before the sum is taken, so that a source that is edited meanwhile is newer)
    if ! gzip -dc "$packed" >"$new" || ! chmod 755 "$new"; then
        why='boot/tp.gz cannot be unpacked'
    elif [ "$(sum_of_sources)" != "$(cat "$top/boot/sum")" ]; then
        why='the boot program was built from other sources'
    elif ! "$new" --version </dev/null >/dev/null 2>&1; then
        why='the boot program does not run here, as it is for x86-64 Linux with glibc 2.34 or later'
    elif [ -z "$place" ]; then
        exec 8<"$new"
        rm -f "$new"
        program=/proc/self/fd/8
        return 0
    elif mv -f "$new" "$place"; then
        return 0
    fi
    rm -f "$new"
    return 1
}

# Sets `program` to one that stands for the sources, if there is one without a build.
at_hand() {
    find_sources
    program=$built
    is_built && return
    program=$unpacked
    is_unpacked || unpack
}

# What the function $1 of the program's source answers, help_text or version_text, so that the script need not say it once more.
text_of() {
    local source=$top/crates/commands/src/texts.rt
    [ -f "$source" ] || return
    printf '%b' "$(awk -v start="fn $1[(]" '
        $0 ~ start { is_in = 1 }
        is_in && /^ *"/ { is_text = 1; sub(/"/, "") }
        is_text { sub(/^ */, ""); ends = sub(/"$/, ""); sub(/\\$/, ""); printf "%s", $0 }
        ends { exit }' "$source")"
}

# Which sources they are, where they came by git. The program itself can't say this: its bytes would change with each commit.
commit_of_sources() {
    local commit
    commit=$(git -C "$top" rev-parse --short=12 HEAD 2>/dev/null) || return 0
    git -C "$top" diff --quiet HEAD -- crates crates.txt 2>/dev/null || commit="$commit, changed since"
    echo "sources: commit $commit"
}

# Answers --help and --version, and refuses `words` that ask for nothing: for these nothing is built. Returns for the others.
answer_words() {
    local wrong
    # (where the source has no such text, the program is built to answer)
    [ -n "$commands" ] || return
    case ${#words[@]}:${words[*]} in
    1:--help) text_of help_text; exit 0 ;;
    1:--version) text_of version_text; commit_of_sources; exit 0 ;;
    esac
    wrong=$(wrong_words)
    if [ -n "$wrong" ]; then
        echo "tp: $wrong; tp --help says more" >&2
        exit 252
    fi
}

minutes() {
    if [ "$1" -lt 3600 ]; then echo "$(($1 / 60)) min"; else echo "$(($1 / 3600)) h $(($1 / 60 % 60)) min"; fi
}

# Says until the process $1 ends how far the build with the log $2 is: on a terminal in one line, else in a line a minute.
show_progress() {
    local -A place
    local number current='' said=0 how='reading the sources'
    for number in "${!names[@]}"; do place[${names[number]}]=$number; done
    while kill -0 "$1" 2>/dev/null; do
        # rt proves one crate after another and names each as it begins.
        number=$(tail -n 3000 "$2" | sed -n 's/^rt: chose --jobs [0-9]* for \([A-Za-z0-9_]*\).*/\1/p' | tail -n 1)
        current=${number:-$current}
        if [ -n "$current" ]; then how="${place[$current]-some} of ${#names[@]} crates proved, now $current"; fi
        if [ -t 2 ]; then
            printf '\r\033[Ktp: %s (%s)' "$how" "$(minutes $SECONDS)" >&2
        elif [ $((SECONDS / 60)) -gt $said ]; then
            said=$((SECONDS / 60))
            echo "tp: $how ($(minutes $SECONDS))" >&2
        fi
        sleep 1 9>&-
    done
    [ ! -t 2 ] || printf '\r\033[K' >&2
}

# Copies the file $1 to $2, as a whole or not at all.
copy_to() {
    cp -p "$1" "$2.part" && mv -f "$2.part" "$2"
}

# Has the program that was there before the build that `mark` tells of. A program that this one began may be cut off.
put_back() {
    [ -e "$mark" ] || return
    if [ -e "$out/tp.older" ]; then mv -f "$out/tp.older" "$built"; else rm -f "$built"; fi
    rm -f "$mark"
}

# Builds and proves the program. The one that is there stays there unless that succeeds, and isn't used for the newer sources.
build() {
    local log=$out/tp.log job status
    echo "tp: $why, and none is built here that is as new as the sources" >&2
    if ! command -v rt >/dev/null; then
        cat >&2 <<'END'
tp: building it needs the command rt of the Rattle kit: unpack the kit, put its folder bin on PATH, and run this again
tp: a build proves all crates below the program, in an hour or two. It wants 4 GB of memory for each check (25 GB are
tp: comfortable) and 20 GB of disk
END
        return 252
    fi
    mkdir -p "$out" && exec 9>"$out/tp.lock" || return 252
    if ! flock -n 9; then
        echo 'tp: another build is at work in this clone; waiting for it' >&2
        flock 9
        if at_hand; then
            exec 9>&-
            return 0
        fi
    fi
    echo "tp: proving and building ${#names[@]} crates, which takes an hour or two the first time, about 25 GB of memory and 20 GB of disk" >&2
    echo "tp: the log is $log" >&2
    : >"$log"
    # (of a build that was killed)
    put_back
    rm -f "$out/tp.older"
    if [ -e "$built" ]; then copy_to "$built" "$out/tp.older"; fi
    touch "$mark"
    # (a file of its own, since rt may link into it, and the old one may be running)
    if [ -e "$out/tp.older" ]; then copy_to "$out/tp.older" "$built"; fi
    SECONDS=0
    # In a group of its own, so that all of it ends where this script is stopped.
    set -m
    (cd "$top/crates/tp" && exec rt run -- --version) </dev/null >"$log" 2>&1 9>&- &
    job=$!
    set +m
    trap 'kill -- "-$job" 2>/dev/null; put_back; echo >&2; exit 130' INT TERM HUP
    show_progress $job "$log"
    wait $job
    status=$?
    trap - INT TERM HUP
    # The status is that of `tp --version`, so 0 only where rt built it and it ran.
    if [ $status -ne 0 ] || [ ! -x "$built" ]; then
        put_back
        exec 9>&-
        tail -n 40 "$log" >&2
        echo "tp: the program could not be built; the log is $log" >&2
        [ ! -e "$built" ] || echo 'tp: the program of an earlier build is still there, but is not run, as sources have changed since' >&2
        return 252
    fi
    # (so that sources that were edited meanwhile are newer)
    touch -r "$mark" "$built"
    rm -f "$mark" "$out/tp.older"
    exec 9>&-
    echo "tp: built in $(minutes $SECONDS)" >&2
    program=$built
}

# Sets `program`, and builds it if need be; ends where `words` ask for nothing or it can't be built.
find_program() {
    at_hand && return
    answer_words
    build || exit
}

# Whether the boot program is, byte for byte, the one that was built.
boot_is_built() {
    [ -f "$packed" ] && gzip -dc "$packed" | cmp -s - "$built"
}

boot_has_sum() {
    [ -f "$top/boot/sum" ] && [ "$(sum_of_sources)" = "$(cat "$top/boot/sum")" ]
}
