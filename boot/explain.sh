# shellcheck shell=bash
# What ../tp does with its words, and what the lines of the program mean, by the table docs/messages.tsv. Read by ../tp.
table=$top/docs/messages.tsv
# What leads from the caller's folder to the one where the program runs.
came=''

# Sets `key` to the row of the table that the line $1 is told by, and `file`, `row` and `column` to the place that it names, if any.
read_line() {
    local -a said
    local place=''
    key=''
    read -ra said <<<"$1"
    case "${said[0]-}:${said[1]-}" in
    Runtime:error) key="Runtime ${said[2]-}" ;;
    tp::CheckRefused) place=${said[2]-} key="CheckRefused ${said[3]-} ${said[4]-}" ;;
    tp::BadToken | tp::NotInProfile) place=${said[2]-} key="${said[1]} ${said[3]-}" ;;
    tp::Syntax | tp::TooDeep) place=${said[2]-} key=${said[1]} ;;
    tp::ClassRefused | tp::TooLarge | tp::NotExecutable | tp::Undefined) key="${said[1]} ${said[2]-}" ;;
    tp::Stopped) key="Stopped ${said[3]-}" ;;
    tp:*) key=${said[1]-} ;;
    esac
    IFS=: read -r file row column <<<"$place"
}

# Sets `turbo`, `cause`, `remedy`, `example` and `gives` from the row with this key.
read_row() {
    local found
    found=$(awk -F '\t' -v key="$1" 'NR > 1 && $1 == key { print; exit }' "$table")
    [ -n "$found" ] && IFS=$'\t' read -r _ turbo cause remedy example gives <<<"$found"
}

# Shows line $2 of the file $1 with a caret under column $3. What a terminal may take for a command is shown as `?`.
show_source() {
    [ ! -f "$1" ] || LC_ALL=C awk -v row="$2" -v column="$3" '
        NR == row {
            sub(/\r$/, "")
            from = column > 100 ? column - 60 : 1
            text = substr($0, from, 140)
            front = substr(text, 1, column - from)
            gsub(/[^\t -~]/, "?", text)
            gsub(/[^\t]/, " ", front)
            print text
            print front "^"
            exit
        }' <"$1"
}

# Shows where the name $1 stands in the sources of the program, for a refusal that names no place. More words are awk's.
show_places() {
    local found line at
    while read -r found line at; do
        echo "$came$found($line,$at) Note: $1 stands here"
        show_source "$found" "$line" "$at"
    done < <(LC_ALL=C awk -v start="$source" -v word="$1" "${@:2}" -f "$top/boot/places.awk" </dev/null 2>/dev/null | head -n 4)
}

# Says what is there in place of the file $1 that is missing, and which source names it.
explain_missing() {
    local other
    other=$(files_like '' "$1" | head -n 1)
    if [ -n "$other" ]; then
        echo "Help: here is $other, and names of files are in lower case: mv $(printf '%q %q' "$came$other" "$came$1")"
        if [ "$(find . -maxdepth 1 -type f -iname '*.pas' -name '*[A-Z]*' | wc -l)" -gt 1 ]; then
            echo "Help: all of the folder, in bash: for f in *.[Pp][Aa][Ss]; do mv -n \"\$f\" \"\${f,,}\"; done"
        fi
    elif [ "$1" != "${1%.exe}" ] && [ -f "${1%.exe}.pas" ]; then
        echo "Help: tp go ${1%.exe} writes it"
    else
        other=$(nearest "$(find . -maxdepth 1 -type f -name "*.${1##*.}" -printf '%f\n' | LC_ALL=C sort)" "$1")
        [ -z "$other" ] || echo "Help: did you mean $other?"
    fi
    case $1 in
    "$source") ;;
    *.pas) show_places "${1%.pas}" -v inside=uses ;;
    *) show_places "$1" -v inside=include ;;
    esac
}

# Says how to find a place that the line doesn't name.
explain_place() {
    case $key in
    Runtime\ * | Undefined\ *)
        [ "$command" != mean ] ||
            echo "Help: to find where, give --turns N with smaller N: the output then ends as so many turns of loops and calls are done"
        ;;
    Circular) show_places uses -v start="${1,,}.pas" -v inside=uses | head -n 3 ;;
    ClassRefused\ *) show_places "$1" ;;
    MissingFile) explain_missing "$1" ;;
    Usage)
        local wrong
        wrong=$(wrong_words)
        echo "Help: ${wrong:-a number is not there or out of range, or an option is there twice}"
        ;;
    esac
}

# Explains the last line that the program wrote, $1, as $2 said.
explain_line() {
    local file row column turbo cause remedy example gives last
    read_line "$1"
    read_row "$key" || return 0
    last=${1##* }
    if [ -n "$file" ]; then
        echo "$came$file($row,$column) Error: $cause"
        show_source "$file" "$row" "$column"
    else
        echo "Error: $cause"
    fi
    echo "Help: $remedy"
    explain_place "$last"
    [ "$turbo" = - ] || [ "${key%% *}" = Runtime ] && return 0
    echo "Turbo Pascal: Error ${turbo%% *}: ${turbo#* }"
}

# Shows the row with the key $1 in full.
show_row() {
    local turbo cause remedy example gives kind=Error
    read_row "$1"
    [ "${1%% *}" != Runtime ] || kind='Runtime error'
    echo "${1/#Runtime /Runtime error }"
    echo "  Cause: $cause."
    if [ "$example" != - ]; then
        echo '  Example:'
        printf '%b\n' "$example" | sed 's/^/    /'
        [ "$gives" = - ] || echo "    gives: $gives"
    fi
    echo "  Remedy: $remedy."
    [ "$turbo" = - ] || echo "  Turbo Pascal: $kind ${turbo%% *}: ${turbo#* }"
}

# tp explain WORD..: shows what a line means, or each row of the table whose key has all of the words; without words all keys.
explain_words() {
    local file row column found
    read_line "$*"
    [ -n "$key" ] || read_line "tp: $*"
    if read_row "$key"; then
        show_row "$key"
        return
    fi
    found=$(awk -F '\t' -v words="$*" '
        BEGIN { n = split(tolower(words), wanted, / +/) }
        NR > 1 {
            key = " " tolower($1) " "
            for (i = 1; i <= n; i++)
                if (wanted[i] != "error" && wanted[i] != "tp:" && !index(key, " " wanted[i] " ")) next
            print $1
        }' "$table")
    case $(grep -c . <<<"$found") in
    0)
        found=$(nearest "$(cut -f 1 "$table" | tr ' ' '\n' | sort -u)" "${1-}")
        echo "tp: nothing is known of '$*'${found:+; did you mean '$found'?}; tp explain lists all that is" >&2
        return 252
        ;;
    [1-3]) while read -r row; do show_row "$row"; done <<<"$found" ;;
    *) printf '%s\n' "$found" ;;
    esac
}

# Runs the program with `words`. Where standard error is a terminal, or TP_EXPLAIN is 1, explains behind what it wrote its last line.
run_words() {
    local command source tee status last
    case ${TP_EXPLAIN-} in
    1) ;;
    '') [ -t 2 ] || exec "$program" "${words[@]}" ;;
    *) exec "$program" "${words[@]}" ;;
    esac
    find_plain
    command=${words[${plain[0]-0}]-}
    source=${words[${plain[1]-0}]-}
    source=${source,,}.pas
    if [ "$command" = mean ] && [ -t 0 ]; then
        echo 'tp: mean reads its whole input first: end it by Ctrl-D, or start it with </dev/null' >&2
    fi
    said=$(mktemp 2>/dev/null) || exec "$program" "${words[@]}"
    trap 'rm -f "$said"' EXIT
    exec 4> >(exec tee "$said" >&2)
    tee=$!
    "$program" "${words[@]}" 2>&4 4>&-
    status=$?
    exec 4>&-
    wait $tee
    # (only what the program said at its end, and on a line of its own)
    last=$(tail -c 400 "$said" | tr -d '\0\r' | tail -n 1)
    [ "$status" -eq 0 ] || explain_line "$last" >&2
    exit "$status"
}

# Does what ../tp is asked by these words, and ends.
answer() {
    if [ "${1-}" = -C ]; then
        if [ $# -lt 2 ]; then
            echo 'tp: -C wants a folder' >&2
            exit 252
        fi
        go_to "$2"
        shift 2
    fi
    if [ "${1-}" = explain ]; then
        explain_words "${@:2}"
        exit
    fi
    words=("$@")
    read_help && rewrite_words
    find_program
    run_words
}
