# shellcheck shell=bash
# What people type, made into the words that the program takes, and what is wrong with words. Read by ../tp.

# Sets `commands`, `options`, and `values`, the options that have a value, from the program's own help.
read_help() {
    local help
    help=$(text_of help_text)
    # Its lines are such as `tp go NAME [--limit N]`.
    commands=$(sed -n 's/^\(Usage:\)\{0,1\} *tp \([a-z][a-z]*\) .*/\2/p' <<<"$help")
    options=$(grep -o -e '--[a-z][a-z-]*' <<<"$help" | sort -u)
    values=$(grep -o -e '--[a-z][a-z-]* [A-Z]' <<<"$help" | sed 's/ .*//' | sort -u)
    [ -n "$commands" ]
}

# Whether $2 is a line of $1.
is_among() {
    case $'\n'$1$'\n' in *$'\n'"$2"$'\n'*) ;; *) return 1 ;; esac
}

# Sets `plain` to the places in `words` of those that are no option and no value of one: the command's, the name's and others.
find_plain() {
    local at word
    plain=()
    for ((at = 0; at < ${#words[@]}; at++)); do
        word=${words[at]}
        if [ "$word" = -- ]; then
            for ((at = at + 1; at < ${#words[@]}; at++)); do plain+=("$at"); done
        elif is_among "$values" "$word"; then
            at=$((at + 1))
        elif [ "${word#-}" = "$word" ]; then
            plain+=("$at")
        fi
    done
}

# The word that is nearest to $2 among the lines of $1, if one is near: few letters are wrong, missing, too many or exchanged.
nearest() {
    awk -v typed="$2" '
        function least(a, b) { return a < b ? a : b }
        function distance(a, b,   i, j, d, same) {
            for (i = 0; i <= length(a); i++) d[i, 0] = i
            for (j = 0; j <= length(b); j++) d[0, j] = j
            for (i = 1; i <= length(a); i++)
                for (j = 1; j <= length(b); j++) {
                    same = substr(a, i, 1) == substr(b, j, 1)
                    d[i, j] = least(least(d[i - 1, j], d[i, j - 1]) + 1, d[i - 1, j - 1] + !same)
                    if (i > 1 && j > 1 && substr(a, i, 1) == substr(b, j - 1, 1) && substr(a, i - 1, 1) == substr(b, j, 1))
                        d[i, j] = least(d[i, j], d[i - 2, j - 2] + 1)
                }
            return d[length(a), length(b)]
        }
        length($0) {
            far = distance(tolower(typed), tolower($0))
            if (far <= (length($0) < 4 ? 1 : 2) && (best == "" || far < found)) { best = $0; found = far }
        }
        END { if (best != "") print best }' <<<"$1"
}

# The files in the folder $1, which ends by / or is empty for this one, that have the name $2 but for capitals.
files_like() {
    local LC_ALL=C path
    for path in "$1"*; do
        path=${path#"$1"}
        if [ "${path,,}" = "${2,,}" ] && [ -f "$1$path" ]; then printf '%s\n' "$path"; fi
    done
}

# Goes to the folder $1, which the words name.
go_to() {
    case $1 in /*) cd "$1" ;; *) cd "./$1" ;; esac 2>/dev/null && came=$came${1%/}/ && return
    if [ -d "$1" ]; then echo "tp: the folder '$1' cannot be entered" >&2; else echo "tp: there is no folder '$1'" >&2; fi
    exit 252
}

# Takes the word $2 for a name of the command $1 where it is a path, or has an extension, and exactly one file fits it: sets `folder`
# and `name`.
fit_name() {
    local LC_ALL=C extension=.pas path=${2//\\//}
    [ "$1" != run ] || extension=.exe
    folder=''
    name=$path
    case $path in */*) folder=${path%/*}/ name=${path##*/} ;; esac
    [ "$folder" != ./ ] || folder=''
    case $name in *.[Pp][Aa][Ss] | *.[Ee][Xx][Ee]) name=${name%.*} ;; esac
    [ "$name" != "$2" ] && [[ $name =~ ^[A-Za-z_][A-Za-z_0-9]*$ ]] && [ "$(files_like "$folder" "$name$extension" | wc -l)" = 1 ]
}

# Makes `words` those that the program takes, and goes to the folder of the name's file. No word that the program takes is changed.
rewrite_words() {
    local at folder name
    case ${#words[@]}:${words[*]} in
    0: | 1:-h | 1:-help | 1:-\? | 1:/\? | 1:help) words=(--help) ;;
    1:-v | 1:-V | 1:-version | 1:version) words=(--version) ;;
    2:help\ * | 2:--help\ *) if is_among "$commands" "${words[1]}"; then words=(--help); fi ;;
    2:*\ --help | 2:*\ -h) if is_among "$commands" "${words[0]}"; then words=(--help); fi ;;
    esac
    find_plain
    [ ${#plain[@]} -eq 2 ] && is_among "$commands" "${words[plain[0]]}" || return 0
    at=${plain[1]}
    if fit_name "${words[plain[0]]}" "${words[at]}"; then
        words[at]=$name
        [ -z "$folder" ] || go_to "$folder"
    fi
}

# Says what is wrong with `words`, if the script can tell; the program itself answers `tp: Usage`.
wrong_words() {
    local word near command known="the commands are ${commands//$'\n'/, }"
    local -A seen=()
    for word in "${words[@]}"; do
        [ "$word" != -- ] || break
        [[ $word == -* ]] || continue
        word=${word%%=*}
        if ! is_among "$options" "$word"; then
            near=$(nearest "$options" "$word")
            [ "$word" != -C ] || near='tp -C FOLDER go NAME'
            echo "there is no option '$word'${near:+; did you mean '$near'?}"
            return
        elif [ -n "${seen[$word]-}" ]; then
            echo "the option $word is there twice"
            return
        fi
        seen[$word]=yes
    done
    find_plain
    if [ ${#plain[@]} -eq 0 ]; then
        echo "$known"
        return
    fi
    command=${words[plain[0]]}
    if ! is_among "$commands" "$command"; then
        case ${command,,} in
        compile | build | make | tpc | turbo) near='go NAME' ;;
        check | interpret) near='mean NAME' ;;
        *) near=$(nearest "$commands"$'\nexplain' "$command") ;;
        esac
        if [ -n "$(files_like '' "$command.pas")$(files_like '' "$command")" ]; then near="go $command"; fi
        echo "there is no command '$command'; ${near:+did you mean '$near'? }$known"
    elif [ ${#plain[@]} -eq 1 ]; then
        echo "$command wants a name: tp $command hello for the file hello.pas"
    elif [ ${#plain[@]} -gt 2 ]; then
        echo "there is one name too many: '${words[plain[2]]}'"
    else
        wrong_name "${words[plain[1]]}"
    fi
}

# Says what is wrong with the name $1, if it is none.
wrong_name() {
    local LC_ALL=C base near
    ! [[ $1 =~ ^[A-Za-z_][A-Za-z_0-9]*$ ]] || return 0
    base=${1##*/}
    base=${base%.*}
    near=$(nearest "$(find . -maxdepth 1 -iname '*.pas' -printf '%f\n' | sed 's/\.[^.]*$//' | sort)" "$base")
    echo "'$1' is no name, and not one file fits it: a name has letters, digits and _${near:+; did you mean '$near'?}"
}
