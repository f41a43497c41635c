# Prints where a name stands in a program's sources: FILE LINE COLUMN, a line for each place.
#   awk -f places.awk -v start=a.pas -v word=count    in a.pas, and in all that it uses and includes, which lie in this folder
#   .. -v inside=uses                                 only in clauses of uses
#   .. -v inside=include                              only as a file that is included
# Comments and texts are passed over. It reads words and no grammar: it only has to find what a refusal names without a place.

function take(file,   text, row) {
    if (file in taken) return
    taken[file] = 1
    row = 0
    ends = ""
    used = 0
    while ((getline text <file) > 0) scan(file, ++row, text)
    close(file)
}

# Goes through a line. `ends` is what closes the comment that is open, and `used` is there inside a clause of uses.
function scan(file, row, text,   at, rest, name) {
    at = 1
    while (at <= length(text)) {
        rest = substr(text, at)
        if (ends != "") {
            if (!index(rest, ends)) return
            at += index(rest, ends) + length(ends) - 1
            ends = ""
        } else if (rest ~ /^\{/ || rest ~ /^\(\*/) {
            ends = rest ~ /^\{/ ? "}" : "*)"
            if (match(rest, /^(\{|\(\*)\$[Ii] +[^ }*]+/)) {
                name = substr(rest, 1, RLENGTH)
                sub(/.* /, "", name)
                later[++last] = tolower(name)
                if (inside == "include" && tolower(name) == tolower(word)) print file, row, at
            }
            at += length(ends)
        } else if (match(rest, /^'[^']*'/)) at += RLENGTH
        else if (match(rest, /^[A-Za-z_][A-Za-z_0-9]*/)) {
            name = tolower(substr(rest, 1, RLENGTH))
            if (name == tolower(word) && (!inside || inside == "uses" && (used || name == "uses"))) print file, row, at
            if (used) later[++last] = name ".pas"
            if (name == "uses") used = 1
            at += RLENGTH
        } else {
            if (rest ~ /^;/) used = 0
            at++
        }
    }
}

BEGIN {
    later[last = 1] = start
    for (next_one = 1; next_one <= last; next_one++) take(later[next_one])
}
