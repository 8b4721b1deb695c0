# What a refusal means, in words. It needs the repository's folder in `top` and the program in `program`, and takes its words
# from docs/FORMATS.md, which has each cause, each form of the commands and each status once.

# The tables of docs/FORMATS.md that begin with a word, each with its head.
tables() {
    awk -F ' *[|] *' -v head="$1" '
        $2 == head { inside = 1 }
        !/^[|]/ { inside = 0 }
        inside
    ' "$top/docs/FORMATS.md"
}

# What their rows that begin with a number have in a column, a line each.
cells() {
    tables "$1" | awk -F ' *[|] *' -v number="$2" -v column="$3" '$2 == number { print $column }'
}

# What the first of these rows has there.
cell() {
    cells "$@" | head -n 1
}

# The forms of all commands.
forms() {
    tables Words | awk -F ' *[|] *' '$2 ~ /^`/ { gsub(/`/, "", $2); print "  tzlist " $2 }'
}

# What a status comes of.
status_in_words() {
    cell Status "$1" 4
}

# The file of a word TEXT with that number, from 1 on; a version that is given in front is no file.
file_of() {
    printf '%s\n' "$1" | awk -F , -v file="$2" '{ print $(file + ($1 ~ /^=/ ? 1 : 0)) }'
}

# Tells what is wrong with a line of a file, the line's own text, and what to do about it, where that is known.
tell_line() {
    printf '%s, line %s: %s\n' "$1" "$2" "$3"
    [ -f "$1" ] && sed -n "${2}p;${2}q" -- "$1" | cut -c 1-120 | sed 's/^/    /'
    [ -z "$4" ] || printf 'What to do: %s.\n' "$4"
}

# Tells a refused text: where it is refused, the line's own text, and what is wrong with it. The words follow the refusal's
# own, `text LINE CAUSE`, `text LINE CAUSE in FILE` or `leaps LINE CAUSE`.
explain_text() {
    number=1
    [ "$#" -gt 4 ] && [ "$4" = in ] && number=$5
    named=$text
    # A cause that both tables have means in leap texts what the later one says.
    first_or_last=head
    [ "$1" = leaps ] && named=$leaps first_or_last=tail
    tell_line "$(file_of "$named" "$number")" "$2" "$(cells Cause "$3" 3 | $first_or_last -n 1)" \
        "$(cells Cause "$3" 6 | $first_or_last -n 1)"
}

# The same of a script. The words follow `script LINE CAUSE`.
explain_script() {
    tell_line "$script" "$2" "$(cell 'Cause of a script' "$3" 3)" \
        "$(cell 'Cause of a script' "$3" 6)"
}

# Explains a status other than 0, of the words that follow it.
explain() {
    status=$1
    shift
    case $status in
    0) ;;
    2)
        echo "tzlist: the words match no form. The forms are:"
        forms
        ;;
    3)
        text=$2
        leaps=$2
        [ "$1" = batch ] && leaps=$4 text=$5
        explain_text $("$program" "$@" 2>/dev/null)
        ;;
    4)
        script=$2
        explain_script $("$program" "$@" 2>/dev/null)
        ;;
    *) printf 'tzlist: %s\n' "$(status_in_words "$status")" ;;
    esac
}
