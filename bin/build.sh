# What starts a program of this repository sources first. It needs the repository's folder in `top`.

# How many crates a crate stands on, itself among them, by crates.txt.
crates_under() {
    awk -v wanted="$1" '
        /^[a-z]/ {
            name = $1
            sub(/:$/, "", name)
            under[name] = $0
        }
        function count(name, words, size, i) {
            if (!(name in under) || seen[name]++)
                return 0
            size = split(under[name], words, " ")
            crates++
            for (i = 2; i <= size; i++)
                count(words[i])
        }
        END {
            count(wanted)
            print crates
        }
    ' "$top/crates.txt"
}

# Of what `rt` says, tells which crate it is at.
tell_progress() {
    awk -v all="$1" '
        /^rt: chose --jobs [0-9]+ for / && !seen[$NF]++ {
            printf "  %s, crate %d of at most %d\n", $NF, ++at, all
            fflush()
        }
    ' >&2
}

# Builds the program of a crate where it isn't built, or where its code is newer than it: `rt run` in the crate's folder
# proves it, leaves it there as out/CRATE, and tries it on the words that follow. It says on standard error what it does and
# how far it is, and where it fails the last lines of what `rt` said. The program gets the time at which its build began, so
# that code edited meanwhile counts as newer.
build_program() {
    crate=$top/crates/$1
    program=$crate/out/$1
    name=$1
    shift
    if [ -x "$program" ] && [ -z "$(find "$top/crates.txt" "$top"/crates/*/src -type f -newer "$program" -print)" ]; then
        return 0
    fi
    if ! command -v rt >/dev/null 2>&1; then
        echo "tzlist: the program isn't built, and the command rt that builds it isn't there" >&2
        return 1
    fi
    echo "tzlist: proving and building $name; from nothing that takes some 15 minutes on four processors" >&2
    begun=$program.begun
    said=$program.said
    mkdir -p "$crate/out" && : >"$begun" || return 1
    (
        cd "$crate" && rt run -- "$@" 2>&1 </dev/null
        echo "ended $?"
    ) | tee "$said" | tell_progress "$(crates_under "$name")"
    if [ "$(tail -n 1 "$said")" != "ended 0" ]; then
        echo "tzlist: $name wasn't built; the last that was said of it, whole in $said:" >&2
        tail -n 12 "$said" >&2
        return 1
    fi
    touch -r "$begun" "$program"
}
