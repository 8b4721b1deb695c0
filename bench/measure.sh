# What the measuring scripts share, and source first: the repository's folder `top`, and a folder `room` of their own.

LC_ALL=C
export LC_ALL
top=$(CDPATH='' cd -- "$(dirname -- "$0")/.." && pwd -P) || exit 1
. "$top/bin/build.sh"
room=$(mktemp -d) || exit 1
trap 'rm -rf "$room"' 0
trap 'exit 1' 1 2 15
rounds=${ROUNDS:-5}

# Notes the processor time of all commands that have ended.
note() {
    times >"$room/$1"
}

# The seconds of processor time, user and system together, that commands took between two notes. The second line of a
# note has those of the commands.
spent() {
    awk '
        function seconds(word, parts) {
            split(word, parts, "m")
            return 60 * parts[1] + parts[2]
        }
        FNR == 2 {
            now = seconds($1) + seconds($2)
            if (notes++)
                printf "%.3f\n", now - before
            before = now
        }
    ' "$room/$1" "$room/$2"
}

# The first number in times of the second, with two digits.
ratio() {
    awk -v number="$1" -v yardstick="$2" 'BEGIN {
        if (yardstick > 0)
            printf "%.2f\n", number / yardstick
        else
            print "too-short"
    }'
}

# Runs a command so often, and notes the time behind it.
repeat() {
    name=$1
    left=$2
    shift 2
    while [ "$left" -gt 0 ]; do
        "$@" >"$room/answer" || exit 1
        left=$((left - 1))
    done
    note "$name"
}

# Runs a command once a round, with a note named start before it and the number of the round in `round`.
in_rounds() {
    round=0
    while [ "$round" -lt "$rounds" ]; do
        round=$((round + 1))
        note start
        "$@"
    done
}
