#!/bin/sh
# Measures the two searches of a rule set against one look at every rule of the set: nanoseconds of processor time each,
# and their ratios, all in one run, over the rules of the United States and over sets of 20, 40 and 80 rules that never
# end.
#
# usage: bench/rules.sh [TEXT]..
# COUNT is how many instants a round asks for (1000000 if not set), ROUNDS the number of rounds (3 if not set).

: "${ROUNDS:=3}"
. "$(dirname -- "$0")/measure.sh"
data=$top/crates/bench_rules/data
count=${COUNT:-1000000}
[ $# -gt 0 ] || set -- "$data/us" "$data/twenty" "$data/forty" "$data/eighty"

build_program bench_rules data/us last 1000 || exit 1

each() {
    ratio "$(awk -v spent="$1" 'BEGIN { print spent * 1000000000 }')" "$count"
}

measure_searches() {
    for text; do
        note start
        repeat last 1 "$program" "$text" last "$count"
        repeat next 1 "$program" "$text" next "$count"
        repeat look 1 "$program" "$text" look "$count"
        last=$(spent start last)
        next=$(spent last next)
        look=$(spent next look)
        printf '%5d   %5d   %8s   %8s   %8s   %11s   %11s\n' "$round" "$(grep -c '^Rule' "$text")" "$(each "$last")" \
            "$(each "$next")" "$(each "$look")" "$(ratio "$last" "$look")" "$(ratio "$next" "$look")"
    done
}

echo "$count instants a round, nanoseconds each"
echo "round   rules       last       next       look   last / look   next / look"
in_rounds measure_searches "$@"
