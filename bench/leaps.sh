#!/bin/sh
# Measures conversions between system time and UTC against a plain binary search among the dates of the same table:
# nanoseconds of processor time each, and their ratio, all in one run. A table of 27 leap seconds comes first, and then one
# of 1,024.
#
# usage: bench/leaps.sh [LEAPS]
# LEAPS is a leap text to take in the place of the first. COUNT is how many instants a round converts (20000000 if not
# set), ROUNDS the number of rounds (5 if not set).

. "$(dirname -- "$0")/measure.sh"
leaps=${1:-$top/crates/bench_leaps/data/leaps}
count=${COUNT:-20000000}

build_program bench_leaps data/leaps utc 1000 || exit 1

# A leap text of 1,024 added seconds, two a month from 1980 on.
many_leaps() {
    awk 'BEGIN {
        split("Jan Feb Mar Apr May Jun Jul Aug Sep Oct Nov Dec", months)
        for (line = 0; line < 1024; line++)
            printf "Leap %d %s %d 23:59:60 + S\n", 1980 + int(line / 24), months[int(line / 2) % 12 + 1], 1 + 14 * (line % 2)
    }'
}

each() {
    ratio "$(awk -v spent="$1" 'BEGIN { print spent * 1000000000 }')" "$count"
}

measure_clocks() {
    repeat utc 1 "$program" "$leaps" utc "$count"
    repeat sys 1 "$program" "$leaps" sys "$count"
    repeat info 1 "$program" "$leaps" info "$count"
    repeat search 1 "$program" "$leaps" search "$count"
    utc=$(spent start utc)
    sys=$(spent utc sys)
    info=$(spent sys info)
    search=$(spent info search)
    printf '%5d   %10s   %10s   %9s   %6s   %12s   %12s   %13s\n' "$round" "$(each "$utc")" "$(each "$sys")" "$(each "$info")" \
        "$(each "$search")" "$(ratio "$utc" "$search")" "$(ratio "$sys" "$search")" "$(ratio "$info" "$search")"
}

measure_table() {
    echo
    echo "$1: $count instants a round, nanoseconds each"
    echo "round   utc_of_sys   sys_of_utc   leap_info   search   utc / search   sys / search   info / search"
    in_rounds measure_clocks
}

measure_table "$leaps"
many_leaps >"$room/leaps"
leaps=$room/leaps
measure_table "1,024 leap seconds"
