#!/bin/sh
# Measures `tzlist check` and `tzlist dump` over a real release in one text, beside wc on the same text, and beside zic and
# zdump where the machine has them: ratios of processor time, all in one run.
#
# usage: bench/release.sh [TEXT]
# RUNS is how often each command runs in a round (20 if not set), ROUNDS the number of rounds (5 if not set). A run of zdump
# over all zones takes longer than all others of a round together, so it runs once for twenty runs of the others.

. "$(dirname -- "$0")/measure.sh"
[ $# -eq 1 ] || set -- /usr/share/zoneinfo/tzdata.zi
runs=${RUNS:-20}
zdump_runs=$(((runs + 19) / 20))
program=$top/crates/tzlist/out/tzlist

# From 1900-01-01 up to 2100-01-01.
from=-2208988800
to=4102444800

# The first run builds the program where it isn't built, and shows that the text is accepted.
if ! "$top/bin/tzlist" check "$1"; then
    echo "bench: tzlist check refuses the text, or there is none" >&2
    exit 1
fi

compile() {
    rm -rf "$room/zones" && zic -d "$room/zones" "$1"
}

dump_compiled() {
    find "$room/zones" -type f -exec zdump -v -c 1900,2100 {} +
}

# The milliseconds of one of so many runs.
each() {
    ratio "$(awk -v spent="$1" 'BEGIN { print spent * 1000 }')" "$2"
}

measure_release() {
    repeat wc "$runs" wc "$1"
    repeat check "$runs" "$program" check "$1"
    repeat dump "$runs" "$program" dump "$1" "$from" "$to" -
    zic=-
    zdump=-
    if command -v zic >"$room/answer" && command -v zdump >"$room/answer"; then
        repeat zic "$runs" compile "$1"
        repeat zdump "$zdump_runs" dump_compiled
        zic=$(ratio "$(spent wc check)" "$(spent dump zic)")
        zdump=$(ratio "$(each "$(spent check dump)" "$runs")" "$(each "$(spent zic zdump)" "$zdump_runs")")
    fi
    printf '%5d   %10s   %9s   %11s   %12s\n' "$round" "$(ratio "$(spent wc check)" "$(spent start wc)")" \
        "$(ratio "$(spent check dump)" "$(spent start wc)")" "$zic" "$zdump"
}

echo "processor time of a run, as a ratio to that of a run of wc, of zic and of zdump over 1900 to 2100"
echo "round   check / wc   dump / wc   check / zic   dump / zdump"
in_rounds measure_release "$1"
