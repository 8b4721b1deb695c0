#!/bin/sh
# Measures `tzlist info` over a text against `wc -c` on the same file: ratios of processor time, all in one run.
#
# usage: bench/info.sh [TEXT ZONE T]
# RUNS is how often each command runs in a round (200 if not set), ROUNDS the number of rounds (5 if not set).

. "$(dirname -- "$0")/measure.sh"
[ $# -eq 3 ] || set -- "$top/crates/tzlist/data/N" America/New_York 0
runs=${RUNS:-200}

# The first run builds the program where it isn't built, and shows that the words have an answer.
if ! "$top/bin/tzlist" info "$@" >"$room/answer"; then
    echo "bench: tzlist info has no answer to these words" >&2
    exit 1
fi

measure_info() {
    repeat wc "$runs" wc -c "$1"
    repeat script "$runs" "$top/bin/tzlist" info "$@"
    repeat program "$runs" "$top/crates/tzlist/out/tzlist" info "$@"
    repeat again "$runs" wc -c "$1"
    yardstick=$(spent start wc)
    printf '%5d   %10s   %7s   %11s\n' "$round" "$(ratio "$(spent wc script)" "$yardstick")" \
        "$(ratio "$(spent script program)" "$yardstick")" "$(ratio "$(spent program again)" "$yardstick")"
}

echo "processor time of $runs runs, as a ratio to that of $runs runs of wc -c"
echo "round   bin/tzlist   program   wc -c again"
in_rounds measure_info "$@"
