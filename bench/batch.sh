#!/bin/sh
# Measures `tzlist batch` beside `tzlist check` of the same text: a script of 65,535 lookups of zones and instants in no
# order, as a ratio of processor time in one run. Then the peak memory of fifty reloads, each with an erasure, beside
# that of one version.
#
# usage: bench/batch.sh [TEXT]
# TEXT is the machine's own release if none is given. RUNS is how often each command runs in a round (3 if not set),
# ROUNDS the number of rounds (5 if not set). The memory takes GNU time.

. "$(dirname -- "$0")/measure.sh"
text=${1:-/usr/share/zoneinfo/tzdata.zi}
if ! [ -f "$text" ]; then
    echo "bench: there is no $text" >&2
    exit 0
fi
runs=${RUNS:-3}
build_program tzlist info data/N America/New_York 0 || exit 1

# The names of the zones of the text, by a dump of one second.
"$program" dump "$text" 0 1 - | sed -n 's/^zone //p' >"$room/names" || exit 1

# Lookups of zones and instants from 1900 to 2100, in no order.
lookups() {
    awk -v count=65535 '
        { names[NR - 1] = $0 }
        END {
            print "lanes 1\nround"
            number = 1
            for (i = 0; i < count; i++) {
                number = (number * 16807) % 2147483647
                name = names[number % NR]
                number = (number * 16807) % 2147483647
                printf "1 info front %s %.0f\n", name, number * 2.938 - 2208988800
            }
        }' "$room/names"
}

# Fifty reloads, of two texts in turn, and behind each an erasure.
reloads() {
    awk 'BEGIN {
        print "lanes 1\nround"
        for (i = 1; i <= 50; i++)
            printf "1 reload %d\n1 erase front\n", i % 2
    }'
}

# The peak memory of a command, in kilobytes.
memory() {
    if [ -x /usr/bin/time ]; then
        /usr/bin/time -f %M "$@" 2>&1 >"$room/answer" | tail -n 1
    else
        echo unknown
    fi
}

lookups >"$room/lookups" && reloads >"$room/reloads" || exit 1
for script in lookups reloads; do
    if ! "$program" batch "$room/$script" 3 - "$text" "=other,$text" >"$room/answer"; then
        echo "bench: tzlist batch has no answer to its script" >&2
        exit 1
    fi
done

measure_batch() {
    repeat check "$runs" "$program" check "$text"
    repeat batch "$runs" "$program" batch "$room/lookups" 2 - "$text"
    repeat none "$runs" "$program" batch "$room/none" 2 - "$text"
    yardstick=$(spent start check)
    printf '%5d   %15s   %15s\n' "$round" "$(ratio "$(spent check batch)" "$yardstick")" \
        "$(ratio "$(spent batch none)" "$yardstick")"
}

echo "lanes 1" >"$room/none"
echo "processor time of $runs runs, as a ratio to that of $runs runs of check"
echo "round   65,535 lookups   no operation"
in_rounds measure_batch
printf 'one version: %s KB at most, fifty reloads with erasures: %s KB\n' \
    "$(memory "$program" batch "$room/none" 2 - "$text")" \
    "$(memory "$program" batch "$room/reloads" 3 - "$text" "=other,$text")"
