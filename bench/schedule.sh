#!/bin/sh
# Measures schedules of the shared list, of 100,000 events and of 999,999, as many events of each in all: events in a
# second of processor time, and how the time of one event grows with the schedule.
#
# usage: bench/schedule.sh
# PASSES is how often a round runs the long schedule (20 if not set), ROUNDS the number of rounds (5 if not set).

. "$(dirname -- "$0")/measure.sh"
passes=${PASSES:-20}

build_program bench_schedule 1000 2 || exit 1

# Millions of events in a second, where so many seconds were spent on so many events.
speed() {
    ratio "$(awk -v events="$1" 'BEGIN { print events / 1000000 }')" "$2"
}

measure_schedules() {
    repeat short 1 "$program" 100000 "$((10 * passes))"
    repeat long 1 "$program" 999999 "$passes"
    short=$(spent start short)
    long=$(spent short long)
    printf '%5d   %16s   %16s   %12s\n' "$round" "$(speed "$((1000000 * passes))" "$short")" \
        "$(speed "$((999999 * passes))" "$long")" "$(ratio "$long" "$short")"
}

echo "$passes passes over 999,999 events, and ten times as many over 100,000: millions of events a second"
echo "round   100,000 events   999,999 events   long / short"
in_rounds measure_schedules
