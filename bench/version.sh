#!/bin/sh
# Measures how long the version of a real release takes to be made, all its zones ready for questions, against `tzlist check` of
# the same text: ratios of processor time, all in one run.
#
# usage: bench/version.sh [TEXT]
# TEXT is the machine's own release if none is given. COUNT is how many versions a round makes (200 if not set), ROUNDS the number
# of rounds (3 if not set).

: "${ROUNDS:=3}"
. "$(dirname -- "$0")/measure.sh"
text=${1:-/usr/share/zoneinfo/tzdata.zi}
count=${COUNT:-200}
if ! [ -f "$text" ]; then
    echo "bench: there is no $text" >&2
    exit 0
fi

build_program tzlist info data/N America/New_York 0 || exit 1
check=$program
build_program bench_version data/N 10 || exit 1

measure_versions() {
    repeat made 1 "$program" "$text" "$count"
    repeat checked "$count" "$check" check "$text"
    made=$(spent start made)
    checked=$(spent made checked)
    printf '%5d   %12s   %15s\n' "$round" "$(ratio "$(awk -v spent="$made" 'BEGIN { print spent * 1000 }')" "$count")" \
        "$(ratio "$made" "$checked")"
}

echo "$count versions a round, milliseconds each, and as a ratio to check as a command"
echo "round   milliseconds   version / check"
in_rounds measure_versions
