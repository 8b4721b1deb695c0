#!/bin/sh
# Measures the cutting of lines into fields against `wc -w` on the same text: megabytes in a second of processor time,
# all in one run.
#
# usage: bench/fields.sh [TEXT]
# PASSES is how often a round goes over the text (20 if not set), ROUNDS the number of rounds (5 if not set).

. "$(dirname -- "$0")/measure.sh"
passes=${PASSES:-20}

# Some lines of each kind, for a machine that has no real text.
sample() {
    cat <<'LINES'
# Rules and zones
Rule US 1967 2006 - Oct lastSun 2:00 0 S
Rule US 2007 max - Mar Sun>=8 2:00 1:00 D
Zone America/New_York -4:56:02 - LMT 1883 Nov 18 17:00u
                      -5:00 US E%sT # since then
Zone "Quoted # Name" 0 - "X Y"
LINES
}

# The text, again and again, until it has at least eight megabytes.
make_text() {
    text=${1:-/usr/share/zoneinfo/tzdata.zi}
    if [ -f "$text" ]; then
        cat -- "$text" >"$room/text" || return 1
    elif [ $# -eq 0 ]; then
        sample >"$room/text"
    fi
    [ -s "$room/text" ] || return 1
    while [ "$(wc -c <"$room/text")" -lt 8000000 ]; do
        cat "$room/text" "$room/text" >"$room/twice" && mv "$room/twice" "$room/text" || return 1
    done
}

if ! make_text "$@"; then
    echo "bench: there is no text to measure" >&2
    exit 1
fi
build_program bench_fields data/sample || exit 1

bytes=$(($(wc -c <"$room/text")))
# Megabytes in a second, where so many seconds were spent on all passes.
speed() {
    ratio "$(awk -v bytes="$bytes" -v passes="$passes" 'BEGIN { print bytes * passes / 1000000 }')" "$1"
}

measure_fields() {
    repeat fields 1 "$program" "$room/text" "$passes"
    repeat words "$passes" wc -w "$room/text"
    fields=$(spent start fields)
    words=$(spent fields words)
    printf '%5d   %11s   %10s   %14s\n' "$round" "$(speed "$fields")" "$(speed "$words")" "$(ratio "$words" "$fields")"
}

echo "$passes passes over $bytes bytes"
echo "round   fields MB/s   wc -w MB/s   fields / wc -w"
in_rounds measure_fields
