#!/bin/sh
# Counts the instructions that `tzlist check` takes for a text, and its peak memory, beside those of a text without bytes. Counts of
# instructions vary little with the load of a machine, and so they are told as they are.
#
# usage: bench/instructions.sh [TEXT]
# TEXT is the machine's own release if none is given. It takes perf, or else valgrind, and GNU time for the memory.

. "$(dirname -- "$0")/measure.sh"
text=${1:-/usr/share/zoneinfo/tzdata.zi}
if ! [ -f "$text" ]; then
    echo "bench: there is no $text" >&2
    exit 0
fi
build_program tzlist info data/N America/New_York 0 || exit 1

by_perf() {
    perf stat -x , -e instructions:u "$program" check "$1" 2>&1 >/dev/null | awk -F , '/instructions/ { print $1 }'
}

by_valgrind() {
    valgrind --tool=none --log-file=/dev/null true >/dev/null 2>&1 &&
        valgrind --tool=callgrind --callgrind-out-file=/dev/null "$program" check "$1" 2>&1 >/dev/null |
        awk '/Collected/ { print $4 }'
}

# The instructions of a check, by the first tool that counts them.
instructions() {
    counted=$(by_perf "$1")
    case $counted in
    '' | *[!0-9]*) counted=$(by_valgrind "$1") ;;
    esac
    printf '%s\n' "${counted:-unknown}"
}

# The peak memory of a check, in kilobytes.
memory() {
    if [ -x /usr/bin/time ]; then
        /usr/bin/time -f %M "$program" check "$1" 2>&1 >/dev/null | tail -n 1
    else
        echo unknown
    fi
}

: >"$room/empty"
for file in "$room/empty" "$text"; do
    printf '%s: %s instructions, %s KB at most\n' "${file##*/}" "$(instructions "$file")" "$(memory "$file")"
done
