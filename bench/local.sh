#!/bin/sh
# Measures local times, and the ranges of ten years, against the range that holds an instant, over the same seconds from 1970
# to 2037 and one zone under the rules of New York: nanoseconds of processor time each, and their ratios, all in one run.
#
# usage: bench/local.sh [TEXT]
# TEXT is a zone text whose first rule set is taken in the place of New York's. COUNT is how many seconds a round asks for
# (1000000 if not set; of stretches a tenth), ROUNDS the number of rounds (5 if not set).

. "$(dirname -- "$0")/measure.sh"
text=${1:-$top/crates/bench_local/data/us}
count=${COUNT:-1000000}
stretches=$((count / 10))

build_program bench_local data/us sys 1000 || exit 1

each() {
    ratio "$(awk -v spent="$1" 'BEGIN { print spent * 1000000000 }')" "$2"
}

measure_local() {
    repeat sys 1 "$program" "$text" sys "$count"
    repeat local 1 "$program" "$text" local "$count"
    repeat info 1 "$program" "$text" info "$count"
    repeat stretch 1 "$program" "$text" stretch "$stretches"
    sys=$(spent start sys)
    local=$(spent sys local)
    info=$(spent local info)
    stretch=$(spent info stretch)
    printf '%5d   %9s   %10s   %9s   %14s   %13s   %17s   %21s\n' "$round" "$(each "$sys" "$count")" "$(each "$local" "$count")" \
        "$(each "$info" "$count")" "$(each "$stretch" "$stretches")" "$(ratio "$sys" "$info")" "$(ratio "$local" "$info")" \
        "$(ratio "$(each "$stretch" "$stretches")" "$(each "$info" "$count")")"
}

echo "$count seconds a round, nanoseconds each"
echo "round      to_sys   local_info     info_at   expand_between   to_sys / info   local_info / info   expand_between / info"
in_rounds measure_local
