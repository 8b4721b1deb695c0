#!/bin/sh
# Measures `tzlist check` over texts of one and of four megabytes against `wc` on the same files, and against zic where
# the machine has it: ratios of processor time, all in one run, and how the time grows with the text. There is a text of each
# kind of lines: rules, zones, lines that continue zones, links and comments.
#
# usage: bench/check.sh
# RUNS is how often each command runs in a round (20 if not set), ROUNDS the number of rounds (5 if not set).

. "$(dirname -- "$0")/measure.sh"
runs=${RUNS:-20}
program=$top/crates/tzlist/out/tzlist

# A text of one kind of lines, with comments between, up to so many bytes. So many lines of that kind stand in four megabytes
# as may stand in a text, and a quarter of them in one.
make_text() {
    awk -v kind="$1" -v most="$2" 'BEGIN {
        least["rules"] = 60
        least["zones"] = 4000
        least["continuations"] = 41
        least["links"] = 1000
        least["comments"] = 41
        print "# version bench"
        print "Zone First 0 - X"
        while (bytes < most) {
            if (kind == "rules")
                line = sprintf("Rule Set%d %d only - Mar Sun>=8 2:00 1:00 D", i * 7919 % 1000, 1900 + i % 100)
            else if (kind == "zones")
                line = sprintf("Zone Region/City%d 1:00 - X", i)
            else if (kind == "continuations")
                line = i % 250 == 0 ? sprintf("Zone Region/City%d 1:00 - X 1500 Mar 10 2:00", i) : \
                    i % 250 == 249 ? "1:00 - X" : sprintf("%d:30 - XST 1%03d Mar 10 2:00", i % 10, 500 + i % 250)
            else if (kind == "links")
                line = sprintf("Link First Region/Link%d", i)
            else
                line = "# a comment, as real texts have many of them"
            i++
            print line
            length_of_line = length(line) + 1
            while (length_of_line < least[kind]) {
                line = "# a comment, as real texts have them between their lines"
                print line
                length_of_line += length(line) + 1
            }
            bytes += length_of_line
        }
        if (kind == "continuations" && i % 250 != 0)
            print "1:00 - X"
    }'
}

kinds="rules zones continuations links comments"

# The first run builds the program where it isn't built, and shows that the texts are accepted.
for kind in $kinds; do
    make_text "$kind" 1000000 >"$room/$kind.one" && make_text "$kind" 4050000 >"$room/$kind.four" || exit 1
    for text in one four; do
        if ! "$top/bin/tzlist" check "$room/$kind.$text"; then
            echo "bench: tzlist check refuses its text of $kind" >&2
            exit 1
        fi
    done
done

compile() {
    rm -rf "$room/zones" && zic -d "$room/zones" "$1"
}

measure_texts() {
    for kind in $kinds; do
        note start
        repeat wc_one "$runs" wc "$room/$kind.one"
        repeat wc_four "$runs" wc "$room/$kind.four"
        repeat one "$runs" "$program" check "$room/$kind.one"
        repeat four "$runs" "$program" check "$room/$kind.four"
        zic=-
        if command -v zic >"$room/answer"; then
            repeat zic "$runs" compile "$room/$kind.four"
            zic=$(ratio "$(spent one four)" "$(spent four zic)")
        fi
        one=$(spent wc_four one)
        four=$(spent one four)
        printf '%5d   %-13s   %16s   %16s   %17s   %17s\n' "$round" "$kind" "$(ratio "$one" "$(spent start wc_one)")" \
            "$(ratio "$four" "$(spent wc_one wc_four)")" "$zic" "$(ratio "$four" "$one")"
    done
}

echo "processor time of $runs runs, as a ratio to that of $runs runs of wc, of zic, and of check on a megabyte"
echo "round   lines           check / wc, 1 MB   check / wc, 4 MB   check / zic, 4 MB   check 4 MB / 1 MB"
in_rounds measure_texts
