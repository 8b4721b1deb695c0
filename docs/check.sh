#!/bin/sh
# Holds the documents against the code, and ends with status 1 where one says what the other doesn't:
#   docs/MEANING.md has each public definition of specs/, by its name and its file, and names none that isn't there;
#   docs/MEANING.md has each law, a public function with an empty body;
#   docs/FORMATS.md has the number and the name of each cause and the number of each status;
#   docs/tzlist.1 and README.md have each form of the commands and, the first, each status that docs/FORMATS.md has, and
#   docs/tzlist.1 is the page that crates/manual holds against the program;
#   crates.txt and docs/GUIDE.md have the same crates, but for those of tests, programs and measures.
#
# usage: docs/check.sh

cd "$(dirname -- "$0")/.." || exit 1
room=$(mktemp -d) || exit 1
trap 'rm -rf "$room"' EXIT
gaps=0

# Tells the lines that stand in one of two sorted lists alone.
compare() {
    comm -23 "$1" "$2" | sed "s|^|$3: |" >"$room/gaps"
    comm -13 "$1" "$2" | sed "s|^|$4: |" >>"$room/gaps"
    [ -s "$room/gaps" ] && cat "$room/gaps" && gaps=1
}

# `crate/File name` of each public definition.
for file in crates/*/specs/*.antt; do
    crate=${file#crates/}
    name=${file##*/}
    # (within a module, what follows `pub` alone is a field)
    sed -nE 's/^(unfoldable |abbrev )*pub (record |data )?([^ :({]+).*/\3/p
        s/^ +(unfoldable |abbrev )+pub ([^ :({]+).*/\2/p
        s/^ +pub (record|data) ([^ :({]+).*/\2/p' "$file" |
        grep -vE '^(mod|use)$' | sed "s|^|${crate%%/*}/${name%.antt} |"
done | sort -u >"$room/defined"

# The same of each row of docs/MEANING.md that has a file in its second column.
awk -F ' *[|] *' '
    $3 ~ /^[a-z_0-9]+\/[A-Z]/ {
        files = split($3, file, /, */)
        names = split($2, name, /, */)
        for (i = 1; i <= names; i++) {
            gsub(/`/, "", name[i])
            for (j = 1; j <= files; j++)
                print file[j], name[i], files
        }
    }
' docs/MEANING.md >"$room/rows"
# A row of several files has each name in one of them.
awk '
    NR == FNR { defined[$0] = 1; next }
    $3 == 1 { print $1, $2; next }
    ($1 " " $2) in defined { print $1, $2; there[$2] = 1; next }
    { missing[$2] = $1 }
    END { for (name in missing) if (!(name in there)) print missing[name], name }
' "$room/defined" "$room/rows" | sort -u >"$room/meant"
compare "$room/defined" "$room/meant" "not in docs/MEANING.md" "in docs/MEANING.md alone"

# Laws: public functions with an empty body.
awk '
    /^pub fn / { name = $3; sub(/[(<].*/, "", name) }
    /^\{\}$/ && name { print name }
    /^[^ ].*\{$|^\}/ { name = "" }
' crates/*/src/*.rt | sort -u >"$room/laws"
while read -r law; do
    grep -q "\`$law\`" docs/MEANING.md || { echo "no law of docs/MEANING.md: $law"; gaps=1; }
done <"$room/laws"

# Causes, by number and name.
causes() {
    sed -nE "s/^$2 causes\.([A-Za-z]+) = ([0-9]+)/\2 \1/p" "crates/$1/specs/Cause.antt" | sort
}
rows_of() {
    awk -F ' *[|] *' -v head="$1" '$2 == head { inside = 1 } !/^[|]/ { inside = 0 } inside' docs/FORMATS.md
}
rows_of Cause | awk -F ' *[|] *' '$2 ~ /^[0-9]+$/ { gsub(/`/, "", $4); print $2, $4 }' | sort -u >"$room/told"
causes tz_types cause_number >"$room/causes"
compare "$room/causes" "$room/told" "no cause of docs/FORMATS.md" "no cause of tz_types"
rows_of "Cause of a script" | awk -F ' *[|] *' '$2 ~ /^[0-9]+$/ { gsub(/`/, "", $4); print $2, $4 }' | sort -u >"$room/told"
causes tz_script script_cause_number >"$room/causes"
compare "$room/causes" "$room/told" "no cause of a script of docs/FORMATS.md" "no cause of tz_script"

# Statuses.
rows_of Status | awk -F ' *[|] *' '$2 ~ /^[0-9]+$/ { print $2 }' | sort >"$room/statuses"
sed -nE 's/^ *Status::[A-Za-z]+ => ([0-9]+),/\1/p' crates/tz_words/src/status.rt | sort >"$room/codes"
compare "$room/codes" "$room/statuses" "no status of docs/FORMATS.md" "no status of tz_words"
awk '/^\.SH/ { inside = /EXIT STATUS/ } inside && /^\.B [0-9]+$/ { print $2 }' docs/tzlist.1 | sort >"$room/manual"
compare "$room/codes" "$room/manual" "no status of docs/tzlist.1" "no status of tz_words"

# The page that the gate reads.
cmp -s docs/tzlist.1 crates/manual/data/tzlist.1 || { echo "docs/tzlist.1 isn't crates/manual/data/tzlist.1"; gaps=1; }

# Forms of the commands.
rows_of Words | awk -F ' *[|] *' '$2 ~ /^`/ { gsub(/`/, "", $2); print $2 }' | sort >"$room/forms"
awk '
    /^\.SH/ { inside = /SYNOPSIS/ }
    inside && /^\.B tzlist/ { form = $3 }
    inside && /^\.I/ { sub(/^\.I /, ""); gsub(/\\fR/, ""); print form " " $0 }
' docs/tzlist.1 | sort >"$room/synopsis"
compare "$room/forms" "$room/synopsis" "no form of docs/tzlist.1" "no form of docs/FORMATS.md"
sed -nE 's/^.*"([a-z]+)" => .*$/\1/p; s/^.*as_str\(\) [!=]= "([a-z]+)".*$/\1/p' crates/tz_words/src/*.rt | sort -u >"$room/keywords"
while read -r word rest; do
    grep -qrE "\"$word\"" crates/tz_words/src || { echo "no word of tz_words: $word"; gaps=1; }
    grep -q "\`$word\`" README.md || { echo "no command of README.md: $word"; gaps=1; }
done <"$room/forms"

# Crates.
sed -nE 's/^([a-z_]+)[: ].*/\1/p' crates.txt | grep -vE '_rows$|^bench_|^tzlist|^example_|_laws$|^row_files$|^manual$' | sort >"$room/crates"
sed -nE 's/^\| `([a-z_]+)` \|.*/\1/p' docs/GUIDE.md | sort -u >"$room/guide"
compare "$room/crates" "$room/guide" "no crate of docs/GUIDE.md" "no crate of crates.txt"

[ "$gaps" = 0 ] && echo "docs: no gap"
exit "$gaps"
