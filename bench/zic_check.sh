#!/bin/sh
# Compares `tzlist dump` of all zones of a real text from 1900 to 2037 with the files that zic(8) makes of the same text, at
# every instant at which either of them changes. It prints a line for each stretch that is told otherwise: zone, begin, seconds,
# what zic says and what `dump` says, each as offset, save or not, abbreviation. docs/FORMATS.md says where the two differ. It
# is skipped where the text, zic or Python is missing.
#
# usage: bench/zic_check.sh [TEXT]

. "$(dirname -- "$0")/measure.sh"
text=${1:-/usr/share/zoneinfo/tzdata.zi}
zic=$(command -v zic || echo /usr/sbin/zic)
if [ ! -r "$text" ] || [ ! -x "$zic" ] || ! command -v python3 >/dev/null 2>&1; then
    echo "zic_check: skipped, since there is no text, no zic or no Python"
    exit 0
fi
build_program tzlist info data/N America/New_York 0 || exit 1
"$zic" -b fat -d "$room/compiled" "$text" || exit 1
python3 - "$program" "$text" "$room/compiled" <<'PYTHON'
import bisect, os, struct, subprocess, sys

program, text, folder = sys.argv[1:]
FROM, TO = -2208988800, 2145916800  # the first midnights of 1900 and of 2038


def by_dump():
    said = subprocess.run([program, "dump", text, str(FROM), str(TO), "-"], check=True, capture_output=True).stdout
    zones = {}
    for line in said.decode().splitlines():
        if line.startswith("zone "):
            ranges = zones.setdefault(line[5:], [])
        else:
            begin, _, offset, save, abbreviation = line.split()
            ranges.append((int(begin), (int(offset), save != "0", abbreviation)))
    return zones


# The transitions of a TZif file (RFC 8536), by its second block; what holds before the first of them stands in front.
def by_zic(name):
    with open(os.path.join(folder, name), "rb") as file:
        octets = file.read()
    counts = struct.unpack(">6l", octets[20:44])
    at = 44 + 5 * counts[3] + 6 * counts[4] + counts[5] + 8 * counts[2] + counts[1] + counts[0]
    _, _, _, times, types, _ = struct.unpack(">6l", octets[at + 20 : at + 44])
    at += 44
    begins = struct.unpack(">%dq" % times, octets[at : at + 8 * times])
    places = octets[at + 8 * times : at + 9 * times]
    at += 9 * times
    names = at + 6 * types

    def kind(place):
        offset, save, index = struct.unpack(">lBB", octets[at + 6 * place : at + 6 * place + 6])
        return offset, save != 0, octets[names + index : octets.index(b"\0", names + index)].decode()

    return [(-(2**63), kind(0))] + [(begin, kind(place)) for begin, place in zip(begins, places)]


def told(ranges, t):
    return ranges[bisect.bisect_right(ranges, t, key=lambda row: row[0]) - 1][1]


zones = by_dump()
otherwise = 0
for name, ranges in zones.items():
    compiled = by_zic(name)
    changes = sorted({begin for begin, _ in ranges + compiled if FROM <= begin < TO} | {FROM})
    for begin, end in zip(changes, changes[1:] + [TO]):
        if told(compiled, begin) != told(ranges, begin):
            otherwise += 1
            print(name, begin, end - begin, told(compiled, begin), told(ranges, begin))
print("zic_check: %d zones, %d stretches told otherwise" % (len(zones), otherwise))
PYTHON
