#!/bin/sh
# Compares files of `tzlist tzif` with `tzlist info`. For each zone of a real text it writes the file of 1901 to 2037, and asks
# at a hundred instants for the offset and the abbreviation: `info`, Python's zoneinfo over the file, and date(1) over the file.
# Half of the instants stand at moves of the zone's clock and right before them. It is skipped where the text or Python is missing.
#
# usage: bench/tzif_check.sh [TEXT]

. "$(dirname -- "$0")/measure.sh"
text=${1:-/usr/share/zoneinfo/tzdata.zi}
if [ ! -r "$text" ] || ! python3 -c 'import zoneinfo' 2>/dev/null; then
    echo "tzif_check: skipped, since there is no text or no Python with zoneinfo"
    exit 0
fi
build_program tzlist info data/N America/New_York 0 || exit 1
python3 - "$program" "$text" "$room/zone" <<'PYTHON'
import os, random, subprocess, sys
from datetime import datetime, timezone
from zoneinfo import ZoneInfo

program, text, file = sys.argv[1:]
FROM, TO = -2177452800, 2145916800  # the first midnights of 1901 and of 2038


def tzlist(*words):
    return subprocess.run([program, *words], check=True, capture_output=True).stdout


def by_info(name, t):
    fields = tzlist("info", text, name, str(t)).decode().split()
    return int(fields[2]), fields[4]


# Python tells the name by the local time and one bit, so not where three ranges show that time: there it has none.
def by_python(zone, t):
    told = datetime.fromtimestamp(t, zone)
    offset = told.replace(tzinfo=None) - datetime.fromtimestamp(t, timezone.utc).replace(tzinfo=None)
    return round(offset.total_seconds()), told.tzname() if told.utcoffset() == offset else None


def by_date(t):
    environ = dict(os.environ, TZ=":" + file)
    said = subprocess.run(["date", "-d", "@%d" % t, "+%::z %Z"], env=environ, check=True, capture_output=True)
    offset, abbreviation = said.stdout.decode().split()
    hours, minutes, seconds = map(int, offset[1:].split(":"))
    return int(offset[0] + "1") * (3600 * hours + 60 * minutes + seconds), abbreviation


def instants(name):
    draw = random.Random(name)
    moves = [int(line.split()[0]) for line in tzlist("moves", text, name, str(FROM), str(TO)).decode().splitlines()]
    near = [t for at in draw.sample(moves, min(25, len(moves))) for t in (at - 1, at) if t >= FROM]
    return near + [draw.randrange(FROM, TO) for _ in range(100 - len(near))]


has_date = subprocess.run(["date", "-d", "@0", "+%::z"], capture_output=True).stdout.count(b":") == 2
zones = [line[5:] for line in tzlist("dump", text, "0", "1", "-").decode().splitlines() if line.startswith("zone ")]
wrong = asked = 0
for name in zones:
    with open(file, "wb") as out:
        out.write(tzlist("tzif", text, name, "1901", "2037"))
    with open(file, "rb") as content:
        zone = ZoneInfo.from_file(content)
    for t in instants(name):
        told = by_info(name, t)
        asked += 1
        python = by_python(zone, t)
        date = by_date(t) if has_date else told
        if python not in (told, (told[0], None)) or date != told:
            wrong += 1
            print(name, t, told, python, date)
print("tzif_check: %d zones, %d instants, %d told otherwise" % (len(zones), asked, wrong))
sys.exit(wrong != 0)
PYTHON
