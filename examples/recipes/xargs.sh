#!/bin/sh
# Checks the logs that LIST names, JOBS jobs at a time (or one for each processor), each of CHUNK logs (1), and writes the report of all.
#
#     xargs.sh LIST OUT [JOBS [CHUNK]]
set -u
farm=$(dirname "$0") jobs=${3:-$(nproc)} chunk=${4:-1}
"$farm/number.sh" JOBS "$jobs" && "$farm/number.sh" CHUNK "$chunk" || exit
sed -n = "$1" | xargs -r -P "$jobs" -n "$chunk" "$farm/map.sh" "$1" "$2"
exec "$farm/report.sh" "$1" "$2"
