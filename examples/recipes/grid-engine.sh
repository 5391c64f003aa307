#!/bin/sh
# The same by Grid Engine: an array of tasks, each of CHUNK logs (1), and once all have ended the report, on this machine.
#
#     grid-engine.sh LIST OUT [CHUNK]
set -u
farm=$(CDPATH='' cd "$(dirname "$0")" && pwd) || exit 4
"$farm/number.sh" CHUNK "${3:-1}" || exit
mkdir -p "$2" && tasks=$(mktemp "$2/tasks.XXXXXX") && chmod +r "$tasks" || exit 4
trap 'rm -f "$tasks"' EXIT
runs=$("$farm/missing.sh" "$1" "$2" 2>/dev/null)
printf '%s\n' "$runs" | xargs -r -n "${3:-1}" >"$tasks"
if [ "$(tr ' ' '\n' <"$tasks")" != "$runs" ]; then
    printf 'grid-engine.sh: %s: write failed\n' "$tasks" >&2
    exit 4
fi
if [ -s "$tasks" ]; then
    qsub -sync y -t "1-$(sed -n '$=' "$tasks")" "$farm/task.sh" "$farm" "$1" "$2" "$tasks" >&2
fi
"$farm/report.sh" "$1" "$2"
