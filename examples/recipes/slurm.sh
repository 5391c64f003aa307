#!/bin/sh
# The same by Slurm: an array of tasks, each of CHUNK logs (1); the report follows once all have ended, whatever their status is.
#
#     slurm.sh LIST OUT [CHUNK]
set -u
farm=$(CDPATH='' cd "$(dirname "$0")" && pwd) || exit 4
"$farm/number.sh" CHUNK "${3:-1}" || exit
mkdir -p "$2" && tasks=$(mktemp "$2/tasks.XXXXXX") && chmod +r "$tasks" || exit 4
trap 'rm -f "$tasks" "$tasks.ended"' EXIT
runs=$("$farm/missing.sh" "$1" "$2" 2>/dev/null)
printf '%s\n' "$runs" | xargs -r -n "${3:-1}" >"$tasks"
# (the file of the report's status has its room now: the disk may be full later)
if [ "$(tr ' ' '\n' <"$tasks")" != "$runs" ] || ! echo 4 >"$tasks.ended"; then
    printf 'slurm.sh: %s: write failed\n' "$tasks" >&2
    exit 4
fi
if [ -s "$tasks" ]; then
    job=$(sbatch --parsable --array="1-$(sed -n '$=' "$tasks")" "$farm/task.sh" "$farm" "$1" "$2" "$tasks") || exit 4
    # (a status of srun itself is no verdict)
    # shellcheck disable=SC2016
    srun --ntasks=1 --dependency="afterany:${job%%;*}" sh -c '"$@"; echo $? 1<>"$0"' "$tasks.ended" "$farm/report.sh" "$1" "$2"
    status=$(cat "$tasks.ended")
else
    "$farm/report.sh" "$1" "$2"
    status=$?
fi
exit "${status:-4}"
