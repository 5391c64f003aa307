#!/bin/sh
# Writes the report of all logs that LIST names, from their ledgers in OUT, or from LEDGER, if that is the join of these.
#
#     report.sh LIST OUT [LEDGER]
#
# Ends as `pmfarm join` does, and where a ledger is missing with 2: then its run stands on standard error.
set -u
"$(dirname "$0")/missing.sh" "$1" "$2" >&2 || exit
logs=$(sed -n '$=' "$1")

# is_join OUT: whether file 3 has the blocks of these ledgers, in the order of runs. The join of others, as of an earlier list, has not.
is_join() {
    OUT=$1 awk -v logs="$logs" 'BEGIN {
        for (run = 1; run <= logs; run++) {
            file = ENVIRON["OUT"] "/" run ".ledger"
            if ((getline line <file) > 0 && run == 1) print line
            while ((getline line <file) > 0) if (line !~ /^end /) print line; else verdicts += substr(line, 14)
            close(file)
        }
        printf "end verdicts=%d\n", verdicts
    }' | cmp -s - /dev/fd/3
}

# (it is opened once: another tree of joins may put its own there)
if [ $# -gt 2 ] && [ -r "$3" ]; then
    exec 3<"$3"
    ! is_join "$2" || exec pmfarm join /dev/fd/3
    exec 3<&-
fi
names=$(mktemp "$2/names.XXXXXX") || exit 4
trap 'rm -f "$names"' EXIT
OUT=$2 awk '{ print ENVIRON["OUT"] "/" NR ".ledger" }' "$1" >"$names"
# (busybox ends with 0 where the disk is full)
if [ "$(sed -n '$=;$p' "$names")" != "$logs
$2/$logs.ledger" ]; then
    printf 'report.sh: %s: write failed\n' "$names" >&2
    exit 4
fi
pmfarm join --files-from "$names"
