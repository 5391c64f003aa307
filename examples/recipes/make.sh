#!/bin/sh
# The same by make: a tree of joins, FAN ledgers each (16).
#
#     make.sh LIST OUT [JOBS [FAN]]
set -u
# (words of another make would have this one join nothing, and end with 0)
unset MAKEFLAGS MFLAGS GNUMAKEFLAGS MAKEFILES MAKELEVEL
farm=$(dirname "$0") jobs=${3:-$(nproc)} fan=${4:-16}
"$farm/number.sh" JOBS "$jobs" && "$farm/number.sh" FAN "$fan" 2 || exit
logs=$(sed -n '$=' "$1")
[ -n "$logs" ] || exec "$farm/report.sh" "$1" "$2"
if ! make -s -j "$jobs" -f "$farm/Makefile" LIST="$1" OUT="$2" FAN="$fan" >&2; then
    "$farm/missing.sh" "$1" "$2" >&2
    exit 2
fi
exec "$farm/report.sh" "$1" "$2" "$2/joins/1-$logs.ledger"
