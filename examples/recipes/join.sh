#!/bin/sh
# One join of a tree: LEDGER becomes that of all sections of the files, or stays as it was.
#
#     join.sh LEDGER FILE..
set -u
ledger=$1
shift
mkdir -p "$(dirname "$ledger")" && new=$(mktemp "$ledger.new.XXXXXX") || exit 4
pmfarm join --ledger "$@" >"$new"
status=$?
if [ "$status" -gt 1 ]; then
    rm -f "$new"
    exit "$status"
fi
chmod +r "$new" && mv "$new" "$ledger" || exit 4
