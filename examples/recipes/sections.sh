#!/bin/sh
# Writes how many sections the logs have that LIST names, as `pmfarm lint` tells it.
#
#     sections.sh LIST
set -u
while IFS= read -r log || [ -n "$log" ]; do
    pmfarm lint <"$log"
done <"$1" | awk -F '[ =]' '$1 == "records" { sections += $6 } END { printf "%d\n", sections }'
