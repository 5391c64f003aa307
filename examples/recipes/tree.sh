#!/bin/sh
# Writes a tree of joins over the ledgers of LIST in OUT, FAN at a time: each file behind `TARGET:` those that it is made of.
#
#     tree.sh LIST OUT FAN
#
# The last one is OUT/joins/1-N.ledger, of all N logs. A ledger that is there has no line. FORCE stands behind the needs of each
# file, since all are made anew: no time of a file tells whether a join is that of its ledgers.
set -u
farm=$(dirname "$0")
"$farm/number.sh" FAN "$3" 2 || exit
missing=$("$farm/missing.sh" "$1" "$2")
status=$?
[ "$status" -eq 0 ] || { [ "$status" -eq 2 ] && [ -n "$missing" ]; } || exit "$status"
printf '%s\n' "$missing" | OUT=$2 awk -v logs="$(sed -n '$=' "$1")" -v fan="$3" '
    { missing[$1] }
    END {
        out = ENVIRON["OUT"]
        for (i = 1; i <= logs; i++) {
            first[i] = last[i] = i
            name[i] = out "/" i ".ledger"
            if (i in missing) print name[i] ": FORCE"
        }
        n = logs
        for (level = 1; n > 1 || level == 1; level++) {
            joins = 0
            for (i = 1; i <= n; i += fan) {
                needs = ""
                for (j = i; j < i + fan && j <= n; j++) {
                    needs = needs " " name[j]
                    end = last[j]
                }
                joins++
                first[joins] = first[i]
                last[joins] = end
                if (level > 1 && j == i + 1) {
                    name[joins] = name[i]
                } else {
                    name[joins] = out "/joins/" first[joins] "-" end ".ledger"
                    print name[joins] ":" needs " FORCE"
                }
            }
            n = joins
        }
    }'
