#!/bin/sh
# The same by ninja: a tree of joins, FAN ledgers each (16).
#
#     ninja.sh LIST OUT [JOBS [FAN]]
set -u
farm=$(dirname "$0") jobs=${3:-$(nproc)} fan=${4:-16}
"$farm/number.sh" JOBS "$jobs" && "$farm/number.sh" FAN "$fan" 2 || exit
logs=$(sed -n '$=' "$1")
[ -n "$logs" ] || exec "$farm/report.sh" "$1" "$2"
top=$2/joins/1-$logs.ledger
room=$(mktemp -d) || exit 4
trap 'rm -rf "$room"' EXIT
tree=$("$farm/tree.sh" "$1" "$2" "$fan") || exit
# shellcheck disable=SC2016
plan=$(
    printf '%s\n' "builddir = $room" 'rule map' "  command = $farm/map.sh $1 $2 \$\$(basename \$out .ledger)" \
        'rule join' "  command = $farm/join.sh \$out \$in" 'build FORCE: phony'
    printf '%s\n' "$tree" |
        sed -e 's/^\(.*\): FORCE$/build \1: map | FORCE/' -e t -e 's/ FORCE$/ | FORCE/' -e 's/^\(.*\):/build \1: join/'
)
printf '%s\n' "$plan" >"$room/build.ninja"
if [ "$(cat "$room/build.ninja")" != "$plan" ]; then
    printf 'ninja.sh: %s: write failed\n' "$room" >&2
    exit 4
fi
if ! ninja -k 0 -j "$jobs" -f "$room/build.ninja" "$top" >&2; then
    "$farm/missing.sh" "$1" "$2" >&2
    exit 2
fi
"$farm/report.sh" "$1" "$2" "$top"
