#!/bin/sh
# Writes the runs of LIST that have no ledger of their log in OUT, each on a line. Ends with 0 where all are there, with 2 where one is
# missing or the list is none, and with 4 where not all was read or written.
#
#     missing.sh LIST OUT [RUN..]
#
# With runs only these are looked at. A ledger is there where OUT/RUN.sum has the sums of the log, as it is now, and of the ledger, and
# the profile that stands in OUT/profile (1).
set -u
list=$1 out=$2 profile=1
shift 2

# refuse STATUS TEXT: tells why the runs are not looked at.
refuse() {
    printf 'missing.sh: %s\n' "$2" >&2
    exit "$1"
}

# there: whether the sums of the log and the ledger of the run are those that stand in its file, and the profile, too.
there() {
    { read -r of_log && read -r of_ledger && read -r of_profile; } 2>/dev/null <"$out/$run.sum" || return
    [ "$of_profile" = "profile $profile" ] || return
    sum='cksum'
    [ "$of_log" = "${of_log%  -}" ] || sum=sha256sum
    [ "$({ "$sum" -- - "$out/$run.ledger" <"$log"; } 2>/dev/null)" = "$of_log
${of_ledger%-}$out/$run.ledger" ]
}

[ ! -e "$out/profile" ] || profile=$(cat "$out/profile")
case $profile in
    1 | 2) ;;
    *) refuse 2 "$out/profile has neither 1 nor 2" ;;
esac
for run in "$@"; do
    case $run in
        '' | 0* | *[!0-9]*) refuse 2 "run $run is no number from 1 up" ;;
    esac
done
line=$(awk '/\r$/ { print NR; exit }' "$list") || exit 4
[ -z "$line" ] || refuse 2 "$list has a carriage return at the end of line $line"
# (the last line tells that none was lost)
awk -v runs="$*" '
    BEGIN { for (n = split(runs, run, " "); n > 0; n--) wanted[run[n]] }
    runs == "" || NR in wanted { print NR ":" $0; delete wanted[NR] }
    END { for (it in wanted) print it ":"; print "end" }' "$list" | {
    status=0 run=
    while IFS= read -r line && [ "$line" != end ]; do
        run=${line%%:*} log=${line#*:}
        if ! there; then
            printf '%s\n' "$run" || exit 4
            status=2
        fi
    done
    [ "$line" = end ] || refuse 4 "$list was not read to its end"
    [ -n "$run" ] || refuse 2 "$list names no log"
    exit "$status"
}
