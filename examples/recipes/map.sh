#!/bin/sh
# One map job: checks the logs that these lines of LIST name, each as the run of its line, and leaves their ledgers in OUT.
#
#     map.sh LIST OUT RUN..
#
# What is there already is passed over. The profile is that of the file OUT/profile, or 1. Ends with 0 exactly where all these ledgers
# are there (rows that fail are for the report to tell), else with the greatest status of a run, at most 4.
set -u
list=$1 out=$2 worst=0 sum=cksum profile=1 nl='
'
shift 2
# (Debian's busybox has no cksum)
command -v cksum >/dev/null || sum=sha256sum

# refuse STATUS TEXT: tells why there is no ledger of the run.
refuse() {
    printf 'map.sh: run %s: %s\n' "$run" "$2" >&2
    exit "$1"
}

# check: writes the ledger of the log as it is read. Tells on standard output what the program said, its status, and the sum of what it
# was given: a log may change while it is read, and change back.
check() {
    {
        {
            tee /dev/fd/3 <"$log" 2>/dev/null | pmfarm check --ledger --run "$run" --profile "$profile" 2>&4 >"$new"
            echo "$?" >&4
        } 3>&1 | "$sum" -
    } 4>&1
}

# map: checks the log of the run. The sums of the log and of its ledger are written last: without them it is missing.
map() (
    log=$(sed -n "${run}{p;q;}" "$list") new=$room/$run ledger=$out/$run.ledger
    { [ ! -d "$log" ] && true <"$log"; } 2>/dev/null || refuse 4 "cannot read $log"
    true >"$new" || refuse 4 'write failed'
    told=$(check)
    read_sum=${told##*"$nl"} told=${told%"$nl"*}
    status=${told##*"$nl"}
    told=${told%"$status"}
    [ -z "$told" ] || printf '%s' "$told" | sed "s/^/map.sh: run $run: /" >&2
    [ "${status:=4}" -le 1 ] || refuse "$status" "no ledger of $log: status $status"
    [ "$({ "$sum" - <"$log"; } 2>/dev/null)" = "$read_sum" ] || refuse 4 "$log changed"
    if ! ln "$new" "$ledger" 2>/dev/null && ! cmp -s "$new" "$ledger"; then
        [ ! -e "$ledger" ] || refuse 2 'another ledger is there'
        refuse 4 'write failed'
    fi
    sums=$(printf '%s\n' "$read_sum" && "$sum" - <"$new" && echo "profile $profile") || exit 4
    printf '%s\n' "$sums" >"$new.sum"
    if [ "$(cat "$new.sum")" != "$sums" ] || ! mv "$new.sum" "$out/$run.sum"; then
        refuse 4 'write failed'
    fi
)

runs=$("$(dirname "$0")/missing.sh" "$list" "$out" "$@")
status=$?
[ "$status" -eq 2 ] && [ -n "$runs" ] || exit "$status"
[ ! -e "$out/profile" ] || profile=$(cat "$out/profile")
mkdir -p "$out" && room=$(mktemp -d "$out/new.XXXXXX") || exit 4
# (a map that was killed has left its room)
find "$out"/new.* -prune -type d -mtime +0 -exec rm -rf {} + 2>/dev/null
for run in $runs; do
    map
    status=$?
    [ "$status" -le 4 ] || status=4
    [ "$status" -le "$worst" ] || worst=$status
done
rm -rf "$room"
exit "$worst"
