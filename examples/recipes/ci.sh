#!/bin/sh
# One test in CI: traces a program, checks its log, and leaves in pmfarm.out/RUN what the CI system shows and keeps.
#
#     ci.sh [--wait SECONDS] RUN PROGRAM [ARG..]
#
# It is called at the top of the project, where known.json lists the failures that are known. RUN is the test's number, which no other
# ledger has; tests with other numbers may run at once. PROGRAM is the program itself: what a script starts is not traced. The Kth child
# process that stores has sections of its own, from K000000000000 on. Ends with 1 where a failure is new or `check` warns, with the
# status of the program where that fails, with 2 and above where there is no verdict, and else with 0. There is none where a child still
# runs SECONDS (60) after the program has ended.
set -u
seconds=60
case ${1-} in
    --wait)
        seconds=${2-}
        shift
        [ $# -eq 0 ] || shift
        ;;
esac
case $seconds in '' | *[!0-9]*) set -- ;; esac
[ $# -ge 2 ] || { echo 'usage: ci.sh [--wait SECONDS] RUN PROGRAM [ARG..]' >&2; exit 2; }
run=$1 out=pmfarm.out/$1
shift
pmfarm check --run "$run" </dev/null >/dev/null || exit
mkdir -p "$out" && exec 9<"$out" || exit 4
flock -n 9 || { echo "ci.sh: another test of run $run runs here" >&2; exit 4; }
rm -f "$out"/*.ledger "$out"/store.* "$out/traced" && mkfifo "$out/traced" || exit 4

# stop STATUS: ends the program and its children, where a signal ends this.
# shellcheck disable=SC2317
stop() {
    trap '' HUP INT TERM
    kill -TERM "-$program" && { timeout 10 cat <&6 >/dev/null || kill -KILL "-$program"; }
    exit "$1"
} 2>/dev/null

# whole: the log, and behind it those of children, in sections of their own.
whole() {
    child=0
    cat "$out/store.log" || return 4
    for log in "$out"/store.log.*; do
        [ -e "$log" ] || continue
        [ -s "$log" ] || { echo "ci.sh: $log is empty" >&2; return 4; }
        child=$((child + 1))
        awk -v child="$child" '
            function begin(number) { print "PMT.SECTION;" child substr("000000000000", length(number) + 1) number }
            NR == 1 { print ""; begin("0") }
            /^PMT\.SECTION;/ { if (length($0) > 24) exit bad = 1; begin(substr($0, 13)); next }
            { print }
            END { exit bad }' "$log" || { echo "ci.sh: $log: a section has more than 12 digits, or the whole is not written" >&2; return 4; }
    done
}

# rows FORM [WORD..]: writes the rows of the report in this form to 5. `status` is 1 where a failure is new, and `told` what is said.
rows() {
    told=$(pmfarm-rows --log "$out/store.log" --source-root . --baseline known.json --format "$@" "$out/store.report" 2>&1 >&5)
    status=$?
    [ "$status" -le 1 ] || { printf '%s\n' "$told" >&2; exit "$status"; }
}

# (each process that is traced keeps the other end of 6 open; a machine of CI has no persistent memory: files here stand for it)
# shellcheck disable=SC2094
exec 3<&0 7<>"$out/traced" 8>"$out/traced" 6<"$out/traced" 7>&- || exit 4
rm -f "$out/traced"
PMEM_IS_PMEM_FORCE=1 setsid pmfarm-trace --hold 8 --stacks 8 --pmem "$PWD/" --log "$out/store.log" "$@" <&3 3<&- 6<&- 9<&- &
program=$!
exec 3<&- 8>&-
trap 'stop 129' HUP
trap 'stop 130' INT
trap 'stop 143' TERM
wait "$program" || exit
timeout "$seconds" cat <&6 >/dev/null &
wait $! || { echo "ci.sh: a child of the program still runs after $seconds seconds" >&2; exit 2; }
whole >"$out/store.new" || exit
rm -f "$out"/store.log.* && mv "$out/store.new" "$out/store.log" || exit 4
warnings=$(pmfarm check --strict --run "$run" "$out/store.log" 2>&1 >"$out/store.report")
status=$?
[ -z "$warnings" ] || printf '%s\n' "$warnings" >&2
[ "$status" -le 1 ] || exit "$status"
told=$(pmfarm check --ledger --run "$run" "$out/store.log" 2>&1 >"$out/store.new")
status=$?
[ "$status" -le 1 ] || { printf '%s\n' "$told" >&2; exit "$status"; }
mv "$out/store.new" "$out/$run.ledger" || exit 4
rows sarif 5>"$out/store.sarif" || exit 4
rows junit 5>"$out/store.xml" || exit 4
if [ -n "${GITHUB_ACTIONS-}" ]; then
    rows github
else
    rows text --fail
fi 5>&1
[ -z "$told" ] || printf '%s\n' "$told" >&2
[ "$status" -ne 1 ] || pmfarm why --run "$run" "$out/store.log" >&2
case $status:$warnings in 0:*'pmfarm: warning: '*) status=1 ;; esac
exit "$status"
