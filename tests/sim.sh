# What `sim` writes and refuses.

# simulated NAME WORKERS LEDGERS: the example's schedule, with the log of two sections.
simulated() {
    "$program" sim --log examples/two_sections.log --workers "$2" --ledgers "$3" <"examples/$1.schedule" \
        >"$scratch/report" 2>"$scratch/diagnostics"
    ended 0 $? && same "examples/$1.answers" "$scratch/report" && same /dev/null "$scratch/diagnostics"
}

# A schedule of 2^20 bytes is played, one of a byte more is not.
long_schedules() {
    head -c 1048576 /dev/zero | tr '\0' '\n' >"$scratch/schedule"
    "$program" sim --log examples/two_sections.log --workers 1 --ledgers 0 <"$scratch/schedule" >"$scratch/report" || return
    same /dev/null "$scratch/report" || return
    echo >>"$scratch/schedule"
    "$program" sim --log examples/two_sections.log --workers 1 --ledgers 0 <"$scratch/schedule" \
        >"$scratch/report" 2>"$scratch/diagnostics"
    ended 2 $? && same /dev/null "$scratch/report" && said 'pmfarm: schedule is too long' "$scratch/diagnostics"
}

try_sim() {
    local log=examples/two_sections.log
    local one="--log $log --workers 1"
    check 'a schedule with a lost worker' simulated a_lost_worker 2 1
    check 'a schedule with a repeated message' simulated a_repeated_message 1 1
    check 'a schedule that joins two ledgers both ways' simulated joined_both_ways 2 2
    check 'a thousand random schedules' tests/random-schedules "$program" 1000
    check 'each request for memory of sim refused in turn' \
        sweep examples/joined_both_ways.schedule sim --log "$log" --workers 2 --ledgers 2
    check 'schedules of 2^20 bytes, and one more' long_schedules
    # (the words of $one are parted at blanks)
    check 'a bad step is refused' told 2 $'fresh 0 0\n\nfresh 0\n' '' 'pmfarm: schedule line 3: bad step' sim $one --ledgers 0
    echo 'PMT.X' >"$scratch/faulty.log"
    check 'a bad step is refused before a faulty log' told 2 'fresh 0' '' 'pmfarm: schedule line 1: bad step' \
        sim --log "$scratch/faulty.log" --workers 1 --ledgers 0
    check 'a faulty log is refused before the workers' told 2 'fresh 0 0' '' 'pmfarm: record 1: unknown marker' \
        sim --log "$scratch/faulty.log" --workers 0 --ledgers 65
    check 'no workers are refused by sim' told 2 '' '' 'pmfarm: workers must be 1 to 64' sim --log "$log" --workers 0 --ledgers 65
    check '65 ledgers are refused' told 2 '' '' 'pmfarm: ledgers must be 0 to 64' sim --log "$log" --workers 64 --ledgers 65
    check 'a log that is missing is named' told 4 x '' $'pmfarm: no.log: read failed\npmfarm: hint: No such file or directory (os error 2)' \
        sim --log no.log --workers 0 --ledgers 0
    check 'a full device as standard output of sim' full_output examples/a_repeated_message.schedule sim $one --ledgers 1
    check 'a directory as standard input of sim' unreadable sim $one --ledgers 1
    check 'sim without a log is refused' refused sim --workers 1 --ledgers 0
    check 'sim without workers is refused' refused sim --log "$log" --ledgers 0
    check 'sim without ledgers is refused' refused sim $one
}
