# What `check` writes, refuses and survives.

status_of_example() {
    cat "examples/$1.status" 2>/dev/null || echo 0
}

# An example by both profiles and several numbers of workers: the reports of the profiles are alike where there is none
# of its own for the second, those of the workers always.
example() {
    local wanted report profile workers
    wanted=$(status_of_example "$1")
    for profile in 1 2; do
        report=examples/$1.profile-$profile.report
        [ -f "$report" ] || report=examples/$1.report
        for workers in 1 2 4 64; do
            "$program" check --profile "$profile" --workers "$workers" <"examples/$1.log" \
                >"$scratch/report" 2>"$scratch/diagnostics"
            ended "$wanted" $? && same "$report" "$scratch/report" || return
        done
    done
}

# Two sections whose events alternate, the first of which passes.
interleaved='PMT.SECTION;1|STORE;0x1000;0x1;0x8|PMT.SECTION;2|STORE;0x1000;0x2;0x8|PMT.SECTION;1|FLUSH;0x1000;0x40|FENCE|PMT.PERSIST;0x1000;0x8|PMT.SECTION;2|PMT.PERSIST;0x1000;0x8'
interleaved_report='section 0.1 events=4 pass=1 fail=0 warn=0 empty=0
4 PERSIST PASS
section 0.2 events=2 pass=0 fail=1 warn=0 empty=0
2 PERSIST FAIL byte=0x1000 crash=2
total sections=2 pass=1 fail=1 warn=0 empty=0'

# Each request for memory refused in turn, of a log of two sections with two workers.
sweep_workers() {
    printf '%s' "$interleaved" >"$scratch/interleaved.log"
    sweep "$scratch/interleaved.log" check --workers 2
}

# The same of a log of 134 KB, of which two workers read a part each.
sweep_readers() {
    local section event
    for section in 0 1 2; do
        printf 'PMT.SECTION;%d\n' "$section"
        for ((event = 0; event < 900; event++)); do
            printf 'STORE;0x%x;0x1;0x8\nFLUSH;0x%x;0x40\nFENCE\nx\n' $((event * 64 + (section << 20))) $((event * 64 + (section << 20)))
        done
    done >"$scratch/readers.log"
    sweep "$scratch/readers.log" check --workers 2
}

# The same of a log of 2.5 MB, whose only section is checked while the second piece is read: 10,000 records between two runs of events are skipped.
sweep_beside() {
    awk '
        function run(from, to,     event, at) {
            for (event = from; event < to; event++) {
                at = 4096 + event % 4096 * 64
                printf "STORE;0x%x;0x1;0x8\nFLUSH;0x%x;0x40\nFENCE\n", at, at
            }
        }
        BEGIN {
            run(0, 3000)
            for (i = 0; i < 10000; i++) printf "%250s\n", "x"
            run(3000, 3100)
            print "PMT.PERSIST;0x1000;0x40000"
        }' >"$scratch/beside.log"
    sweep "$scratch/beside.log" check --workers 2
}

# Threads that the system refuses, one or all, leave the report as it is.
threads_refused() {
    printf '%s' "$interleaved" >"$scratch/interleaved.log"
    printf '%s\n' "$interleaved_report" >"$scratch/wanted"
    tests/refuse-threads "$program" "$scratch/interleaved.log" "$scratch/wanted" 1
}

# A log of 6 MB, so that several workers read it: long sections and short ones in turns, records of all spellings, and one of 300,000 bytes.
# The same of one section, which is checked meanwhile; and with another one that begins late, or late and before all of it.
# Whatever the number of workers, the report and what is said are those of one; and so is the fault of a record put into it, and that of
# a section that is full.
read_by_workers() {
    local workers
    python3 - "$scratch" <<'END' || return
import random, sys
pick = random.Random(7)
def run(count):
    for _ in range(count):
        at = pick.randrange(1 << 14) * 8
        yield pick.choice([f"STORE;0x{at:x};0x1;0x8", f"STORE;{at};x;8", f" FLUSH;0x{at:x};0x40\t", "FENCE", "FENCE;1", "==7== x", f"PMT.PERSIST;0x{at:x};0x8", "PMT.TXBEGIN", "PMT.TXEND"])
records = list(run(1000))
for turn in range(180):
    records += [f"PMT.SECTION;{turn % 7}", *run(pick.choice([3, 30, 300, 9000]))]
records.insert(len(records) // 2, "z" * 300_000)
def write(name, records):
    with open(f"{sys.argv[1]}/{name}.log", "w", newline="") as out:
        for record in records:
            out.write(record + pick.choice(["\n", "\n", "|", "\r\n", "||"]))
write("wide", records)
only = [record for record in records if not record.startswith("PMT.SECTION")]
write("only", only)
write("another", only[:-2000] + ["PMT.SECTION;5"] + only[-2000:])
write("another_again", ["PMT.SECTION;9", *only[:-2000], "PMT.SECTION;5", *only[-2000:-1000], "PMT.SECTION;9", *only[-1000:]])
for name, place in (("faulty_early", 900), ("faulty", len(records) * 2 // 3), ("faulty_late", len(records) - 2)):
    write(name, records[:place] + ["STORE;1"] + records[place:])
write("full", ["FENCE"] * ((1 << 20) + 3))
END
    for log in wide only another another_again full faulty_early faulty faulty_late; do
        for workers in 1 2 3 7 64; do
            "$program" check --workers "$workers" "$scratch/$log.log" >"$scratch/report.$workers" 2>"$scratch/diagnostics.$workers"
            printf '%s\n' "$?" >>"$scratch/diagnostics.$workers"
            same "$scratch/report.1" "$scratch/report.$workers" && same "$scratch/diagnostics.1" "$scratch/diagnostics.$workers" || return
        done
    done
    grep -q '^pmfarm: record [0-9]*: too few fields' "$scratch/diagnostics.64" &&
        "$program" check --workers 4 "$scratch/full.log" 2>&1 | grep -q '^pmfarm: record 1048577: too many events in the section'
}

# A report of 3,000 sections, longer than a pipe is wide, ends after 1, 100 and 140 times 1,024 bytes.
cut_off_report() {
    local i blocks
    for ((i = 0; i < 3000; i++)); do
        printf 'PMT.SECTION;%d\n' "$i"
    done >"$scratch/long.log"
    for ((i = 0; i < 3000; i++)); do
        printf 'section 0.%d events=0 pass=0 fail=0 warn=0 empty=0\n' "$i"
    done >"$scratch/long.report"
    for blocks in 1 100 140; do
        cut_off $((blocks * 1024)) "$scratch/long.log" "$scratch/long.report" check || return
    done
}

closed_output() {
    "$program" check <examples/first.log 2>"$scratch/diagnostics" >&-
    ended 4 $? && said 'pmfarm: write failed after 0 bytes' "$scratch/diagnostics"
}

one_fence='section 7.0 events=1 pass=0 fail=0 warn=0 empty=0
total sections=1 pass=0 fail=0 warn=0 empty=0'

# strict STATUS DIAGNOSTICS LOG: how a strict check of the log ends, whose report is that of check.
strict() {
    printf '%b' "$3" >"$scratch/log"
    "$program" check "$scratch/log" >"$scratch/wanted" 2>/dev/null
    "$program" check --strict "$scratch/log" >"$scratch/report" 2>"$scratch/diagnostics"
    ended "$1" $? && said "$2" "$scratch/diagnostics" && same "$scratch/wanted" "$scratch/report" || {
        printf 'of %s\n' "$3"
        return 1
    }
}

# What passes, what fails, and what lint warns of, though no row fails.
strict_ends() {
    local holds='STORE;0x1000;7;8|FLUSH;0x1000;64|FENCE|PMT.PERSIST;0x1000;8'
    strict 0 '' "$holds|" && strict 0 '' "$holds|PMT.PERSIST;4096;8|PMT.PERSIST;0x3e8;8|" && strict 1 '' "$holds|STORE;0x2000;7;8|PMT.PERSIST;0x2000;8|" &&
        strict 1 'pmfarm: warning: no end stands behind the last record' "$holds" &&
        strict 1 'pmfarm: warning: nothing is asserted' 'FENCE|' &&
        strict 1 $'pmfarm: warning: each assertion is empty\npmfarm: warning: an empty assertion would not be if its decimal address were hexadecimal' \
            'STORE;0x1000;7;8|PMT.PERSIST;1000;8|' &&
        strict 1 $'pmfarm: skipped 1 records\npmfarm: warning: a skipped name is near a known one' "$holds|PMT_PERSIST;0x1000;8|" &&
        strict 1 $'pmfarm: skipped 1 records\npmfarm: warning: a skipped name is not text' "$holds|\\xff|" &&
        strict 1 $'pmfarm: skipped 1 records\npmfarm: warning: START stands without STOP' "START|$holds|" &&
        strict 0 'pmfarm: skipped 2 records' "START|$holds|STOP"
}

try_check() {
    local log name
    for log in examples/*.log; do
        name=$(basename "$log" .log)
        check "example $name" example "$name"
    done
    check 'worked logs have the answers of tests/logs' tests/try-logs "$program"
    check 'a run that is no number is refused' refused check --run x
    check 'a profile that is neither 1 nor 2 is refused' refused check --profile 3
    check 'no worker is refused' told 2 FENCE '' 'pmfarm: workers must be 1 to 64' check --workers 0
    check '65 workers are refused' told 2 FENCE '' 'pmfarm: workers must be 1 to 64' check --workers 65
    check 'a faulty log is refused before no worker' told 2 'FENCE|PMT.X' '' 'pmfarm: record 2: unknown marker' check --workers 0
    check 'a faulty log is refused before its workers' told 2 'FENCE|PMT.X' '' 'pmfarm: record 2: unknown marker' check --workers 65
    check 'a number of workers that is no number is refused' refused check --workers x
    check 'two workers check two sections' told 1 "$interleaved" "$interleaved_report" '' check --workers 2
    check 'each request for memory of check --workers 2 refused in turn' sweep_workers
    check 'each request for memory of two workers that read refused in turn' sweep_readers
    check 'each request for memory of a check beside the reading refused in turn' sweep_beside
    check 'a log that several workers read is reported, or refused, as by one' read_by_workers
    check 'threads that are refused, one or all, change nothing' threads_refused
    check 'a run is the name of its sections' told 0 FENCE "$one_fence" '' check --run 7
    check 'a skipped record is told' told 0 'START|FENCE' "${one_fence/7/0}" 'pmfarm: skipped 1 records' check
    check 'two skipped records are told as two' told 0 'START|FENCE|REGISTER_FILE;a;0' "${one_fence/7/0}" 'pmfarm: skipped 2 records' check
    check 'no skipped record is not told' told 0 'FENCE||' "${one_fence/7/0}" '' check
    check 'eleven skipped records are told of a ledger too' told 0 'a|b|c|d|e|f|g|h|i|j|k' $'PMFARM-LEDGER 1\nend verdicts=0' \
        'pmfarm: skipped 11 records' check --ledger
    check 'an unknown marker is refused' told 2 'FENCE|PMT.X' '' 'pmfarm: record 2: unknown marker' check
    check 'strict checks end as lint warns' strict_ends
    check 'a strict check tells no fault that check does not' told 2 'FENCE|PMT.X' '' 'pmfarm: record 2: unknown marker' check --strict
    check 'each request for memory of check --strict refused in turn' sweep examples/order_and_warnings.log check --strict
    check 'a full device as standard output' full_output examples/first.log check
    check 'a write that fails in a long report tells how many bytes went out' cut_off_report
    check 'a closed standard output' closed_output
    check 'a directory as standard input' unreadable check
    check 'each request for memory of check refused in turn' sweep examples/order_and_warnings.log check
    check 'each request for memory of check on a transaction refused in turn' sweep examples/a_range_without_backup.log check
    check 'each request for memory of check of a file refused in turn' sweep examples/first.log check examples/shared_a.log
    check 'two files are refused' refused check examples/first.log examples/first.log
    check 'each request for memory of check --ledger refused in turn' sweep examples/shared_a.log check --ledger
}
