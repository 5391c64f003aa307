# What `join` writes and refuses.

# The ledgers of the two logs that share a section.
ledger_of_example() {
    "$program" check --ledger <"examples/$1.log" >"$scratch/ledger" 2>"$scratch/diagnostics"
    ended 0 $? && same "examples/$1.ledger" "$scratch/ledger" && same /dev/null "$scratch/diagnostics"
}

# joins STATUS TEXT DIAGNOSTICS WORD..: join in the folder of the examples; TEXT is a file, DIAGNOSTICS a text.
joins() {
    local status=$1 text=$2 diagnostics=$3
    shift 3
    (cd examples && "$OLDPWD/$program" join "$@") >"$scratch/report" 2>"$scratch/diagnostics"
    ended "$status" $? && same "$text" "$scratch/report" && said "$diagnostics" "$scratch/diagnostics"
}

# joins_text STATUS LEDGER DIAGNOSTICS: join of a text, whose file is named as the fault line is to name it.
joins_text() {
    printf '%b' "$2" >"$scratch/x.ledger"
    (cd "$scratch" && "$OLDPWD/$program" join x.ledger) >"$scratch/report" 2>"$scratch/diagnostics"
    ended "$1" $? && same /dev/null "$scratch/report" && said "$3" "$scratch/diagnostics"
}

# Two texts in files of their own, and the fault line of their join, which names neither.
joins_two() {
    printf '%b' "$1" >"$scratch/x.ledger"
    printf '%b' "$2" >"$scratch/y.ledger"
    "$program" join "$scratch/x.ledger" "$scratch/y.ledger" >"$scratch/report" 2>"$scratch/diagnostics"
    ended 2 $? && same /dev/null "$scratch/report" && said "$3" "$scratch/diagnostics"
}

# A pair of one line is ordered by its stores under profile 2, and so says the joined report.
ledger_of_profile_2() {
    printf 'STORE;0x1000;0;8|STORE;0x1008;0;8|PMT.ORDERED;0x1000;8;0x1008;8' |
        "$program" check --ledger --profile 2 >"$scratch/x.ledger" || return
    "$program" join "$scratch/x.ledger" "$scratch/x.ledger" >"$scratch/report" || return
    said 'section 0.0 events=3 pass=1 fail=0 warn=0 empty=0
3 ORDERED PASS
total sections=1 pass=1 fail=0 warn=0 empty=0' "$scratch/report"
}

# Bytes that are no text: the program itself.
rubbish_is_no_ledger() {
    "$program" join "$program" >"$scratch/report" 2>"$scratch/diagnostics"
    ended 2 $? && same /dev/null "$scratch/report" &&
        said "pmfarm: $program: line 1: not a ledger" "$scratch/diagnostics"
}

# A thousand files of one section each, of which every tenth is the same as the one before. A list names each a hundred times, and they
# join to the same.
many_ledgers() {
    local i
    mkdir -p "$scratch/many"
    for ((i = 0; i < 1000; i++)); do
        printf 'PMFARM-LEDGER 1\nsection 0.%d events=1 rows=0\nFENCE\nend verdicts=1\n' $((i - (i % 10 == 9))) >"$scratch/many/$i"
    done
    "$program" join "$scratch"/many/* >"$scratch/report" 2>"$scratch/diagnostics"
    ended 0 $? && [ "$(tail -n 1 "$scratch/report")" = 'total sections=900 pass=0 fail=0 warn=0 empty=0' ] || return
    for ((i = 0; i < 100; i++)); do
        printf '%s\n' "$scratch"/many/*
    done >"$scratch/names"
    cp "$scratch/report" "$scratch/wanted"
    ended 100000 "$(wc -l <"$scratch/names")" && "$program" join --files-from "$scratch/names" >"$scratch/report" 2>"$scratch/diagnostics"
    ended 0 $? && same "$scratch/wanted" "$scratch/report"
}

# joins_list STATUS LIST TEXT DIAGNOSTICS WORD..: the same as `joins`, of a list with these bytes, by `printf`.
joins_list() {
    local status=$1 list=$2 text=$3 diagnostics=$4
    shift 4
    printf '%b' "$list" >"$scratch/list"
    joins "$status" "$text" "$diagnostics" --files-from "$scratch/list" "$@"
}

# A list on standard input.
a_list_in_a_pipe() {
    printf '%s\n' examples/shared_{a,b}.ledger | "$program" join --files-from /dev/stdin >"$scratch/report"
    ended 0 $? && same examples/shared.report "$scratch/report"
}

# merge_refused DIAGNOSTICS FILE..: the files are not merged; what was written before is no ledger.
merge_refused() {
    local diagnostics=$1
    shift
    "$program" join --stream --ledger "$@" >"$scratch/front" 2>"$scratch/diagnostics"
    ended 2 $? && said "$diagnostics" "$scratch/diagnostics" && ! grep -q '^end ' "$scratch/front" &&
        "$program" join "$scratch/front" >"$scratch/report" 2>"$scratch/diagnostics"
    ended 2 $? && same /dev/null "$scratch/report"
}

# merges_two TEXT TEXT DIAGNOSTICS: files with these texts, by `printf`, are not merged.
merges_two() {
    printf '%b' "$1" >"$scratch/x.ledger"
    printf '%b' "$2" >"$scratch/y.ledger"
    merge_refused "${3/y.ledger/$scratch/y.ledger}" "$scratch/x.ledger" "$scratch/y.ledger"
}

# joins_cut DIAGNOSTICS FILE..: these files are not joined. `cut` and `shorter` lack their last lines, the rows of `false` are false,
# `other` doesn't join `good`, and `second` is of profile 2.
joins_cut() {
    local diagnostics=$1
    shift
    mkdir -p "$scratch/cut_off"
    printf 'PMFARM-LEDGER 1\nsection 7.1 events=1 rows=0\nFENCE\nend verdicts=1\n' >"$scratch/cut_off/good"
    printf 'PMFARM-LEDGER 1\nsection 7.1 events=0 rows=0\nend verdicts=1\n' >"$scratch/cut_off/other"
    printf 'PMFARM-LEDGER 1\nsection 7.2 events=1 rows=1\nFENCE\nend verdicts=1\n' >"$scratch/cut_off/false"
    printf 'PMFARM-LEDGER 1\nsection 7.3 events=1 rows=0\nFENCE\nend verdicts=1' >"$scratch/cut_off/cut"
    printf 'PMFARM-LEDGER 1\nsection 7.3 events=1 rows=0\n' >"$scratch/cut_off/shorter"
    printf 'PMFARM-LEDGER 2\nend verdicts=0\n' >"$scratch/cut_off/second"
    (cd "$scratch/cut_off" && "$OLDPWD/$program" join "$@") >"$scratch/report" 2>"$scratch/diagnostics"
    ended 2 $? && same /dev/null "$scratch/report" && said "$diagnostics" "$scratch/diagnostics"
}

# Of three ledgers the last is cut off behind its sections.
a_front_of_a_ledger() {
    head -n -1 examples/shared.ledger >"$scratch/cut.ledger"
    merge_refused "pmfarm: $scratch/cut.ledger: line $(($(wc -l <"$scratch/cut.ledger") + 1)): not a ledger" examples/shared_a.ledger "$scratch/cut.ledger"
}

# The ledgers of `many_ledgers`, which come in the order 0, 1, 10, 100.
merges_many() {
    "$program" join --stream "$scratch"/many/* >"$scratch/report" 2>"$scratch/diagnostics"
    ended 0 $? && same "$scratch/wanted" "$scratch/report"
}

# Three ledgers of two thousand sections, which threads read ahead.
merges_by_workers() {
    local i workers
    for i in 0 1 2; do
        awk -v i="$i" 'BEGIN { for (; i < 6000; i += 3) printf "PMT.SECTION;%d|STORE;0x1000;0;8|PMT.PERSIST;0x1000;8|", i }' |
            "$program" check --ledger >"$scratch/$i.ledger"
        ended 1 $? || return
    done
    "$program" join "$scratch"/[0-2].ledger >"$scratch/wanted"
    ended 1 $? || return
    for workers in 1 2 3 64; do
        "$program" join --stream --workers "$workers" "$scratch"/[0-2].ledger >"$scratch/report" 2>"$scratch/diagnostics"
        ended 1 $? && same "$scratch/wanted" "$scratch/report" && same /dev/null "$scratch/diagnostics" || return
    done
}

# Of a ledger whose second section is long enough to be read by a thread.
sweep_merge_by_workers() {
    awk 'BEGIN { printf "FENCE|PMT.SECTION;1|"; for (i = 0; i < 12000; i++) printf "FENCE|" }' | "$program" check --ledger >"$scratch/long.ledger"
    ended 0 $? && sweep examples/first.log join --stream --workers 2 "$scratch/long.ledger"
}

# trusts STATUS LEDGER FILE..: what is merged on trust is this ledger but for its first line, and standard error says so.
trusts() {
    local status=$1
    sed '1s/LEDGER/TRUSTED/' "$2" >"$scratch/wanted"
    shift 2
    "$program" join --stream --trust "$@" >"$scratch/report" 2>"$scratch/diagnostics"
    ended "$status" $? && same "$scratch/wanted" "$scratch/report" && said 'pmfarm: merged on trust: no section was checked' "$scratch/diagnostics"
}

# What was merged on trust is refused as no ledger, and merged on trust again; with the first line of a ledger it is checked.
trusts_no_more() {
    local word
    trusts 0 examples/forged.ledger examples/forged.ledger && cp "$scratch/report" "$scratch/x.ledger" || return
    for word in --ledger --stream; do
        "$program" join "$word" "$scratch/x.ledger" >"$scratch/report" 2>"$scratch/diagnostics"
        ended 2 $? && same /dev/null "$scratch/report" && said "pmfarm: $scratch/x.ledger: line 1: not a ledger" "$scratch/diagnostics" || return
    done
    trusts 0 examples/forged.ledger "$scratch/x.ledger" examples/forged.ledger || return
    sed '1s/TRUSTED/LEDGER/' "$scratch/x.ledger" | "$program" join --stream /dev/stdin >"$scratch/report" 2>"$scratch/diagnostics"
    ended 2 $? && said 'pmfarm: /dev/stdin: section 0.1: rows are false' "$scratch/diagnostics"
}

# The ledgers of `merges_by_workers`, all of whose rows fail.
trusts_fails() {
    "$program" join --ledger "$scratch"/[0-2].ledger >"$scratch/y.ledger"
    ended 1 $? && trusts 1 "$scratch/y.ledger" "$scratch"/[0-2].ledger
}

# trust_refused WORD..: trust is asked for where it is none.
trust_refused() {
    "$program" join --trust "$@" no.ledger >"$scratch/report" 2>"$scratch/diagnostics"
    ended 2 $? && same /dev/null "$scratch/report" &&
        [ "$(head -n 1 "$scratch/diagnostics")" = "pmfarm: error: the argument '--trust' needs '--stream', and cannot be used with '--summary'" ]
}

# The list of ledgers on standard input.
lists_by_input() {
    "$program" join examples/shared_{a,b}.ledger >"$scratch/wanted"
    printf '%s\n' examples/shared_{a,b}.ledger | "$program" join --files-from - >"$scratch/report"
    ended 0 $? && same "$scratch/wanted" "$scratch/report"
}

# The ledgers of two runs, of which the second has a section that passes and one that fails and warns.
runs_to_summarize() {
    printf 'STORE;0x1000;0;8|FLUSH;0x1000;8|FENCE|PMT.PERSIST;0x1000;8' | "$program" check --ledger --run 1 >"$scratch/1.ledger" || return
    printf '%s|' 'FENCE' 'PMT.SECTION;1' 'STORE;0x1000;0;8' 'FLUSH;0x1000;8' 'FLUSH;0x1000;8' 'PMT.PERSIST;0x1000;8' 'PMT.PERSIST;0x2000;8' |
        "$program" check --ledger --run 2 >"$scratch/2.ledger"
    ended 1 $?
}

summary='section 1.0 events=4 pass=1 fail=0 warn=0 empty=0
run 1 sections=1 pass=1 fail=0 warn=0 empty=0
section 2.0 events=1 pass=0 fail=0 warn=0 empty=0
section 2.1 events=5 pass=0 fail=1 warn=1 empty=1
3 FLUSH DOUBLED line=0x1000 lines=1
4 PERSIST FAIL byte=0x1000 crash=4
run 2 sections=2 pass=0 fail=1 warn=1 empty=1
total sections=3 pass=1 fail=1 warn=1 empty=1'

# summarizes WORD..: the summary of both ledgers, the last words of the command, which no join takes.
summarizes() {
    runs_to_summarize || return
    "$program" join "$@" "$scratch/2.ledger" "$scratch/1.ledger" >"$scratch/summary" 2>"$scratch/diagnostics"
    ended 1 $? && said "$summary" "$scratch/summary" && same /dev/null "$scratch/diagnostics" || return
    "$program" join "$scratch/summary" >"$scratch/report" 2>"$scratch/diagnostics"
    ended 2 $? && same /dev/null "$scratch/report" && said "pmfarm: $scratch/summary: line 1: not a ledger" "$scratch/diagnostics"
}

# No file is read where the words contradict each other.
two_texts_are_wanted() {
    "$program" join --ledger --summary no.ledger >"$scratch/report" 2>"$scratch/diagnostics"
    ended 2 $? && same /dev/null "$scratch/report" &&
        [ "$(head -n 1 "$scratch/diagnostics")" = "pmfarm: error: the argument '--ledger' cannot be used with '--summary'" ]
}

no_ledger='pmfarm: no.ledger: read failed
pmfarm: hint: No such file or directory (os error 2)'

try_join() {
    local name
    for name in shared_a shared_b; do
        check "the ledger of $name" ledger_of_example "$name"
    done
    check 'two ledgers that share a section join' joins 0 examples/shared.report '' shared_a.ledger shared_b.ledger
    check 'the other way round they join to the same' joins 0 examples/shared.report '' shared_b.ledger shared_a.ledger
    check 'the text of two joined ledgers' joins 0 examples/shared.ledger '' --ledger shared_b.ledger shared_a.ledger
    check 'the same file twice is one ledger' joins 0 examples/shared_a.ledger '' --ledger shared_a.ledger shared_a.ledger
    check 'a joined ledger joins again' joins 0 examples/shared.ledger '' shared.ledger --ledger shared_a.ledger
    check 'a forged ledger is refused' joins 2 /dev/null "$(cat examples/forged.fault)" shared_a.ledger forged.ledger
    check 'a file that is missing is named' joins 4 /dev/null "$no_ledger" shared_a.ledger no.ledger
    check 'a directory is named' joins 4 /dev/null "${is_a_directory/: read/: .: read}" .
    check 'all files are read before any is loaded' joins 4 /dev/null "$no_ledger" forged.ledger no.ledger
    check 'a log is no ledger' joins 2 /dev/null 'pmfarm: first.log: line 1: not a ledger' first.log
    check 'an empty file is no ledger' joins_text 2 '' 'pmfarm: x.ledger: line 1: not a ledger'
    check 'ends with CR LF are refused' joins_text 2 'PMFARM-LEDGER 1\r\nend verdicts=0\r\n' \
        'pmfarm: x.ledger: line 1: not a ledger'
    check 'other events in one file are refused' joins_text 2 \
        'PMFARM-LEDGER 1\nsection 0.0 events=1 rows=0\nFENCE\nsection 0.0 events=0 rows=0\nend verdicts=2\n' \
        'pmfarm: x.ledger: section 0.0: held with other events'
    check 'a faulty event of a file is refused' joins_text 2 \
        'PMFARM-LEDGER 1\nsection 0.0 events=1 rows=0\nFLUSH;0x0\nend verdicts=1\n' \
        'pmfarm: x.ledger: line 3: too few fields'
    check 'rubbish is no ledger' rubbish_is_no_ledger
    check 'other events in two files are refused' joins_two \
        'PMFARM-LEDGER 1\nsection 7.1 events=1 rows=0\nFENCE\nend verdicts=1\n' \
        'PMFARM-LEDGER 1\nsection 7.1 events=0 rows=0\nend verdicts=1\n' \
        'pmfarm: section 7.1: held with other events'
    check 'files of both profiles are refused' joins_two 'PMFARM-LEDGER 1\nend verdicts=0\n' \
        'PMFARM-LEDGER 2\nend verdicts=0\n' 'pmfarm: profiles differ'
    check 'rows that are false are told of the first file' joins_cut 'pmfarm: false: section 7.2: rows are false' false good other
    check 'false rows are told before a last file that was cut off' joins_cut 'pmfarm: false: section 7.2: rows are false' false good cut
    check 'a conflict is told before a last file that was cut off' joins_cut 'pmfarm: section 7.1: held with other events' good other cut
    check 'a file that was cut off is told before a conflict behind it' joins_cut 'pmfarm: cut: line 4: not a ledger' good cut other
    check 'of two profiles before a file that was cut off it is told' joins_cut 'pmfarm: profiles differ' good second cut
    check 'a first file that was cut off is told' joins_cut 'pmfarm: shorter: line 3: not a ledger' shorter false good
    check 'of two files that were cut off the first is told' joins_cut 'pmfarm: cut: line 4: not a ledger' cut false good shorter
    check 'the other way round the other is told' joins_cut 'pmfarm: shorter: line 3: not a ledger' good shorter cut
    check 'a ledger of profile 2 joins as one' ledger_of_profile_2
    check 'a thousand ledgers join, and a list of a hundred thousand' many_ledgers
    check 'a list names ledgers' joins_list 0 'shared_b.ledger\nshared_a.ledger\n' examples/shared.report ''
    check 'a list may lack its last line end, and have empty lines' joins_list 0 '\n\nshared_b.ledger\n\nshared_a.ledger' examples/shared.report ''
    check 'a list stands behind the words' joins_list 4 'other.ledger' /dev/null "$no_ledger" no.ledger
    check 'the words stand before a list' joins_list 0 'shared_b.ledger\n' examples/shared.ledger '' --ledger shared_a.ledger
    check 'a list in a pipe' a_list_in_a_pipe
    check 'a list with CR LF names other files' joins_list 4 'shared_a.ledger\r\n' /dev/null "${no_ledger/no.ledger/$'shared_a.ledger\r'}"$'\npmfarm: hint: the name ends in a carriage return: lines of a list end in a line feed alone'
    check 'a ledger that a list names is told by its name' joins_list 2 'shared_a.ledger\nforged.ledger\n' /dev/null "$(cat examples/forged.fault)"
    check 'a name that is not UTF-8 is refused' joins_list 2 'shared_a.ledger\n\xff\n' /dev/null 'pmfarm: error: a name in the list of ledgers is not UTF-8'
    check 'an empty list is refused' joins_list 2 '\n\n' /dev/null 'pmfarm: error: no ledger is named'
    check 'an empty list beside a ledger is none' joins_list 0 '' examples/shared_a.ledger '' --ledger shared_a.ledger
    check 'a list that is missing is named' joins 4 /dev/null "$no_ledger" --files-from no.ledger shared_a.ledger
    check 'a list is read before the files' joins 4 /dev/null "${no_ledger/no.ledger/no.list}" --files-from no.list no.ledger
    check 'the summary of a join' summarizes --summary
    check 'the summary of a merge' summarizes --stream --summary
    check 'a ledger text and a summary are not wanted together' two_texts_are_wanted
    check 'two ledgers that share a section merge' joins 0 examples/shared.report '' --stream shared_a.ledger shared_b.ledger
    check 'the text of two merged ledgers' joins 0 examples/shared.ledger '' --stream --ledger shared_b.ledger shared_a.ledger
    check 'a list names ledgers that are merged' joins_list 0 'shared_b.ledger\nshared_a.ledger\n' examples/shared.report '' --stream
    check 'a file that is missing is named before any is merged' joins 4 /dev/null "$no_ledger" --stream shared_a.ledger no.ledger
    check 'a directory is named that is merged' joins 4 /dev/null "${is_a_directory/: read/: .: read}" --stream .
    check 'a log is no ledger to merge' joins 2 /dev/null 'pmfarm: first.log: line 1: not a ledger' --stream first.log
    check 'a forged ledger is not merged' merge_refused "$(sed 's,pmfarm: ,&examples/,' examples/forged.fault)" examples/shared_a.ledger examples/forged.ledger
    check 'other events in two files are not merged' merges_two \
        'PMFARM-LEDGER 1\nsection 7.1 events=1 rows=0\nFENCE\nend verdicts=1\n' \
        'PMFARM-LEDGER 1\nsection 7.1 events=0 rows=0\nend verdicts=1\n' \
        'pmfarm: section 7.1: held with other events'
    check 'of two sections with other events the first is told' merges_two \
        'PMFARM-LEDGER 1\nsection 7.1 events=1 rows=0\nFENCE\nsection 7.2 events=1 rows=0\nFENCE\nend verdicts=2\n' \
        'PMFARM-LEDGER 1\nsection 7.1 events=0 rows=0\nsection 7.2 events=0 rows=0\nend verdicts=2\n' \
        'pmfarm: section 7.1: held with other events'
    check 'files of both profiles are not merged' merges_two 'PMFARM-LEDGER 1\nend verdicts=0\n' \
        'PMFARM-LEDGER 2\nend verdicts=0\n' 'pmfarm: y.ledger: profiles differ'
    check 'sections that are not in order are not merged' merges_two 'PMFARM-LEDGER 1\nend verdicts=0\n' \
        'PMFARM-LEDGER 1\nsection 7.1 events=0 rows=0\nsection 7.0 events=0 rows=0\nend verdicts=2\n' \
        'pmfarm: y.ledger: section 7.0: out of order'
    check 'a merge that was refused is no ledger' a_front_of_a_ledger
    check 'a thousand ledgers merge' merges_many
    check 'ledgers merge by any number of workers' merges_by_workers
    check 'ledgers are merged on trust' trusts 0 examples/shared.ledger examples/shared_b.ledger examples/shared_a.ledger
    check 'a merge on trust ends with 1 where a row tells a fail' trusts_fails
    check 'what was merged on trust is no ledger' trusts_no_more
    check 'a log is not merged on trust' joins 2 /dev/null 'pmfarm: first.log: line 1: not a ledger' --stream --trust first.log
    check 'other events in two files are not merged on trust' joins 2 /dev/null 'pmfarm: section 7.1: held with other events' \
        --stream --trust "$scratch/cut_off/good" "$scratch/cut_off/other"
    check 'a front of a ledger is not merged on trust' joins 2 /dev/null "pmfarm: $scratch/cut_off/cut: line 4: not a ledger" --stream --trust "$scratch/cut_off/cut"
    check 'trust is for a merge' trust_refused
    check 'trust writes no summary' trust_refused --stream --summary
    check 'a list of ledgers on standard input' lists_by_input
    check 'a merge by no worker is refused' refused join --stream --workers 0 examples/shared_a.ledger
    check 'a merge by 65 workers is refused' refused join --stream --workers 65 examples/shared_a.ledger
    check 'a merge without a file is refused' joins 2 /dev/null 'pmfarm: error: no ledger is named' --stream
    check 'join without a file is refused' refused join
    check 'a full device as standard output of join' full_output /dev/null join examples/shared_a.ledger
    check 'a full device as standard output of a merge' full_output /dev/null join --stream examples/shared_a.ledger
    check 'a full device as standard output of a merge on trust' full_output /dev/null join --stream --trust examples/shared_a.ledger
    check 'a text line without an end is given up by join --stream' told 3 '' '' 'pmfarm: out of memory' join --stream /dev/zero
    check 'each request for memory of join --stream refused in turn' sweep examples/first.log join --stream examples/shared_{a,b}.ledger
    check 'each request for memory of join --stream --summary refused in turn' sweep examples/first.log join --stream --summary examples/shared_{a,b}.ledger
    check 'each request for memory of join --stream --workers 2 refused in turn' sweep_merge_by_workers
    check 'each request for memory of join --stream --trust refused in turn' sweep examples/first.log join --stream --trust examples/shared_{a,b}.ledger
    check 'each request for memory of join --summary refused in turn' sweep examples/first.log join --summary examples/shared_{a,b}.ledger
    check 'each request for memory of join refused in turn' sweep examples/first.log join examples/shared_{a,b}.ledger
    check 'each request for memory of join --ledger refused in turn' \
        sweep examples/first.log join --ledger examples/shared.ledger examples/shared_a.ledger
    printf '%s\n' examples/shared_{a,b}.ledger >"$scratch/list"
    check 'each request for memory of join --files-from refused in turn' sweep examples/first.log join --files-from "$scratch/list"
}
