# The tracer: what tools/trace logs, tells and refuses. Where what it needs is not installed, its checks are skipped by name; the
# logs of it that stand in examples/ are checked all the same.

tracer='valgrind with its static libraries and gcc'

# Each program of tests/trace, compiled; the tracer is built anew, in a folder of these tests.
compile_for_traces() {
    mkdir -p "$room/cache" || return
    export XDG_CACHE_HOME=$room/cache
    local words=(-std=gnu11 -O1 -g -no-pie -Wall -Werror -I trace/include -I examples/c)
    gcc "${words[@]}" -Wl,--defsym=to_clwb=0x10001e00,--defsym=to_clflushopt=0x10001e80,--defsym=to_clflush=0x10001f00 \
        -o "$room/forms" tests/trace/forms.c && gcc "${words[@]}" -o "$room/stores" tests/trace/stores.c &&
        gcc "${words[@]}" -pthread -o "$room/lives" tests/trace/lives.c &&
        gcc "${words[@]}" -pthread -o "$room/crowds" tests/trace/crowds.c &&
        gcc "${words[@]}" -o "$room/append_log" examples/c/append_log.c &&
        gcc "${words[@]}" -DMISSING_FENCE -o "$room/append_log.missing_fence" examples/c/append_log.c
}

# trace WORD..: tools/trace with the pool of these tests, a new one; its log, and what it says, without the numbers of lines and of
# processes.
trace() {
    rm -f "$room/pool"
    tools/trace --pmem "$room/pool" "$@" </dev/null >"$scratch/log" 2>"$scratch/told"
    local status=$?
    sed -E 's/:[0-9]+\)/:N)/g; s/==[0-9]+==/==N==/' "$scratch/told" >"$scratch/diagnostics"
    return $status
}

# traced STATUS LOG DIAGNOSTICS PROGRAM CASE [WORD..]
traced() {
    local status=$1 log=$2 diagnostics=$3 tried=$4 case=$5
    shift 5
    trace "$@" "$room/$tried" "$room/pool" "$case"
    ended "$status" $? && grep -Ev '^(PMT.REFUSED;.*)?$' "$scratch/log" | said "$log" - && said "$diagnostics" "$scratch/diagnostics" &&
        refused_as_told "$status"
}

# refused_as_told STATUS: each record of the log that no command takes says what was told, and with status 4 there is one.
refused_as_told() {
    sed -nE 's/:[0-9]+\)/:N)/g; s/^PMT.REFUSED;/trace: /p' "$scratch/log" >"$scratch/refused"
    [ "$1" != 4 ] || [ -s "$scratch/refused" ] || return
    ! grep -vxFf "$scratch/diagnostics" "$scratch/refused"
}

no_store='trace: no store to a range was seen: is a file mapped, shared, whose path begins with a prefix of --pmem?'

# durable ADDRESS..: the records of a store of eight bytes to each, its write-back and a fence.
durable() {
    local at
    for at in "$@"; do
        printf 'STORE;0x%x;0x0;0x8\nFLUSH;0x%x;0x40\nFENCE\n' "$at" $((at & -64))
    done
}

each_form_of_a_write_back() {
    local wanted i
    wanted=$(for ((i = 0; i < 63; i++)); do printf 'FLUSH;0x%x;0x40\n' $((0x10000000 + 128 * i)); done)
    trace "$room/forms" "$room/pool"
    ended 0 $? && said "$wanted" "$scratch/log" && said "$no_store" "$scratch/diagnostics"
}

each_kind_of_store() {
    traced 0 'STORE;0x10000000;0x0;0x1
STORE;0x10000002;0x0;0x2
STORE;0x10000004;0x0;0x4
STORE;0x10000008;0x0;0x8
STORE;0x10000040;0x0;0x8
STORE;0x10000048;0x0;0x4
STORE;0x10000050;0x0;0x8' '' stores plain && traced 0 'STORE;0x10000001;0x0;0x10
STORE;0x10000040;0x0;0x10
STORE;0x10000080;0x0;0x4
STORE;0x10000088;0x0;0x8
STORE;0x100000c0;0x0;0xa' '' stores vectors && traced 0 'STORE;0x10000008;0x0;0x8
STORE;0x10000010;0x0;0x10
STORE;0x10000030;0x0;0x4
STORE;0x10000038;0x0;0x1' '' stores swaps && traced 0 'STORE;0x1000000a;0x0;0x12c
STORE;0x10000200;0x0;0x40
STORE;0x10000408;0x0;0x1' '' stores strings && traced 0 'STORE;0x10000000;0x0;0x8
STORE;0x10000010;0x0;0x8' '' stores fault && traced 0 'STORE;0x10000000;0x0;0x5
STORE;0x10003ff8;0x0;0x8' '' stores ends && traced 0 'STORE;0x10000064;0x0;0x5' '' stores kernel
}

each_wide_store() {
    grep -qw avx /proc/cpuinfo || return 0
    traced 0 'STORE;0x10000003;0x0;0x20
STORE;0x10000040;0x0;0x20
STORE;0x10000080;0x0;0x10
STORE;0x1000010c;0x0;0x4' '' stores wide && traced 0 'STORE;0x10000000;0x0;0x8
STORE;0x10000008;0x0;0x4
FLUSH;0x10000000;0x40
FENCE
STORE;0x10000040;0x0;0x10
STORE;0x10000050;0x0;0x10
STORE;0x10000060;0x0;0x10
STORE;0x10000080;0x0;0x20
STORE;0x100000a0;0x0;0x20
STORE;0x100000c0;0x0;0x10
FLUSH;0x10000040;0xc0
FENCE
STORE;0x10000200;0x0;0x8
STORE;0x10000208;0x0;0x8
FENCE' '' stores past
}

write_backs_and_fences() {
    trace "$room/lives" "$room/pool" neighbours
    ended 0 $? && grep -v '^STORE' "$scratch/log" | said 'FLUSH;0x10000000;0x400
FLUSH;0x100003c0;0x40
FENCE
FENCE' - && traced 0 'STORE;0x10000000;0x0;0x8
FLUSH;0x10000000;0x40' '' lives locked && traced 0 'STORE;0x10000000;0x0;0x8
FLUSH;0x10000000;0x40
FENCE' '' lives locked --clflush-fence && traced 0 'STORE;0x10000000;0x0;0x8
FLUSH;0x10000000;0x40
FENCE' '' lives locked --lock-fence && traced 0 'STORE;0x10000000;0x0;0x8
STORE;0x10000008;0x0;0x8
FLUSH;0x10000000;0x1000
FENCE' '' lives msync && traced 0 '' "$no_store" lives ask
}

each_thread_has_a_section() {
    traced 0 "$(durable 0x10000000)
PMT.SECTION;1
$(durable 0x10000040)
PMT.SECTION;2
$(durable 0x10000080)
PMT.SECTION;0
$(durable 0x100000c0)
PMT.PERSIST;0x10000000;0x4000
PMT.SECTION;1
PMT.PERSIST;0x10000000;0x4000
PMT.SECTION;2
PMT.PERSIST;0x10000000;0x4000" '' lives threads --persist-at-end && traced 4 "$(durable 0x10000000 0x10000040 0x10000080 0x100000c0)" \
        'trace: section 0 has records of threads 0 and 1: there a fence of one settles write-backs of the other' \
        lives threads --sections none && traced 0 "$(durable 0x10000000)
PMT.SECTION;1
$(durable 0x10000008)" 'trace: threads 0 and 1 store to line 0x10000000, in make_durable (pool.h:N) and in make_durable (pool.h:N): a PASS of it stands only where they take turns' lives line
}

# Requests become markers: sections, scopes around transactions, what is clean until it is stored to, what is ignored in each section.
requests_become_markers() {
    traced 0 "PMT.SECTION;7
$(durable 0x10000000)
PMT.CHECKSTART
PMT.TXBEGIN
PMT.TXEND
PMT.CHECKEND
PMT.CHECKSTART
PMT.TXBEGIN
PMT.TXBEGIN
PMT.TXEND
PMT.TXEND
PMT.CHECKEND
PMT.EXCLUDE;0x10000000;0x8" '' lives mark && traced 0 "$(durable 0x10000000)
PMT.EXCLUDE;0x10000000;0x40
PMT.EXCLUDE;0x10000020;0x40
PMT.INCLUDE;0x1000001c;0x4
STORE;0x1000001c;0x0;0x8
PMT.INCLUDE;0x10000000;0x8
PMT.EXCLUDE;0x10000000;0x8
PMT.SECTION;1
PMT.EXCLUDE;0x10000020;0x40
$(durable 0x10000080)
PMT.SECTION;0
PMT.INCLUDE;0x10000020;0x40
PMT.SECTION;1
PMT.INCLUDE;0x10000020;0x40
PMT.SECTION;0
PMT.INCLUDE;0x10000024;0x1c
PMT.INCLUDE;0x10000008;0x14
PMT.INCLUDE;0x10000000;0x8" '' lives request && traced 4 "PMT.SECTION;1
$(durable 0x10000000)
STORE;0x10000040;0x0;0x8" 'trace: section 1 has records of threads 1 and 0: there a fence of one settles write-backs of the other' lives take && traced 0 "PMT.SECTION;1
$(durable 0x10000000)
PMT.SECTION;2
$(durable 0x10000040)
PMT.SECTION;3
$(durable 0x10000080)" '' lives turn --sections none
}

mappings_end_and_move() {
    traced 0 "$(durable 0x10000000)
PMT.PERSIST;0x10000000;0x1000
$(durable 0x10001000)
PMT.PERSIST;0x10001000;0x3000" '' lives unmap --persist-at-end && traced 0 "$(durable 0x10000000)
PMT.PERSIST;0x10000000;0x4000
$(durable 0x10100040)
PMT.PERSIST;0x10100000;0x4000" '' lives again --persist-at-end && traced 0 "$(durable 0x10000000 0x10000040)
PMT.PERSIST;0x10000000;0x1000" '' lives shrink --persist-at-end && traced 0 FENCE "$no_store" lives private || return
    traced 0 "STORE;0x10000000;0x0;0x8
$(durable 0x10000000 0x10100000)" 'trace: the addresses from 0x10000000 on are used again, for another mapping: rows there may speak of stores to the first' \
        lives back --pmem / || return
    traced 4 'STORE;0x10000000;0x0;0x8' 'trace: a file is mapped again, at 0x10100000, whose stores through 0x10000000 were not all durable: the log takes these for other bytes' lives open &&
        traced 4 "$(durable 0x10000000 0x10100040)" 'trace: bytes of a file are stored to through 0x10000000 and through 0x10100000: the log takes them for different bytes' lives twice &&
        traced 4 "$(durable 0x10000000)" 'trace: the range from 0x10000000 on is moved to 0x10100000: the log takes its bytes for others' lives move
}

# no_verdict: no command takes what this log has.
no_verdict() {
    "$program" check "$1" >"$scratch/report" 2>"$scratch/diagnostics"
    ended 2 $? && grep -Eqx 'pmfarm: record [0-9]+: unknown marker' "$scratch/diagnostics"
}

# What makes a verdict of a fork wrong stands in its log, whatever its parent ends with; where it has none, in that of its parent, whose
# reader has not seen its end before.
forks_are_refused() {
    local moved='PMT.REFUSED;the range from 0x10000000 on is moved to 0x10100000: the log takes its bytes for others' it tried=0
    rm -f "$room"/forked.*
    trace --log "$room/forked.log" "$room/lives" "$room/pool" forkmove
    ended 0 $? && said $'STORE;0x10000000;0x0;0x8\n'"$moved" "$room"/forked.log.[0-9]* && no_verdict "$room"/forked.log.[0-9]* || return
    for it in forkmove orphan; do
        rm -f "$room/pool"
        tools/trace --pmem "$room/pool" "$room/lives" "$room/pool" "$it" 2>/dev/null | cat >"$scratch/log"
        ended 0 "${PIPESTATUS[0]}" && no_verdict "$scratch/log" || return
    done
    rm -f "$room/pool" && tools/trace --pmem "$room/pool" --log "$scratch/log" --hold 3 "$room/lives" "$room/pool" orphan 2>/dev/null \
        3> >(cat && cat "$scratch"/log.[0-9]* >"$scratch/whole") && until [ -s "$scratch/whole" ] || [ $((tried += 1)) -gt 100 ]; do sleep 0.1; done
    said 'STORE;0x10000040;0x0;0x8' "$scratch/whole"
}

# The log of a fork that its disk has no room for tells so at its end.
without_room() {
    has 'mounts of its own' || return 0
    mkdir "$room/small" && unshare -rm bash -c '
        mount -t tmpfs -o size=16k none "$1/small" && tools/trace --pmem "$1/pool" --log "$1/small/log" "$1/lives" "$1/pool" forkbusy
        status=$?
        cp "$1"/small/log.[0-9]* "$1/cut.log"
        exit "$status"' _ "$room" 2>/dev/null
    ended 0 $? && tail -n 1 "$room/cut.log" | said 'PMT.REFUSED;the log is not whole' - && no_verdict "$room/cut.log"
}

# The log of a fork has its process in its name; without a file for it the run has no verdict.
forks_and_exec() {
    traced 4 "$(durable 0x10000000 0x10000080)" 'trace: a fork stores to a range, and its records have no log: --log FILE gives it one, FILE.PROCESS' \
        lives fork || return
    rm -f "$room"/forked.*
    trace --log "$room/forked.log" "$room/lives" "$room/pool" fork
    ended 0 $? && durable 0x10000000 0x10000080 | same - "$room/forked.log" && durable 0x10000040 | same - "$room"/forked.log.[0-9]* &&
        grep -Eq "^trace: process [0-9]+ is a fork, and its log is $room/forked.log.[0-9]+\$" "$scratch/told" || return
    traced 0 'STORE;0x10000000;0x0;0x8
PMT.PERSIST;0x10000000;0x4000' 'trace: /bin/true is started by exec: it is not traced' lives exec --persist-at-end &&
        traced 0 'STORE;0x10000000;0x0;0x8' 'trace: the range from 0x10000000 on is moved to 0x10100000: the log takes its bytes for others
trace: /bin/true is started by exec: it is not traced
trace: a verdict could be wrong, as is told above; the status will be that of /bin/true all the same' lives moveexec
}

# The status is the program's own, and so is what it writes.
programs_end() {
    traced 7 "$(durable 0x10000000)" said lives talk || return
    trace "$room/lives" "$room/pool" abort
    ended 134 $? && { durable 0x10000000 && echo 'STORE;0x10000040;0x0;0x8'; } | same - "$scratch/log" || return
    trace "$room/lives" "$room/pool" unknown
    ended 4 $? && head -n 1 "$scratch/log" | said 'STORE;0x10000000;0x0;0x8' - && refused_as_told 4 && head -n 1 "$scratch/diagnostics" |
        said 'trace: an instruction that this Valgrind does not know: 62 f1 fd 48 6f 00, in unknown (lives.c:N)' -
}

# Of a program that is killed all is there, up to its last fence.
killed_midway() {
    local tried=0
    rm -f "$room/pool" "$room/killed.log"
    tools/trace --pmem "$room/pool" --log "$room/killed.log" "$room/lives" "$room/pool" wait </dev/null 2>"$scratch/diagnostics" &
    until [ "$(grep -c FENCE "$room/killed.log" 2>/dev/null)" = 2 ] || [ $((tried += 1)) -gt 300 ]; do
        sleep 0.1
    done
    kill -KILL $!
    { wait $!; } 2>/dev/null
    durable 0x10000000 0x10000040 | same - "$room/killed.log"
}

# turns COUNT: the records of so many stores to the lines of a page in turn, each of which is durable.
turns() {
    local i
    for ((i = 0; i < $1; i++)); do
        durable $((0x10000000 + 64 * (i % 64)))
    done
}

# crowded CASE COUNT [LOG]: a case of crowds.c has the log of so many turns, or this one, and nothing is said of it.
crowded() {
    trace "$room/crowds" "$room/pool" "$1" "$2"
    ended 0 $? && same /dev/null "$scratch/diagnostics" && if [ $# -gt 2 ]; then said "$3" "$scratch/log"; else turns "$2" | cmp - "$scratch/log"; fi
}

# Each of 200 threads that run at once has a section with its three records; the first thread has none.
crowd_of_threads() {
    trace "$room/crowds" "$room/pool" threads 200
    ended 0 $? && same /dev/null "$scratch/diagnostics" || return
    grep -c '^PMT.SECTION;' "$scratch/log" >"$scratch/counts"
    "$program" check "$scratch/log" 2>/dev/null | grep '^section' | cut -d ' ' -f 3 | sort | uniq -c >>"$scratch/counts"
    said $'200\n    200 events=3' "$scratch/counts"
}

# killed_at COUNT: a program that kills itself behind so many records, of which the log has the first ones, up to the last fence at least.
killed_at() {
    local lines
    { trace "$room/crowds" "$room/pool" records "$1"; } 2>/dev/null
    ended 137 $? || return
    lines=$(wc -l <"$scratch/log")
    [ "$lines" -le "$1" ] && [ "$lines" -ge $(($1 / 3 * 3)) ] && turns 12 | head -n "$lines" | same - "$scratch/log"
}

killed_at_each_record() {
    local records
    for records in {0..30}; do
        killed_at "$records" || return
    done
}

# A log that is not read stops the program; once its reader is gone, the program ends and tells it. One that is read slowly is whole.
a_log_that_no_one_reads() {
    rm -f "$room/pool"
    timeout 60 tools/trace --pmem "$room/pool" "$room/crowds" "$room/pool" stores 20000 2>"$scratch/diagnostics" | sleep 2
    ended 4 "${PIPESTATUS[0]}" && grep -Eqx "trace: the log can't be written: write failed after [0-9]+ bytes" "$scratch/diagnostics" || return
    rm -f "$room/pool"
    timeout 60 tools/trace --pmem "$room/pool" "$room/crowds" "$room/pool" stores 5000 2>/dev/null | { sleep 2 && cat; } >"$scratch/log"
    ended 0 "${PIPESTATUS[0]}" && turns 5000 | cmp - "$scratch/log"
}

a_log_that_is_not_written() {
    tools/trace --pmem "$room/pool" "$room/lives" "$room/pool" neighbours 2>"$scratch/diagnostics" >/dev/full
    ended 4 $? && said "trace: the log can't be written: write failed after 0 bytes" "$scratch/diagnostics" || return
    trace --log "$room/none/log" "$room/lives" "$room/pool" neighbours
    ended 4 $? && said "trace: $room/none/log: the log can't be opened" "$scratch/diagnostics"
}

# events REPORT: what was found of each, without places and bytes.
events() {
    grep -E '^[0-9]' "$1" | cut -d ' ' -f 2,3
}

# The example in C, natively without a word, and traced; its rows are those of the log that it tells by itself.
example_traced() {
    local name=$1 source=$2 row
    "$room/$name" "$room/native" >"$scratch/log" 2>&1 && same /dev/null "$scratch/log" || return
    trace --stacks 3 "$room/$name" "$room/pool"
    ended 0 $? && same /dev/null "$scratch/diagnostics" || return
    "$program" check <"$scratch/log" >"$scratch/report" 2>/dev/null
    events "examples/c/$name.report" >"$scratch/wanted" && events "$scratch/report" | same "$scratch/wanted" - || return
    [ -n "$source" ] || return 0
    row=$(tools/rows --fail "$scratch/report" | head -n 1)
    "$program" locate --section 0 --event "$(cut -d ' ' -f 2 <<<"$row")" <"$scratch/log" | grep -q ";append (append_log.c:$source);main"
}

examples_traced() {
    example_traced append_log '' && example_traced append_log.missing_fence "$(grep -n 'PMFARM_ORDERED(record' examples/c/append_log.c | cut -d : -f 1)"
}

one_by_hand() {
    trace --range '0x10000040;0x8' --range '268435584;8' "$room/lives" "$room/none" threads
    ended 0 $? && grep -c . "$scratch/log" | said 11 - && grep '^STORE' "$scratch/log" | said $'STORE;0x10000040;0x0;0x8\nSTORE;0x10000080;0x0;0x8' -
}

# spoken STATUS TEXT WORD..: tools/trace with these words writes nothing, and says this; another copy of it, or by another PATH, where
# that is set.
spoken() {
    local status=$1 text=$2
    shift 2
    env PATH="${spoken_path-$PATH}" "${spoken_by-tools/trace}" "$@" </dev/null >"$scratch/log" 2>"$scratch/diagnostics"
    ended "$status" $? && said "trace: $text" "$scratch/diagnostics" && same /dev/null "$scratch/log"
}

trace_refuses() {
    mkdir -p "$room" && printf '\177ELF\1\1\1\0\0\0\0\0\0\0\0\0\2\0\3\0' >"$room/narrow" && printf '\177ELF\2\1\1\0\0\0\0\0\0\0\0\0\2\0\267\0' >"$room/other" &&
        echo text >"$room/text" && cp "$room/text" "$room/closed" && chmod +x "$room/narrow" "$room/other" "$room/text" || return
    spoken 2 'no program: tools/trace [..] PROGRAM [ARG..]; see tools/trace --help' && spoken 2 './none: there is no such file' ./none &&
        spoken 2 'none-of-these: there is no such program on the PATH' none-of-these && spoken 2 './tests: it is a folder' ./tests &&
        spoken 2 "$room/closed: no permission to run it" "$room/closed" && spoken 2 "$room/text: it is no program" "$room/text" &&
        spoken 2 "$room/narrow: it is a 32-bit program, and only those for x86-64 can be traced" "$room/narrow" &&
        spoken 2 "$room/other: it is no program for x86-64" "$room/other" &&
        spoken 2 'unknown word --stack: see tools/trace --help' --stack 3 true && spoken 2 '--log needs a value' --log &&
        spoken 2 '--stacks: 33 is no number from 0 to 32' --stacks 33 true && spoken 2 '--stacks: x is no number from 0 to 32' --stacks x true &&
        spoken 2 '--range: 0x1000 is no FIRST;SIZE' --range 0x1000 true && spoken 2 '--range: 0x1000;0 is no FIRST;SIZE' --range '0x1000;0' true &&
        spoken 2 '--hold: 99 is no descriptor that is open for writing' --hold 99 true && spoken 2 '--hold: x is no descriptor that is open for writing' --hold x true &&
        spoken 2 '--sections: one is neither threads nor none' --sections one true && spoken 2 '--pmem: the prefix is empty' --pmem '' true
}

# What is missing is named with the package that has it; so is a Valgrind that the headers are not of.
what_is_missing() {
    local it
    mkdir -p "$room/path" "$room/repo/tools" || return
    for it in bash dirname realpath od tr sed; do
        ln -sf "$(type -P $it)" "$room/path/$it"
    done
    spoken_path=$room/path spoken 4 "gcc is not installed: Debian's package gcc has it" "$(type -P true)" &&
        printf '#!/bin/sh\necho valgrind-3.0.0\n' >"$room/path/valgrind" && cp "$room/path/valgrind" "$room/path/gcc" && chmod +x "$room/path/valgrind" "$room/path/gcc" &&
        sed 's|libcoregrind-amd64-linux|libnone|' tools/trace >"$room/repo/tools/trace" && chmod +x "$room/repo/tools/trace" || return
    has "$tracer" || return 0
    spoken_by=$room/repo/tools/trace spoken 4 "Valgrind's static libraries are not installed: Debian's package valgrind has them" true &&
        spoken_path=$room/path spoken 4 "$room/path/valgrind is valgrind-3.0.0, and /usr/include/valgrind is of $(valgrind --version): put the one that the headers are of first on the PATH" "$(type -P true)" &&
        rm "$room/path/valgrind" && spoken_path=$room/path spoken 4 "valgrind is not installed: Debian's package valgrind has it" "$(type -P true)"
}

# Two first calls at once build one tracer.
built_once() {
    rm -rf "$room/twice" && mkdir "$room/twice" || return
    XDG_CACHE_HOME=$room/twice tools/trace true </dev/null >"$scratch/log" 2>"$scratch/diagnostics" &
    XDG_CACHE_HOME=$room/twice tools/trace true </dev/null >"$scratch/report" 2>"$scratch/told"
    ended 0 $? && wait $! && said "$no_store" "$scratch/told" && said "$no_store" "$scratch/diagnostics" &&
        [ "$(find "$room/twice/pmfarm" -mindepth 1 -maxdepth 1 | wc -l)" = 1 ]
}

# A library of PMDK, whose processor writes back by CLWB.
with_pmdk() {
    PMEM_IS_PMEM_FORCE=1 trace "$@"
}

by_libpmem() {
    gcc -std=gnu11 -O1 -g -Wall -Werror -I trace/include -I examples/c -o "$room/pmem" tests/trace/pmem.c -lpmem || return
    with_pmdk --persist-at-end "$room/pmem" "$room/pool" 4
    ended 0 $? && same /dev/null "$scratch/diagnostics" && "$program" check <"$scratch/log" 2>/dev/null | tail -n 1 |
        said 'total sections=1 pass=13 fail=0 warn=0 empty=0' - || return
    with_pmdk --stacks 1 "$room/pmem" "$room/pool" 4 drain
    ended 0 $? && "$program" check <"$scratch/log" 2>/dev/null | tools/rows --fail >"$scratch/rows" && ended 1 "$(wc -l <"$scratch/rows")" || return
    # (the third record lies 64 + 2 * 256 bytes behind the tail)
    local row byte after
    row=$(cat "$scratch/rows") byte=${row#*byte=} after=${row#*after=}
    ended $((${after%% *} + 576)) $((${byte%% *})) && "$program" locate --section 0 --event "$(cut -d ' ' -f 2 "$scratch/rows")" <"$scratch/log" |
        grep -q ";append (pmem.c:$(grep -n PMFARM_ORDERED tests/trace/pmem.c | cut -d : -f 1))$"
}

# objects FAILS THREADS TIMES [WORD]: how many rows fail, which are left in a file.
objects() {
    local fails=$1
    shift
    with_pmdk --stacks 4 --persist-at-end "$room/objects" "$room/pool" "$@"
    ended 0 $? && "$program" check <"$scratch/log" 2>/dev/null >"$scratch/report"
    tools/rows --fail "$scratch/report" >"$scratch/rows" && ended "$fails" "$(wc -l <"$scratch/rows")" ||
        { head -n 5 "$scratch/rows" "$scratch/diagnostics" && return 1; }
}

# fails_at ROW NAME: the first row that fails is this one, at the byte that the program tells by that name.
fails_at() {
    local byte
    byte=$(sed -n "s/.*$2=\(0x[0-9a-f]*\).*/\1/p" "$scratch/told")
    [[ $(head -n 1 "$scratch/rows") =~ ^0.0\ ([0-9]+)\ $1\ byte=$byte( |$) ]] || {
        cat "$scratch/rows" && printf 'in place of %s at %s\n' "$1" "$byte"
        return 1
    }
    place=${BASH_REMATCH[1]}
}

# comes_from EVENT TEXT: the line of the program's source that has this text is among the frames of the event.
comes_from() {
    local line
    line=$(grep -nF "$2" tests/trace/objects.c | cut -d : -f 1)
    "$program" locate --section 0 --event "$1" <"$scratch/log" >"$scratch/record" && grep -qF "(objects.c:$line)" "$scratch/record" || {
        cat "$scratch/record"
        return 1
    }
}

by_libpmemobj() {
    local place
    gcc -std=gnu11 -O1 -g -Wall -Werror -o "$room/objects" tests/trace/objects.c -lpmemobj -lpthread || return
    objects 0 1 3 && objects 0 4 3 && grep -q '^section 0[.]3 .* fail=0 ' "$scratch/report" || return
    objects 3 1 3 add && fails_at 'STORE NOBACKUP' changes && comes_from "$place" 'account->changes += 1' || return
    objects 1 1 3 persist && fails_at 'PERSIST FAIL' name || return
    "$program" explain --section 0 --event "$place" <"$scratch/log" >"$scratch/image" 2>/dev/null
    comes_from "$(sed -n 's/^byte=.* last=//p' "$scratch/image")" 'strcpy(account->name, name)'
}

# The three commands of README.md, from a program to the source line of its bug.
commands_of_readme() {
    local line
    gcc -g -DMISSING_ADD -Wall -Wextra -Werror -o "$room/accounts" examples/c/accounts.c -lpmemobj && rm -f "$room/pool" || return
    ln -sfn "$top/tools" "$room/tools" && printf '#!/bin/sh\nexec "%s" "$@"\n' "$top/$program" >"$room/pmfarm" && chmod +x "$room/pmfarm" || return
    grep -E '^    (tools/trace|\./pmfarm|tools/rows) .*accounts' README.md | sed 's/^    //' >"$scratch/commands"
    ended 3 "$(wc -l <"$scratch/commands")" && (cd "$room" && bash "$scratch/commands") >"$scratch/report" 2>&1
    line=$(grep -n 'accounts->to.payments++' examples/c/accounts.c | cut -d : -f 1)
    tail -n 1 "$scratch/report" | grep -q "\"STORE\", \"result\": \"NOBACKUP\".*\"stored_by\": \[\"pay (accounts.c:$line)\"" || {
        cat "$scratch/report"
        return 1
    }
}

# A long log is cut and checked in one pipe.
in_one_pipe() {
    PMEM_IS_PMEM_FORCE=1 tools/trace "$room/pmem" "$room/long" 70000 2>"$scratch/told" | "$program" cut 2>"$scratch/diagnostics" |
        "$program" check 2>/dev/null | tail -n 1 >"$scratch/report"
    ended '0 0 0 0' "${PIPESTATUS[*]}" && said 'pmfarm: 1 cuts' "$scratch/diagnostics" && said 'total sections=2 pass=210000 fail=0 warn=0 empty=0' "$scratch/report"
}

try_trace() {
    local room=$scratch/traces
    check 'tools/trace refuses wrong words and programs' trace_refuses
    check 'tools/trace names what is missing' what_is_missing
    check_by "$tracer" 'the programs to be traced are compiled' compile_for_traces
    check_by "$tracer" 'two first calls at once build one tracer' built_once
    check_by "$tracer" 'traced: each addressing form of each write-back' each_form_of_a_write_back
    check_by "$tracer" 'traced: each kind of store, and none that faults' each_kind_of_store
    check_by "$tracer" 'traced: wide stores, and those past the cache' each_wide_store
    check_by "$tracer" 'traced: neighbours are merged; fences, msync and what counts as a fence' write_backs_and_fences
    check_by "$tracer" 'traced: a section for each thread, and lines of two threads' each_thread_has_a_section
    check_by "$tracer" 'traced: requests become markers' requests_become_markers
    check_by "$tracer" 'traced: mappings that end, move, or show bytes twice' mappings_end_and_move
    check_by "$tracer" 'traced: forks and exec' forks_and_exec
    check_by "$tracer" 'traced: what makes a verdict of a fork wrong stands in a log' forks_are_refused
    check_by "$tracer" 'traced: a fork whose log has no room' without_room
    check_by "$tracer" 'traced: what a program writes, its status, its signals' programs_end
    check_by "$tracer" 'traced: a program that is killed midway' killed_midway
    check_by "$tracer" 'traced: a program that kills itself at each of its first 30 records' killed_at_each_record
    check_by "$tracer" 'traced: a thousand forks' crowded forks 1000
    check_by "$tracer" 'traced: ten thousand ranges, each mapped and unmapped' crowded mappings 10000
    check_by "$tracer" 'traced: 200 threads at once' crowd_of_threads
    check_by "$tracer" 'traced: a log that no reader drains' a_log_that_no_one_reads
    check_by "$tracer" 'traced: a full disk, and a log that is not opened' a_log_that_is_not_written
    check_by "$tracer" 'traced: ranges that are told by hand' one_by_hand
    check_by "$tracer" 'traced: the example in C, with the fence and without' examples_traced
    check_by 'libpmem-dev for the tracer' 'traced: appends by libpmem, and one without its drain' by_libpmem
    check_by 'libpmem-dev for the tracer' 'traced: a long log is cut and checked in one pipe' in_one_pipe
    check_by 'libpmemobj-dev for the tracer' 'traced: transactions of libpmemobj, a range that is not added, one that is not persisted' by_libpmemobj
    check_by 'libpmemobj-dev for the tracer' 'the commands of README.md lead to the line of a bug' commands_of_readme
}
