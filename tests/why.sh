# What `why` writes and refuses.

# A store that is written back and not fenced before the store that it has to come before, with the places in the source.
unfenced='STORE;0x10040;0x1;0x18;append (append_log.c:59)
FLUSH;0x10040;0x40
STORE;0x10000;0x1;0x8;append (append_log.c:63)
PMT.ORDERED;0x10040;0x18;0x10000;0x8
FLUSH;0x10000;0x40
FENCE
PMT.PERSIST;0x10040;0x8'
why_unfenced='0.0 4 ORDERED FAIL byte=0x10040 after=0x10000 crash=3
  lost     record 1 STORE;0x10040;0x1;0x18;append (append_log.c:59)
  kept     record 3 STORE;0x10000;0x1;0x8;append (append_log.c:63)
  cause    not fenced: written back by record 2, no fence before record 3; too late by record 6
  cure     before record 3: FENCE
           this row then passes
rows=1 told=1 untold=0; with all cures: pass=2 fail=0'

unwritten='START|STORE;0x1000;7;8|FENCE|PMT.PERSIST;0x1000;8'
why_unwritten='7.0 3 PERSIST FAIL byte=0x1000 crash=3
  lost     record 2 STORE;0x1000;7;8
  cause    not written back: no write-back of its line behind the store
  cure     before record 3: FLUSH;0x1000;0x40
           this row then passes
rows=1 told=1 untold=0; with all cures: pass=1 fail=0'

# The second of three rows is like the first; of the third more events lie between the two stores.
append_log=examples/c/append_log.missing_fence.log
why_first_append='0.0 4 ORDERED FAIL byte=0x10040 after=0x10000 crash=3
  lost     record 1 STORE;0x10040;0x0;0x18
  kept     record 3 STORE;0x10000;0x0;0x8
  cause    not fenced: written back by record 2, no fence before record 3; too late by record 6
  cure     before record 3: FENCE
           this row then passes'
why_second_append='0.0 12 ORDERED FAIL byte=0x10058 after=0x10000 crash=11
  lost     record 9 STORE;0x10058;0x0;0x18
  kept     record 11 STORE;0x10000;0x0;0x8
  cause    not fenced: written back by record 10, no fence before record 11; too late by record 14
  cure     before record 11: FENCE
           this row then passes'
why_third_append='0.0 21 ORDERED FAIL byte=0x10070 after=0x10000 crash=20
  lost     record 17 STORE;0x10070;0x0;0x18
  kept     record 20 STORE;0x10000;0x0;0x8
  cause    not fenced: written back by record 18, no fence before record 20; too late by record 23
  cure     before record 20: FENCE
           this row then passes'
one_more='1 more like 0.0 4 ORDERED FAIL byte=0x10040 after=0x10000 crash=3'
why_appends="$why_first_append
$why_third_append
$one_more
rows=3 told=2 untold=0; with all cures: pass=9 fail=0"

why_warnings='0.3 3 FLUSH DOUBLED line=0x1000 lines=1
  event    record 15 FLUSH;0x1000;0xc0
  cause    written back already, by record 14
  cure     leave out record 15
           this row is then gone
0.3 3 FLUSH NEEDLESS line=0x1040 lines=2
  event    record 15 FLUSH;0x1000;0xc0
  cause    nothing to write back: the line was neither stored to nor written back before
  cure     leave out record 15
           this row is then gone
rows=2 told=2 untold=0; with all cures: pass=0 fail=0'

one_store='STORE;0x1000;7;16|PMT.ORDERED;0x1000;8;0x1008;8'
why_one_store='0.0 2 ORDERED SAMELINE byte=0x1000 after=0x1008
  lost     record 1 STORE;0x1000;7;16
  kept     record 1 STORE;0x1000;7;16
  cause    one store writes both bytes, so that no write-back comes between
  cure     none found
rows=1 told=1 untold=0; with all cures: pass=0 fail=1'

unclosed='PMT.CHECKSTART|FENCE'
why_unclosed="0.0 3 SECTION UNCLOSED start=1
  event    the section's end
  cause    the scope that record 1 opened is still open
  cure     at the end: PMT.CHECKEND
           this row is then gone
rows=1 told=1 untold=0; with all cures: pass=1 fail=0"

# tells_each_row LOG WORD..: `why --all-rows` tells the rows that tools/rows lists as fails and warnings, in this order.
tells_each_row() {
    local log=$1
    shift
    "$program" check "$@" <"$log" 2>/dev/null | tools/rows --fail --warn >"$scratch/wanted" || return
    "$program" why --all-rows "$@" <"$log" >"$scratch/report" 2>"$scratch/diagnostics"
    ended 0 $? && same /dev/null "$scratch/diagnostics" &&
        grep -v -e '^  ' -e '^rows=' "$scratch/report" | same "$scratch/wanted" - &&
        grep -q "^rows=$(wc -l <"$scratch/wanted") told=$(wc -l <"$scratch/wanted") untold=0; " "$scratch/report"
}

# Each example by both profiles.
tells_all_rows() {
    local log profile
    for log in examples/*.log; do
        for profile in 1 2; do
            tells_each_row "$log" --run 7 --profile "$profile" || {
                printf 'of %s by profile %s\n' "$log" "$profile"
                return 1
            }
        done
    done
}

# cured LOG: the log, which has a record on each text line, with what `why --all-rows` puts before some of them.
cured() {
    "$program" why --all-rows <"$1" | sed -n 's/^.* before record \([0-9]*\): \(.*\)$/\1 \2/p' | sort -n -s >"$scratch/cures"
    awk 'NR == FNR { before[$1] = before[$1] $2 "\n"; next } { printf "%s%s\n", before[FNR], $0 }' "$scratch/cures" "$1"
}

# The log with its cures put in is that of the program with its fence, and check agrees that it passes.
a_cure_is_one() {
    cured "$append_log" >"$scratch/cured.log" && same examples/c/append_log.log "$scratch/cured.log" &&
        "$program" check <"$scratch/cured.log" | same examples/c/append_log.report -
}

# patched INPUT TEXT WORD..: `why --patch` writes exactly these bytes; printf reads both.
patched() {
    printf "$1" >"$scratch/whole.log" && printf "$2" >"$scratch/wanted" || return
    shift 2
    "$program" why --patch "$@" <"$scratch/whole.log" >"$scratch/report" 2>"$scratch/diagnostics"
    ended 0 $? && same /dev/null "$scratch/diagnostics" && cmp "$scratch/wanted" "$scratch/report"
}

# The same log by `why --patch`, from a file and from standard input.
patch_is_the_cured_log() {
    cured "$append_log" >"$scratch/wanted" && "$program" why --patch "$append_log" >"$scratch/report" 2>"$scratch/diagnostics"
    ended 0 $? && same /dev/null "$scratch/diagnostics" && cmp "$scratch/wanted" "$scratch/report" &&
        "$program" why --patch <"$append_log" | cmp "$scratch/wanted" - &&
        "$program" check "$scratch/report" | same examples/c/append_log.report -
}

try_cures() {
    check 'what why tells as a cure of rows of random logs is one' tests/try-why "$program"
}

# Two sections of one text line each, whose stores are not fenced.
two_unfenced='STORE;0x0;1;8;a (x.c:1)|FLUSH;0;64|PMT.PERSIST;0x0;8\nPMT.SECTION;4|STORE;0x40;1;8|FLUSH;0x40;64|PMT.PERSIST;0x40;8\n'

try_why() {
    check 'why tells a missing fence' told 0 "$unfenced" "$why_unfenced" '' why
    check 'why tells a missing write-back, and skipped records count' told 0 "$unwritten" "$why_unwritten" '' why --run 7
    check 'why tells the first of rows that are alike' told 0 "$(cat "$append_log")" "$why_appends" '' why
    check 'why takes a log from a file' told 0 PMT.X "$why_appends" '' why "$append_log"
    check 'why --all-rows tells each of them' told 0 '' "$why_first_append
$why_second_append
$why_third_append
rows=3 told=3 untold=0; with all cures: pass=9 fail=0" '' why --all-rows "$append_log"
    check 'why --first 1 leaves a kind untold' told 0 '' "$why_first_append
$one_more
rows=3 told=1 untold=1; with all cures: pass=9 fail=0" '' why --first 1 "$append_log"
    check 'why --all-rows --first 1 leaves two rows untold' told 0 '' "$why_first_append
rows=3 told=1 untold=2; with all cures: pass=9 fail=0" '' why --first 1 --all-rows "$append_log"
    check 'why tells of one event' told 0 '' "$why_second_append
rows=1 told=1 untold=0; with all cures: pass=9 fail=0" '' why --event 12 "$append_log"
    check 'why tells of one section, and of warnings' told 0 '' "$why_warnings" '' why --section 0.3 examples/order_and_warnings.log
    check 'why takes a section of another run' told 0 '' "${why_warnings//0.3 3/9.3 3}" '' \
        why --section 9.3 --run 5 examples/order_and_warnings.log
    check 'why finds no cure where one store writes both bytes' told 0 "$one_store" "$why_one_store" '' why
    check 'nor by profile 2' told 0 "$one_store" "$why_one_store" '' why --profile 2
    check "why tells a row of a section's end" told 0 "$unclosed" "$why_unclosed" '' why --event 3
    check 'why tells no row where none fails' told 0 "$(cat examples/first.log)" \
        'rows=0 told=0 untold=0; with all cures: pass=1 fail=0' '' why
    check 'why of an empty log' told 0 '' 'rows=0 told=0 untold=0; with all cures: pass=0 fail=0' '' why
    check 'why of an event without such a row' told 0 "$unfenced" 'no row at event 7' '' why --event 7
    check 'why of an event that no section has' told 0 "$unfenced" 'no row at event 9' '' why --section 0 --event 9
    check 'why refuses a section that is missing' told 2 FENCE '' 'pmfarm: no section 0.7' why --section 7
    check 'why refuses a section that is missing in another run' told 2 FENCE '' 'pmfarm: no section 9.7' why --section 9.7 --event 1
    check 'why refuses a faulty log first' told 2 'FENCE|PMT.PERSITS;0x0;8' '' \
        $'pmfarm: record 2: unknown marker\npmfarm: hint: PMT.PERSITS: PMT.PERSIST?' why --section 7
    check 'a count of no rows is refused' refused why --first 0
    check 'a count of 1001 rows is refused' refused why --first 1001
    check 'a word that names no section is refused of why' refused why --section 0.x
    check 'why --all is refused' refused why --all
    check 'why --all-rows tells each row of the examples that fails or warns' tells_all_rows
    check 'a log with its cures put in passes' a_cure_is_one
    check 'why --patch writes the log with its cures' patch_is_the_cured_log
    check 'why --patch puts events into a log of one text line' patched \
        'START|STORE;0x1000;7;8|FENCE|PMT.PERSIST;0x1000;8' \
        'START|STORE;0x1000;7;8|FLUSH;0x1000;0x40\nFENCE|PMT.PERSIST;0x1000;8'
    check "why --patch puts a cure behind a section's last record" patched 'PMT.CHECKSTART' 'PMT.CHECKSTART\nPMT.CHECKEND'
    check 'and in front of the records of another section' patched \
        'PMT.CHECKSTART;x \r\n|PMT.SECTION;1|FENCE\n' 'PMT.CHECKSTART;x\nPMT.CHECKEND \r\n|PMT.SECTION;1|FENCE\n'
    check 'why --patch leaves out a write-back that is needless' patched \
        'STORE;0;1;8|FLUSH;0;64|\tFLUSH;0;64;b (x.c:7) |FENCE' 'STORE;0;1;8|FLUSH;0;64|\t |FENCE'
    check 'why --patch cures all sections' patched "$two_unfenced" \
        'STORE;0x0;1;8;a (x.c:1)|FLUSH;0;64|FENCE\nPMT.PERSIST;0x0;8\nPMT.SECTION;4|STORE;0x40;1;8|FLUSH;0x40;64|FENCE\nPMT.PERSIST;0x40;8\n'
    check 'why --patch --section cures that section alone' patched "$two_unfenced" \
        'STORE;0x0;1;8;a (x.c:1)|FLUSH;0;64|PMT.PERSIST;0x0;8\nPMT.SECTION;4|STORE;0x40;1;8|FLUSH;0x40;64|FENCE\nPMT.PERSIST;0x40;8\n' \
        --section 4
    check 'why --patch takes a section of another run' patched "$two_unfenced" \
        'STORE;0x0;1;8;a (x.c:1)|FLUSH;0;64|FENCE\nPMT.PERSIST;0x0;8\nPMT.SECTION;4|STORE;0x40;1;8|FLUSH;0x40;64|PMT.PERSIST;0x40;8\n' \
        --section 9.0 --run 3
    check 'why --patch writes a log with nothing to cure as it is' patched ' FENCE |\r\n||x\\|y;\xff\n' ' FENCE |\r\n||x\\|y;\xff\n'
    check 'and one of which no cure is known' patched "$one_store" "$one_store"
    check 'and an empty one' patched '' ''
    check 'why --patch keeps a section that it leaves no event' patched 'PMT.TXEND|PMT.SECTION;1|FENCE' 'PMT.SECTION;0\n|PMT.SECTION;1|FENCE'
    check 'why --patch takes a profile' patched 'STORE;0;1;8|STORE;8;1;8|PMT.ORDERED;0;8;8;8' 'STORE;0;1;8|STORE;8;1;8|PMT.ORDERED;0;8;8;8' --profile 2
    check 'why --patch takes no event' refused why --patch --event 1
    check 'why --patch takes no count of rows' refused why --patch --first 5
    check 'why --patch takes no other flag' refused why --all-rows --patch
    check 'why --patch refuses a section that is missing' told 2 FENCE '' 'pmfarm: no section 9.7' why --patch --section 9.7
    check 'why --patch refuses a faulty log first' told 2 'FENCE|PMT.PERSITS;0x0;8' '' \
        $'pmfarm: record 2: unknown marker\npmfarm: hint: PMT.PERSITS: PMT.PERSIST?' why --patch --section 7
    check 'a full device as standard output of why --patch' full_output "$append_log" why --patch
    check 'each request for memory of why --patch refused in turn' sweep examples/order_and_warnings.log why --patch
    check 'a full device as standard output of why' full_output "$append_log" why
    check 'a directory as standard input of why' unreadable why
    check 'each request for memory of why refused in turn' sweep examples/order_and_warnings.log why
}
