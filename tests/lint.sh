# What `lint` counts, warns of and refuses.

# Logs that lint looks through, as printf spells them, each behind the status that it ends with and its warnings: n where nothing
# is asserted, e where each assertion is empty, m where one would not be if its address were hexadecimal, k where a skipped name
# is near a known one, t where one is not text, c where the last record has no end, s where START has no STOP. A line feed ends each
# log that does not end in \c.
linted_logs='0 - STORE;0x1000;7;8|PMT.PERSIST;0x1000;8
0 - PMT.CHECKEND
0 - START|REGISTER_FILE;pool;0x1000;64;0|STORE;0x1000;7;8|STORE;0x2000;7;8|PMT.ORDERED;0x1000;8;0x2000;8|STOP
0 - STORE;0x1000;7;8|PMT.PERSIST;0x1000;8|PMT.PERSIST;0x2000;8|DO_FLUSH;0x1000;64|FENCE.END
1 n
1 n STORE;0x1000;7;8|FLUSH;0x1000;64|FENCE
1 n STORE;0x1000;7;8|PMT.TXBEGIN|PMT.CHECKSTART|PMT.TXADD;0x1000;8|PMT.EXCLUDE;0x1000;8
1 e STORE;1000;7;8|PMT.PERSIST;0x1000;8
1 e STORE;0x1000;7;8|PMT.EXCLUDE;0x1000;8|PMT.PERSIST;0x1000;8|PMT.ORDERED;0x1000;8;0x2000;8
1 ek STOER;0x1000;7;8|PMT.PERSIST;0x1000;8
1 ek store;0x1000;7;8|PMT.PERSIST;0x1000;8
1 ek STORE,0x1000,7,8|PMT.PERSIST;0x1000;8
1 ek STORE 0x1000 7 8|PMT.PERSIST;0x1000;8
1 ek ==7==STORE;0x1000;7;8|PMT.PERSIST;0x1000;8
1 nk STORE;0x1000;7;8|pmt.persist;0x1000;8
1 nk STORE;0x1000;7;8|pmt_persist;0x1000;8
1 nk ==123== STORE;0x1000;7;8\n==123== FENCE\n==123== PMT.PERSIST;0x1000;8\n
1 nk STORE;0x1000;7;8|PMT_PERSIST;0x1000;8
1 k STORE;0x1000;7;8|PMT_PERSIST;0x1000;8|PMT.PERSIST;0x1000;8
1 ekt \xef\xbb\xbfSTORE;0x1000;7;8|PMT.PERSIST;0x1000;8
1 nkt \xef\xbb\xbfPMT.PERSIST;0x1000;8
1 ekt \xef\xbb\xbfSTORE;0x1000;7;8|flush;0x1000;64|PMT.PERSIST;0x1000;8
1 t caf\xc3\xa9|STORE;0x1000;7;8|PMT.PERSIST;0x1000;8
1 nt \x1f\x8b\x08;\x80
0 - STORE;0x1000;7;8|PMT.PERSIST;0x1000;8|START|STOP\c
0 - STORE;0x1000;7;8|PMT.PERSIST;0x1000;8|\c
1 c STORE;0x1000;7;8|PMT.PERSIST;0x1000;8\c
1 c STORE;0x1000;7;8|PMT.PERSIST;0x1000;8|FLUSH;0x1000;0x8\c
1 cs START|STORE;0x1000;7;8|PMT.PERSIST;0x1000;8|STO\c
1 s START|STORE;0x1000;7;8|PMT.PERSIST;0x1000;8
1 em STORE;0x1000;7;8|PMT.PERSIST;1000;8
1 m STORE;0x1000;7;8|PMT.PERSIST;0x1000;8|PMT.ORDERED;0x1000;8;1000;8
1 e STORE;0x1000;7;8|PMT.PERSIST;0x3e8;8
0 - STORE;0x1000;7;8|PMT.PERSIST;4096;8|PMT.PERSIST;0x3e8;8'

# In UTF-16, of both orders: a byte of 0 behind each, or before it.
linted_logs_in_utf_16() {
    local log='STORE;0x1000;7;8|PMT.PERSIST;0x1000;8'
    printf '1 nt \\xff\\xfe%s\n1 nt \\xfe\\xff%s\n' "$(sed 's/./&\\x00/g' <<<"$log")" "$(sed 's/./\\x00&/g' <<<"$log")"
}

# warnings LETTERS: the text lines that these letters stand for.
warnings() {
    case $1 in *n*) echo 'warning: nothing is asserted' ;; esac
    case $1 in *e*) echo 'warning: each assertion is empty' ;; esac
    case $1 in *m*) echo 'warning: an empty assertion would not be if its decimal address were hexadecimal' ;; esac
    case $1 in *k*) echo 'warning: a skipped name is near a known one' ;; esac
    case $1 in *t*) echo 'warning: a skipped name is not text' ;; esac
    case $1 in *c*) echo 'warning: no end stands behind the last record' ;; esac
    case $1 in *s*) echo 'warning: START stands without STOP' ;; esac
}

# lint_warns STATUS LETTERS FILE: how lint of the file ends, and just these warnings, at the end of its text.
lint_warns() {
    "$program" lint <"$3" >"$scratch/report" 2>"$scratch/diagnostics"
    ended "$1" $? && same /dev/null "$scratch/diagnostics" && sed '1,/^fences=/d; / stores=[0-9]*$/d' "$scratch/report" >"$scratch/warned" &&
        said "$(warnings "$2")" "$scratch/warned"
}

lint_warns_of_each() {
    local status letters log
    while read -r status letters log; do
        printf '%b\n' "$log" >"$scratch/log"
        lint_warns "$status" "$letters" "$scratch/log" || {
            printf 'of %s\n' "$log"
            return 1
        }
    done < <(printf '%s\n' "$linted_logs" && linted_logs_in_utf_16)
}

# Of 34 names the first 32 are listed, and the last two are not counted each, but looked at.
lint_lists_32_names() {
    { printf 'a%d|' {1..32} && printf 'STOER|STOER|\xff|a1|PMT.CHECKEND|'; } >"$scratch/log"
    { printf 'records=37 events=1 sections=1 skipped=36\nPMT.CHECKEND records=1\nskipped a1 records=2\n' &&
        printf 'skipped a%d records=1\n' {2..32} &&
        printf 'skipped others records=3\nassertions=1 empty=0\nstores=0 unasserted=0\n' && printf 'unwritten=0 unfenced=0 overwriting=0\nfences=0 idle=0\n' && warnings kt; } >"$scratch/wanted"
    "$program" lint <"$scratch/log" >"$scratch/report"
    ended 1 $? && same "$scratch/wanted" "$scratch/report"
}

# The program's own bytes, without a marker: nothing is asserted, and names are not text, whatever else lint warns of.
lint_of_the_program() {
    { LC_ALL=C tr PTO QQQ <"$program" && echo; } >"$scratch/bytes"
    "$program" lint <"$scratch/bytes" >"$scratch/report" 2>"$scratch/diagnostics"
    ended 1 $? && same /dev/null "$scratch/diagnostics" && sed '1,/^fences=/d; / stores=[0-9]*$/d' "$scratch/report" | grep -v ' near ' >"$scratch/warned" &&
        said "$(warnings nt)" "$scratch/warned"
}

# What the example of orders and warnings holds: no assertion is of the store of section 3, and one of section 4 is empty.
what_it_holds='records=23 events=19 sections=4 skipped=0
STORE records=6
FLUSH records=4
FENCE records=1
PMT.PERSIST records=3
PMT.ORDERED records=2
PMT.EXCLUDE records=2
PMT.INCLUDE records=1
PMT.SECTION records=4
assertions=5 empty=1
stores=6 unasserted=1
unwritten=3 unfenced=1 overwriting=0
fences=1 idle=0
unwritten 0x1000 stores=2
unwritten 0x1008 stores=1
unfenced 0x1000 stores=1'

# Stores of two sections that lack something, with the place in the source or without: of 34 names the first 32 are listed.
lint_names_stores() {
    { printf 'STORE;0x8;0;8;f (a.c:1);main (a.c:9)|FLUSH;8;1|STORE;0x40;0;8;f (a.c:1)|STORE;0x80;0;8|' &&
        printf 'PMT.SECTION;3|STORE;0x8;0;8;|PMT.SECTION;1|' && printf 'STORE;%d;0;8|' {1000..33000..1000} && printf 'PMT.PERSIST;0x1;1|'; } >"$scratch/log"
    printf 'unwritten %s stores=1\n' 'f (a.c:1)' 0x80 {1000..30000..1000} 'others' >"$scratch/wanted" || return
    sed -i 's/unwritten others stores=1/unwritten others stores=4/' "$scratch/wanted"
    printf 'unfenced f (a.c:1) stores=1\n' >>"$scratch/wanted"
    "$program" lint "$scratch/log" 2>"$scratch/diagnostics" | sed -n '/^un[a-z]* /p' >"$scratch/report"
    same "$scratch/wanted" "$scratch/report" || return
    printf 'unasserted %s stores=%s\n' 'f (a.c:1)' 2 0x80 1 >>"$scratch/wanted" && printf 'unasserted %d stores=1\n' {1000..30000..1000} >>"$scratch/wanted" &&
        printf 'unasserted others stores=4\n' >>"$scratch/wanted"
    "$program" lint --unasserted "$scratch/log" 2>"$scratch/diagnostics" | sed -n '/^un[a-z]* /p' >"$scratch/report"
    same "$scratch/wanted" "$scratch/report"
}

# What lint writes of a log with a name that is misspelt, one that is cut, and one with a byte that is no text and a backslash.
strange_log=$'STOER;1;0;8|START|STORE;0x1000;0;8|\x7f\\x|'"$(printf 'x%.0s' {1..65})"'|STORE;0x1000;0;8|PMT.PERSIST;0x2000;8'$'\n'
strange_text='records=7 events=3 sections=1 skipped=4
STORE records=2
PMT.PERSIST records=1
skipped STOER records=1 near=STORE
skipped START records=1
skipped \x7f\\x records=1
skipped '"$(printf 'x%.0s' {1..64})"'.. records=1
assertions=1 empty=1
stores=2 unasserted=2
unwritten=1 unfenced=0 overwriting=1
fences=0 idle=0
unwritten 0x1000 stores=1
warning: each assertion is empty
warning: a skipped name is near a known one
warning: a skipped name is not text
warning: START stands without STOP'

sweep_strange_names() {
    printf '%s' "$strange_log" >"$scratch/strange.log"
    sweep "$scratch/strange.log" lint
}

try_lint() {
    local log=examples/order_and_warnings.log
    check 'lint counts what the example holds' told 0 '' "$what_it_holds" '' lint "$log"
    check 'lint names the stores that no assertion covers where it is asked' told 0 '' "$what_it_holds"$'\nunasserted 0x1000 stores=1' '' lint --unasserted "$log"
    check 'lint names stores by the place in the source, or by their addresses' lint_names_stores
    check 'lint shows strange names' told 1 "$strange_log" "$strange_text" '' lint
    check 'lint lists 32 names, and counts the others' lint_lists_32_names
    check 'lint warns of what is no log, and of nothing else' lint_warns_of_each
    check 'lint warns of the program itself' lint_of_the_program
    check 'lint refuses a faulty log' told 2 'STOER|PMT.X' '' 'pmfarm: record 2: unknown marker' lint
    check 'lint takes no run' refused lint --run 7
    check 'a full device as standard output of lint' full_output "$log" lint
    check 'a directory as standard input of lint' unreadable lint
    check 'each request for memory of lint --unasserted refused in turn' sweep "$log" lint --unasserted
    check 'each request for memory of lint on a transaction refused in turn' sweep examples/a_range_without_backup.log lint
    check 'each request for memory of lint with strange names refused in turn' sweep_strange_names
}
