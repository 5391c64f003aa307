# The tools beside the program: rows, installing, stamping, the markers in C, the launcher.

# Each row that a report may have, behind what it counts as, by the table of docs/FORMATS.md.
each_row='fail 1 CHECKEND UNOPENED
pass 2 PERSIST PASS
fail 3 PERSIST FAIL byte=0x1000 crash=3
empty 4 PERSIST EMPTY
pass 5 ORDERED PASS
fail 6 ORDERED FAIL byte=0x1000 after=0x2000 crash=2
fail 7 ORDERED SAMELINE byte=0x1000 after=0x1008
empty 8 ORDERED EMPTY
warn 9 FLUSH DOUBLED line=0x1000 lines=1
warn 9 FLUSH NEEDLESS line=0x1040 lines=2
fail 10 TXEND UNMATCHED
fail 11 TXADD OUTSIDE
fail 13 CHECKSTART NESTED
fail 15 STORE NOBACKUP byte=0x3000
warn 17 TXADD DUPLOG byte=0x3008
fail 18 CHECKEND TXOPEN depth=1
pass 21 CHECKEND PASS
fail 24 CHECKEND FAIL byte=0x3000 crash=24
fail 31 SECTION UNCLOSED start=30'

# The report that has them in section 2.3, and one row in section 7.3.
report_of_each_row() {
    printf 'section 2.3 events=30 pass=3 fail=11 warn=3 empty=2\n'
    printf '%s\n' "$each_row" | cut -d ' ' -f 2-
    printf 'section 7.3 events=4 pass=1 fail=0 warn=0 empty=0\n4 PERSIST PASS\n'
    printf 'total sections=2 pass=4 fail=11 warn=3 empty=2\n'
}

# selects TEXT WORD..: the rows of that report which tools/rows selects by these words.
selects() {
    local text=$1
    shift
    report_of_each_row | tools/rows "$@" >"$scratch/rows" 2>"$scratch/diagnostics"
    ended 0 $? && said "$text" "$scratch/rows" && same /dev/null "$scratch/diagnostics"
}

# rows_of_kinds KIND..: the lines that are wanted of the rows of these kinds.
rows_of_kinds() {
    local kinds=$*
    { printf '%s\n' "$each_row" | sed 's/ / 2.3 /' && printf 'pass 7.3 4 PERSIST PASS\n'; } |
        grep -E "^(${kinds// /|}) " | cut -d ' ' -f 2-
}

rows_by_kind() {
    local kind
    for kind in pass fail warn empty; do
        selects "$(rows_of_kinds "$kind")" "--$kind" || return
    done
    selects "$(rows_of_kinds fail warn)" --warn --fail && selects "$(rows_of_kinds pass fail warn empty)" &&
        selects "$(rows_of_kinds pass fail warn empty)" --section 3 && selects '7.3 4 PERSIST PASS' --section 7.3 --pass &&
        selects "$(rows_of_kinds fail)" --section 2.3 --section 7.3 --fail || return
    report_of_each_row | tools/rows --section 4 --section 3.3 >"$scratch/rows" 2>"$scratch/diagnostics"
    ended 0 $? && same /dev/null "$scratch/rows" && said $'rows: no section 3.3\nrows: no section 4' "$scratch/diagnostics"
}

rows_as_json() {
    report_of_each_row | tools/rows --json --fail --section 2.3 >"$scratch/rows" && sed -n 3,4p "$scratch/rows" >"$scratch/two" || return
    said '{"run": 2, "section": 3, "place": 6, "event": "ORDERED", "result": "FAIL", "counts_as": "fail", "byte": "0x1000", "after": "0x2000", "crash": 2}
{"run": 2, "section": 3, "place": 7, "event": "ORDERED", "result": "SAMELINE", "counts_as": "fail", "byte": "0x1000", "after": "0x1008"}' \
        "$scratch/two" || return
    report_of_each_row | tools/rows --json | python3 -c '
import json, sys
each = [json.loads(line) for line in sys.stdin]
assert len(each) == 20 and all(list(it)[:6] == ["run", "section", "place", "event", "result", "counts_as"] for it in each)
assert each[9] == {"run": 2, "section": 3, "place": 9, "event": "FLUSH", "result": "NEEDLESS", "counts_as": "warn", "line": "0x1040", "lines": 2}
assert each[18] == {"run": 2, "section": 3, "place": 31, "event": "SECTION", "result": "UNCLOSED", "counts_as": "fail", "start": 30}'
}

# With the log of a report its objects have the frames of their records: of logs that a tracer wrote, and of one without frames.
rows_with_frames() {
    local named=examples/traced_append_without_a_fence
    tools/rows --json --fail --log "$named.log" "$named.report" | head -n 1 >"$scratch/rows" &&
        said '{"run": 0, "section": 0, "place": 5, "event": "ORDERED", "result": "FAIL", "counts_as": "fail", "byte": "0x10040", "after": "0x10000", "crash": 4, "frames": ["append (append_log.c:67)", "main (append_log.c:87)"], "stored_by": ["append (append_log.c:59)", "main (append_log.c:87)"]}' \
            "$scratch/rows" && tools/rows --json --log examples/first.log examples/first.report >"$scratch/rows" &&
        said '{"run": 0, "section": 0, "place": 4, "event": "PERSIST", "result": "PASS", "counts_as": "pass"}' "$scratch/rows" || return
    { sed 's/$/;main (x.c:1)/' <<<'PMT.CHECKSTART|STORE;8;1;8|PMT.SECTION;7|STORE;8;1;8' && echo 'PMT.SECTION;0|FENCE'; } >"$scratch/log"
    "$program" check <"$scratch/log" 2>/dev/null | tools/rows --json --log "$scratch/log" >"$scratch/rows"
    said '{"run": 0, "section": 0, "place": 4, "event": "SECTION", "result": "UNCLOSED", "counts_as": "fail", "start": 1}' "$scratch/rows" || return
    tools/rows --json --log examples/first.log "$named.report" 2>"$scratch/diagnostics"
    ended 2 $? && said 'rows: the log has no event 5 in section 0' "$scratch/diagnostics" || return
    tools/rows --json --log examples/none.log "$named.report" 2>"$scratch/diagnostics"
    ended 2 $? && said 'rows: examples/none.log: No such file or directory' "$scratch/diagnostics" || return
    tools/rows --log examples/first.log "$named.report" 2>"$scratch/diagnostics"
    ended 2 $? && tail -n 1 "$scratch/diagnostics" | said 'rows: error: --log is for --json' -
}

# no_report EDIT FAULT: that report, edited by sed, is refused with this line.
no_report() {
    report_of_each_row | sed "$1" | tools/rows --pass >"$scratch/rows" 2>"$scratch/diagnostics"
    ended 2 $? && same /dev/null "$scratch/rows" && said "rows: standard input: line $2" "$scratch/diagnostics"
}

rows_refused() {
    local long
    long=$(printf '1%.0s' {1..5000})
    no_report "3s/^2/$long/" '3: no row of a report' &&
        no_report "4s/crash=3/crash=$long/" '4: no row of a report' &&
        no_report "1s/events=30/events=$long/" '1: no line of a report' &&
        no_report "23s/sections=2/sections=$long/" '23: no row of a report' &&
        no_report "3s/^2/${long:0:21}/" '3: no row of a report' &&
        no_report "3s/^2/${long:0:20}/" '3: the section has no such row here' || return
    tools/rows --section "$long" examples/first.report >"$scratch/rows" 2>"$scratch/diagnostics"
    ended 2 $? && same /dev/null "$scratch/rows" || return
    no_report '$d' '23: the report is cut off: no line of totals' &&
        no_report '1,$d' '1: the report is cut off: no line of totals' &&
        no_report 1d '1: no line of a report' &&
        no_report 3d '20: the section before it has other rows than it counts' &&
        no_report '3s/PASS/PASSED/' '3: no row of a report' &&
        no_report '4s/0x1/0X1/' '4: no row of a report' &&
        no_report '4s/ crash=3//' '4: no row of a report' &&
        no_report '3s/^2/32/' '3: the section has no such row here' &&
        no_report '20s/^31/30/' '20: the section has no such row here' &&
        no_report '21s/7.3/2.3/' '21: the section is not behind the one before it' &&
        no_report '23s/warn=3/warn=4/' '23: the sums are others than those of the sections' &&
        no_report '23s/sections=2/sections=1/' '23: the sums are others than those of the sections' &&
        no_report '$aFENCE' '24: a line behind the last one of a report' || return
    report_of_each_row | head -c -1 | tools/rows >"$scratch/rows" 2>"$scratch/diagnostics"
    ended 2 $? && said 'rows: standard input: line 23: the line is cut off' "$scratch/diagnostics" || return
    tools/rows examples/first.report examples/first.log >"$scratch/rows" 2>"$scratch/diagnostics"
    ended 2 $? && said 'rows: examples/first.log: line 1: no line of a report' "$scratch/diagnostics" || return
    tools/rows no.report 2>"$scratch/diagnostics"
    ended 2 $? && said 'rows: no.report: No such file or directory' "$scratch/diagnostics"
}

# The rows of each example, which are those of its report; and a reader that is gone.
rows_of_examples() {
    local log
    for log in examples/*.log; do
        "$program" check <"$log" 2>/dev/null | tee "$scratch/report" | tools/rows >"$scratch/rows" || return
        awk '$1 == "section" { name = $2; next } $1 != "total" { print name, $0 }' "$scratch/report" | same - "$scratch/rows" || return
    done
    awk 'BEGIN { print "section 0.0 events=90000 pass=90000 fail=0 warn=0 empty=0"; for (i = 1; i <= 90000; i++) print i, "PERSIST PASS"
        print "total sections=1 pass=90000 fail=0 warn=0 empty=0" }' >"$scratch/report"
    tools/rows "$scratch/report" 2>"$scratch/diagnostics" | head -n 1 >"$scratch/rows"
    ended '0 0' "${PIPESTATUS[*]}" && said '0.0 1 PERSIST PASS' "$scratch/rows" && same /dev/null "$scratch/diagnostics"
}

# One log of the examples stands there in each form.
forms_of_the_example() {
    local named=examples/traced_append_without_a_fence form
    for form in text:rows.txt json:jsonl sarif:sarif junit:junit.xml github:github; do
        tools/rows --program "$program" --format "${form%:*}" --log "$named.log" </dev/null >"$scratch/rows" && same "$named.${form#*:}" "$scratch/rows" ||
            return
    done
}

# compiled NAME WORD..: the example in C, compiled with these words and without a warning, writes the log of this name, and the program
# what stands beside that log.
compiled() {
    local name=examples/c/$1 wanted
    shift
    "$@" -Wall -Wextra -Werror -DPMFARM_VALGRIND=0 -o "$scratch/append_log" examples/c/append_log.c &&
        "$scratch/append_log" "$scratch/pool" >"$scratch/log" && same "$name.log" "$scratch/log" || return
    wanted=$(cat "$name.status" 2>/dev/null || echo 0)
    "$program" check <"$scratch/log" >"$scratch/report" 2>"$scratch/diagnostics"
    ended "$wanted" $? && same "$name.report" "$scratch/report" && same /dev/null "$scratch/diagnostics"
}

# example_by COMPILER..: the example by each of these, which are given with their words.
example_by() {
    local compiler
    for compiler in "$@"; do
        # (the words are parted at blanks)
        compiled append_log $compiler && compiled append_log.missing_fence $compiler -DMISSING_FENCE || return
    done
}

# compiles STATUS LOG COMPILER..: the markers with a section told beside them; compiled, the program writes this log.
compiles() {
    local status=$1 log=$2
    shift 2
    printf '#include "%s/examples/c/pmfarm_markers.h"\nint main(void) { PMFARM_SECTION(3); PMFARM_FENCE(); return 0; }\n' "$top" |
        "$@" -Wall -Wextra -Werror -o "$scratch/markers" - 2>"$scratch/diagnostics"
    ended "$status" $? || return
    if [ "$status" = 0 ]; then
        "$scratch/markers" | said "$log" -
    else
        grep -q 'PMFARM_SECTION_is_not_for_PMFARM_OF_THREAD' "$scratch/diagnostics"
    fi
}

# sections_by COMPILER..: a section that is told is written, and refused where threads tell theirs, unless pmemcheck takes the
# records.
sections_by() {
    printf '#define VALGRIND_PMC_EMIT_LOG(text) puts(text)\n' >"$scratch/pmemcheck.h"
    mkdir -p "$scratch/played/valgrind" && mv "$scratch/pmemcheck.h" "$scratch/played/valgrind" || return
    compiles 0 $'PMT.SECTION;3\nFENCE' "$@" -DPMFARM_VALGRIND=0 && compiles 1 '' "$@" -DPMFARM_VALGRIND=0 -DPMFARM_OF_THREAD=7 &&
        compiles 0 PMT.SECTION\;3 "$@" -I "$scratch/played" -DPMFARM_VALGRIND=1 -DPMFARM_OF_THREAD=7
}

# Where threads share a file, each record is told with its section.
sections_of_threads() {
    cc -std=c11 -Wall -Wextra -Werror -DPMFARM_VALGRIND=0 -DPMFARM_OF_THREAD=7 -o "$scratch/append_log" examples/c/append_log.c &&
        "$scratch/append_log" "$scratch/pool" >"$scratch/log" && sed 's/^/PMT.SECTION;7|/' examples/c/append_log.log | same - "$scratch/log"
}

# The requests of pmemcheck, played: of the program's own records the markers alone are written, by their names, sizes and order.
markers_by_valgrind() {
    mkdir -p "$scratch/include/valgrind" && cat >"$scratch/include/valgrind/pmemcheck.h" <<'C' || return
#define VALGRIND_PMC_EMIT_LOG(text) printf("|%s", text)
#define VALGRIND_PMC_REGISTER_PMEM_MAPPING(p, size) (printf("|REGISTER_FILE;pool;%p;%zu;0", (void *)(p), (size_t)(size)))
C
    cc -std=c11 -Wall -Wextra -Werror -I "$scratch/include" -o "$scratch/append_log" examples/c/append_log.c &&
        "$scratch/append_log" "$scratch/pool" | tr '|' '\n' | awk -F ';' 'NF { print $1, $3, $5 }' >"$scratch/log" || return
    sed -n 's/.*\(REGISTER_FILE\) .*/\1/p' "$scratch/log" | said REGISTER_FILE - || return
    awk -F ';' '/^PMT/ { print $1, $3, $5 }' examples/c/append_log.log >"$scratch/wanted" && sed 1d "$scratch/log" | same "$scratch/wanted" -
}

# tells_version PROGRAM: it tells a commit that has these sources, where there is one, and that it was not proved here where it is the
# quick one.
tells_version() {
    local commit='([0-9a-f]{40}[+]?|unknown)' end=
    [ "$(git rev-parse --show-toplevel 2>/dev/null)" != "$top" ] || commit='[0-9a-f]{40}[+]?'
    [ "$kind" = proved ] || end=' not proved here'
    "$1" --version >"$scratch/version"
    ended 0 $? && grep -Eq "^pmfarm [0-9.]+ [(]commit $commit, [^)]+[)]$end *\$" "$scratch/version" || {
        printf '%s\nis not told as %s\n' "$(cat "$scratch/version")" "$kind"
        return 1
    }
}

# A stamped copy differs from the program in the 96 bytes of the version at most, and what is no program of here is not stamped.
stamped() {
    local it
    cp "$program" "$scratch/stamped" && tools/stamp "$scratch/stamped" && tells_version "$scratch/stamped" &&
        [ "$(cmp -l "$program" "$scratch/stamped" | wc -l)" -le 96 ] || return
    printf x >>"$scratch/stamped"
    for it in /bin/true "$scratch/stamped"; do
        tools/stamp "$it" 2>"$scratch/diagnostics"
        ended 1 $? && said 'stamp: the program is not one that is built here; --version tells what it told' "$scratch/diagnostics" || return
    done
}

# install_built WORD..: installs the program of these tests.
install_built() {
    local quick=
    [ "$kind" = proved ] || quick=--quick
    tools/install --no-build $quick "$@"
}

# The files and links that tools/install makes, below a prefix: of the program, of each tool, and of the tracer.
installed() {
    local name
    for name in pmfarm pmfarm-rows pmfarm-trace pmfarm-page; do
        printf '%s\n' "bin/$name" "share/bash-completion/completions/$name" "share/fish/vendor_completions.d/$name.fish" \
            "share/man/man1/$name.1" "share/pmfarm/${name/pmfarm-/tools/}" "share/zsh/site-functions/_$name"
    done
    find tools/pictures.py trace -type f | sed 's|^|share/pmfarm/|'
    echo share/pmfarm/include/pmfarm_markers.h
}

# are_installed: standard input names these, in any order.
are_installed() {
    LC_ALL=C sort | diff -u <(installed | LC_ALL=C sort) -
}

# files FOLDER: its files and links.
files() {
    (cd "$1" && find . ! -type d | sed 's|^\./||' | LC_ALL=C sort)
}

# Installed, it tells its commit and runs with nothing around it; uninstalled, none of its files is left, and another one is.
installs() {
    local root=$scratch/root
    mkdir -p "$root/usr/bin" && echo other >"$root/usr/bin/other" || return
    DESTDIR=$root install_built /usr/ >"$scratch/report" 2>"$scratch/diagnostics"
    ended 0 $? && same /dev/null "$scratch/diagnostics" && tells_version "$root/usr/bin/pmfarm" || return
    files "$root/usr" | grep -v '^bin/other$' | are_installed && sed "s|^installed $root/usr/||" "$scratch/report" | are_installed &&
        cmp "$program" "$root/usr/bin/pmfarm" && cmp man/pmfarm.1 "$root/usr/share/man/man1/pmfarm.1" &&
        [ "$(stat -c %a "$root"/usr/{bin/pmfarm,share/man/man1/pmfarm.1,share/pmfarm/trace/{build,main.c}} | paste -s -d ' ')" = '755 644 755 644' ] ||
        return
    (cd / && env -i "$root/usr/bin/pmfarm" check) <examples/first.log >"$scratch/report" 2>"$scratch/diagnostics"
    ended 0 $? && same examples/first.report "$scratch/report" && same /dev/null "$scratch/diagnostics" || return
    DESTDIR=$root tools/install --uninstall /usr >"$scratch/report" && files "$root" | said usr/bin/other - && [ ! -e "$root/usr/share/pmfarm" ] &&
        sed "s|^removed $root/usr/||" "$scratch/report" | are_installed || return
    DESTDIR=$root tools/install --uninstall /usr >"$scratch/report" && same /dev/null "$scratch/report"
}

# Where CDPATH has a folder of the name of theirs, the scripts stay in their own: no line tells another one.
stays_in_its_folder() {
    local root=$scratch/stays quick=
    [ "$kind" = proved ] || quick=--quick
    mkdir -p "$scratch/elsewhere/tools" && (export CDPATH=$scratch/elsewhere && install_built "$root") >"$scratch/report" 2>"$scratch/diagnostics"
    ended 0 $? && files "$root" | are_installed || { cat "$scratch/diagnostics" && return 1; }
    (export CDPATH=$scratch/elsewhere && tools/release --no-build ${quick:+"$quick"} "$scratch/stays") >"$scratch/report" 2>"$scratch/diagnostics"
    ended 0 $? && ended 1 "$(wc -l <"$scratch/report")" && [ -s "$(<"$scratch/report")" ]
}

# answers PROGRAM: what it says of each example, on both streams, with its status.
answers() {
    local log
    for log in examples/*.log; do
        "$1" check --workers 4 "$log" 2>&1
        echo $?
        "$1" why "$log" 2>&1
        echo $?
    done
}

# The static program has no loader and no library, tells its commit, and answers as the built one does; where memory is wanted, too.
installs_static() {
    local root=$scratch/static
    install_built --static "$root" >"$scratch/report" 2>"$scratch/diagnostics"
    ended 0 $? || { cat "$scratch/diagnostics" && return 1; }
    files "$root" | are_installed && readelf -ld "$root/bin/pmfarm" >"$scratch/report" && ! grep -E 'INTERP|NEEDED' "$scratch/report" || return
    tells_version "$root/bin/pmfarm" || return
    answers "$program" >"$scratch/wanted" && answers "$root/bin/pmfarm" | same "$scratch/wanted" - || return
    awk 'BEGIN { for (i = 0; i < 100000; i++) print "STORE;" 64 * i ";1;8" }' >"$scratch/log"
    (ulimit -v 16384 && exec "$root/bin/pmfarm" check) <"$scratch/log" >"$scratch/report" 2>"$scratch/diagnostics"
    ended 3 $? && same /dev/null "$scratch/report" && said 'pmfarm: out of memory' "$scratch/diagnostics"
}

# In a root that has no other file.
static_alone() {
    local root=$scratch/alone
    install_built --static "$scratch/static" >"$scratch/report" 2>&1 && mkdir "$root" && cp "$scratch/static/bin/pmfarm" "$root" || return
    unshare -r chroot "$root" /pmfarm check --workers 4 <examples/two_sections.log >"$scratch/report" 2>"$scratch/diagnostics"
    ended 1 $? && same examples/two_sections.report "$scratch/report" && same /dev/null "$scratch/diagnostics"
}

# release_of WORD..: tools/release makes one file, which is unpacked as docs/GUIDE.md tells it, in an empty folder.
release_of() {
    local room=$scratch/release
    [ "$kind" = proved ] || local quick=yes
    rm -rf "$room" && mkdir "$room" && tools/release --no-build ${quick+--quick} "$@" "$room" >"$scratch/report" 2>"$scratch/diagnostics" || return
    [ "$(ls "$room")" = "$(sed 's|.*/||' "$scratch/report")" ] && [[ ${quick+-not-proved} = "$(ls "$room" | grep -o -e -not-proved)" ]] && sed -n '/pmfarm-\*/s/^    //p' docs/GUIDE.md >"$scratch/steps" &&
        ended 2 "$(wc -l <"$scratch/steps")" && (cd "$room" && bash -e "$scratch/steps") >"$scratch/told" 2>"$scratch/diagnostics" &&
        same /dev/null "$scratch/diagnostics" && tail -n 1 "$scratch/told" | same <("$program" --version) - || return
    (cd "$room"/pmfarm-*/ && find . ! -type d | sed 's|^\./||' | grep -Ev '^(share/doc/|LICENSE|README.md$|SHA256SUMS$)') | are_installed &&
        cmp LICENSE "$room"/pmfarm-*/LICENSE && cmp trace/LICENSE "$room"/pmfarm-*/LICENSE.tracer
}

# The same files give the same bytes, and a program that tells no commit is not released.
releases() {
    local first
    release_of && first=$(sha256sum <"$scratch"/release/*.gz) && release_of && [ "$(sha256sum <"$scratch"/release/*.gz)" = "$first" ] || return
    tools/release --no-such "$scratch" >"$scratch/report" 2>"$scratch/diagnostics"
    ended 2 $?
}

# not_released [WORD..]: tools/release to its folder, by this command, makes no file.
not_released() {
    local room=$scratch/release
    [ "$kind" = proved ] || local quick=yes
    rm -rf "$room" && mkdir "$room" || return
    "$@" tools/release --no-build ${quick+--quick} "$room" >"$scratch/report" 2>"$scratch/diagnostics"
    ended 1 $? && same /dev/null "$scratch/report" && grep -qx 'release: the file is not made' "$scratch/diagnostics" && [ -z "$(ls "$room")" ]
}

# Where tar fails midway, or the disk is full, there is no file, nor a part of one. Modes are the same whatever the user's mask is.
# shellcheck disable=SC2016
releases_whole() {
    local first
    mkdir -p "$scratch/played" && printf '#!/bin/sh\nhead -c 100000 /dev/zero\nexit 2\n' >"$scratch/played/tar" && chmod +x "$scratch/played/tar" &&
        not_released env PATH="$scratch/played:$PATH" || return
    if has 'mounts of its own'; then
        not_released unshare -rm bash -c 'mount -t tmpfs -o size=64k none "${@: -1}" && "$@" && exit; status=$?; [ -z "$(ls "${@: -1}")" ] && exit "$status"' _ || return
    fi
    release_of && first=$(sha256sum <"$scratch"/release/*.gz) && (umask 077 && release_of) && [ "$(sha256sum <"$scratch"/release/*.gz)" = "$first" ]
}

# In a root that has the C library and no other file: what is unpacked there checks a log.
release_alone() {
    local root=$scratch/unpacked file
    release_of && mkdir -p "$root" && cp -r "$scratch"/release/pmfarm-*/bin "$root" || return
    while read -r file; do
        mkdir -p "$root${file%/*}" && cp -L "$file" "$root$file" || return
    done < <(ldd "$program" | grep -Eo '/[^ ]+')
    unshare -r chroot "$root" /bin/pmfarm check --workers 4 <examples/two_sections.log >"$scratch/report" 2>"$scratch/diagnostics"
    ended 1 $? && same examples/two_sections.report "$scratch/report" && same /dev/null "$scratch/diagnostics"
}

# The tools are installed below a prefix, which is then moved. `alone` calls one from an empty folder, with next to no environment.
installs_tools() {
    mkdir "$scratch/empty" && install_built "$scratch/first prefix" >"$scratch/report" 2>"$scratch/diagnostics" &&
        mv "$scratch/first prefix" "$scratch/moved prefix"
}

alone() {
    local tool=$1
    shift
    (cd "$scratch/empty" && env -i PATH="$PATH" HOME="$scratch" "$scratch/moved prefix/bin/pmfarm-$tool" "$@")
}

# helps TOOL: an installed tool tells its words by its own name.
helps() {
    alone "$1" --help </dev/null >"$scratch/report" 2>"$scratch/diagnostics"
    ended 0 $? && same /dev/null "$scratch/diagnostics" && grep -q "pmfarm-$1 " "$scratch/report"
}

# The program that it runs is the installed one, also where another one is on the PATH.
installed_rows() {
    helps rows && mkdir "$scratch/other" && printf '#!/bin/sh\nexit 9\n' >"$scratch/other/pmfarm" && chmod +x "$scratch/other/pmfarm" || return
    PATH=$scratch/other:$PATH alone rows --format text --fail --log "$top/examples/order_and_warnings.log" </dev/null >"$scratch/rows" 2>"$scratch/diagnostics"
    ended 0 $? && tools/rows --fail examples/order_and_warnings.report | same - "$scratch/rows" && same /dev/null "$scratch/diagnostics"
}

# The page is the one that the tool writes from its own folder.
installed_page() {
    local log=$top/examples/order_and_warnings.log
    helps page && alone page "$log" >"$scratch/report" 2>"$scratch/diagnostics"
    ended 0 $? && same /dev/null "$scratch/diagnostics" && tools/page --program "$program" "$log" | same - "$scratch/report"
}

installed_trace() {
    helps trace && alone trace >"$scratch/report" 2>"$scratch/diagnostics" </dev/null
    ended 2 $? && said 'trace: no program: pmfarm-trace [..] PROGRAM [ARG..]; see pmfarm-trace --help' "$scratch/diagnostics"
}

installed_trace_traces() {
    cc -g -I trace/include -DMISSING_FENCE -o "$scratch/append_log" examples/c/append_log.c &&
        alone trace --log "$scratch/log" "$scratch/append_log" pool </dev/null >"$scratch/report" 2>"$scratch/diagnostics" &&
        same /dev/null "$scratch/diagnostics" && rm "$scratch/empty/pool" || return
    "$program" check "$scratch/log" | tools/rows --fail | cut -d ' ' -f 3,4 | said $'ORDERED FAIL\nORDERED FAIL\nORDERED FAIL' -
}

# offers WANTED WORD..: what the completion in bash offers for the last word; nothing means the names of files.
offers() {
    local wanted=$1 by
    shift
    by=$(complete -p "$1" | sed -n 's/^complete -o default -F \([a-z_]*\) .*/\1/p')
    COMP_WORDS=("$@") COMP_CWORD=$(($# - 1)) COMPREPLY=()
    "$by" && said "$wanted" <(printf '%s' "${COMPREPLY[*]:+${COMPREPLY[*]}$'\n'}")
}

completes_in_bash() (
    for it in completions/*.bash; do
        . "$it" || exit
    done
    offers 'check cut' pmfarm c && offers '' pmfarm check '' && offers '' pmfarm check f && offers '--run' pmfarm check --r &&
        offers '1 2' pmfarm why --profile '' && offers '' pmfarm check '<' '' && offers '' pmfarm cut '<' c && offers '' pmfarm cut '>' - &&
        offers '' pmfarm check --run '' && offers '--events' pmfarm cut '<' log --e && offers '' pmfarm cut --files '' &&
        offers '' pmfarm-rows '' && offers '--log' pmfarm-rows --lo && offers '' pmfarm-rows --log '' && offers '' pmfarm-rows '<' - &&
        offers 'sarif' pmfarm-rows --format s && offers '--stacks' pmfarm-trace --st && offers 'threads none' pmfarm-trace --sections '' &&
        offers '1 2' pmfarm-page --profile '' && offers '--report' pmfarm-page --rep && offers '' pmfarm-page '' &&
        offers '' pmfarm-trace ./program - && offers '' pmfarm-trace --stacks 3 ./program -- && offers '--pmem' pmfarm-trace --log log --pm
)

well_formed() {
    local engine=$1 it
    shift
    for it in "$@"; do
        $engine "$it" >/dev/null 2>"$scratch/diagnostics" && same /dev/null "$scratch/diagnostics" || return
    done
}

# The program is built by ./pmfarm, here a script that plays it; words that are wrong are refused, and so is a build that fails.
installs_what_it_builds() {
    local repo=$scratch/repo words
    mkdir -p "$repo" && cp -r tools man completions trace examples "$repo" && cat >"$repo/pmfarm" <<'SH' || return
#!/bin/sh
top=${0%/*} && mkdir -p "$top/crates/pmfarm/out" && echo built >"$top/crates/pmfarm/out/pmfarm" && chmod +x "$top/crates/pmfarm/out/pmfarm"
SH
    chmod +x "$repo/pmfarm" && "$repo/tools/install" --no-build "$scratch/prefix" >"$scratch/report" 2>"$scratch/diagnostics"
    ended 1 $? && said 'install: there is no such program: ./pmfarm --prove builds it' "$scratch/diagnostics" && [ ! -e "$scratch/prefix" ] || return
    (cd "$scratch" && repo/tools/install prefix) >"$scratch/report" && said built "$scratch/prefix/bin/pmfarm" &&
        files "$scratch/prefix" | are_installed && printf '#!/bin/sh\nexit 2\n' >"$repo/pmfarm" || return
    "$repo/tools/install" "$scratch/prefix" >"$scratch/report" 2>"$scratch/diagnostics"
    ended 1 $? && said 'install: the program is not built' "$scratch/diagnostics" || return
    for words in '' '--uninstal /usr' '/usr /usr' --help; do
        # (the words are parted at blanks)
        tools/install $words >"$scratch/report" 2>"$scratch/diagnostics"
        ended 2 $? && same /dev/null "$scratch/report" || return
    done
}

try_tools() {
    check 'tools/rows selects the rows of each kind and section' rows_by_kind
    check 'tools/rows writes rows as JSON' rows_as_json
    check 'tools/rows writes the frames of a log' rows_with_frames
    check 'tools/rows refuses what is no report, or not a whole one' rows_refused
    check 'tools/rows gives each row of the examples, and ends with its reader' rows_of_examples
    check 'tools/rows writes rows as SARIF, JUnit and commands of GitHub' tests/try-rows "$program" formats
    check 'the forms of rows in examples/ are what tools/rows writes' forms_of_the_example
    check 'tools/rows writes any bytes of a log as each form has them' tests/try-rows "$program" escapes
    check 'tools/rows knows the failures of a baseline' tests/try-rows "$program" baselines
    check 'tools/rows refuses words, reports, logs and baselines that are wrong' tests/try-rows "$program" words
    check 'tools/page writes what was worked out by hand' tests/try-page "$program" contents
    check 'tools/page draws of each byte what explain tells of it' tests/try-page "$program" images
    check 'tools/page writes any bytes of a log as text' tests/try-page "$program" hostile
    check 'tools/page tells what it leaves out of long logs' tests/try-page "$program" sizes
    check 'tools/page refuses words, reports and logs that are wrong' tests/try-page "$program" words
    check_by chromium 'the page in Chromium, by mouse, by keys, to a screen reader, narrow, dark and printed' tests/try-page "$program" browser
    check 'the example in C writes its logs, with the fence and without' example_by 'cc -std=c11' 'cc -std=c99 -O2'
    check 'the markers in C tell the sections of threads' sections_of_threads
    check 'the markers in C refuse a section beside those of threads' sections_by cc -std=c99 -x c
    check_by c++ 'the example as C++ writes its logs' example_by 'c++ -std=c++11 -x c++' 'c++ -std=c++17 -x c++ -O2'
    check_by c++ 'the markers in C++ refuse a section beside those of threads' sections_by c++ -std=c++11 -x c++
    check 'the requests of pmemcheck, played' markers_by_valgrind
    check 'a program tells its commit, its kit and whether it was proved here, and no other program is stamped' stamped
    check 'tools/install installs what is there, and removes it' installs
    check 'tools/install builds the program first' installs_what_it_builds
    check 'tools/install and tools/release stay in their folder' stays_in_its_folder
    check_by 'a static C library' 'tools/install --static installs a program that needs no C library, and answers the same' installs_static
    check_by 'a static C library and a root by unshare' 'the static program alone in an empty root' static_alone
    check 'tools/release makes a file that is unpacked as told, the same each time' releases
    check 'tools/release makes a whole file or none' releases_whole
    check_by 'a root by unshare' 'what is released checks a log in a root that has the C library alone' release_alone
    check 'tools/install installs the tools, below a prefix that is then moved' installs_tools
    check 'the installed pmfarm-rows finds the installed program' installed_rows
    check 'the installed pmfarm-page writes a page' installed_page
    check 'the installed pmfarm-trace tells its words' installed_trace
    check_by "$tracer" 'the installed pmfarm-trace traces a program' installed_trace_traces
    check 'the completions in bash offer words where one is wanted, and else the names of files' completes_in_bash
    check_by zsh 'the completions for zsh are well-formed' well_formed 'zsh -n' completions/_*
    check_by fish 'the completions for fish are well-formed' well_formed 'fish -n' completions/*.fish
    check_by groff 'the man pages are well-formed' well_formed 'groff -man -ww -z' man/*.1
}

try_speed() {
    check 'large logs within their limits of time and memory' tests/try-speed "$program"
}

try_limits() {
    check 'inputs at the limits, and one past them' tests/limits "$program"
}

try_builder() {
    check 'the launcher, both builds, edits in batches, stamps, and whole runs of the gate that are played' tests/try-builder
}

try_main_ends() {
    check 'a main that lets its answer go, or makes one of its own, is no program' tests/main-ends
}
