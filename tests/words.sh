# The words of a command line, what help says, and what holds of each command's text.

help_text() {
    "$program" --help >"$scratch/report" 2>"$scratch/diagnostics"
    ended 0 $? && same /dev/null "$scratch/diagnostics" &&
        grep -q '^Exit status:' "$scratch/report" && grep -q '^Examples:' "$scratch/report"
}

# The help of explain has its own examples, and the words of an explanation as docs/FORMATS.md spells them.
help_of_explain() {
    local words
    "$program" explain --help >"$scratch/report" 2>"$scratch/diagnostics"
    ended 0 $? && same /dev/null "$scratch/diagnostics" || return
    for words in '^Examples:' '^  pmfarm explain --section [0-9]+\.[0-9]+ --event [0-9]+ store.log' '^  pmfarm explain --all store.log' \
        '--run 7 --profile 2 store.log' '^What is written of a row that fails:' '^  image crash=[0-9]+ full=none ' \
        '^  byte=0x[0-9a-f]+ cut=[0-9]+ shows=[0-9]+ last=[0-9]+ ' '^  cut  ' '^  shows  ' '^  last  ' '^  no image  ' \
        '^Exit status:'; do
        grep -Eq -e "$words" "$scratch/report" || {
            printf 'the help of explain lacks %s\n' "$words"
            return 1
        }
    done
    for words in image byte 'no image'; do
        grep -q "^| \`$words" docs/FORMATS.md && grep -q "^\.B $words" man/pmfarm.1 || {
            printf 'docs/FORMATS.md or the man page lacks %s\n' "$words"
            return 1
        }
    done
}

# The help of why has its own examples, and the words of its text as docs/FORMATS.md spells them.
help_of_why() {
    local words
    "$program" why --help >"$scratch/report" 2>"$scratch/diagnostics"
    ended 0 $? && same /dev/null "$scratch/diagnostics" || return
    sed -n 's/^  \(  .*\|0\.0 .*\|rows=.*\)$/\1/p' "$scratch/report" | grep -x -F -f <(printf '%s\n' "$why_unfenced") |
        said "$why_unfenced" - || return
    for words in lost event cause cure; do
        grep -q "^| \`  $words " docs/FORMATS.md && grep -Eq "^\.BR? \"?$words" man/pmfarm.1 || {
            printf 'docs/FORMATS.md or the man page lacks %s\n' "$words"
            return 1
        }
    done
}

# A log in a file has the answer of the same log on standard input, which is not read then.
from_files() {
    local log words wanted
    printf 'FENCE|PMT.PERSITS;8;8' >"$scratch/misspelt.log"
    for log in examples/order_and_warnings.log examples/first.log "$scratch/misspelt.log" /dev/null examples; do
        for words in check 'check --ledger --run 7' lint 'explain --all' 'explain --section 0.0 --event 1' why 'why --section 4 --all-rows' 'why --patch' 'locate --section 0 --event 1'; do
            # (the words are parted at blanks)
            "$program" $words <"$log" >"$scratch/wanted" 2>"$scratch/told"
            wanted=$?
            printf 'PMT.X' | "$program" $words "$log" >"$scratch/report" 2>"$scratch/diagnostics"
            ended "$wanted" $? && same "$scratch/wanted" "$scratch/report" && same "$scratch/told" "$scratch/diagnostics" || {
                printf 'of %s by %s\n' "$log" "$words"
                return 1
            }
        done
    done
}

# A file that is not there, by each command that reads a log.
missing_file() {
    local words
    for words in check lint 'explain --all' 'explain --section 0 --event 1' why 'locate --section 0 --event 1'; do
        told 4 FENCE '' $'pmfarm: no.log: read failed\npmfarm: hint: No such file or directory (os error 2)' $words no.log || return
    done
}

# On a terminal a line says that the log is read from there; where a file is named, and of commands that read no log there, none does.
on_a_terminal() {
    python3 - "$program" <<'EOT'
import os, pty, subprocess, sys

for words, status, told in (
    ("check", 0, "pmfarm: reading the log from standard input\n"),
    ("cut", 0, "pmfarm: reading the log from standard input\npmfarm: 0 cuts\n"),
    ("check examples/first.log", 0, ""),
    ("join examples/shared_a.ledger", 0, ""),
):
    ours, theirs = pty.openpty()
    os.write(ours, b"FENCE\n\x04\x04")
    ran = subprocess.run([sys.argv[1], *words.split()], stdin=theirs, capture_output=True, text=True, check=False)
    if (ran.returncode, ran.stderr) != (status, told):
        sys.exit(f"{words}: {ran}")
EOT
}

refused_without_diagnostics() {
    "$program" chek 2>/dev/full
    ended 2 $?
}

# Each text with room for its first byte, for some of it, and for all but its last byte.
cut_off_texts() {
    local room log input whole words
    for log in written_back_at_one_fence shared_a; do
        printf '%s\n' "examples/$log.log examples/$log.report check"
    done >"$scratch/texts"
    printf '%s\n' "$one_image" >"$scratch/image"
    printf 'section 0.0\n%s\n' "$one_image" >"$scratch/images"
    printf '%s\n' "$why_appends" >"$scratch/causes"
    printf '%s\n' "$one_place" >"$scratch/place"
    printf '%s\n' "$what_it_holds" >"$scratch/holds"
    "$program" --help >"$scratch/help" || return
    printf '%s\n' 'examples/shared_a.log examples/shared_a.ledger check --ledger' \
        '/dev/null examples/shared.report join examples/shared_a.ledger examples/shared_b.ledger' \
        '/dev/null examples/shared.ledger join --ledger examples/shared.ledger' \
        "examples/written_back_at_one_fence.log $scratch/image explain --section 0 --event 6" \
        "examples/written_back_at_one_fence.log $scratch/images explain --all" \
        "examples/c/append_log.missing_fence.log $scratch/causes why" \
        'examples/c/append_log.missing_fence.log examples/c/append_log.log why --patch' \
        "examples/written_back_at_one_fence.log $scratch/place locate --section 0 --event 6" \
        "examples/order_and_warnings.log $scratch/holds lint" \
        'examples/shared_a.log examples/shared_a.log cut' \
        'examples/a_lost_worker.schedule examples/a_lost_worker.answers sim --log examples/two_sections.log --workers 2 --ledgers 1' \
        "/dev/null $scratch/help --help" >>"$scratch/texts"
    while read -r input whole words; do
        for room in 1 47 $(($(wc -c <"$whole") - 1)); do
            # (the words are parted at blanks)
            cut_off "$room" "$input" "$whole" $words || {
                printf 'with room for %s bytes: %s\n' "$room" "$words"
                return 1
            }
        done
    done <"$scratch/texts"
}

try_words() {
    check 'help goes to standard output' help_text
    check 'the help of explain has its examples and the words of its text' help_of_explain
    check 'the help of why has a text of it, and its words' help_of_why
    check 'each of three options has its effect beside the others' tests/try-options "$program"
    check 'no word is refused' refused
    check 'an unknown word is refused' refused chek
    check 'a word that is not UTF-8 is refused' refused $'\xff'
    check 'a log in a file has the answer of the same log on standard input' from_files
    check 'a file that is missing is named, with the reason' missing_file
    check 'a log that is awaited from a terminal is told' on_a_terminal
    check 'a failed write of a fault line keeps the status' refused_without_diagnostics
    check 'a full device as standard output of help' full_output /dev/null --help
    check 'a write that fails after some bytes tells how many went out' cut_off_texts
    check 'each request for memory of help refused in turn' sweep examples/first.log --help
    check 'each request for memory of a refused word refused in turn' sweep examples/first.log chek
}
