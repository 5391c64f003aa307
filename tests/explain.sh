# What `explain` and `explain --all` write and refuse.

one_image='6 ORDERED FAIL byte=0x1000 after=0x2000 crash=2
image crash=2 full=0x2000
byte=0x1000 cut=0 shows=0 last=1
byte=0x2000 cut=1 shows=2 last=2'

# explains_each_row LOG WORD..: `explain --all` is one after another what `explain` says of each row that tools/rows --fail lists,
# behind its section. A row of the section's end has no event, and no image.
explains_each_row() {
    local log=$1 name place row
    shift
    "$program" check "$@" <"$log" 2>/dev/null | tools/rows --fail >"$scratch/rows" || return
    while read -r name place row; do
        printf 'section %s\n' "$name"
        case $row in
            'SECTION UNCLOSED'*) printf '%s %s\nno image\n' "$place" "$row" ;;
            *) "$program" explain --section "${name#*.}" --event "$place" "$@" <"$log" || return ;;
        esac
    done <"$scratch/rows" >"$scratch/wanted"
    "$program" explain --all "$@" <"$log" >"$scratch/report" 2>"$scratch/diagnostics"
    ended 0 $? && same "$scratch/wanted" "$scratch/report" && same /dev/null "$scratch/diagnostics" &&
        ended "$(wc -l <"$scratch/rows")" "$(grep -c '^section ' "$scratch/report")"
}

# Each example by both profiles, and a log with three rows that fail, the last of them of its end.
explains_all_rows() {
    local log profile
    printf 'PMT.SECTION;3|PMT.CHECKSTART|PMT.TXEND|PMT.SECTION;1|STORE;0x1000;7;8|PMT.PERSIST;0x1000;8' >"$scratch/unclosed.log"
    for log in examples/*.log "$scratch/unclosed.log"; do
        for profile in 1 2; do
            explains_each_row "$log" --run 7 --profile "$profile" || {
                printf 'of %s by profile %s\n' "$log" "$profile"
                return 1
            }
        done
    done
    ended 3 "$(grep -c '^section ' "$scratch/report")"
}

# The first so many of the rows of a log with three that fail, in two sections; all of them, where there are fewer.
explains_the_first() {
    local first
    "$program" explain --all "$scratch/unclosed.log" >"$scratch/all" || return
    for first in 1 2 3 4 4294967295; do
        awk -v "first=$first" '/^section / { seen++ } seen <= first' "$scratch/all" >"$scratch/wanted"
        "$program" explain --all --first "$first" <"$scratch/unclosed.log" | same "$scratch/wanted" - || return
    done
}

try_explain() {
    local log=examples/written_back_at_one_fence.log
    check 'explain tells no skipped record' told 0 'START|FENCE' 'no image' '' explain --section 0 --event 1
    check 'explain shows the image of a failure' told 0 "$(cat "$log")" "$one_image" '' explain --section 0 --event 6
    check 'explain takes a run and a profile' told 0 'PMT.SECTION;3|FENCE' 'no image' '' \
        explain --section 3 --event 1 --run 7 --profile 2
    check 'explain takes a section as a report names it' told 0 'PMT.SECTION;3|FENCE' 'no image' '' explain --section 7.3 --event 1
    check 'explain refuses the section that a name of both numbers means, whatever the run' \
        told 2 FENCE '' 'pmfarm: no section 7.1' explain --section 7.1 --event 0 --run 3
    check 'a word that names no section is refused' refused explain --section 0.x --event 1
    check 'explain refuses a section that is missing' told 2 FENCE '' 'pmfarm: no section 7.1' explain --section 1 --event 0 --run 7
    check 'explain refuses an event that is missing' told 2 FENCE '' 'pmfarm: no event 2 in section 7.0' \
        explain --section 0 --event 2 --run 7
    check 'explain refuses a faulty log first' told 2 'FENCE|PMT.X' '' 'pmfarm: record 2: unknown marker' explain --section 1 --event 0
    check 'explain without a section is refused' refused explain --event 1
    check 'explain without an event is refused' refused explain --section 0
    check 'an event that is no number is refused' refused explain --section 0 --event x
    check 'a full device as standard output of explain' full_output "$log" explain --section 0 --event 6
    check 'a directory as standard input of explain' unreadable explain --section 0 --event 1
    check 'explain agrees with the rows of the examples' tests/explain-fails "$program" examples/*.log
    check 'explain --all explains each row that fails, as explain does' explains_all_rows
    check 'explain --all --first explains so many of them' explains_the_first
    check 'explain --all --first 0 is refused' refused explain --all --first 0
    check 'explain --first without --all is refused' refused explain --section 0 --event 1 --first 1
    check 'explain --all writes nothing where no row fails' told 0 "$(cat examples/first.log)" '' '' explain --all
    check 'explain --all refuses a faulty log' told 2 'FENCE|PMT.X' '' 'pmfarm: record 2: unknown marker' explain --all
    check 'explain --all with a section is refused' refused explain --all --section 0
    check 'explain --all with an event is refused' refused explain --event 1 --all
    check 'explain --all with a section and an event is refused' refused explain --section 0 --all --event 1
    check 'a full device as standard output of explain --all' full_output "$log" explain --all
    check 'a directory as standard input of explain --all' unreadable explain --all
    check 'each request for memory of explain refused in turn' sweep "$log" explain --section 0 --event 6
    check 'each request for memory of explain --all refused in turn' sweep examples/order_and_warnings.log explain --all
}
