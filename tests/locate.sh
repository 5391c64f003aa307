# What `locate` writes and refuses.

# Where the event of that row stands in its log.
one_place='record=6 offset=76 length=29
PMT.ORDERED;0x1000;8;0x2000;8'

try_locate() {
    local log=examples/written_back_at_one_fence.log
    check 'locate tells the record of an event' told 0 "$(cat "$log")" "$one_place" '' locate --section 0 --event 6
    check 'locate takes a section as a report names it' told 0 "$(cat "$log")" "$one_place" '' locate --section 0.0 --event 6
    check 'locate counts skipped records, and tells all fields' \
        told 0 $'START||PMT.SECTION;3\r\n STORE;0x1000;0;8;main.c:7 |FENCE' \
        $'record=3 offset=23 length=25\nSTORE;0x1000;0;8;main.c:7' '' locate --section 3 --event 1 --run 7
    check 'locate refuses a section that is missing' told 2 FENCE '' 'pmfarm: no section 7.1' locate --section 1 --event 0 --run 7
    check 'locate refuses an event that is missing' told 2 FENCE '' 'pmfarm: no event 2 in section 7.0' \
        locate --section 0 --event 2 --run 7
    check 'locate refuses a faulty log first' told 2 'FENCE|PMT.X' '' 'pmfarm: record 2: unknown marker' locate --section 1 --event 0
    check 'locate without a section is refused' refused locate --event 1
    check 'locate without an event is refused' refused locate --section 0
    check 'locate takes no profile' refused locate --section 0 --event 1 --profile 2
    check 'a full device as standard output of locate' full_output "$log" locate --section 0 --event 6
    check 'a directory as standard input of locate' unreadable locate --section 0 --event 1
    check 'each request for memory of locate refused in turn' sweep examples/order_and_warnings.log locate --section 4 --event 7
}
