# Hostile use: memory, threads and system calls that are refused, inputs that are broken, mixed or slow on purpose, and texts that would act.

try_slow() {
    check 'logs and ledgers that are slow on purpose' tests/try-slow "$program"
}

try_random_logs() {
    check 'random logs: the definitions, joins, spellings, pieces, workers, cuts and cures' tests/soak "$program" --seconds 30
}

try_mutated_inputs() {
    check 'mutated inputs end as the documents say' tests/mutate "$program" --seconds 30
}

try_broken_calls() {
    check 'each system call that fails, is short or is interrupted, in turn' tests/break-io "$program" calls_in_turn
    check 'odd files as input and output' tests/break-io "$program" odd_files
}

try_hostile() {
    check 'two requests for memory refused in a run, and little room for all' tests/want-memory "$program"
    check 'texts out of a log act on nothing' tests/try-texts "$program"
    check 'each request for memory of cut refused in turn' sweep examples/order_and_warnings.log cut --events 6
    check 'each request for memory of why --all-rows refused in turn' sweep examples/a_range_without_backup.log why --all-rows
}
