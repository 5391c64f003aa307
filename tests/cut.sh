# Checks of `cut`.

try_cut() {
    check 'a cut log has the rows of the whole one' tests/try-cut "$program" some_examples random_logs
    check 'what `cut` puts in, says and refuses' tests/try-cut "$program" worked_examples numbers_that_meet \
        faulty_logs streams_that_fail
    check 'files that a log is cut into are logs, and have its rows' tests/try-cut "$program" random_files files_that_are_refused
    check 'a section and a log that are too long are checked once they are cut' tests/try-cut "$program" a_long_section a_long_log
}
