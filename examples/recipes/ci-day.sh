#!/bin/sh
# The runs of a day in CI: joins their ledgers to day.report, and writes the rows that fail, each behind its run and section.
#
#     ci-day.sh LEDGER..
#
# Ends with 0 where all ledgers were joined, whatever their rows are: each run had its own verdict. Else, as where one is not there, with
# 2 or above.
set -u
rm -f day.report
pmfarm join "$@" >day.report
status=$?
[ "$status" -le 1 ] || { rm -f day.report; exit "$status"; }
tail -n 1 day.report
pmfarm-rows --fail day.report
