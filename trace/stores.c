/* SPDX-License-Identifier: GPL-2.0-or-later */
/* Stores: what of them is in a range, and whose lines they are. */
#include "tracer.h"

static ULong logged;

ULong stores_logged(void)
{
    return logged;
}

/* A part of a store, on one line where that passes by the cache. */
static void log_part(struct thread *thread, struct range *range, Addr start, Addr end, enum store_kind kind, Addr place)
{
    Addr at;
    Bool passes_by = kind == NON_TEMPORAL;

    for (at = start & ~(Addr)(LINE - 1); at < end; at += LINE) {
        struct line *line = line_at(range, at < range->start ? range->start : at);
        line_is_stored(line, range, at, thread, place);
        passes_by = passes_by && !line->is_dirty;
    }
    if (is_fork() && !settings.log && is_first(FORKED))
        say_fault("a fork stores to a range, and its records have no log: --log FILE gives it one, FILE.PROCESS");
    include_stored(thread->section, place, start, end);
    range_stored(range, thread->section);
    logged++;
    if (passes_by)
        record_non_temporal(thread->section, place, start, end);
    else
        record_store(thread->section, place, start, end, kind == REPEATED);
    for (at = start & ~(Addr)(LINE - 1); at < end; at += LINE) {
        struct line *line = line_at(range, at < range->start ? range->start : at);
        line->is_dirty = True;
        if (passes_by)
            line_is_written_back(line, thread);
    }
}

/* What passes by the cache goes line by line, since one line may be dirty and the next not. */
static void log_in_range(struct thread *thread, struct range *range, Addr start, Addr end, enum store_kind kind, Addr place)
{
    Addr at = start;

    while (kind == NON_TEMPORAL && at < end) {
        Addr next = (at | (LINE - 1)) + 1;
        log_part(thread, range, at, next < end ? next : end, kind, place);
        at = next;
    }
    if (kind != NON_TEMPORAL)
        log_part(thread, range, start, end, kind, place);
}

void log_store(Addr address, SizeT size, enum store_kind kind, Addr place)
{
    Addr at = address, end = address + size;
    struct range *range;

    while (at < end && (range = range_behind(at)) && range->start < end) {
        Addr from = range->start > at ? range->start : at, to = range->end < end ? range->end : end;
        log_in_range(thread_that_acts(), range, from, to, kind, place);
        at = to;
    }
}
