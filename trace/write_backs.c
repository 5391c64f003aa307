/* SPDX-License-Identifier: GPL-2.0-or-later */
/* Write-backs: the lines of a range that an instruction or msync writes back. */
#include "tracer.h"

/* The lines that a span meets, of one range. */
static void write_back(struct thread *thread, const struct range *range, Addr start, Addr end, Addr place)
{
    record_flush(thread->section, place, start & ~(Addr)(LINE - 1), (end + LINE - 1) & ~(Addr)(LINE - 1));
    lines_are_written_back(range, start, end, thread);
}

void log_write_back(Addr start, Addr end, Addr place)
{
    Addr at = start & ~(Addr)(LINE - 1), behind = (end + LINE - 1) & ~(Addr)(LINE - 1);
    struct range *range;

    while (at < behind && (range = range_behind(at)) && range->start < behind) {
        Addr from = range->start > at ? range->start : at, to = range->end < behind ? range->end : behind;
        write_back(thread_that_acts(), range, from, to, place);
        at = (to + LINE - 1) & ~(Addr)(LINE - 1);
    }
}
