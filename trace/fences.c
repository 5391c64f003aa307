/* SPDX-License-Identifier: GPL-2.0-or-later */
/* Fences: each is logged from the first range on, and all records up to it are written out. */
#include "tracer.h"

void log_fence(Addr place)
{
    struct thread *thread;

    if (!had_a_range())
        return;
    thread = thread_that_acts();
    record(thread->section, place, "FENCE");
    lines_are_fenced(thread);
    write_out();
}
