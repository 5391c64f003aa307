/* SPDX-License-Identifier: GPL-2.0-or-later */
/* Threads and their sections: each thread has a number that no other one gets, and a section of its own. */
#include "tracer.h"
#include "pub_tool_mallocfree.h"
#include "pub_tool_sparsewa.h"
#include "pub_tool_threadstate.h"
#include "pub_tool_tooliface.h"

static XArray *threads;  /* of struct thread *, by Valgrind's number, which is given again */
static XArray *sections; /* of struct section * */
static SparseWA *by_number;
static struct section *shared; /* by all threads, where none has its own */
static UInt threads_made;

XArray *all_sections(void)
{
    return sections;
}

static struct section *section_of_number(ULong number)
{
    UWord found = 0;

    return VG_(lookupSWA)(by_number, &found, number) ? (struct section *)found : NULL;
}

static struct section *new_section(ULong number, UInt owner)
{
    struct section *section = room(sizeof *section);

    section->number = number;
    section->owner = owner;
    section->excluded = array_of(sizeof(struct span));
    VG_(addToXA)(sections, &section);
    VG_(addToSWA)(by_number, number, (UWord)section);
    return section;
}

/* The least number from this on that no section has. */
static ULong free_number(ULong number)
{
    while (section_of_number(number))
        number++;
    return number;
}

static struct thread *new_thread(void)
{
    struct thread *thread = room(sizeof *thread);

    thread->serial = threads_made++;
    thread->pending = array_of(sizeof(struct line *));
    if (settings.section_of_each_thread || thread->serial == 0)
        thread->section = shared = new_section(free_number(thread->serial), thread->serial);
    return thread;
}

static void put_thread(ThreadId tid, struct thread *thread)
{
    struct thread *none = NULL;

    while (VG_(sizeXA)(threads) <= (Word)tid)
        VG_(addToXA)(threads, &none);
    *(struct thread **)VG_(indexXA)(threads, tid) = thread;
}

struct thread *thread_of(ThreadId tid)
{
    if (VG_(sizeXA)(threads) <= (Word)tid || !*(struct thread **)VG_(indexXA)(threads, tid))
        put_thread(tid, new_thread());
    return *(struct thread **)VG_(indexXA)(threads, tid);
}

/* The section is this thread's from now on. Where it has stores, write-backs or fences of another one that is told. */
static void own(struct section *section, const struct thread *thread)
{
    if (section->owner != thread->serial && section->has_acts && is_first(SHARED_SECTION))
        say_fault("section %llu has records of threads %u and %u: there a fence of one settles write-backs of the other",
            section->number, section->owner, thread->serial);
    section->owner = thread->serial;
    section->has_acts = True;
}

struct thread *thread_now(void)
{
    struct thread *thread = thread_of(VG_(get_running_tid)());

    if (!settings.section_of_each_thread)
        thread->section = shared;
    return thread;
}

struct thread *thread_that_acts(void)
{
    struct thread *thread = thread_now();

    own(thread->section, thread);
    return thread;
}

void enter_section(struct thread *thread, ULong number)
{
    struct section *section = section_of_number(number);

    if (!section)
        section = new_section(number, thread->serial);
    thread->section = shared = section;
}

/* The number of a thread that ended is given to a new one. */
static void thread_begins(ThreadId parent, ThreadId child)
{
    put_thread(child, new_thread());
}

/* The log of a fork knows nothing of what was told in that of its parent. */
void sections_are_of_child(void)
{
    Word i;

    for (i = 0; i < VG_(sizeXA)(sections); i++) {
        struct section *section = *(struct section **)VG_(indexXA)(sections, i);
        section->has_acts = False;
        section->ignored_told = 0;
        VG_(dropTailXA)(section->excluded, VG_(sizeXA)(section->excluded));
    }
}

void threads_begin(void)
{
    threads = array_of(sizeof(struct thread *));
    sections = array_of(sizeof(struct section *));
    by_number = VG_(newSWA)(VG_(malloc), "pmfarm.sections", VG_(free));
    VG_(track_pre_thread_ll_create)(thread_begins);
}
