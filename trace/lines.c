/* SPDX-License-Identifier: GPL-2.0-or-later */
/* The cache lines that were stored to, by their place in a file: who stored, and what is written back and fenced. */
#include "tracer.h"
#include "pub_tool_debuginfo.h"
#include "pub_tool_libcbase.h"
#include "pub_tool_libcprint.h"
#include "pub_tool_mallocfree.h"
#include "pub_tool_sparsewa.h"

enum { TOLD_IN_FULL = 8 };

struct page {
    struct line lines[PAGE / LINE];
};

static SparseWA *pages; /* of struct page *, by file and place in it */
static ULong shared_lines;

/* The number of a page: files are fewer than 4096, and none is that long. */
static UWord page_number(UInt file, ULong offset)
{
    return (UWord)file << 52 | offset / PAGE;
}

static ULong offset_of(const struct range *range, Addr address)
{
    return range->offset + (address - range->start);
}

struct line *line_at(const struct range *range, Addr address)
{
    static UWord last_number;
    static struct page *last;
    ULong offset = offset_of(range, address);
    UWord number = page_number(range->file, offset), found = 0;

    if (!last || number != last_number) {
        if (!VG_(lookupSWA)(pages, &found, number)) {
            found = (UWord)room(sizeof(struct page));
            VG_(addToSWA)(pages, number, found);
        }
        last = (struct page *)found;
        last_number = number;
    }
    return &last->lines[offset % PAGE / LINE];
}

/* Two threads store to a line: the first of these are told with both places. */
static void tell_shared(const struct line *line, const struct thread *thread, Addr address, Addr place)
{
    HChar first[512];

    shared_lines++;
    if (shared_lines > TOLD_IN_FULL)
        return;
    VG_(snprintf)(first, sizeof first, "%s", place_text(line->place));
    say("threads %u and %u store to line 0x%lx, in %s and in %s: a PASS of it stands only where they take turns", line->thread,
        thread->serial, address & ~(Addr)(LINE - 1), first, place_text(place));
}

void line_is_stored(struct line *line, const struct range *range, Addr address, struct thread *thread, Addr place)
{
    if (line->address && line->thread != thread->serial)
        tell_shared(line, thread, address, place);
    line->address = address & ~(Addr)(LINE - 1);
    line->place = place;
    line->thread = thread->serial;
}

void line_is_written_back(struct line *line, struct thread *thread)
{
    if (!line->is_dirty)
        return;
    line->is_dirty = False;
    line->is_pending = True;
    VG_(addToXA)(thread->pending, &line);
}

/* (a wide msync meets many pages that nothing was stored to) */
void lines_are_written_back(const struct range *range, Addr start, Addr end, struct thread *thread)
{
    ULong offset = offset_of(range, start) & ~(ULong)(LINE - 1), behind = offset_of(range, end);

    while (offset < behind) {
        ULong next = (offset | (PAGE - 1)) + 1;
        UWord found = 0;
        if (VG_(lookupSWA)(pages, &found, page_number(range->file, offset)))
            for (; offset < next && offset < behind; offset += LINE)
                line_is_written_back(&((struct page *)found)->lines[offset % PAGE / LINE], thread);
        offset = next;
    }
}

void lines_are_fenced(struct thread *thread)
{
    Word count = VG_(sizeXA)(thread->pending), i;

    for (i = 0; i < count; i++)
        (*(struct line **)VG_(indexXA)(thread->pending, i))->is_pending = False;
    VG_(dropTailXA)(thread->pending, count);
}

enum touched lines_touched(const struct range *range, Addr start, Addr end)
{
    ULong from = offset_of(range, start), to = offset_of(range, end);
    enum touched touched = UNTOUCHED;
    UWord number, found;
    UInt i;

    VG_(initIterSWA)(pages);
    while (VG_(nextIterSWA)(pages, &number, &found)) {
        ULong offset = (number & ((1UL << 52) - 1)) * PAGE;
        struct page *page = (struct page *)found;
        if (number >> 52 != range->file || offset + PAGE <= from || offset >= to)
            continue;
        for (i = 0; i < PAGE / LINE; i++, offset += LINE) {
            if (!page->lines[i].address || offset + LINE <= from || offset >= to)
                continue;
            if (page->lines[i].is_dirty || page->lines[i].is_pending)
                return OPEN;
            touched = SETTLED;
        }
    }
    return touched;
}

void lines_end(void)
{
    if (shared_lines > TOLD_IN_FULL)
        say("so are %llu more stores, each to a line that another thread stored to before", shared_lines - TOLD_IN_FULL);
}

void lines_begin(void)
{
    pages = VG_(newSWA)(VG_(malloc), "pmfarm.lines", VG_(free));
}
