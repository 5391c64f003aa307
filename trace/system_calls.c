/* SPDX-License-Identifier: GPL-2.0-or-later */
/* System calls: files that are mapped, unmapped and moved, msync, programs that are started by exec. */
#include "tracer.h"
#include "pub_tool_aspacemgr.h"
#include "pub_tool_libcbase.h"
#include "pub_tool_libcfile.h"
#include "pub_tool_machine.h"
#include "pub_tool_vki.h"
#include "pub_tool_vkiscnums.h"

enum { SHARED_OR_VALIDATED = 3, SYNCHRONOUS = 4 };

static Addr whole_pages(Addr size)
{
    return (size + PAGE - 1) & ~(Addr)(PAGE - 1);
}

static Bool is_persistent(const HChar *path)
{
    Word i;

    for (i = 0; path && i < VG_(sizeXA)(settings.prefixes); i++) {
        const HChar *prefix = *(const HChar **)VG_(indexXA)(settings.prefixes, i);
        if (VG_(strncmp)(path, prefix, VG_(strlen)(prefix)) == 0)
            return True;
    }
    return False;
}

/* (a private mapping shows the file, and changes nothing in it) */
static Bool is_shared(UWord flags)
{
    return (flags & SHARED_OR_VALIDATED) == 1 || (flags & SHARED_OR_VALIDATED) == 3;
}

/* (what was excluded there and is no part of a range ends, too) */
static void is_unmapped(Addr start, Addr size)
{
    range_remove(start, start + whole_pages(size));
    if (had_a_range())
        forget_excluded(start, start + whole_pages(size));
}

static void is_mapped(Addr start, Addr size, UWord flags)
{
    const NSegment *segment;

    range_remove(start, start + whole_pages(size));
    segment = VG_(am_find_nsegment)(start);
    if (is_shared(flags) && segment && segment->kind == SkFileC && is_persistent(VG_(am_get_filename)(segment)))
        range_add(start, start + whole_pages(size), file_of(segment->dev, segment->ino),
            segment->offset + (start - segment->start));
}

/* A mapping that grows, shrinks or moves. */
static void is_remapped(Addr old, Addr old_size, Addr start, Addr size)
{
    struct range *range = range_behind(old);
    struct range was;

    if (!range || range->start > old) {
        if (start != old)
            range_remove(start, start + whole_pages(size));
        return;
    }
    was = *range;
    if (start != old && lines_touched(&was, old, was.end) != UNTOUCHED && is_first(MOVED))
        say_fault("the range from 0x%lx on is moved to 0x%lx: the log takes its bytes for others", old, start);
    if (start != old) {
        range_remove(old, old + whole_pages(old_size));
        range_remove(start, start + whole_pages(size));
    } else if (size < old_size) {
        range_remove(old + whole_pages(size), old + whole_pages(old_size));
    }
    range_add(start, start + whole_pages(size), was.file, was.offset + (old - was.start));
}

static void is_synchronized(ThreadId tid, Addr start, Addr size, UWord flags)
{
    Addr place = VG_(get_IP)(tid);

    if (!(flags & SYNCHRONOUS) || range_covers(start, start + whole_pages(size)) == 0)
        return;
    log_write_back(start, start + whole_pages(size), place);
    log_fence(place);
}

/* Whether there is such a program. */
static Bool is_program(const HChar *path)
{
    struct vg_stat found;

    return path && VG_(am_is_valid_for_client)((Addr)path, 1, VKI_PROT_READ) && !sr_isError(VG_(stat)(path, &found)) &&
        VKI_S_ISREG(found.mode) && (found.mode & 0111);
}

/* No process is left to write the log once another program has taken its place. */
static void before_exec(const HChar *path)
{
    if (!is_program(path))
        return;
    persist_ranges();
    records_end();
    if (is_first(is_fork() ? EXEC_OF_FORK : EXEC))
        say("%s is started by exec: it is not traced", path);
    if (had_a_fault())
        say("a verdict could be wrong, as is told above; the status will be that of %s all the same", path);
}

void before_call(ThreadId tid, UInt number, UWord *words, UInt count)
{
    if (number == __NR_execve)
        before_exec((const HChar *)words[0]);
}

void behind_call(ThreadId tid, UInt number, UWord *words, UInt count, SysRes result)
{
    if (sr_isError(result))
        return;
    if (number == __NR_mmap)
        is_mapped(sr_Res(result), words[1], words[3]);
    else if (number == __NR_munmap)
        is_unmapped(words[0], words[1]);
    else if (number == __NR_mremap)
        is_remapped(words[0], words[1], sr_Res(result), words[2]);
    else if (number == __NR_msync)
        is_synchronized(tid, words[0], words[1], words[2]);
}
