/* SPDX-License-Identifier: GPL-2.0-or-later */
/* The ranges of memory that are persistent: apart from one another, in order, and each with its place in a file. */
#include "tracer.h"
#include "pub_tool_libcbase.h"
#include "pub_tool_mallocfree.h"

/* A file, as its device and node name it. */
struct file {
    ULong device, node;
};

/* What a range was, once it is gone. */
struct past {
    Addr start, end;
    UInt file;
    ULong offset;
    enum touched touched;
};

/* (the longest store of one instruction that is guarded is shorter than a line) */
ULong hull_low, hull_size;

static XArray *ranges; /* of struct range */
static XArray *files;  /* of struct file; the first stands for none */
static XArray *pasts;  /* of struct past */
static Bool had_one;

static struct range *range_at(Word i)
{
    return VG_(indexXA)(ranges, i);
}

Bool had_a_range(void)
{
    return had_one;
}

UInt file_of(ULong device, ULong node)
{
    struct file file = {device, node};
    Word i;

    for (i = 1; i < VG_(sizeXA)(files); i++) {
        struct file *known = VG_(indexXA)(files, i);
        if (known->device == device && known->node == node)
            return i;
    }
    if (i == 4096) {
        say_fault("more than 4095 files are mapped");
        stop();
    }
    return VG_(addToXA)(files, &file);
}

static void measure_hull(void)
{
    Word count = VG_(sizeXA)(ranges);

    hull_low = hull_size = 0;
    if (count) {
        Addr start = range_at(0)->start;
        hull_low = start < LINE ? 0 : start - LINE;
        hull_size = range_at(count - 1)->end - hull_low;
    }
}

/* How many ranges end at or below the address. */
static Word ranges_below(Addr address)
{
    Word low = 0, high = VG_(sizeXA)(ranges);

    while (low < high) {
        Word middle = (low + high) / 2;
        if (range_at(middle)->end <= address)
            low = middle + 1;
        else
            high = middle;
    }
    return low;
}

struct range *range_behind(Addr address)
{
    Word i = ranges_below(address);

    return i < VG_(sizeXA)(ranges) ? range_at(i) : NULL;
}

Word range_covers(Addr start, Addr end)
{
    Addr covered = 0;
    struct range *range;
    Addr at = start;

    while (at < end && (range = range_behind(at)) && range->start < end) {
        Addr from = range->start > at ? range->start : at;
        at = range->end < end ? range->end : end;
        covered += at - from;
    }
    return covered == end - start ? 1 : covered ? 2 : 0;
}

/* Whether two pieces show bytes of the same file, and do so at different addresses. */
static Bool is_alias(UInt file, ULong offset, Addr start, Addr end, const struct past *other)
{
    ULong length = end - start, other_length = other->end - other->start;

    return file && file == other->file && offset < other->offset + other_length && other->offset < offset + length &&
        start - offset != other->start - other->offset;
}

/* What was there before, at these addresses or of these bytes of the file, is told where rows may speak of both. */
static void compare_with_past(Addr start, Addr end, UInt file, ULong offset, struct past *past)
{
    Bool meets = start < past->end && past->start < end;
    Bool is_same = file == past->file && start - offset == past->start - past->offset;

    if (past->touched == OPEN && is_alias(file, offset, start, end, past) && is_first(MOVED))
        say_fault("a file is mapped again, at 0x%lx, whose stores through 0x%lx were not all durable: the log takes these "
            "for other bytes", start, past->start);
    else if (past->touched != UNTOUCHED && meets && !is_same && is_first(REUSED))
        say("the addresses from 0x%lx on are used again, for another mapping: rows there may speak of stores to the first",
            start < past->start ? past->start : start);
    /* (it is back, and what becomes of it is asked when it ends again) */
    if (is_same && start <= past->start && past->end <= end)
        past->touched = UNTOUCHED;
}

static void compare_with_pasts(Addr start, Addr end, UInt file, ULong offset)
{
    Word i;

    for (i = 0; i < VG_(sizeXA)(pasts); i++)
        compare_with_past(start, end, file, offset, VG_(indexXA)(pasts, i));
}

/* A piece that meets no range. */
static void insert(Addr start, Addr end, UInt file, ULong offset)
{
    struct range range = {start, end, file, file ? offset : start, False, array_of(sizeof(struct section *))};

    compare_with_pasts(start, end, range.file, range.offset);
    VG_(insertIndexXA)(ranges, ranges_below(start), &range);
}

void range_add(Addr start, Addr end, UInt file, ULong offset)
{
    struct range *range;
    Addr at = start;

    had_one = True;
    while (at < end) {
        range = range_behind(at);
        if (!range || range->start >= end) {
            insert(at, end, file, offset + (at - start));
            break;
        }
        if (range->start > at) {
            Addr next = range->start;
            insert(at, next, file, offset + (at - start));
            at = next;
            range = range_behind(at);
        }
        at = range->end;
    }
    measure_hull();
}

void lasting_range_add(Addr start, Addr end)
{
    Word i;

    range_add(start, end, 0, start);
    for (i = ranges_below(start); i < VG_(sizeXA)(ranges) && range_at(i)->start < end; i++)
        range_at(i)->is_lasting = True;
}

/* Asserts of what is stored there that it is durable, in each section that stored there, in spans that a log may have. */
static void assert_durable(const struct range *range, Addr start, Addr end)
{
    const SizeT most = 1UL << 32;
    Word i;

    for (i = 0; i < VG_(sizeXA)(range->stored); i++) {
        struct section *section = *(struct section **)VG_(indexXA)(range->stored, i);
        Addr at;
        for (at = start; at < end; at += most)
            record(section, 0, "PMT.PERSIST;0x%lx;0x%lx", at, end - at < most ? end - at : most);
    }
}

void persist_ranges(void)
{
    Word i;

    for (i = 0; settings.persist_at_end && i < VG_(sizeXA)(ranges); i++)
        assert_durable(range_at(i), range_at(i)->start, range_at(i)->end);
}

/* A piece of a range goes: what was asserted of it and excluded in it ends. */
static void leave(const struct range *range, Addr start, Addr end)
{
    struct past past = {start, end, range->file, range->offset + (start - range->start), lines_touched(range, start, end)};

    if (settings.persist_at_end && past.touched != UNTOUCHED)
        assert_durable(range, start, end);
    forget_excluded(start, end);
    if (past.touched != UNTOUCHED)
        VG_(addToXA)(pasts, &past);
}

void range_remove(Addr start, Addr end)
{
    Word i = ranges_below(start);

    while (i < VG_(sizeXA)(ranges) && range_at(i)->start < end) {
        struct range old = *range_at(i), head = old, tail = old;
        Addr from = old.start > start ? old.start : start, to = old.end < end ? old.end : end;
        if (old.is_lasting) {
            i++;
            continue;
        }
        leave(&old, from, to);
        VG_(removeIndexXA)(ranges, i);
        if (to < old.end) {
            tail.offset += to - old.start;
            tail.start = to;
            tail.stored = VG_(cloneXA)("pmfarm.range", old.stored);
            VG_(insertIndexXA)(ranges, i, &tail);
        }
        if (old.start < from) {
            head.end = from;
            VG_(insertIndexXA)(ranges, i++, &head);
        } else {
            VG_(deleteXA)(old.stored);
        }
    }
    measure_hull();
}

/* Another mapping of the same bytes that was stored to, at other addresses, is no part of what the log can tell. */
static void look_for_alias(const struct range *range)
{
    Word i;

    for (i = 0; i < VG_(sizeXA)(ranges); i++) {
        struct range *other = range_at(i);
        struct past seen = {other->start, other->end, other->file, other->offset, UNTOUCHED};
        if (VG_(sizeXA)(other->stored) && is_alias(range->file, range->offset, range->start, range->end, &seen) &&
            is_first(ALIAS))
            say_fault("bytes of a file are stored to through 0x%lx and through 0x%lx: the log takes them for different bytes",
                other->start, range->start);
    }
}

void range_stored(struct range *range, struct section *section)
{
    Word i;

    for (i = VG_(sizeXA)(range->stored) - 1; i >= 0; i--)
        if (*(struct section **)VG_(indexXA)(range->stored, i) == section)
            return;
    if (!VG_(sizeXA)(range->stored))
        look_for_alias(range);
    VG_(addToXA)(range->stored, &section);
}

/* The log of a fork has no store yet. */
void ranges_are_of_child(void)
{
    Word i;

    for (i = 0; i < VG_(sizeXA)(ranges); i++)
        VG_(dropTailXA)(range_at(i)->stored, VG_(sizeXA)(range_at(i)->stored));
}

void ranges_begin(void)
{
    struct file none = {0, 0};

    ranges = array_of(sizeof(struct range));
    files = array_of(sizeof(struct file));
    pasts = array_of(sizeof(struct past));
    VG_(addToXA)(files, &none);
}
