/* SPDX-License-Identifier: GPL-2.0-or-later */
/* The requests of pmemcheck, which PMDK's libraries and pmfarm_markers.h make: ranges, transactions, exclusions, records. */
#include "tracer.h"
#include "pub_tool_aspacemgr.h"
#include "pub_tool_clreq.h"
#include "pub_tool_libcbase.h"
#include "pub_tool_machine.h"
#include "pub_tool_vki.h"

enum request {
    REGISTER = 0x50430000,
    REGISTER_FILE,
    REMOVE,
    CHECK,
    PRINT,
    DO_FLUSH,
    DO_FENCE,
    SET_CLEAN = 0x50430011,
    BEGIN,
    BEGIN_NUMBERED,
    END,
    END_NUMBERED,
    ADD,
    ADD_NUMBERED,
    TAKE,
    TAKE_NUMBERED,
    ADD_THREAD,
    TAKE_THREAD,
    IGNORE,
    REORDER,
    EMIT = 0x5043001e,
};

enum { LONGEST_RECORD = 4096 };

static XArray *ignored; /* of struct span: what no transaction has to back up; empty ones are gone */

void requests_begin(void)
{
    ignored = array_of(sizeof(struct span));
}

static struct span *span_at(XArray *spans, Word i)
{
    return VG_(indexXA)(spans, i);
}

/* What is ignored is out of the checks of every section: it is told there before the section's next record. */
void ignored_are_told(struct section *section)
{
    while (section->ignored_told < VG_(sizeXA)(ignored)) {
        struct span span = *span_at(ignored, section->ignored_told++);
        if (span.start < span.end)
            record(section, 0, "PMT.EXCLUDE;0x%lx;0x%lx", span.start, span.end - span.start);
    }
}

/* The first of the spans that meets this one, or their number. */
static Word first_meeting(XArray *spans, Addr start, Addr end)
{
    Word i;

    for (i = 0; i < VG_(sizeXA)(spans); i++)
        if (span_at(spans, i)->start < end && start < span_at(spans, i)->end)
            break;
    return i;
}

/* Includes the bytes, but for those that are ignored. */
static void include(struct section *section, Addr place, Addr start, Addr end)
{
    while (start < end) {
        Word i = first_meeting(ignored, start, end);
        struct span span = i < VG_(sizeXA)(ignored) ? *span_at(ignored, i) : (struct span){end, end};
        if (i == VG_(sizeXA)(ignored))
            record(section, place, "PMT.INCLUDE;0x%lx;0x%lx", start, end - start);
        else if (span.start > start)
            include(section, place, start, span.start);
        start = span.end;
    }
}

/* Takes the bytes out of the section's spans that are excluded until they are stored to, and includes them. */
void include_stored(struct section *section, Addr place, Addr start, Addr end)
{
    Word i;

    while ((i = first_meeting(section->excluded, start, end)) < VG_(sizeXA)(section->excluded)) {
        struct span span = *span_at(section->excluded, i), head = span, tail = span;
        head.end = span.start > start ? span.start : start;
        tail.start = span.end < end ? span.end : end;
        VG_(removeIndexXA)(section->excluded, i);
        include(section, place, head.end, tail.start);
        if (head.start < head.end)
            VG_(addToXA)(section->excluded, &head);
        if (tail.start < tail.end)
            VG_(addToXA)(section->excluded, &tail);
    }
}

void exclude_until_stored(struct section *section, Addr place, Addr start, Addr end)
{
    struct span span = {start, end};
    Word i = first_meeting(section->excluded, start, end);

    if (start >= end || (i < VG_(sizeXA)(section->excluded) && span_at(section->excluded, i)->start <= start &&
        span_at(section->excluded, i)->end >= end))
        return;
    record(section, place, "PMT.EXCLUDE;0x%lx;0x%lx", start, end - start);
    VG_(addToXA)(section->excluded, &span);
}

/* What was ignored of these bytes is so no more, in each section that was told. */
static void forget_ignored(Addr start, Addr end)
{
    Word i, k;

    for (i = 0; i < VG_(sizeXA)(ignored); i++) {
        struct span *span = span_at(ignored, i);
        if (span->start >= span->end || span->start >= end || start >= span->end)
            continue;
        for (k = 0; k < VG_(sizeXA)(all_sections()); k++) {
            struct section *section = *(struct section **)VG_(indexXA)(all_sections(), k);
            if (section->ignored_told > i)
                record(section, 0, "PMT.INCLUDE;0x%lx;0x%lx", span->start, span->end - span->start);
        }
        span->end = span->start;
    }
}

/* The mapping of these bytes ends: what was excluded of it holds for nothing that comes there later. */
void forget_excluded(Addr start, Addr end)
{
    Word k;

    forget_ignored(start, end);
    for (k = 0; k < VG_(sizeXA)(all_sections()); k++)
        include_stored(*(struct section **)VG_(indexXA)(all_sections(), k), 0, start, end);
}

/* The file that is mapped at an address, and the place in it. */
static UInt mapped_file(Addr address, ULong *offset)
{
    const NSegment *segment = VG_(am_find_nsegment)(address);

    if (!segment || segment->kind != SkFileC)
        return 0;
    *offset = segment->offset + (address - segment->start);
    return file_of(segment->dev, segment->ino);
}

static void register_range(Addr start, Addr end)
{
    ULong offset = start;
    UInt file = mapped_file(start, &offset);

    range_add(start, end, file, offset);
}

/* Of a whole range: it ends. Of a part: these bytes are no matter of persistence, and stay out until they are registered again. */
static void remove_range(struct thread *thread, Addr place, Addr start, Addr end)
{
    struct range *range = range_behind(start);
    Bool is_part = range && range->start < end && (range->start < start || range->end > end);
    Bool was_stored = is_part && lines_touched(range, start, end < range->end ? end : range->end) != UNTOUCHED;

    range_remove(start, end);
    if (was_stored)
        exclude_until_stored(thread->section, place, start, end);
}

/* What is stored there by now need not become durable. */
static void set_clean(struct thread *thread, Addr place, Addr start, Addr end)
{
    if (range_covers(start, end))
        exclude_until_stored(thread->section, place, start, end);
}

/* Around the outermost transaction stands a scope, unless the program has opened one. */
static void begin_transaction(struct thread *thread, Addr place)
{
    if (thread->depth++ == 0 && !thread->section->is_in_scope) {
        thread->has_opened = True;
        record(thread->section, place, "PMT.CHECKSTART");
    }
    record(thread->section, place, "PMT.TXBEGIN");
}

static void end_transaction(struct thread *thread, Addr place)
{
    record(thread->section, place, "PMT.TXEND");
    if (thread->depth)
        thread->depth--;
    if (thread->depth == 0 && thread->has_opened) {
        thread->has_opened = False;
        record(thread->section, place, "PMT.CHECKEND");
    }
}

/* (libpmemobj adds its own logs outside of transactions, too, where nothing is backed up) */
static void add(struct thread *thread, Addr place, Addr start, SizeT size)
{
    if (thread->depth && size)
        record(thread->section, place, "PMT.TXADD;0x%lx;0x%lx", start, size);
}

static void ignore(struct thread *thread, Addr start, Addr end)
{
    struct span span = {start, end};

    if (start >= end)
        return;
    VG_(addToXA)(ignored, &span);
    ignored_are_told(thread->section);
}

/* The number behind `PMT.SECTION;`, or false. */
static Bool is_section(const HChar *text, ULong *number)
{
    const HChar *name = "PMT.SECTION;";
    SizeT length = VG_(strlen)(name);
    HChar *end = NULL;

    if (VG_(strncmp)(text, name, length) != 0)
        return False;
    *number = VG_(strncmp)(text + length, "0x", 2) == 0 ? VG_(strtoull16)(text + length, &end) : VG_(strtoull10)(text + length, &end);
    return end != text + length && *end == 0;
}

static void emit_one(struct thread *thread, Addr place, const HChar *text)
{
    ULong number;

    if (is_section(text, &number)) {
        enter_section(thread, number);
        return;
    }
    if (VG_(strcmp)(text, "PMT.CHECKSTART") == 0)
        thread->section->is_in_scope = True;
    else if (VG_(strcmp)(text, "PMT.CHECKEND") == 0)
        thread->section->is_in_scope = False;
    if (*text)
        record_text(thread->section, place, text);
}

/* The program's own records, one or several. */
static void emit(struct thread *thread, Addr place, Addr address)
{
    HChar text[LONGEST_RECORD];
    UInt used = 0, i;

    for (i = 0; i < LONGEST_RECORD; i++) {
        const HChar *at = (const HChar *)address + i;
        if ((i == 0 || (Addr)at % PAGE == 0) && !VG_(am_is_valid_for_client)((Addr)at, 1, VKI_PROT_READ))
            break;
        text[used] = *at == '|' || *at == '\n' || *at == '\r' ? 0 : *at;
        if (!text[used]) {
            emit_one(thread, place, text);
            used = 0;
        } else {
            used++;
        }
        if (!*at)
            return;
    }
    if (is_first(NO_TEXT))
        say_fault("a record of the program's own is no text, or has more than %d bytes", LONGEST_RECORD - 1);
}

static void take_numbered(void)
{
    if (is_first(NUMBERED_TRANSACTION))
        say_fault("a transaction with a number of its own, which threads may share, has no record in a log");
}

Bool take_request(ThreadId tid, UWord *words, UWord *answer)
{
    struct thread *thread;
    Addr place = VG_(get_IP)(tid);

    if (!VG_IS_TOOL_USERREQ('P', 'C', words[0]))
        return False;
    thread = thread_now();
    *answer = 0;
    switch (words[0]) {
    case REGISTER: register_range(words[1], words[1] + words[2]); break;
    case REGISTER_FILE: register_range(words[2], words[2] + words[3]); break;
    case REMOVE: remove_range(thread, place, words[1], words[1] + words[2]); break;
    case CHECK: *answer = range_covers(words[1], words[1] + words[2]); break;
    case PRINT: case DO_FLUSH: case DO_FENCE: case TAKE: case REORDER: break;
    case SET_CLEAN: set_clean(thread, place, words[1], words[1] + words[2]); break;
    case BEGIN: begin_transaction(thread, place); break;
    case END: end_transaction(thread, place); break;
    case ADD: add(thread, place, words[1], words[2]); break;
    case IGNORE: ignore(thread, words[1], words[1] + words[2]); break;
    case EMIT: emit(thread, place, words[1]); break;
    case BEGIN_NUMBERED: case END_NUMBERED: case ADD_NUMBERED: case TAKE_NUMBERED: case ADD_THREAD: case TAKE_THREAD:
        take_numbered();
        break;
    default: return False;
    }
    return True;
}
