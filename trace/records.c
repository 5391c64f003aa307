/* SPDX-License-Identifier: GPL-2.0-or-later */
/* The text of the log: records with their sections and frames, neighbours merged, written out at each fence. */
#include "tracer.h"
#include "pub_tool_debuginfo.h"
#include "pub_tool_libcassert.h"
#include "pub_tool_libcbase.h"
#include "pub_tool_libcfile.h"
#include "pub_tool_libcprint.h"
#include "pub_tool_stacktrace.h"
#include "pub_tool_threadstate.h"
#include "pub_tool_vki.h"

enum { BUFFER = 1 << 16, LONGEST_MERGED = 1 << 30, LONGEST_REFUSAL = 256, MAY_WRITE = 4 /* POLLOUT */ };

/* The frames of a record: return addresses, the first the instruction itself. */
struct frames {
    UInt count;
    Addr places[MAX_STACKS];
};

/* A record that its neighbour may still lengthen. */
enum pending_kind { NOTHING, STORES, FLUSHES, PASSED_BY };

static struct {
    enum pending_kind kind;
    struct section *section;
    Addr start, end, place;
    struct frames frames;
} pending;

static HChar buffer[BUFFER];
static UInt used;
static ULong written;
static ULong current; /* the number of the section that is current in the log */

/* (of a pipe that does not wait by itself) */
static Bool wait_for_reader(void)
{
    struct vki_pollfd file = {settings.log_file, MAY_WRITE, 0};

    return !sr_isError(VG_(poll)(&file, 1, -1));
}

void write_out(void)
{
    UInt done = 0;

    if (used && settings.log_file < 0)
        open_log_of_fork();
    if (settings.log_file < 0)
        done = used; /* (a fork without one) */
    while (done < used) {
        Int now = VG_(write)(settings.log_file, buffer + done, used - done);
        if (now == -VKI_EINTR || (now == -VKI_EAGAIN && wait_for_reader()))
            continue;
        if (now <= 0) {
            say("the log can't be written: write failed after %llu bytes", written);
            write_refusal(settings.log_file, "the log is not whole");
            refuse_log_of_parent("the log of a fork is not whole");
            stop();
        }
        done += now;
        written += now;
    }
    used = 0;
}

/* The log of a fork begins anew. */
void records_are_of_child(void)
{
    used = 0;
    written = 0;
    current = 0;
    pending.kind = NOTHING;
}

static void put(const HChar *text)
{
    for (; *text; text++) {
        if (used == BUFFER)
            write_out();
        buffer[used++] = *text;
    }
}

/* A field of a record, in which nothing ends it. */
static void put_field(const HChar *text)
{
    HChar one[2] = {0, 0};

    put(";");
    for (; *text; text++) {
        one[0] = *text == '|' || *text == '\n' || *text == '\r' ? '?' : *text;
        put(one);
    }
}

/* A record that no command takes, between any two others. */
void record_refusal(const HChar *why)
{
    put("PMT.REFUSED");
    put_field(why);
    put("\n");
}

/* The same at once, where others write, too, or where there may be no room for more: then it takes the place of what stands last. */
void write_refusal(Int file, const HChar *why)
{
    HChar text[LONGEST_REFUSAL];
    Int size = VG_(snprintf)(text, sizeof text, "\nPMT.REFUSED;%s\n", why);

    text[size - 1] = '\n'; /* (where it is cut) */
    if (VG_(write)(file, text, size) != size && VG_(lseek)(file, -size, VKI_SEEK_END) >= 0)
        VG_(write)(file, text, size);
}

/* The frames of the instruction that runs. */
static void take_frames(Addr place, struct frames *frames)
{
    frames->count = 0;
    if (settings.stacks == 0 || place == 0)
        return;
    frames->count = VG_(get_StackTrace)(VG_(get_running_tid)(), frames->places, settings.stacks, NULL, NULL, 0);
    if (frames->count == 0)
        frames->count = 1;
    frames->places[0] = place;
}

static Bool same_frames(const struct frames *one, const struct frames *other)
{
    return one->count == other->count && VG_(memcmp)(one->places, other->places, one->count * sizeof(Addr)) == 0;
}

/* A frame without the address that it begins with. */
static const HChar *without_address(const HChar *text)
{
    const HChar *name = VG_(strstr)(text, ": ");

    return name && VG_(strncmp)(text, "0x", 2) == 0 ? name + 2 : text;
}

const HChar *place_text(Addr place)
{
    return without_address(VG_(describe_IP)(VG_(current_DiEpoch)(), place, NULL));
}

static void put_frames(const struct frames *frames)
{
    DiEpoch epoch = VG_(current_DiEpoch)();
    Int left = settings.stacks;
    UInt i;

    for (i = 0; i < frames->count && left > 0; i++) {
        InlIPCursor *cursor = VG_(new_IIPC)(epoch, frames->places[i]);
        do {
            put_field(without_address(VG_(describe_IP)(epoch, frames->places[i], cursor)));
        } while (--left > 0 && VG_(next_IIPC)(cursor));
        VG_(delete_IIPC)(cursor);
        if (VG_(get_fnname_kind_from_IP)(epoch, frames->places[i]) == Vg_FnNameMain)
            break;
    }
}

static void put_section(struct section *section)
{
    HChar text[64];

    if (section->number == current)
        return;
    current = section->number;
    VG_(snprintf)(text, sizeof text, "PMT.SECTION;%llu\n", current);
    put(text);
}

static void put_record(struct section *section, const HChar *text, const struct frames *frames)
{
    put_section(section);
    put(text);
    put_frames(frames);
    put("\n");
}

static void put_span(struct section *section, Bool is_store, Addr start, Addr end, const struct frames *frames)
{
    HChar text[96];

    if (is_store)
        VG_(snprintf)(text, sizeof text, "STORE;0x%lx;0x0;0x%lx", start, end - start);
    else
        VG_(snprintf)(text, sizeof text, "FLUSH;0x%lx;0x%lx", start, end - start);
    put_record(section, text, frames);
}

/* What is pending goes out, before any other record. */
static void settle(void)
{
    enum pending_kind kind = pending.kind;

    pending.kind = NOTHING;
    if (kind != NOTHING)
        put_span(pending.section, kind == STORES, pending.start, pending.end, &pending.frames);
}

static void begin_pending(enum pending_kind kind, struct section *section, Addr place, Addr start, Addr end,
    const struct frames *frames)
{
    settle();
    ignored_are_told(section);
    pending.kind = kind;
    pending.section = section;
    pending.place = place;
    pending.start = start;
    pending.end = end;
    pending.frames = *frames;
}

/* Whether what is pending goes on at this address. */
static Bool goes_on(enum pending_kind kind, struct section *section, Addr start, const struct frames *frames)
{
    return pending.kind == kind && pending.section == section && pending.end == start &&
        pending.end - pending.start < LONGEST_MERGED && same_frames(&pending.frames, frames);
}

void record_text(struct section *section, Addr place, const HChar *text)
{
    struct frames frames;

    take_frames(place, &frames);
    settle();
    ignored_are_told(section);
    put_record(section, text, &frames);
}

void record(struct section *section, Addr place, const HChar *format, ...)
{
    HChar text[256];
    va_list words;

    va_start(words, format);
    VG_(vsnprintf)(text, sizeof text, format, words);
    va_end(words);
    record_text(section, place, text);
}

void record_store(struct section *section, Addr place, Addr start, Addr end, Bool is_repeated)
{
    struct frames frames;

    take_frames(place, &frames);
    if (is_repeated && pending.place == place && goes_on(STORES, section, start, &frames)) {
        pending.end = end;
        return;
    }
    begin_pending(STORES, section, place, start, end, &frames);
    if (!is_repeated)
        settle();
}

void record_flush(struct section *section, Addr place, Addr start, Addr end)
{
    struct frames frames;

    take_frames(place, &frames);
    if (goes_on(FLUSHES, section, start, &frames))
        pending.end = end;
    else
        begin_pending(FLUSHES, section, place, start, end, &frames);
}

/* A store that passes by the cache is written back as it is made. The write-back stands behind a run of such stores. */
void record_non_temporal(struct section *section, Addr place, Addr start, Addr end)
{
    Addr first = start & ~(Addr)(LINE - 1), behind = (end + LINE - 1) & ~(Addr)(LINE - 1);
    struct frames frames;

    take_frames(place, &frames);
    if (pending.kind == PASSED_BY && pending.section == section && first >= pending.start && first <= pending.end) {
        put_span(section, True, start, end, &frames);
        pending.end = behind > pending.end ? behind : pending.end;
        return;
    }
    settle();
    ignored_are_told(section);
    put_span(section, True, start, end, &frames);
    begin_pending(PASSED_BY, section, place, first, behind, &frames);
}

void records_end(void)
{
    settle();
    write_out();
}
