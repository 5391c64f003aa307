/* SPDX-License-Identifier: GPL-2.0-or-later */
/* The frame of the tool: its words, its beginning and end, forks, and what the user is told. */
#include "tracer.h"
#include "pub_tool_clientstate.h"
#include "pub_tool_libcassert.h"
#include "pub_tool_libcbase.h"
#include "pub_tool_libcfile.h"
#include "pub_tool_libcprint.h"
#include "pub_tool_libcproc.h"
#include "pub_tool_machine.h"
#include "pub_tool_mallocfree.h"
#include "pub_tool_options.h"
#include "pub_tool_vki.h"

/* (of the core: a descriptor where the program can't reach it) */
extern Int VG_(safe_fd)(Int descriptor);

enum { FAULT = 4, LONGEST_FAULT = 1024 };

struct settings settings = {0, False, False, False, True, NULL, NULL, -1, -1};

/* In a fork: the log of its parent. Who reads that has not seen its end while the fork runs. */
static Int log_of_parent = -1;

static Bool is_told[SUBJECTS];
static Bool has_fault, is_child;

Bool is_first(enum subject subject)
{
    Bool first = !is_told[subject];

    is_told[subject] = True;
    return first;
}

static void say_words(const HChar *format, va_list words)
{
    VG_(printf)("trace: ");
    VG_(vprintf)(format, words);
    VG_(printf)("\n");
    VG_(message_flush)();
}

void say(const HChar *format, ...)
{
    va_list words;

    va_start(words, format);
    say_words(format, words);
    va_end(words);
}

void say_fault(const HChar *format, ...)
{
    HChar text[LONGEST_FAULT];
    va_list words;

    has_fault = True;
    va_start(words, format);
    VG_(vsnprintf)(text, sizeof text, format, words);
    va_end(words);
    say("%s", text);
    if (is_child && !settings.log)
        refuse_log_of_parent(text);
    else
        record_refusal(text);
}

Bool had_a_fault(void)
{
    return has_fault;
}

void *room(SizeT size)
{
    void *made = VG_(malloc)("pmfarm", size);

    VG_(memset)(made, 0, size);
    return made;
}

XArray *array_of(SizeT size)
{
    return VG_(newXA)(VG_(malloc), "pmfarm.array", VG_(free), size);
}

void stop(void)
{
    VG_(exit)(FAULT);
}

static Bool take_range(const HChar *text)
{
    HChar *end;
    ULong first = VG_(strtoull16)(text, &end), size;

    if (*end != ';')
        return False;
    size = VG_(strtoull10)(end + 1, &end);
    if (*end || size == 0)
        return False;
    lasting_range_add(first, first + size);
    return True;
}

static Bool take_word(const HChar *word)
{
    const HChar *text;

    if (VG_STR_CLO(word, "--pmf-log", settings.log)) {
    } else if (VG_INT_CLO(word, "--pmf-file", settings.log_file)) {
    } else if (VG_INT_CLO(word, "--pmf-hold", settings.held)) {
    } else if (VG_STR_CLO(word, "--pmf-path", text)) {
        VG_(addToXA)(settings.prefixes, &text);
    } else if (VG_STR_CLO(word, "--pmf-range", text)) {
        if (!take_range(text))
            VG_(fmsg_bad_option)(word, "no range\n");
    } else if (VG_BINT_CLO(word, "--pmf-stacks", settings.stacks, 0, MAX_STACKS)) {
    } else if (VG_BOOL_CLO(word, "--pmf-persist-at-end", settings.persist_at_end)) {
    } else if (VG_BOOL_CLO(word, "--pmf-clflush-fence", settings.fence_behind_clflush)) {
    } else if (VG_BOOL_CLO(word, "--pmf-lock-fence", settings.fence_before_lock)) {
    } else if (VG_BOOL_CLO(word, "--pmf-sections", settings.section_of_each_thread)) {
    } else {
        return False;
    }
    return True;
}

static void no_usage(void)
{
    VG_(printf)("    tools/trace --help tells the words\n");
}

Bool is_fork(void)
{
    return is_child;
}

/* A fork has a log of its own where the log is a file, from its first record on, and else none. */
void open_log_of_fork(void)
{
    HChar path[VKI_PATH_MAX + 16];
    SysRes opened;

    if (!settings.log)
        return;
    VG_(snprintf)(path, sizeof path, "%s.%d", settings.log, VG_(getpid)());
    opened = VG_(open)(path, VKI_O_WRONLY | VKI_O_CREAT | VKI_O_TRUNC, 0666);
    if (sr_isError(opened)) {
        say("the log %s can't be opened", path);
        refuse_log_of_parent("the log of a fork can't be opened");
        stop();
    }
    settings.log_file = VG_(safe_fd)(sr_Res(opened));
    say("process %d is a fork, and its log is %s", VG_(getpid)(), path);
}

/* (a fork without a log of its own says in that of its parent that this is not whole) */
void refuse_log_of_parent(const HChar *why)
{
    if (log_of_parent >= 0)
        write_refusal(log_of_parent, why);
}

/* (its log has its own faults, each of which it tells anew) */
static void is_forked(ThreadId tid)
{
    Bool has_told_exec = is_told[EXEC_OF_FORK];

    is_child = True;
    has_fault = False;
    VG_(memset)(is_told, 0, sizeof is_told);
    is_told[EXEC_OF_FORK] = has_told_exec;
    if (settings.log_file >= 0) {
        if (log_of_parent >= 0)
            VG_(close)(log_of_parent);
        log_of_parent = settings.log_file;
    }
    settings.log_file = -1;
    records_are_of_child();
    sections_are_of_child();
    ranges_are_of_child();
}

/* (of all forks the first one alone tells of exec) */
static void has_forked(ThreadId tid)
{
    is_first(EXEC_OF_FORK);
}

/* (before the fork nothing stays in the buffer, so that no process writes it twice) */
static void before_fork(ThreadId tid)
{
    records_end();
}

static void begin(void)
{
    if (settings.log_file < 0) {
        VG_(fmsg)("tools/trace starts this tool\n");
        VG_(exit)(2);
    }
    settings.log_file = VG_(safe_fd)(settings.log_file);
    if (settings.held >= 0)
        settings.held = VG_(safe_fd)(settings.held);
    VG_(atfork)(before_fork, has_forked, is_forked);
}

static void end(Int status)
{
    persist_ranges();
    records_end();
    lines_end();
    if (stores_logged() == 0 && !is_child)
        say("no store to a range was seen: is a file mapped, shared, whose path begins with a prefix of --pmem?");
    if (has_fault)
        stop();
}

/* The kernel writes what the program asked it to: `read` into a range is a store. */
static void kernel_stores(CorePart part, ThreadId tid, Addr address, SizeT size)
{
    if (size && range_covers(address, address + size))
        log_store(address, size, ORDINARY, VG_(get_IP)(tid));
}

static void before_words(void)
{
    VG_(details_name)("pmfarm");
    VG_(details_version)(NULL);
    VG_(details_description)("a log of stores, write-backs and fences");
    VG_(details_copyright_author)("GPL-2.0-or-later");
    VG_(details_bug_reports_to)("the makers of pmfarm");
    VG_(details_avg_translation_sizeB)(500);
    VG_(basic_tool_funcs)(begin, instrument, end);
    VG_(needs_command_line_options)(take_word, no_usage, no_usage);
    VG_(needs_client_requests)(take_request);
    VG_(needs_syscall_wrapper)(before_call, behind_call);
    VG_(track_post_mem_write)(kernel_stores);
    settings.prefixes = array_of(sizeof(const HChar *));
    ranges_begin();
    lines_begin();
    threads_begin();
    requests_begin();
}

VG_DETERMINE_INTERFACE_VERSION(before_words)
