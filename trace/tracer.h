/* SPDX-License-Identifier: GPL-2.0-or-later */
/* What the parts of the tracer say to one another. */
#ifndef PMFARM_TRACER_H
#define PMFARM_TRACER_H

#include "pub_tool_basics.h"
#include "pub_tool_xarray.h"

enum { LINE = 64, PAGE = 4096, MAX_STACKS = 32 };

/* main.c: the words of the command line, and what the user is told. */

struct settings {
    Int stacks; /* how many frames a record ends in */
    Bool persist_at_end;
    Bool fence_behind_clflush;
    Bool fence_before_lock;
    Bool section_of_each_thread;
    XArray *prefixes;      /* of const HChar *: the paths of persistent memory */
    const HChar *log;      /* its absolute path, where it is a file */
    Int log_file;          /* its descriptor */
    Int held;              /* one that stays open until the process ends; below 0: none */
};

extern struct settings settings;

void say(const HChar *format, ...) PRINTF_CHECK(1, 2);

/* A verdict could be wrong by this: the run ends in status 4, and no command takes the log. */
void say_fault(const HChar *format, ...) PRINTF_CHECK(1, 2);
Bool had_a_fault(void);

/* Whether it is the first time for this of the subjects that are told once. */
enum subject { EXEC, EXEC_OF_FORK, UNKNOWN_INSTRUCTION, STRANGE_WRITE_BACK, SHARED_SECTION, NUMBERED_TRANSACTION, MOVED, ALIAS, REUSED, FORKED,
    NO_TEXT, SUBJECTS };
Bool is_first(enum subject subject);
Bool is_fork(void);
void open_log_of_fork(void);
void refuse_log_of_parent(const HChar *why);

void *room(SizeT size); /* memory, cleared */
XArray *array_of(SizeT size);
__attribute__((noreturn)) void stop(void); /* at once, with status 4 */

/* threads.c: threads and their sections. */

struct span {
    Addr start, end;
};

struct section {
    ULong number;
    UInt owner;        /* the thread whose it is */
    XArray *excluded;  /* of struct span: what is clean, by request, until it is stored to */
    Word ignored_told; /* how many of the spans that no transaction backs up were told here */
    Bool has_acts; /* stores, write-backs or fences */
    Bool is_in_scope; /* that the program itself has opened */
};

struct thread {
    UInt serial; /* from 0, never again */
    struct section *section;
    UInt depth;      /* of its transactions */
    Bool has_opened; /* a scope, around them */
    XArray *pending; /* of struct line *: written back, and not fenced */
};

void threads_begin(void);
struct thread *thread_now(void);
struct thread *thread_that_acts(void); /* which stores, writes back or fences in its section */
struct thread *thread_of(ThreadId tid);
void enter_section(struct thread *thread, ULong number);
XArray *all_sections(void); /* of struct section * */
void sections_are_of_child(void);

/* ranges.c: the memory that is persistent. */

struct range {
    Addr start, end;
    UInt file;       /* 0: none */
    ULong offset;    /* of its start, in the file */
    Bool is_lasting; /* told by hand, whatever is mapped there */
    XArray *stored;  /* of struct section *: those that stored to it */
};

extern ULong hull_low, hull_size; /* an address a is near a range only where a - hull_low < hull_size */

void ranges_begin(void);
void range_add(Addr start, Addr end, UInt file, ULong offset);
void lasting_range_add(Addr start, Addr end);
void range_remove(Addr start, Addr end);
UInt file_of(ULong device, ULong node);
struct range *range_behind(Addr address); /* the first that ends behind it, or none */
Word range_covers(Addr start, Addr end);  /* 0: nothing of the span, 1: all, 2: some */
Bool had_a_range(void);
void persist_ranges(void); /* asserts, at the end, what is left */
void range_stored(struct range *range, struct section *section);
void ranges_are_of_child(void);

/* lines.c: the cache lines that were stored to, by their place in a file. */

struct line {
    Addr address; /* where it was stored to last; 0: never */
    Addr place;   /* the instruction that did */
    UInt thread;  /* the thread that did */
    Bool is_dirty, is_pending;
};

void lines_begin(void);
struct line *line_at(const struct range *range, Addr address);
void line_is_stored(struct line *line, const struct range *range, Addr address, struct thread *thread, Addr place);
void line_is_written_back(struct line *line, struct thread *thread);
void lines_are_written_back(const struct range *range, Addr start, Addr end, struct thread *thread);
void lines_are_fenced(struct thread *thread);
enum touched { UNTOUCHED, SETTLED, OPEN };
enum touched lines_touched(const struct range *range, Addr start, Addr end);
void lines_end(void);

/* records.c: the text of the log. */

void record(struct section *section, Addr place, const HChar *format, ...) PRINTF_CHECK(3, 4);
void record_text(struct section *section, Addr place, const HChar *text);
void record_store(struct section *section, Addr place, Addr start, Addr end, Bool is_repeated);
void record_flush(struct section *section, Addr place, Addr start, Addr end);
void record_non_temporal(struct section *section, Addr place, Addr start, Addr end);
void record_refusal(const HChar *why);
void write_refusal(Int file, const HChar *why);
void write_out(void);
void records_are_of_child(void);
void records_end(void);
const HChar *place_text(Addr place);

/* stores.c, write_backs.c, fences.c: what is logged of each. */

enum store_kind { ORDINARY, REPEATED, NON_TEMPORAL };

void log_store(Addr address, SizeT size, enum store_kind kind, Addr place);
void log_write_back(Addr start, Addr end, Addr place);
void log_fence(Addr place);
ULong stores_logged(void);

/* decode.c: instructions by their bytes. */

enum instruction_kind { OTHER, CLWB, CLFLUSHOPT, CLFLUSH, STORE_FENCE, NON_TEMPORAL_STORE, REPEATED_STRING, TRAP };

struct instruction {
    enum instruction_kind kind;
    UInt length;
    /* the operand of a write-back, in memory */
    Bool has_base, has_index, is_next_based, is_narrow;
    UInt base, index, scale;
    Long displacement;
    UChar segment; /* its prefix, or 0 */
};

void decode(const UChar *bytes, struct instruction *instruction);

/* requests.c: what programs ask of pmemcheck. */

Bool take_request(ThreadId tid, UWord *words, UWord *answer);
void ignored_are_told(struct section *section);
void forget_excluded(Addr start, Addr end);
void exclude_until_stored(struct section *section, Addr place, Addr start, Addr end);
void include_stored(struct section *section, Addr place, Addr start, Addr end);
void requests_begin(void);

/* system_calls.c: mappings, msync, exec. */

void before_call(ThreadId tid, UInt number, UWord *words, UInt count);
void behind_call(ThreadId tid, UInt number, UWord *words, UInt count, SysRes result);

/* instrument.c */

#include "pub_tool_tooliface.h"
IRSB *instrument(VgCallbackClosure *closure, IRSB *block, const VexGuestLayout *layout, const VexGuestExtents *extents,
    const VexArchInfo *host, IRType guest_word, IRType host_word);

#endif
