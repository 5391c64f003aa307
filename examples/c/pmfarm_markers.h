/* Markers of pmfarm for a program in C or C++. docs/GUIDE.md tells how to use them.
 *
 * Under tools/trace or pmemcheck (where <valgrind/pmemcheck.h> is there, as in trace/include, or by -DPMFARM_VALGRIND=1) a marker is a
 * record of that tool's log, which sees stores, write-backs and fences by itself. Else (or by -DPMFARM_VALGRIND=0) the program tells these too,
 * and all records go to the FILE * that PMFARM_FILE names, standard output if nothing does.
 *
 * Define before the include, where wanted:
 *   PMFARM_FILE         the FILE * of the records
 *   PMFARM_ADDRESS(p)   the number that stands for a pointer in the records, so that each run has the same
 *   PMFARM_OF_THREAD    the number of this thread's section, told before each record, so that threads may share the file;
 *                       PMFARM_SECTION, which the next record would undo, is refused then by the compiler
 * PMFARM_ADDRESS and PMFARM_OF_THREAD are not for these tools, which write true addresses; pmemcheck does not tell its threads apart. */
#ifndef PMFARM_MARKERS_H
#define PMFARM_MARKERS_H

#include <stdint.h>
#include <stdio.h>

#ifndef PMFARM_VALGRIND
#define PMFARM_VALGRIND 0
#ifdef __has_include
#if __has_include(<valgrind/pmemcheck.h>)
#undef PMFARM_VALGRIND
#define PMFARM_VALGRIND 1
#endif
#endif
#endif

#if PMFARM_VALGRIND
#include <valgrind/pmemcheck.h>
#undef PMFARM_ADDRESS
#define PMFARM_RECORD(...) \
    do { \
        char pmfarm_record[128]; \
        snprintf(pmfarm_record, sizeof pmfarm_record, __VA_ARGS__); \
        VALGRIND_PMC_EMIT_LOG(pmfarm_record); \
    } while (0)
#define PMFARM_POOL(p, size) ((void)VALGRIND_PMC_REGISTER_PMEM_MAPPING(p, size))
#define PMFARM_STORE(p, size) ((void)0)
#define PMFARM_FLUSH(p, size) ((void)0)
#define PMFARM_FENCE() ((void)0)
#else
#ifndef PMFARM_FILE
#define PMFARM_FILE stdout
#endif
#ifdef PMFARM_OF_THREAD
#define PMFARM_RECORD(...) \
    do { \
        char pmfarm_record[128]; \
        snprintf(pmfarm_record, sizeof pmfarm_record, __VA_ARGS__); \
        fprintf(PMFARM_FILE, "PMT.SECTION;%llu|%s\n", (unsigned long long)(PMFARM_OF_THREAD), pmfarm_record); \
    } while (0)
#else
#define PMFARM_RECORD(...) ((void)fprintf(PMFARM_FILE, __VA_ARGS__), (void)fputc('\n', PMFARM_FILE))
#endif
#define PMFARM_POOL(p, size) ((void)0)
#define PMFARM_STORE(p, size) PMFARM_RECORD("STORE;0x%llx;0x0;0x%llx", PMFARM_SPAN(p, size))
#define PMFARM_FLUSH(p, size) PMFARM_RECORD("FLUSH;0x%llx;0x%llx", PMFARM_SPAN(p, size))
#define PMFARM_FENCE() PMFARM_RECORD("FENCE")
#endif

#ifndef PMFARM_ADDRESS
#define PMFARM_ADDRESS(p) ((uintptr_t)(p))
#endif
#define PMFARM_SPAN(p, size) (unsigned long long)PMFARM_ADDRESS(p), (unsigned long long)(size)

/* The last stores of these bytes are durable; those of the first bytes were, before the last stores of the second were made. */
#define PMFARM_PERSIST(p, size) PMFARM_RECORD("PMT.PERSIST;0x%llx;0x%llx", PMFARM_SPAN(p, size))
#define PMFARM_ORDERED(p, size, q, size_of_q) \
    PMFARM_RECORD("PMT.ORDERED;0x%llx;0x%llx;0x%llx;0x%llx", PMFARM_SPAN(p, size), PMFARM_SPAN(q, size_of_q))

/* The bytes are out of every later check; they are back in. */
#define PMFARM_EXCLUDE(p, size) PMFARM_RECORD("PMT.EXCLUDE;0x%llx;0x%llx", PMFARM_SPAN(p, size))
#define PMFARM_INCLUDE(p, size) PMFARM_RECORD("PMT.INCLUDE;0x%llx;0x%llx", PMFARM_SPAN(p, size))

/* Transactions, the ranges that they back up, and the scopes in which they are checked. */
#define PMFARM_TXBEGIN() PMFARM_RECORD("PMT.TXBEGIN")
#define PMFARM_TXADD(p, size) PMFARM_RECORD("PMT.TXADD;0x%llx;0x%llx", PMFARM_SPAN(p, size))
#define PMFARM_TXEND() PMFARM_RECORD("PMT.TXEND")
#define PMFARM_CHECKSTART() PMFARM_RECORD("PMT.CHECKSTART")
#define PMFARM_CHECKEND() PMFARM_RECORD("PMT.CHECKEND")

/* What follows belongs to this section: one for each thread, or for each operation. */
#if defined(PMFARM_OF_THREAD) && !PMFARM_VALGRIND
#define PMFARM_SECTION(number) PMFARM_SECTION_is_not_for_PMFARM_OF_THREAD /* (no such name, so that the compiler refuses it) */
#else
#define PMFARM_SECTION(number) PMFARM_RECORD("PMT.SECTION;%llu", (unsigned long long)(number))
#endif

#endif
