/* A log in persistent memory: records behind one another, and a tail that says how far they reach.
 *
 *     append_log POOL > LOG
 *
 * appends three records to a new pool, the file POOL, and writes what it did as a log for `pmfarm check`. A record has to be
 * durable before the tail that counts it is stored: a crash between may else show a tail with nothing below it. With
 * -DMISSING_FENCE the fence that sees to it is left out. It writes back by CLFLUSH, which every x86-64 processor has; on real
 * hardware CLFLUSH itself is ordered with stores, so the missing fence matters where CLWB or CLFLUSHOPT takes its place, whose
 * rules pmfarm checks. */
#define _POSIX_C_SOURCE 200809L
#include <fcntl.h>
#include <immintrin.h>
#include <stdint.h>
#include <stdio.h>
#include <string.h>
#include <sys/mman.h>
#include <unistd.h>

struct record {
    uint64_t number;
    char text[16];
};

struct pool {
    uint64_t tail; /* how many records there are */
    char rest_of_the_line[56];
    struct record records[100];
};

static struct pool *pool;

/* The pool stands at 0x10000 in the log, wherever it is mapped. */
#define PMFARM_ADDRESS(p) ((uintptr_t)(p) - (uintptr_t)pool + 0x10000)
#include "pmfarm_markers.h"

static void write_back(const void *bytes, size_t size)
{
    uintptr_t line = (uintptr_t)bytes & ~(uintptr_t)63;

    for (; line < (uintptr_t)bytes + size; line += 64) {
        _mm_clflush((const void *)line);
        PMFARM_FLUSH(line, 64);
    }
}

static void fence(void)
{
    _mm_sfence();
    PMFARM_FENCE();
}

static void append(const char *text)
{
    uint64_t tail = pool->tail;
    struct record *record = &pool->records[tail];
    struct record filled = {tail + 1, {0}};

    strncpy(filled.text, text, sizeof filled.text - 1);
    memcpy(record, &filled, sizeof filled);
    PMFARM_STORE(record, sizeof *record);
    write_back(record, sizeof *record);
#ifndef MISSING_FENCE
    fence();
#endif
    __atomic_store_n(&pool->tail, tail + 1, __ATOMIC_RELEASE);
    PMFARM_STORE(&pool->tail, sizeof pool->tail);
    PMFARM_ORDERED(record, sizeof *record, &pool->tail, sizeof pool->tail);
    write_back(&pool->tail, sizeof pool->tail);
    fence();
    PMFARM_PERSIST(record, sizeof *record);
    PMFARM_PERSIST(&pool->tail, sizeof pool->tail);
}

int main(int count, char **words)
{
    int file = count == 2 ? open(words[1], O_RDWR | O_CREAT | O_TRUNC, 0666) : -1;
    void *mapped = MAP_FAILED;

    if (file >= 0 && ftruncate(file, sizeof *pool) == 0)
        mapped = mmap(NULL, sizeof *pool, PROT_READ | PROT_WRITE, MAP_SHARED, file, 0);
    if (mapped == MAP_FAILED) {
        fprintf(stderr, "usage: append_log POOL > LOG\n");
        return 2;
    }
    pool = (struct pool *)mapped;
    PMFARM_POOL(pool, sizeof *pool);
    append("one");
    append("two");
    append("three");
    return fflush(stdout) == 0 ? 0 : 1;
}
