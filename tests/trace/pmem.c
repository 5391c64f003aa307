/* Appends to a pool by libpmem: pmem POOL TIMES [drain]: with this word one drain is left out, at the third append. */
#include <libpmem.h>
#include <stdint.h>
#include <stdio.h>
#include <stdlib.h>
#include <string.h>
#include "pmfarm_markers.h"

struct pool {
    uint64_t tail;
    char rest_of_the_line[56];
    char records[8][256];
};

static struct pool *pool;

static void append(const char *text, int is_drained)
{
    char *record = pool->records[pool->tail % 8];

    pmem_memcpy(record, text, 256, PMEM_F_MEM_NODRAIN | (pool->tail % 2 ? PMEM_F_MEM_NONTEMPORAL : PMEM_F_MEM_TEMPORAL));
    if (is_drained)
        pmem_drain();
    pool->tail++;
    PMFARM_ORDERED(record, 256, &pool->tail, sizeof pool->tail);
    pmem_persist(&pool->tail, sizeof pool->tail);
    PMFARM_PERSIST(record, 256);
    PMFARM_PERSIST(&pool->tail, sizeof pool->tail);
}

int main(int count, char **words)
{
    static char text[256] = "a record";
    size_t length;
    int is_pmem, i;

    pool = count > 2 ? pmem_map_file(words[1], sizeof *pool, PMEM_FILE_CREATE, 0666, &length, &is_pmem) : NULL;
    if (!pool || !is_pmem)
        return 9;
    pool->tail = 0;
    pmem_persist(&pool->tail, sizeof pool->tail);
    for (i = 0; i < atoi(words[2]); i++)
        append(text, !(count > 3 && i == 2));
    pmem_unmap(pool, length);
    return 0;
}
