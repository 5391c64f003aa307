/* Each kind of store, of which the pool gets some bytes: stores POOL KIND. */
#include "pool.h"
#include <immintrin.h>
#include <setjmp.h>
#include <signal.h>

static char *pool;
static sigjmp_buf behind_fault;

static void plain(void)
{
    *(volatile uint8_t *)pool = 1;
    *(volatile uint16_t *)(pool + 2) = 1;
    *(volatile uint32_t *)(pool + 4) = 1;
    *(volatile uint64_t *)(pool + 8) = 1;
    __asm__ volatile("addq $1, (%0); lock incl 8(%0); xchg %1, 16(%0)" : : "r"(pool + 64), "r"(7UL) : "memory");
}

static void vectors(void)
{
    __asm__ volatile("pxor %%xmm0, %%xmm0; movups %%xmm0, 1(%0); movaps %%xmm0, 64(%0); movss %%xmm0, 128(%0);"
                     "movhps %%xmm0, 136(%0); fld1; fstpt 192(%0)"
                     : : "r"(pool) : "xmm0", "memory");
}

__attribute__((target("avx"))) static void wide_vectors(void)
{
    __asm__ volatile("vpxor %%xmm0, %%xmm0, %%xmm0; vmovups %%ymm0, 3(%0); vmovaps %%ymm0, 64(%0); vmovups %%xmm0, 128(%0);"
                     "vpcmpeqd %%xmm1, %%xmm1, %%xmm1; vpslldq $12, %%xmm1, %%xmm1; vmaskmovps %%xmm0, %%xmm1, 256(%0)"
                     : : "r"(pool) : "xmm0", "xmm1", "memory");
}

static void strings(void)
{
    static const char from[300];
    const char *source = from;
    char *target = pool + 10;
    unsigned long times = 300;

    __asm__ volatile("rep movsb" : "+S"(source), "+D"(target), "+c"(times) : : "memory");
    target = pool + 512;
    times = 8;
    __asm__ volatile("rep stosq" : "+D"(target), "+c"(times) : "a"(0) : "memory");
    target = pool + 1024;
    times = 0;
    __asm__ volatile("rep stosb" : "+D"(target), "+c"(times) : "a"(0) : "memory");
    target = pool + 1032;
    __asm__ volatile("stosb" : "+D"(target) : "a"(0) : "memory");
}

/* The last of them comes to a line that has a store in the cache: it is not written back by it. */
__attribute__((target("avx"))) static void past_the_cache(void)
{
    __asm__ volatile("movnti %1, (%0); movnti %k1, 8(%0)" : : "r"(pool), "r"(0UL) : "memory");
    fence();
    __asm__ volatile("pxor %%xmm0, %%xmm0; movntdq %%xmm0, 64(%0); movntps %%xmm0, 80(%0); movntpd %%xmm0, 96(%0);"
                     "vmovntdq %%ymm0, 128(%0); vmovntps %%ymm0, 160(%0); vmovntpd %%xmm0, 192(%0)"
                     : : "r"(pool) : "xmm0", "memory");
    fence();
    store(pool + 512, 1);
    __asm__ volatile("movnti %1, 520(%0)" : : "r"(pool), "r"(0UL) : "memory");
    fence();
}

static void swaps(void)
{
    uint64_t wrong = 5, right = 0;
    uint64_t pair[2] = {0, 0};

    __atomic_compare_exchange_n((uint64_t *)pool, &wrong, 6, 0, __ATOMIC_SEQ_CST, __ATOMIC_SEQ_CST);
    __atomic_compare_exchange_n((uint64_t *)(pool + 8), &right, 6, 0, __ATOMIC_SEQ_CST, __ATOMIC_SEQ_CST);
    __asm__ volatile("lock cmpxchg16b 16(%2)" : "+a"(pair[0]), "+d"(pair[1]) : "r"(pool), "b"(1UL), "c"(2UL) : "memory");
    pair[0] = 9;
    __asm__ volatile("lock cmpxchg16b 32(%2)" : "+a"(pair[0]), "+d"(pair[1]) : "r"(pool), "b"(1UL), "c"(2UL) : "memory");
    __atomic_fetch_add((uint32_t *)(pool + 48), 1, __ATOMIC_SEQ_CST);
    __atomic_fetch_or((uint8_t *)(pool + 56), 1, __ATOMIC_SEQ_CST);
}

static void by_the_kernel(void)
{
    int ends[2];

    if (pipe(ends) != 0 || write(ends[1], "12345", 5) != 5 || read(ends[0], pool + 100, 64) != 5)
        fail("read");
}

static void on_fault(int signal)
{
    siglongjmp(behind_fault, 1);
}

/* A store that faults is none. */
static void faulting(void)
{
    signal(SIGSEGV, on_fault);
    store(pool, 1);
    mprotect(pool, 4096, PROT_READ);
    if (!sigsetjmp(behind_fault, 1))
        store(pool + 8, 1);
    mprotect(pool, 4096, PROT_READ | PROT_WRITE);
    store(pool + 16, 1);
}

/* Of stores over the ends of the range the bytes within are logged. */
static void over_the_ends(void)
{
    char *around = mmap(pool - 4096, 4096, PROT_READ | PROT_WRITE, MAP_PRIVATE | MAP_ANONYMOUS | MAP_FIXED_NOREPLACE, -1, 0);

    if (around != pool - 4096)
        fail("mmap");
    store(pool - 8, 1);
    store(pool - 3, 1);
    store(pool + POOL_SIZE - 8, 1);
}

int main(int count, char **words)
{
    static const struct {
        const char *name;
        void (*run)(void);
    } kinds[] = {{"plain", plain}, {"vectors", vectors}, {"wide", wide_vectors}, {"strings", strings}, {"past", past_the_cache},
        {"swaps", swaps}, {"kernel", by_the_kernel}, {"fault", faulting}, {"ends", over_the_ends}};
    size_t i;

    if (count != 3)
        return 9;
    pool = map_at(POOL, open_file(words[1]), MAP_SHARED);
    for (i = 0; i < sizeof kinds / sizeof *kinds; i++)
        if (strcmp(kinds[i].name, words[2]) == 0) {
            kinds[i].run();
            return 0;
        }
    return 9;
}
