/* Processes, threads and mappings: lives POOL CASE. */
#include "pool.h"
#include "pmfarm_markers.h"
#include <pthread.h>
#include <signal.h>
#include <sys/wait.h>

static char *pool;
static int file;

static __attribute__((noinline)) void make_durable(char *at, uint64_t value)
{
    store(at, value);
    write_back_line(at);
    fence();
}

static void forked(void)
{
    pid_t child;
    int status;

    make_durable(pool, 1);
    child = fork();
    if (child == 0) {
        make_durable(pool + 64, 2);
        exit(0);
    }
    waitpid(child, &status, 0);
    make_durable(pool + 128, 3);
    exit(WEXITSTATUS(status));
}

/* (the child is not told in the status of its parent) */
static void forked_and_moved(void)
{
    pid_t child = fork();

    if (child == 0) {
        store(pool, 1);
        mremap(pool, POOL_SIZE, POOL_SIZE, MREMAP_MAYMOVE | MREMAP_FIXED, POOL + 0x100000);
        exit(0);
    }
    waitpid(child, NULL, 0);
}

/* (as a daemon, which closes what it was given) */
static void orphaned(void)
{
    int it;

    make_durable(pool, 1);
    if (fork() == 0) {
        for (it = 0; it < 256; it++)
            close(it);
        usleep(700000);
        store(pool + 64, 2);
    }
    exit(0);
}

/* (a log of some 30,000 bytes) */
static void forked_and_busy(void)
{
    pid_t child = fork();
    int i;

    for (i = 0; child == 0 && i < 500; i++)
        make_durable(pool, i);
    waitpid(child, NULL, 0);
}

static void started(void)
{
    store(pool, 1);
    execl("/bin/true", "true", NULL);
}

/* (what is told of the log before has no status of its own then) */
static void moved_and_started(void)
{
    store(pool, 1);
    mremap(pool, POOL_SIZE, POOL_SIZE, MREMAP_MAYMOVE | MREMAP_FIXED, POOL + 0x100000);
    execl("/bin/true", "true", NULL);
}

static void *in_thread(void *at)
{
    make_durable(at, 1);
    return NULL;
}

static void run_thread(char *at)
{
    pthread_t thread;

    if (pthread_create(&thread, NULL, in_thread, at) != 0 || pthread_join(thread, NULL) != 0)
        fail("thread");
}

/* (the second thread gets the number that Valgrind gave the first) */
static void threads(void)
{
    make_durable(pool, 1);
    run_thread(pool + 64);
    run_thread(pool + 128);
    make_durable(pool + 192, 1);
}

static void one_line(void)
{
    make_durable(pool, 1);
    run_thread(pool + 8);
}

static void unmapped(void)
{
    make_durable(pool, 1);
    munmap(pool, 4096);
    make_durable(pool + 4096, 2);
    munmap(pool + 4096, POOL_SIZE - 4096);
    mmap(pool, 4096, PROT_READ | PROT_WRITE, MAP_PRIVATE | MAP_ANONYMOUS | MAP_FIXED, -1, 0);
    store(pool, 3);
}

static void mapped_again(void)
{
    make_durable(pool, 1);
    munmap(pool, POOL_SIZE);
    make_durable(map_at(POOL + 0x100000, file, MAP_SHARED) + 64, 1);
}

/* What is not durable yet is at another address then. */
static void mapped_again_open(void)
{
    store(pool, 1);
    munmap(pool, POOL_SIZE);
    map_at(POOL + 0x100000, file, MAP_SHARED);
}

/* What was not is durable, once it was back at its address. */
static void mapped_back(void)
{
    store(pool, 1);
    munmap(pool, POOL_SIZE);
    make_durable(map_at(POOL, file, MAP_SHARED), 2);
    munmap(pool, POOL_SIZE);
    make_durable(map_at(POOL + 0x100000, file, MAP_SHARED), 3);
    munmap(pool + 0x100000, POOL_SIZE);
    close(file);
    file = open("/proc/self/exe", O_RDONLY);
    mmap(pool, POOL_SIZE, PROT_READ, MAP_SHARED | MAP_FIXED, file, 0);
}

static void mapped_twice(void)
{
    char *second = map_at(POOL + 0x100000, file, MAP_SHARED);

    make_durable(pool, 1);
    make_durable(second + 64, 1);
}

static void moved(void)
{
    make_durable(pool, 1);
    if (mremap(pool, POOL_SIZE, POOL_SIZE, MREMAP_MAYMOVE | MREMAP_FIXED, POOL + 0x100000) == MAP_FAILED)
        fail("mremap");
}

static void shrunk(void)
{
    make_durable(pool, 1);
    if (mremap(pool, POOL_SIZE, 4096, 0) == MAP_FAILED)
        fail("mremap");
    make_durable(pool + 64, 1);
}

static void private(void)
{
    make_durable(map_at(POOL + 0x100000, file, MAP_PRIVATE), 1);
}

static void synchronized(void)
{
    store(pool, 1);
    msync(pool, 100, MS_ASYNC);
    store(pool + 8, 1);
    msync(pool, 100, MS_SYNC);
}

static void killed(void)
{
    int i;

    for (i = 0; i < 10; i++)
        make_durable(pool + 64 * i, 1);
    store(pool, 1);
    kill(getpid(), SIGKILL);
}

/* Sections of its own, and a transaction in a scope of its own and in none. */
static void marking(void)
{
    PMFARM_SECTION(7);
    make_durable(pool, 1);
    PMFARM_CHECKSTART();
    VALGRIND_DO_CLIENT_REQUEST_STMT(0x50430012, 0, 0, 0, 0, 0);
    VALGRIND_DO_CLIENT_REQUEST_STMT(0x50430014, 0, 0, 0, 0, 0);
    PMFARM_CHECKEND();
    VALGRIND_DO_CLIENT_REQUEST_STMT(0x50430012, 0, 0, 0, 0, 0);
    VALGRIND_DO_CLIENT_REQUEST_STMT(0x50430012, 0, 0, 0, 0, 0);
    VALGRIND_DO_CLIENT_REQUEST_STMT(0x50430014, 0, 0, 0, 0, 0);
    VALGRIND_DO_CLIENT_REQUEST_STMT(0x50430014, 0, 0, 0, 0, 0);
    PMFARM_EXCLUDE(pool, 8);
}

/* What is clean is out until it is stored to, and so is a part that is removed; a transaction needs no backup of what is ignored. */
static void requesting(void)
{
    make_durable(pool, 1);
    VALGRIND_DO_CLIENT_REQUEST_STMT(0x50430011, pool, 64, 0, 0, 0);
    VALGRIND_DO_CLIENT_REQUEST_STMT(0x5043001c, pool + 32, 64, 0, 0, 0);
    store(pool + 28, 1);
    VALGRIND_DO_CLIENT_REQUEST_STMT(0x50430002, pool, 8, 0, 0, 0);
    store(pool, 1);
    run_thread(pool + 128);
    munmap(pool, POOL_SIZE);
}

static void *in_turn(void *at)
{
    PMFARM_SECTION(2);
    return in_thread(at);
}

/* Threads that take turns, each in a section that it tells. */
static void turning(void)
{
    pthread_t thread;

    PMFARM_SECTION(1);
    make_durable(pool, 1);
    if (pthread_create(&thread, NULL, in_turn, pool + 64) != 0 || pthread_join(thread, NULL) != 0)
        fail("thread");
    PMFARM_SECTION(3);
    make_durable(pool + 128, 1);
}

/* A section that a thread has records in is told by another. */
static void taking(void)
{
    run_thread(pool);
    PMFARM_SECTION(1);
    store(pool + 64, 1);
}

/* (until it is killed from outside) */
static void waiting(void)
{
    make_durable(pool, 1);
    make_durable(pool + 64, 1);
    store(pool + 128, 1);
    pause();
}

static void aborted(void)
{
    make_durable(pool, 1);
    store(pool + 64, 1);
    abort();
}

static void unknown(void)
{
    store(pool, 1);
    __asm__ volatile(".byte 0x62, 0xf1, 0xfd, 0x48, 0x6f, 0x00"); /* (of AVX-512) */
}

static void neighbours(void)
{
    int i;

    memset(pool, 1, 1024);
    for (i = 0; i < 16; i++)
        write_back_line(pool + 64 * i);
    write_back_line(pool + 960);
    fence();
    __asm__ volatile("lfence; mfence" : : : "memory");
}

static void locked(void)
{
    __atomic_fetch_add((uint64_t *)pool, 1, __ATOMIC_SEQ_CST);
    __asm__ volatile("clflush (%0)" : : "r"(pool) : "memory");
}

static void talking(void)
{
    printf("said\n");
    fflush(stdout);
    make_durable(pool, 1);
    exit(7);
}

/* What the processor says that it has: CLFLUSHOPT and CLWB. */
static void asking(void)
{
    unsigned a = 7, b, c = 0, d;

    __asm__ volatile("cpuid" : "+a"(a), "=b"(b), "+c"(c), "=d"(d));
    exit((b >> 23 & 3) == 3 ? 0 : 8);
}

static void nothing(void) {}

int main(int count, char **words)
{
    static const struct {
        const char *name;
        void (*run)(void);
    } cases[] = {{"fork", forked}, {"forkmove", forked_and_moved}, {"orphan", orphaned}, {"forkbusy", forked_and_busy}, {"exec", started}, {"moveexec", moved_and_started}, {"threads", threads}, {"line", one_line}, {"unmap", unmapped},
        {"again", mapped_again}, {"open", mapped_again_open}, {"back", mapped_back}, {"twice", mapped_twice}, {"move", moved}, {"shrink", shrunk},
        {"private", private}, {"msync", synchronized}, {"kill", killed}, {"wait", waiting}, {"abort", aborted}, {"unknown", unknown},
        {"neighbours", neighbours}, {"locked", locked}, {"talk", talking}, {"mark", marking}, {"request", requesting}, {"take", taking}, {"turn", turning}, {"ask", asking}, {"nothing", nothing}};
    size_t i;

    if (count != 3)
        return 9;
    file = open_file(words[1]);
    pool = map_at(POOL, file, MAP_SHARED);
    for (i = 0; i < sizeof cases / sizeof *cases; i++)
        if (strcmp(cases[i].name, words[2]) == 0) {
            cases[i].run();
            return 0;
        }
    return 9;
}
