/* Many forks, mappings, threads and records: crowds POOL CASE COUNT. */
#include "pool.h"
#include <pthread.h>
#include <signal.h>
#include <sys/wait.h>

#define THREADS 200

static char *pool;
static int file;

static void make_durable(char *at)
{
    store(at, 1);
    write_back_line(at);
    fence();
}

/* So many children, one after another, each of which ends at once. */
static void forks(int count)
{
    int i, status;

    for (i = 0; i < count; i++) {
        pid_t child = fork();

        if (child == 0)
            _exit(0);
        if (child < 0 || waitpid(child, &status, 0) != child || status != 0)
            fail("fork");
        make_durable(pool + 64 * (i % 64));
    }
}

/* The pool is mapped and unmapped so many times. */
static void mappings(int count)
{
    int i;

    for (i = 0; i < count; i++) {
        make_durable(pool + 64 * (i % 64));
        if (munmap(pool, POOL_SIZE) != 0)
            fail("munmap");
        map_at(POOL, file, MAP_SHARED);
    }
}

static pthread_barrier_t all_there;

static void *in_thread(void *at)
{
    pthread_barrier_wait(&all_there);
    make_durable(at);
    return NULL;
}

/* So many threads at once, each with a line of its own. */
static void threads(int count)
{
    pthread_t made[THREADS];
    int i;

    if (count > THREADS || pthread_barrier_init(&all_there, NULL, count) != 0)
        fail("threads");
    for (i = 0; i < count; i++)
        if (pthread_create(made + i, NULL, in_thread, pool + 64 * i) != 0)
            fail("thread");
    for (i = 0; i < count; i++)
        pthread_join(made[i], NULL);
}

/* It kills itself behind so many records. */
static void records(int count)
{
    int i;

    for (i = 0; i < count; i++) {
        char *at = pool + 64 * (i / 3);

        if (i % 3 == 0)
            store(at, 1);
        else if (i % 3 == 1)
            write_back_line(at);
        else
            fence();
    }
    kill(getpid(), SIGKILL);
}

static void stores(int count)
{
    int i;

    for (i = 0; i < count; i++)
        make_durable(pool + 64 * (i % 64));
}

int main(int count, char **words)
{
    static const struct {
        const char *name;
        void (*run)(int);
    } cases[] = {{"forks", forks}, {"mappings", mappings}, {"threads", threads}, {"records", records}, {"stores", stores}};
    size_t i;

    if (count != 4)
        return 9;
    file = open_file(words[1]);
    pool = map_at(POOL, file, MAP_SHARED);
    for (i = 0; i < sizeof cases / sizeof *cases; i++)
        if (strcmp(cases[i].name, words[2]) == 0) {
            cases[i].run(atoi(words[3]));
            return 0;
        }
    return 9;
}
