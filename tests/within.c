/* Preloaded into a program, this calls the program's `main` for each run that is asked, in one process: to load it anew takes some ten
 * times as long as most runs. `tests/mutate` builds it, and `tests/mutate.c` asks. */
#define _GNU_SOURCE
#include "within.h"

#include <dlfcn.h>
#include <setjmp.h>
#include <sys/resource.h>
#include <sys/socket.h>
#include <sys/syscall.h>
#include <time.h>
#include <unistd.h>

typedef int entry(int, char **, char **);
typedef void hook(void);
typedef int starter(entry *, int, char **, hook *, hook *, hook *, void *);

static entry *program;
static jmp_buf behind;
static volatile int is_running, ended;

/* The end of a run comes back to the loop. */
void _exit(int status)
{
    if (is_running && getpid() == gettid()) {
        ended = status;
        longjmp(behind, 1);
    }
    for (;;)
        syscall(SYS_exit_group, status);
}

static double cpu(void)
{
    struct timespec time;
    clock_gettime(CLOCK_PROCESS_CPUTIME_ID, &time);
    return (double)time.tv_sec + 1e-9 * (double)time.tv_nsec;
}

/* Does one run. The program reads its words where the system put those of the process. */
static struct answered run(struct asked *asked, int count, char **words, char **environment)
{
    struct rusage usage;
    double begun = cpu();
    for (int at = 0; at < asked->count; at++)
        words[at + 1] = asked->words[at];
    words[asked->count + 1] = NULL;
    dup2(asked->input, 0);
    is_running = 1;
    if (!setjmp(behind))
        ended = program(count, words, environment);
    is_running = 0;
    getrusage(RUSAGE_SELF, &usage);
    return (struct answered){ended & 255, cpu() - begun, (size_t)usage.ru_maxrss * 1024};
}

static int serve(int count, char **words, char **environment)
{
    static struct asked asked;
    while (recv(ASKED, &asked, sizeof asked, MSG_WAITALL) == sizeof asked) {
        struct answered answered = run(&asked, count, words, environment);
        if (send(ASKED, &answered, sizeof answered, 0) != sizeof answered)
            break;
    }
    return 0;
}

int __libc_start_main(entry *main, int count, char **words, hook *init, hook *fini, hook *rtld, void *stack)
{
    starter *start = (starter *)dlsym(RTLD_NEXT, "__libc_start_main");
    program = main;
    return start(serve, count, words, init, fini, rtld, stack);
}
