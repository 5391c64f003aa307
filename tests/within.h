/* What `tests/mutate.c` asks of a program with `tests/within.c` in it, and its answer. */
#include <stddef.h>

/* The file of both, and the room for the words of a run. */
enum { ASKED = 15, MOST_WORDS = 12, WORD = 48 };

/* A run: the file that is its standard input, and its words. */
struct asked {
    int input, count;
    char words[MOST_WORDS][WORD];
};

/* Its end: seconds of the processor, and the most bytes that the process had so far. */
struct answered {
    int status;
    double cpu;
    size_t memory;
};
