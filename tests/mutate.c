/* Feeds mutated inputs to the program, and judges how each run ends. `tests/mutate` builds and calls it:
 *
 *     mutate PROGRAM WITHIN SEED FIRST RUNS SECONDS FOLDER KIND:FILE..
 *
 * WITHIN is `tests/within.c` as a library: the runs are done in one process, and one that is not right there is done again alone. Where it is
 * empty, each is done alone.
 * A run is named by SEED and its number, from FIRST on, and nothing else changes what it does. RUNS or SECONDS may be 0: no limit.
 * A KIND is `log`, `ledger`, `list`, `schedule` or `right-ledger` (one that `join` takes). What is written: `run ..` for each command, and
 * `wrong ..` for each run that is not right. Where FOLDER is not empty, it gets the inputs of each run, and `words ..` is written, too. */
#define _GNU_SOURCE
#include "within.h"

#include <ctype.h>
#include <errno.h>
#include <fcntl.h>
#include <signal.h>
#include <stdarg.h>
#include <stddef.h>
#include <stdint.h>
#include <stdio.h>
#include <stdlib.h>
#include <string.h>
#include <sys/mman.h>
#include <sys/resource.h>
#include <sys/socket.h>
#include <sys/time.h>
#include <sys/wait.h>
#include <time.h>
#include <unistd.h>

typedef uint64_t u64;
#define COUNT(table) (sizeof(table) / sizeof((table)[0]))

/* The most runs that are told as wrong. */
enum { MOST_TOLD = 200 };
/* The limits of a run: seconds on the clock, and of time, memory and output some and then so much for each byte of input. */
enum { HANG_SECONDS = 20, CROSS_ONE_IN = 50, LONG_ONE_IN = 2000 };
static const double CPU_SECONDS = 1.0, CPU_SECONDS_A_BYTE = 20e-6;
static const size_t MEMORY = 64u << 20, MEMORY_A_BYTE = 400;
static const size_t OUTPUT = 64u << 10, OUTPUT_A_BYTE = 200;
static const size_t USUAL_INPUT = 64u << 10, LONGEST_INPUT = 1u << 20;
/* No run may have more than this, so that a fault of the program does not harm the machine. */
static const rlim_t MOST_MEMORY = 4ull << 30, MOST_OUTPUT = 512u << 20;

/* The kinds of seeds; those before MUTATED are also kinds of input. */
enum { LOG, LEDGER, LIST, SCHEDULE, MUTATED, RIGHT_LEDGER = MUTATED, KINDS };
static const char *const KIND_NAMES[KINDS] = {"log", "ledger", "list", "schedule", "right-ledger"};

/* The files that a run finds open, as /proc/self/fd/N. */
enum { INPUT = 10, SOUND, NOTHING, OUT, ERR };
#define INPUT_FILE "/proc/self/fd/10"
#define SOUND_FILE "/proc/self/fd/11"

/* ---- Texts ---- */

struct text {
    char *at;
    size_t length, room;
};

struct span {
    const char *at;
    size_t length;
};

static void stop(const char *what)
{
    fprintf(stderr, "mutate: %s: %s\n", what, strerror(errno));
    exit(3);
}

static void reserve(struct text *text, size_t room)
{
    if (room <= text->room)
        return;
    text->room = room + room / 2 + 4096;
    text->at = realloc(text->at, text->room);
    if (!text->at)
        stop("memory");
}

static void copy(struct text *to, const char *from, size_t length)
{
    reserve(to, length + 1);
    memcpy(to->at, from, length);
    to->length = length;
}

/* Puts `with` in the place of `gone` bytes at `at`; `with` may lie in the text itself. */
static void put(struct text *text, size_t at, size_t gone, const char *with, size_t length)
{
    static struct text held;
    if (text->length + length > LONGEST_INPUT + gone)
        return;
    copy(&held, with, length);
    reserve(text, text->length + length + 1);
    memmove(text->at + at + length, text->at + at + gone, text->length - at - gone);
    memcpy(text->at + at, held.at, length);
    text->length += length - gone;
}

static int is_equal(struct span span, const char *word)
{
    return span.length == strlen(word) && !memcmp(span.at, word, span.length);
}

static int begins(struct span span, const char *word)
{
    return span.length >= strlen(word) && !memcmp(span.at, word, strlen(word));
}

/* Takes the next text line; at the last one `is_whole` tells whether LF ends it. */
static int next_line(struct span *rest, struct span *line, int *is_whole)
{
    if (!rest->length)
        return 0;
    const char *end = memchr(rest->at, '\n', rest->length);
    *is_whole = end != NULL;
    line->at = rest->at;
    line->length = end ? (size_t)(end - rest->at) : rest->length;
    rest->at += line->length + *is_whole;
    rest->length -= line->length + *is_whole;
    return 1;
}

/* ---- Chance ---- */

static u64 state;

/* The next number of splitmix64. */
static u64 chance(void)
{
    u64 z = state += 0x9e3779b97f4a7c15u;
    z = (z ^ (z >> 30)) * 0xbf58476d1ce4e5b9u;
    z = (z ^ (z >> 27)) * 0x94d049bb133111ebu;
    return z ^ (z >> 31);
}

static size_t pick(size_t count)
{
    return count ? chance() % count : 0;
}

static void begin_chance(u64 seed, u64 number)
{
    state = seed;
    state = chance() ^ number;
    chance();
}

/* A length that is mostly short. */
static size_t short_length(size_t most)
{
    size_t length = 1 + pick((size_t)1 << pick(12));
    return length < most ? length : most;
}

/* ---- Matching ---- */

/* Whether the line is of the pattern: `#` is a decimal number, `@` a hexadecimal one, as they are written, and `*` the printed rest. */
static int matches(struct span line, const char *pattern, u64 *numbers)
{
    const char *at = line.at, *end = line.at + line.length;
    for (; *pattern; pattern++) {
        if (*pattern == '*') {
            for (; at < end; at++)
                if (*at < 0x20 || *at > 0x7e)
                    return 0;
        } else if (*pattern == '#') {
            const char *from = at;
            u64 value = 0;
            while (at < end && isdigit((unsigned char)*at))
                if (__builtin_mul_overflow(value, 10, &value) || __builtin_add_overflow(value, (u64)(*at++ - '0'), &value))
                    return 0;
            if (at == from || (*from == '0' && at - from > 1))
                return 0;
            if (numbers)
                *numbers++ = value;
        } else if (*pattern == '@') {
            const char *from = at + 2;
            if (end - at < 3 || at[0] != '0' || at[1] != 'x')
                return 0;
            for (at = from; at < end && isxdigit((unsigned char)*at) && !isupper((unsigned char)*at);)
                at++;
            if (at == from || at - from > 16 || (*from == '0' && at - from > 1))
                return 0;
        } else if (at == end || *at++ != *pattern) {
            return 0;
        }
    }
    return at == end;
}

/* ---- What a log is, by docs/FORMATS.md ---- */

enum { TOO_FEW, BAD_NUMBER, IS_ZERO, TOO_LARGE, PAST_END, UNKNOWN };
static const char *const CAUSES[] = {
    "too few fields", "bad number", "size is zero", "size is too large", "range ends past 2^63", "unknown marker"};

/* The records: of the fields `a` is an address, `s` the size behind it, `n` a number, and `-` anything. */
static const struct {
    const char *name, *fields;
} RECORDS[] = {
    {"STORE", "a-s"},         {"FLUSH", "as"},         {"FENCE", ""},          {"PMT.PERSIST", "as"},  {"PMT.ORDERED", "asas"},
    {"PMT.EXCLUDE", "as"},    {"PMT.INCLUDE", "as"},   {"PMT.TXBEGIN", ""},    {"PMT.TXADD", "as"},    {"PMT.TXEND", ""},
    {"PMT.CHECKSTART", ""},   {"PMT.CHECKEND", ""},    {"PMT.SECTION", "n"},
};
static const char *const OTHER_NAMES[] = {"START", "STOP", "REGISTER_FILE", "PMT.", "PMT.X", "PMT.PERSISTS", "store", "==7==", "STOER", ""};

enum { SKIPPED, EVENT, MARKER };

struct record {
    int is;
    unsigned causes;
    u64 number;
};

static int number_of(struct span field, u64 *value)
{
    *value = 0;
    if (begins(field, "0x")) {
        if (field.length < 3 || field.length > 18)
            return 0;
        for (size_t i = 2; i < field.length; i++) {
            int c = (unsigned char)field.at[i];
            if (!isxdigit(c))
                return 0;
            *value = *value * 16 + (u64)(isdigit(c) ? c - '0' : tolower(c) - 'a' + 10);
        }
        return 1;
    }
    if (field.length < 1 || field.length > 20)
        return 0;
    for (size_t i = 0; i < field.length; i++) {
        u64 digit = (u64)(field.at[i] - '0');
        if (!isdigit((unsigned char)field.at[i]) || *value > (UINT64_MAX - digit) / 10)
            return 0;
        *value = *value * 10 + digit;
    }
    return 1;
}

/* Takes the next field; there is none behind the last one. */
static int next_field(struct span *rest, struct span *field)
{
    if (!rest->at)
        return 0;
    const char *end = memchr(rest->at, ';', rest->length);
    field->at = rest->at;
    field->length = end ? (size_t)(end - rest->at) : rest->length;
    rest->length -= end ? field->length + 1 : 0;
    rest->at = end ? end + 1 : NULL;
    return 1;
}

/* Reads fields as the pattern says, and gathers each cause that may be told. */
static void read_fields(struct span rest, const char *pattern, struct record *record)
{
    u64 address = 0, value;
    int is_address = 0;
    struct span field;
    for (; *pattern; pattern++) {
        if (!next_field(&rest, &field)) {
            record->causes = 1u << TOO_FEW;
            return;
        }
        if (*pattern == '-')
            continue;
        int is_number = number_of(field, &value);
        if (!is_number)
            record->causes |= 1u << BAD_NUMBER;
        if (*pattern == 'n')
            record->number = value;
        if (*pattern == 'a') {
            address = value;
            is_address = is_number;
        }
        if (*pattern != 's' || !is_number)
            continue;
        if (value == 0)
            record->causes |= 1u << IS_ZERO;
        if (value > (u64)1 << 32)
            record->causes |= 1u << TOO_LARGE;
        if (is_address && (address > (u64)1 << 63 || value > ((u64)1 << 63) - address))
            record->causes |= 1u << PAST_END;
    }
}

static struct span trimmed(struct span span)
{
    while (span.length && (*span.at == ' ' || *span.at == '\t'))
        span.at++, span.length--;
    while (span.length && (span.at[span.length - 1] == ' ' || span.at[span.length - 1] == '\t'))
        span.length--;
    return span;
}

static struct record read_record(struct span rest)
{
    struct record record = {SKIPPED, 0, 0};
    struct span name;
    next_field(&rest, &name);
    for (size_t i = 0; i < COUNT(RECORDS); i++)
        if (is_equal(name, RECORDS[i].name)) {
            record.is = *RECORDS[i].fields == 'n' ? MARKER : EVENT;
            read_fields(rest, RECORDS[i].fields, &record);
            return record;
        }
    if (begins(name, "PMT."))
        record.causes = 1u << UNKNOWN;
    return record;
}

enum { MOST_SECTIONS = 512 };

/* What a log holds up to its first fault, and that fault; where there are more sections than fit, their number is not known. */
struct log_facts {
    u64 records, events, skipped, faulty;
    unsigned causes;
    size_t sections;
    int is_known;
    struct {
        u64 number, events;
    } section[MOST_SECTIONS];
};

static size_t section_of(struct log_facts *facts, u64 number)
{
    size_t i = 0;
    while (i < facts->sections && facts->section[i].number != number)
        i++;
    if (i == MOST_SECTIONS) {
        facts->is_known = 0;
        return 0;
    }
    if (i == facts->sections) {
        facts->section[i].number = number;
        facts->section[i].events = 0;
        facts->sections++;
    }
    return i;
}

static int is_separator(char c)
{
    return c == '|' || c == '\n' || c == '\r';
}

/* Takes the next record that is not empty, without the blanks at its ends. */
static int next_record(struct span *rest, struct span *record)
{
    while (rest->length) {
        size_t length = 0;
        while (length < rest->length && !is_separator(rest->at[length]))
            length++;
        *record = trimmed((struct span){rest->at, length});
        length += length < rest->length;
        rest->at += length;
        rest->length -= length;
        if (record->length)
            return 1;
    }
    return 0;
}

static void read_log(struct span rest, struct log_facts *facts)
{
    struct span text;
    size_t current = MOST_SECTIONS;
    *facts = (struct log_facts){.is_known = 1};
    while (next_record(&rest, &text)) {
        struct record record = read_record(text);
        facts->records++;
        if (record.causes) {
            facts->faulty = facts->records;
            facts->causes = record.causes;
            return;
        }
        if (record.is == SKIPPED)
            facts->skipped++;
        if (record.is == MARKER)
            current = section_of(facts, record.number);
        if (record.is == EVENT) {
            if (current == MOST_SECTIONS)
                current = section_of(facts, 0);
            facts->section[current].events++;
            facts->events++;
        }
    }
}

/* ---- What a ledger is, but for whether its rows are right ---- */

struct ledger_facts {
    u64 faulty, blocks;
    unsigned causes;
    int is_rising;
};

/* A word and a number, as a block's first text line and a ledger's last one have them: 1 to 20 decimal digits. */
static int take_number(struct span *rest, const char *word, u64 *value)
{
    if (!begins(*rest, word))
        return 0;
    rest->at += strlen(word);
    rest->length -= strlen(word);
    size_t digits = 0;
    while (digits < rest->length && isdigit((unsigned char)rest->at[digits]))
        digits++;
    if (!number_of((struct span){rest->at, digits}, value))
        return 0;
    rest->at += digits;
    rest->length -= digits;
    return 1;
}

static int is_head(struct span line, u64 head[4])
{
    return take_number(&line, "section ", head) && take_number(&line, ".", head + 1) && take_number(&line, " events=", head + 2) &&
           take_number(&line, " rows=", head + 3) && !line.length;
}

/* Whether a ledger may have this event; if not, the causes that may be told, or none for `not a ledger`. */
static int is_ledger_event(struct span line, unsigned *causes)
{
    *causes = 0;
    for (size_t i = 0; i < line.length; i++)
        if (is_separator(line.at[i]))
            return 0;
    line = trimmed(line);
    if (!line.length)
        return 0;
    struct record record = read_record(line);
    *causes = record.is == MARKER ? 0 : record.causes;
    return record.is == EVENT && !record.causes;
}

/* Finds the first text line that is not a ledger's, and whether the names rise up to there. */
static void read_ledger(struct span rest, struct ledger_facts *facts)
{
    struct span line;
    int is_whole;
    u64 head[4], before[2] = {0, 0}, events = 0, rows = 0, at = 0;
    *facts = (struct ledger_facts){.is_rising = 1};
    while (next_line(&rest, &line, &is_whole)) {
        at++;
        facts->faulty = at;
        if (!is_whole)
            return;
        if (at == 1) {
            if (!is_equal(line, "PMFARM-LEDGER 1") && !is_equal(line, "PMFARM-LEDGER 2"))
                return;
        } else if (events) {
            if (!is_ledger_event(line, &facts->causes))
                return;
            events--;
        } else if (rows) {
            rows--;
        } else if (is_head(line, head)) {
            if (facts->blocks && (head[0] < before[0] || (head[0] == before[0] && head[1] <= before[1])))
                facts->is_rising = 0;
            before[0] = head[0], before[1] = head[1];
            events = head[2], rows = head[3];
            facts->blocks++;
        } else {
            if (!take_number(&line, "end verdicts=", head) || line.length || head[0] != facts->blocks)
                return;
            facts->faulty = rest.length ? at + 1 : 0;
            return;
        }
    }
    facts->faulty = at + 1;
}

/* ---- What a schedule is ---- */

/* The first text line that is no step, or 0; and how many steps there are. */
static u64 read_schedule(struct span rest, u64 *steps)
{
    static const struct {
        const char *word;
        int numbers;
    } STEPS[] = {{"fresh", 2}, {"again", 2}, {"check", 1}, {"send", 1}, {"mark", 1}, {"lose", 1}, {"arrive", 2}, {"join", 2}};
    struct span line;
    int is_whole;
    *steps = 0;
    for (u64 at = 1; next_line(&rest, &line, &is_whole); at++) {
        int is_step = 0;
        if (!line.length)
            continue;
        for (size_t i = 0; i < COUNT(STEPS) && !is_step; i++) {
            struct span left = line;
            int good = begins(left, STEPS[i].word);
            left.at += good ? strlen(STEPS[i].word) : 0;
            left.length -= good ? strlen(STEPS[i].word) : 0;
            for (int n = 0; n < STEPS[i].numbers && good; n++) {
                const char *from = left.at;
                u64 value;
                good = take_number(&left, " ", &value) && left.at - from <= 11 && value <= UINT32_MAX;
            }
            is_step = good && !left.length;
        }
        if (!is_step)
            return at;
        ++*steps;
    }
    return 0;
}

/* ---- Seeds ---- */

struct seeds {
    struct text *of;
    size_t count;
};

static struct seeds seeds[KINDS];

static void add_seed(int kind, const char *file)
{
    struct seeds *to = &seeds[kind];
    struct text text = {NULL, 0, 0};
    FILE *from = fopen(file, "rb");
    size_t got;
    if (!from)
        stop(file);
    do {
        reserve(&text, text.length + 4096);
        got = fread(text.at + text.length, 1, 4096, from);
        text.length += got;
    } while (got);
    fclose(from);
    to->of = realloc(to->of, (to->count + 1) * sizeof *to->of);
    if (!to->of)
        stop("memory");
    to->of[to->count++] = text;
}

/* A seed of the kind: mostly the shortest of three, since a short input takes less time. */
static const struct text *a_seed(int kind)
{
    const struct text *least = &seeds[kind].of[pick(seeds[kind].count)];
    for (int i = pick(8) ? 2 : 0; i > 0; i--) {
        const struct text *other = &seeds[kind].of[pick(seeds[kind].count)];
        least = other->length < least->length ? other : least;
    }
    return least;
}

/* ---- Mutations: each of them changes the text in one place ---- */

struct range {
    size_t from, to, next;
};

static int kind_now;

static int ends_here(char c)
{
    return kind_now == LOG ? is_separator(c) : c == '\n';
}

/* The record, or the text line, around a byte: its bytes, and where the next one begins. */
static struct range around(const struct text *text, size_t at)
{
    struct range range = {at, at, at};
    while (range.from && !ends_here(text->at[range.from - 1]))
        range.from--;
    while (range.to < text->length && !ends_here(text->at[range.to]))
        range.to++;
    range.next = range.to + (range.to < text->length);
    return range;
}

static struct range a_record(const struct text *text)
{
    return around(text, pick(text->length));
}

static const char *const LIMITS[] = {
    "0", "1", "63", "64", "65", "2147483647", "2147483648", "4294967295", "4294967296", "4294967297", "9223372036854775807",
    "9223372036854775808", "9223372036854775809", "18446744073709551615", "18446744073709551616", "18446744073709551617", "-1",
    "0x0", "0x1", "0x3f", "0x40", "0x41", "0x80000000", "0xffffffff", "0x100000000", "0x100000001", "0x7fffffffffffffff",
    "0x8000000000000000", "0x8000000000000001", "0xffffffffffffffff", "0xFFFFFFFFFFFFFFFF", "0XFF", "0x10000000000000000",
    "0x00000000000000001", "0x0000000000000001", "00000000000000000008", "000000000000000000008", "99999999999999999999",
    "100000000000000000000", "", "0x", " 8", "8 ", "+8", "8.", "0x1G", "1048576", "1048577", "65536", "65537",
};
static const char FORMAT_BYTES[] = ";|\n\r\0\xff\t x0.=_ ";

static void flip_bit(struct text *text)
{
    if (text->length)
        text->at[pick(text->length)] ^= (char)(1 << pick(8));
}

static void random_byte(struct text *text)
{
    char byte = (char)chance();
    size_t at = pick(text->length + 1);
    put(text, at, at < text->length && pick(2), &byte, 1);
}

static void format_byte(struct text *text)
{
    size_t at = pick(text->length + 1);
    put(text, at, at < text->length && pick(2), &FORMAT_BYTES[pick(sizeof FORMAT_BYTES - 1)], 1);
}

static void delete_range(struct text *text)
{
    size_t at = pick(text->length);
    put(text, at, short_length(text->length - at), "", 0);
}

static void repeat_range(struct text *text)
{
    size_t at = pick(text->length), length = short_length(text->length - at);
    for (size_t times = pick(8) ? 1 : 1 + pick(64); times > 0; times--)
        if (text->length + length <= USUAL_INPUT)
            put(text, at, 0, text->at + at, length);
}

/* Takes `length` bytes out at `from`, and puts them in at `to`, which is counted without them. */
static void move(struct text *text, size_t from, size_t length, size_t to)
{
    static struct text held;
    copy(&held, text->at + from, length);
    put(text, from, length, "", 0);
    put(text, to < text->length ? to : text->length, 0, held.at, held.length);
}

static void move_range(struct text *text)
{
    size_t at = pick(text->length);
    move(text, at, short_length(text->length - at), pick(text->length));
}

static void delete_record(struct text *text)
{
    struct range range = a_record(text);
    put(text, range.from, range.next - range.from, "", 0);
}

static void repeat_record(struct text *text)
{
    struct range from = a_record(text), to = a_record(text);
    put(text, pick(2) ? from.from : to.from, 0, text->at + from.from, from.next - from.from);
}

static void move_record(struct text *text)
{
    struct range from = a_record(text), to = a_record(text);
    move(text, from.from, from.next - from.from, to.from);
}

static void swap_records(struct text *text)
{
    struct range range = a_record(text);
    if (range.next >= text->length)
        return;
    move(text, range.from, range.next - range.from, range.from + around(text, range.next).next - range.next);
}

static void join_records(struct text *text)
{
    struct range range = a_record(text);
    put(text, range.to, range.next - range.to, "", 0);
}

static void other_separator(struct text *text)
{
    static const char *const SEPARATORS[] = {"|", "\n", "\r", "\r\n", "||", " |", "\t\n ", "\n \n"};
    struct range range = a_record(text);
    const char *with = SEPARATORS[pick(COUNT(SEPARATORS))];
    put(text, range.to, range.next - range.to, with, strlen(with));
}

/* A number of the text at or behind a byte that is picked; an empty range where there is none. */
static struct range a_number(const struct text *text)
{
    size_t at = pick(text->length);
    while (at < text->length && !isdigit((unsigned char)text->at[at]))
        at++;
    struct range range = {at, at, at};
    while (range.from && isxdigit((unsigned char)text->at[range.from - 1]))
        range.from--;
    if (range.from > 1 && text->at[range.from - 1] == 'x' && text->at[range.from - 2] == '0')
        range.from -= 2;
    if (range.to + 1 < text->length && text->at[range.to] == '0' && text->at[range.to + 1] == 'x')
        range.to += 2;
    while (range.to < text->length && isxdigit((unsigned char)text->at[range.to]))
        range.to++;
    return range;
}

static void put_number(struct text *text, struct range range, const char *format, u64 number)
{
    char spelled[64];
    int length = snprintf(spelled, sizeof spelled, format, number);
    put(text, range.from, range.to - range.from, spelled, (size_t)length);
}

static int value_of(const struct text *text, struct range range, u64 *value)
{
    return number_of((struct span){text->at + range.from, range.to - range.from}, value);
}

static void limit_number(struct text *text)
{
    struct range range = a_number(text);
    const char *with = LIMITS[pick(COUNT(LIMITS))];
    put(text, range.from, range.to - range.from, with, strlen(with));
}

static void copied_number(struct text *text)
{
    struct range from = a_number(text), to = a_number(text);
    put(text, to.from, to.to - to.from, text->at + from.from, from.to - from.from);
}

static void near_number(struct text *text)
{
    static const int STEPS[] = {1, -1, 8, -8, 63, 64, -64, 4096};
    struct range range = a_number(text);
    u64 value;
    if (value_of(text, range, &value))
        put_number(text, range, pick(4) ? "0x%lx" : "%lu", value + (u64)STEPS[pick(COUNT(STEPS))]);
}

static void other_spelling(struct text *text)
{
    static const char *const FORMATS[] = {"0x%lx", "%lu", "0x%lX", "0x%016lx", "%020lu", "0x%09lX"};
    struct range range = a_number(text);
    u64 value;
    if (value_of(text, range, &value))
        put_number(text, range, FORMATS[pick(COUNT(FORMATS))], value);
}

/* The field around a byte of a record, with the `;` in front of it. */
static struct range a_field(const struct text *text)
{
    struct range record = a_record(text), field;
    field.from = field.to = record.from + pick(record.to - record.from);
    while (field.from > record.from && text->at[field.from] != ';')
        field.from--;
    while (++field.to < record.to && text->at[field.to] != ';')
        ;
    field.to = field.to < record.to ? field.to : record.to;
    field.next = field.to;
    return field;
}

static void field_out(struct text *text)
{
    struct range field = a_field(text);
    put(text, field.from, field.to - field.from, "", 0);
}

static void field_in(struct text *text)
{
    struct range field = a_field(text);
    const char *with = LIMITS[pick(COUNT(LIMITS))];
    put(text, field.to, 0, with, strlen(with));
    put(text, field.to, 0, ";", 1);
}

static void limit_field(struct text *text)
{
    struct range field = a_field(text);
    const char *with = LIMITS[pick(COUNT(LIMITS))];
    size_t from = field.from + (field.from < field.to && text->at[field.from] == ';');
    put(text, from, field.to - from, with, strlen(with));
}

/* The name of a record, or a word of another text. */
static struct range a_name(const struct text *text)
{
    struct range range = a_record(text);
    if (kind_now == LEDGER && pick(2))
        while (range.from < range.to && (isdigit((unsigned char)text->at[range.from]) || text->at[range.from] == ' '))
            range.from++;
    size_t to = range.from;
    while (to < range.to && text->at[to] != ';' && text->at[to] != ' ')
        to++;
    range.to = to;
    return range;
}

static void other_name(struct text *text)
{
    static const char *const WORDS[MUTATED][12] = {
        {NULL},
        {"PERSIST", "ORDERED", "PASS", "FAIL", "EMPTY", "section", "end", "STORE", "FLUSH", "FENCE", "PMFARM-LEDGER", "PMFARM-TRUSTED"},
        {"/", "/proc/self/fd/11", "/proc/self/fd/12", ".", "/nowhere", "\xff", "\xc3\xa9", "\xed\xa0\x80", " ", "/dev/fd/11", "\r", "x"},
        {"fresh", "again", "check", "send", "mark", "lose", "arrive", "join", "Fresh", "checks", "", "0"},
    };
    struct range range = a_name(text);
    size_t known = COUNT(RECORDS), at = pick(known + COUNT(OTHER_NAMES));
    const char *with = kind_now != LOG ? WORDS[kind_now][pick(12)] : at < known ? RECORDS[at].name : OTHER_NAMES[at - known];
    put(text, range.from, range.to - range.from, with, strlen(with));
}

static void letter_off(struct text *text)
{
    struct range range = a_name(text);
    char letter = (char)('A' + pick(26));
    size_t at = range.from + pick(range.to - range.from + 1);
    put(text, at, at < range.to && pick(3), &letter, pick(3) > 0);
}

static void lower_case(struct text *text)
{
    struct range range = a_name(text);
    for (size_t i = range.from; i < range.to; i++)
        text->at[i] = (char)tolower((unsigned char)text->at[i]);
}

/* Goes on at a record as another seed does from one of its records on. */
static void splice_seed(struct text *text)
{
    const struct text *other = a_seed(kind_now);
    struct range at = a_record(text), from = a_record(other);
    size_t length = pick(2) ? short_length(other->length - from.from) : other->length - from.from;
    put(text, at.from, pick(2) ? text->length - at.from : 0, other->at + from.from, length);
}

static void cut_off(struct text *text)
{
    text->length = pick(text->length + 1);
}

static void new_section(struct text *text)
{
    static const u64 NUMBERS[] = {0, 1, 2, 3, 7, UINT32_MAX, (u64)1 << 63, UINT64_MAX, 1000000000, 1000000001};
    char record[64];
    int length = snprintf(record, sizeof record, pick(2) ? "PMT.SECTION;%lu\n" : "PMT.SECTION;0x%lx|", NUMBERS[pick(COUNT(NUMBERS))]);
    put(text, a_record(text).from, 0, record, (size_t)length);
}

/* Puts in a record of the table, near what a program stores to. */
static void new_record(struct text *text)
{
    static const int SIZES[] = {1, 2, 4, 8, 8, 8, 16, 63, 64, 64, 65, 128, 200, 4096};
    struct range number = a_number(text);
    char made[160];
    u64 address = 0x1000;
    size_t at = pick(COUNT(RECORDS) - 1), length = strlen(RECORDS[at].name);
    if (pick(2) && (!value_of(text, number, &address) || address >> 62))
        address = 0x1000;
    memcpy(made, RECORDS[at].name, length);
    for (const char *field = RECORDS[at].fields; *field; field++) {
        u64 value = *field == 's' ? (u64)SIZES[pick(COUNT(SIZES))] : address + 8 * pick(24);
        length += (size_t)snprintf(made + length, sizeof made - length, ";0x%lx", value);
    }
    made[length++] = pick(2) || kind_now != LOG ? '\n' : '|';
    put(text, a_record(text).from, 0, made, length);
}

/* Puts control bytes behind the fields of a record, or a record of them that is skipped. */
static void control_bytes(struct text *text)
{
    char bytes[80];
    size_t length = 1 + pick(70);
    struct range range = a_record(text);
    bytes[0] = pick(2) ? ';' : '?';
    for (size_t i = 1; i < length; i++) {
        bytes[i] = (char)(pick(3) ? pick(32) : 127 + pick(129));
        if (is_separator(bytes[i]))
            bytes[i] = '\\';
    }
    if (bytes[0] == '?')
        bytes[length++] = '\n';
    put(text, bytes[0] == ';' ? range.to : range.from, 0, bytes, length);
}

static void end_of_ledger(struct text *text)
{
    char *at = memmem(text->at, text->length, "end verdicts=", 13);
    if (!at)
        return;
    struct range range = around(text, (size_t)(at - text->at));
    range.from += 13;
    put_number(text, range, pick(4) ? "%lu" : "%03lu", pick(4) ? pick(6) : chance());
}

/* The block of a ledger around a byte, and how many there are. */
static struct range a_block(const struct text *text, u64 *count)
{
    size_t wanted = pick(text->length);
    struct range found = {0, 0, 0};
    *count = 0;
    for (size_t at = around(text, 0).next; at < text->length; at = around(text, at).next) {
        struct span line = {text->at + at, text->length - at};
        int is_end = begins(line, "end ");
        if (!is_end && !begins(line, "section "))
            continue;
        if (found.from && !found.to)
            found.to = at;
        if (is_end)
            return found;
        ++*count;
        if (!found.from || at <= wanted)
            found.from = at, found.to = 0;
    }
    return found;
}

/* Repeats a block, or takes one out, and mostly counts again. */
static void other_blocks(struct text *text)
{
    u64 count;
    struct range block = a_block(text, &count);
    if (!block.to)
        return;
    int is_more = (int)pick(2);
    put(text, block.from, is_more ? 0 : block.to - block.from, text->at + block.from, is_more ? block.to - block.from : 0);
    char *end = memmem(text->at, text->length, "end verdicts=", 13);
    if (end && pick(8))
        put_number(text, (struct range){(size_t)(end - text->at) + 13, text->length, 0}, "%lu\n", is_more ? count + 1 : count - 1);
}

/* How often each comes, by the kind of text; `gentle` ones mostly leave it readable. */
static const struct {
    void (*mutate)(struct text *);
    int weight[MUTATED], gentle[MUTATED];
} MUTATIONS[] = {
    {flip_bit, {6, 4, 4, 3}, {0}},
    {random_byte, {6, 3, 4, 3}, {0}},
    {format_byte, {8, 4, 4, 4}, {0}},
    {delete_range, {5, 3, 2, 3}, {0}},
    {repeat_range, {5, 3, 2, 3}, {0}},
    {move_range, {4, 2, 2, 2}, {0}},
    {delete_record, {5, 4, 3, 4}, {8, 1, 1, 4}},
    {repeat_record, {5, 4, 3, 4}, {6, 1, 2, 6}},
    {move_record, {5, 4, 2, 4}, {8, 1, 2, 6}},
    {swap_records, {5, 4, 2, 4}, {8, 0, 1, 6}},
    {join_records, {2, 2, 2, 2}, {0}},
    {other_separator, {4, 2, 2, 1}, {4, 0, 0, 0}},
    {limit_number, {10, 8, 4, 4}, {1, 1, 0, 1}},
    {copied_number, {5, 3, 1, 2}, {4, 1, 0, 4}},
    {near_number, {5, 3, 1, 2}, {8, 1, 0, 1}},
    {other_spelling, {3, 3, 0, 2}, {5, 6, 0, 1}},
    {field_out, {4, 3, 0, 1}, {0}},
    {field_in, {4, 3, 0, 1}, {0}},
    {limit_field, {6, 3, 0, 1}, {0}},
    {other_name, {5, 4, 4, 4}, {1, 0, 2, 3}},
    {letter_off, {4, 3, 1, 2}, {1, 0, 0, 0}},
    {lower_case, {2, 2, 1, 1}, {1, 0, 0, 0}},
    {splice_seed, {4, 3, 2, 3}, {4, 1, 1, 3}},
    {cut_off, {3, 3, 2, 2}, {1, 0, 0, 1}},
    {new_section, {3, 1, 0, 0}, {4, 0, 0, 0}},
    {new_record, {4, 3, 0, 0}, {16, 1, 0, 0}},
    {control_bytes, {4, 4, 1, 1}, {3, 3, 0, 0}},
    {end_of_ledger, {0, 4, 0, 0}, {0}},
    {other_blocks, {0, 5, 0, 0}, {0, 6, 0, 0}},
};

static void mutate_once(struct text *text, int is_gentle)
{
    int sum = 0;
    for (size_t i = 0; i < COUNT(MUTATIONS); i++)
        sum += is_gentle ? MUTATIONS[i].gentle[kind_now] : MUTATIONS[i].weight[kind_now];
    int left = (int)pick((size_t)sum);
    for (size_t i = 0; i < COUNT(MUTATIONS); i++) {
        left -= is_gentle ? MUTATIONS[i].gentle[kind_now] : MUTATIONS[i].weight[kind_now];
        if (left < 0) {
            if (text->length)
                MUTATIONS[i].mutate(text);
            else
                random_byte(text);
            return;
        }
    }
}

/* Makes the text long by repeats of all of it. */
static void repeat_all(struct text *text)
{
    size_t most = USUAL_INPUT + pick(LONGEST_INPUT - USUAL_INPUT), once = text->length;
    while (once && text->length + once <= most)
        put(text, text->length, 0, text->at, text->length + text->length <= most ? text->length : once);
}

/* Makes an input of the kind: a seed with 1 to 8 changes, or now and then with none. */
static void make_input(struct text *text, int kind)
{
    const struct text *seed = a_seed(kind);
    int is_gentle = pick(2) == 0;
    size_t changes = pick(64) ? 1 + pick(kind == LEDGER && is_gentle ? 2 : 8) : 0;
    kind_now = kind;
    copy(text, seed->at, seed->length);
    if (pick(LONG_ONE_IN) == 0 && kind != LIST)
        repeat_all(text);
    while (changes-- > 0)
        mutate_once(text, is_gentle);
}

/* ---- Running ---- */

struct ended {
    int status, signal, is_hung;
    double cpu;
    size_t memory;
    struct text out, err;
};

static const char *program;
static volatile pid_t child;
static volatile sig_atomic_t is_late;

static void kill_late(int signal)
{
    (void)signal;
    is_late = 1;
    if (child > 0)
        kill(child, SIGKILL);
}

static void limit(int resource, rlim_t most)
{
    struct rlimit both = {most, most};
    setrlimit(resource, &both);
}

/* Opens the files of all runs at their numbers. */
static void open_files(void)
{
    for (int number = INPUT; number <= ERR; number++) {
        int file = number == NOTHING ? open("/dev/null", O_RDONLY) : memfd_create("mutate", 0);
        if (file < 0 || (file != number && (dup2(file, number) < 0 || close(file) < 0)))
            stop("a file of the runs");
    }
    limit(RLIMIT_AS, MOST_MEMORY);
    limit(RLIMIT_FSIZE, MOST_OUTPUT);
    limit(RLIMIT_CORE, 0);
    struct sigaction action = {.sa_handler = kill_late};
    sigaction(SIGALRM, &action, NULL);
}

static void fill(int file, const struct text *text)
{
    if (ftruncate(file, 0) || pwrite(file, text->at, text->length, 0) != (ssize_t)text->length)
        stop("an input");
}

static void read_back(int file, struct text *text)
{
    off_t length = lseek(file, 0, SEEK_END);
    reserve(text, (size_t)length + 1);
    if (pread(file, text->at, (size_t)length, 0) != length)
        stop("an output");
    text->length = (size_t)length;
    if (ftruncate(file, 0) || lseek(file, 0, SEEK_SET))
        stop("an output");
}

/* Asks for an alarm, and for one more each second behind it. */
static void set_alarm(int seconds)
{
    struct itimerval timer = {{seconds > 0, 0}, {seconds, 0}};
    setitimer(ITIMER_REAL, &timer, NULL);
}

/* The process that does runs within, or 0, and the file on which it is asked. */
static const char *within;
static pid_t server;
static int asking;

static void stop_server(void)
{
    if (!server)
        return;
    kill(server, SIGKILL);
    while (waitpid(server, NULL, 0) < 0 && errno == EINTR)
        ;
    close(asking);
    server = 0;
}

/* Loads the program once. Its own words leave room for those of each run. */
static void start_server(void)
{
    static char preload[4096];
    static char *const environment[] = {"PATH=/usr/bin:/bin", preload, NULL};
    char *words[MOST_WORDS + 2];
    int both[2];
    for (int at = 0; at <= MOST_WORDS; at++)
        words[at] = (char *)program;
    words[MOST_WORDS + 1] = NULL;
    snprintf(preload, sizeof preload, "LD_PRELOAD=%s", within);
    if (socketpair(AF_UNIX, SOCK_STREAM | SOCK_CLOEXEC, 0, both))
        stop("socketpair");
    server = vfork();
    if (server == 0) {
        if (dup2(both[1], ASKED) == ASKED && dup2(OUT, 1) == 1 && dup2(ERR, 2) == 2)
            execve(program, words, environment);
        _exit(127);
    }
    if (server < 0)
        stop("vfork");
    close(both[1]);
    asking = both[0];
}

/* Runs the program as `run_alone` does, in the process that has it loaded. Tells whether the run came to an end there. */
static int run_within(char *const *words, int input, struct ended *ended)
{
    static struct asked asked;
    struct answered answered;
    ssize_t got;
    if (!server)
        start_server();
    asked.input = input;
    for (asked.count = 0; words[asked.count + 1]; asked.count++)
        snprintf(asked.words[asked.count], WORD, "%s", words[asked.count + 1]);
    lseek(input, 0, SEEK_SET);
    set_alarm(HANG_SECONDS);
    child = server;
    if (send(asking, &asked, sizeof asked, MSG_NOSIGNAL) != sizeof asked)
        got = -1;
    else
        while ((got = recv(asking, &answered, sizeof answered, MSG_WAITALL)) < 0 && errno == EINTR)
            ;
    set_alarm(0);
    child = 0;
    read_back(OUT, &ended->out);
    read_back(ERR, &ended->err);
    if (got != sizeof answered) {
        stop_server();
        return 0;
    }
    ended->status = answered.status;
    ended->signal = ended->is_hung = 0;
    ended->cpu = answered.cpu;
    ended->memory = answered.memory;
    return 1;
}

/* Runs the program with these words, and the file of a number as standard input. The system counts what this process has in memory as
 * the program's, too, until the program is loaded: so no run has less than that. */
static void run_alone(char *const *words, int input, struct ended *ended)
{
    static char *const environment[] = {"PATH=/usr/bin:/bin", NULL};
    struct rusage usage;
    int status;
    is_late = 0;
    lseek(input, 0, SEEK_SET);
    set_alarm(HANG_SECONDS);
    child = vfork();
    if (child == 0) {
        if (dup2(input, 0) == 0 && dup2(OUT, 1) == 1 && dup2(ERR, 2) == 2)
            execve(program, words, environment);
        _exit(127);
    }
    if (child < 0)
        stop("vfork");
    while (wait4(child, &status, 0, &usage) < 0)
        if (errno != EINTR)
            stop("wait4");
    set_alarm(0);
    child = 0;
    ended->status = WIFEXITED(status) ? WEXITSTATUS(status) : -1;
    ended->signal = WIFSIGNALED(status) ? WTERMSIG(status) : 0;
    ended->is_hung = is_late && ended->signal == SIGKILL;
    ended->cpu = (double)(usage.ru_utime.tv_sec + usage.ru_stime.tv_sec) + 1e-6 * (double)(usage.ru_utime.tv_usec + usage.ru_stime.tv_usec);
    ended->memory = (size_t)usage.ru_maxrss * 1024;
    read_back(OUT, &ended->out);
    read_back(ERR, &ended->err);
}

static int is_alone;

static void run_program(char *const *words, int input, struct ended *ended)
{
    if (is_alone || !run_within(words, input, ended))
        run_alone(words, input, ended);
}

/* ---- What is right ---- */

struct command;

struct run {
    const struct command *command;
    char spelled[MOST_WORDS][WORD], *words[MOST_WORDS + 2];
    int stdin_file;
    struct text input, sound;
    struct log_facts log;
    struct ledger_facts ledger;
    u64 section, event, ledgers, steps, bad_step;
    struct ended ended;
};

/* A judge tells what is wrong, or NULL. */
typedef const char *judge(struct run *run);

struct command {
    const char *name, *words;
    int kind, sound, weight;
    const char *statuses, *classes;
    judge *judge, *cross;
};

static char said[256];

__attribute__((format(printf, 1, 2))) static const char *wrong(const char *format, ...)
{
    va_list rest;
    va_start(rest, format);
    vsnprintf(said, sizeof said, format, rest);
    va_end(rest);
    for (char *c = said; *c; c++)
        if (*c < 0x20 || *c > 0x7e)
            *c = '?';
    return said;
}

static const char *wrong_line(const char *what, struct span line)
{
    return wrong("%s: %.*s", what, (int)(line.length < 160 ? line.length : 160), line.at);
}

static struct span all_of(const struct text *text)
{
    return (struct span){text->at, text->length};
}

static struct span first_line(const struct text *text)
{
    struct span rest = all_of(text), line = {"", 0};
    int is_whole;
    next_line(&rest, &line, &is_whole);
    return line;
}

/* The rows of a report, and what they count as. */
enum { PASS, FAIL, WARN, EMPTY, NO_ROW };
static const struct {
    const char *pattern;
    int counts_as;
} ROWS[] = {
    {"# PERSIST PASS", PASS},
    {"# PERSIST FAIL byte=@ crash=#", FAIL},
    {"# PERSIST EMPTY", EMPTY},
    {"# ORDERED PASS", PASS},
    {"# ORDERED FAIL byte=@ after=@ crash=#", FAIL},
    {"# ORDERED SAMELINE byte=@ after=@", FAIL},
    {"# ORDERED EMPTY", EMPTY},
    {"# FLUSH DOUBLED line=@ lines=#", WARN},
    {"# FLUSH NEEDLESS line=@ lines=#", WARN},
    {"# STORE NOBACKUP byte=@", FAIL},
    {"# TXADD DUPLOG byte=@", WARN},
    {"# CHECKEND PASS", PASS},
    {"# CHECKEND FAIL byte=@ crash=#", FAIL},
    {"# CHECKEND TXOPEN depth=#", FAIL},
    {"# TXEND UNMATCHED", FAIL},
    {"# TXADD OUTSIDE", FAIL},
    {"# CHECKSTART NESTED", FAIL},
    {"# CHECKEND UNOPENED", FAIL},
    {"# SECTION UNCLOSED start=#", FAIL},
};

static int row_counts_as(struct span line, u64 *place)
{
    u64 numbers[4];
    for (size_t i = 0; i < COUNT(ROWS); i++)
        if (matches(line, ROWS[i].pattern, numbers)) {
            *place = numbers[0];
            return ROWS[i].counts_as;
        }
    return NO_ROW;
}

/* The sums of a report: sections, and rows by what they count as; and the events of all sections. */
struct sums {
    u64 sections, of[4], events;
};

/* What stands between two heads: the last head's own numbers, and the rows behind it. */
struct counted {
    int is_open, is_summary;
    u64 head[7], rows[4], place;
};

static const char *close_section(const struct counted *counted)
{
    for (int i = 0; i < 4 && counted->is_open; i++)
        if (counted->rows[i] != counted->head[3 + i] && !(counted->is_summary && (i == PASS || i == EMPTY)))
            return wrong("section %lu.%lu has other rows than its line counts", counted->head[0], counted->head[1]);
    return NULL;
}

static const char *open_section(struct counted *counted, const u64 *numbers, struct sums *sums)
{
    const char *fault = close_section(counted);
    if (!fault && counted->is_open && (numbers[0] < counted->head[0] || (numbers[0] == counted->head[0] && numbers[1] <= counted->head[1])))
        fault = wrong("section %lu.%lu is out of order", numbers[0], numbers[1]);
    *counted = (struct counted){.is_open = 1, .is_summary = counted->is_summary};
    memcpy(counted->head, numbers, sizeof counted->head);
    sums->sections++;
    sums->events += numbers[2];
    for (int i = 0; i < 4; i++)
        sums->of[i] += numbers[3 + i];
    return fault;
}

static const char *add_row(struct counted *counted, struct span line)
{
    u64 place;
    int counts_as = row_counts_as(line, &place);
    if (counts_as == NO_ROW || !counted->is_open || (counted->is_summary && (counts_as == PASS || counts_as == EMPTY)))
        return wrong_line("no row", line);
    if (place < counted->place || place == 0 || place > counted->head[2] + 1)
        return wrong_line("a row out of order", line);
    counted->place = place;
    counted->rows[counts_as]++;
    return NULL;
}

static int are_sums(const u64 *numbers, const struct sums *sums)
{
    return numbers[0] == sums->sections && !memcmp(numbers + 1, sums->of, sizeof sums->of);
}

/* Reads a report up to its last line, and looks at its form and its sums. */
static const char *read_report(struct span *rest, int is_summary, struct sums *sums)
{
    struct counted counted = {.is_summary = is_summary};
    struct sums run = {0};
    struct span line;
    const char *fault = NULL;
    u64 numbers[8];
    int is_whole;
    *sums = (struct sums){0};
    while (!fault && next_line(rest, &line, &is_whole)) {
        if (!is_whole)
            return wrong_line("a line without an end", line);
        if (matches(line, "section #.# events=# pass=# fail=# warn=# empty=#", numbers)) {
            fault = open_section(&counted, numbers, sums);
        } else if (matches(line, "total sections=# pass=# fail=# warn=# empty=#", numbers)) {
            fault = close_section(&counted);
            return fault ? fault : are_sums(numbers, sums) ? NULL : wrong("the last line has other sums");
        } else if (is_summary && matches(line, "run # sections=# pass=# fail=# warn=# empty=#", numbers)) {
            run.sections += numbers[1];
            for (int i = 0; i < 4; i++)
                run.of[i] += numbers[2 + i];
            if (memcmp(&run, sums, sizeof run - sizeof run.events))
                fault = wrong_line("a run with other sums", line);
        } else {
            fault = add_row(&counted, line);
        }
    }
    return fault ? fault : wrong("a report without its last line");
}

static const char *one_report(struct run *run, int is_summary, struct sums *sums)
{
    struct span rest = all_of(&run->ended.out);
    const char *fault = read_report(&rest, is_summary, sums);
    return fault ? fault : rest.length ? wrong("text behind the last line") : NULL;
}

static const char *status_of(const struct run *run, int is_one, const char *text)
{
    return run->ended.status == is_one ? NULL : wrong("the status is not that of the %s", text);
}

/* Whether a report of the log has its sections and events. */
static const char *is_of_log(struct run *run, const struct sums *sums)
{
    if (run->log.is_known && (sums->sections != run->log.sections || sums->events != run->log.events))
        return wrong("the report has %lu sections and %lu events", sums->sections, sums->events);
    return NULL;
}

static const char *judge_report(struct run *run)
{
    struct sums sums;
    const char *fault = one_report(run, 0, &sums);
    fault = fault ? fault : is_of_log(run, &sums);
    return fault ? fault : status_of(run, sums.of[FAIL] > 0, "report");
}

static const char *judge_strict(struct run *run)
{
    struct sums sums;
    const char *fault = one_report(run, 0, &sums);
    int has_warning = memmem(run->ended.err.at, run->ended.err.length, "pmfarm: warning: ", 17) != NULL;
    fault = fault ? fault : is_of_log(run, &sums);
    return fault ? fault : status_of(run, sums.of[FAIL] > 0 || !sums.of[PASS] || has_warning, "report");
}

static const char *judge_joined(struct run *run)
{
    struct sums sums;
    const char *fault = one_report(run, 0, &sums);
    return fault ? fault : status_of(run, sums.of[FAIL] > 0, "report");
}

static const char *judge_summary(struct run *run)
{
    struct sums sums;
    const char *fault = one_report(run, 1, &sums);
    return fault ? fault : status_of(run, sums.of[FAIL] > 0, "summary");
}

/* Looks at the form of a ledger, and counts the rows that fail and those that are none. */
static const char *read_written_ledger(struct run *run, int is_trusted, u64 *failing, u64 *strange)
{
    struct span rest = all_of(&run->ended.out), line;
    u64 numbers[4], events = 0, rows = 0, blocks = 0, place;
    int is_whole, is_first = 1;
    *failing = *strange = 0;
    while (next_line(&rest, &line, &is_whole)) {
        if (!is_whole)
            return wrong_line("a line without an end", line);
        if (is_first) {
            if (!matches(line, is_trusted ? "PMFARM-TRUSTED #" : "PMFARM-LEDGER #", numbers) || numbers[0] < 1 || numbers[0] > 2)
                return wrong_line("no first line of a ledger", line);
            is_first = 0;
        } else if (events) {
            events--;
            if (!is_trusted && read_record(line).is != EVENT)
                return wrong_line("no event", line);
        } else if (rows) {
            int counts_as = row_counts_as(line, &place);
            rows--;
            *failing += counts_as == FAIL;
            *strange += counts_as == NO_ROW;
        } else if (matches(line, "end verdicts=#", numbers)) {
            return numbers[0] != blocks || rest.length ? wrong("the last line counts other blocks, or text follows") : NULL;
        } else if (is_head(line, numbers)) {
            blocks++;
            events = numbers[2], rows = numbers[3];
        } else {
            return wrong_line("no block", line);
        }
    }
    return wrong("a ledger without its last line");
}

static const char *judge_ledger(struct run *run)
{
    u64 failing, strange;
    const char *fault = read_written_ledger(run, 0, &failing, &strange);
    if (!fault && strange)
        fault = wrong("a ledger with what is no row");
    return fault ? fault : status_of(run, failing > 0, "ledger");
}

/* A row that is not as it is written may count as it likes. */
static const char *judge_trusted(struct run *run)
{
    u64 failing, strange;
    const char *fault = read_written_ledger(run, 1, &failing, &strange);
    return fault || (strange && !failing) ? fault : status_of(run, failing > 0, "ledger");
}

/* How many records a line of lint counts that begins with a name of the table. */
static u64 known_records(struct span line)
{
    u64 number;
    for (size_t i = 0; i < COUNT(RECORDS); i++) {
        size_t length = strlen(RECORDS[i].name);
        if (begins(line, RECORDS[i].name) && matches((struct span){line.at + length, line.length - length}, " records=#", &number))
            return number;
    }
    return 0;
}

/* The same of a line of skipped records: a name may have these words, too, so the last ones count. */
static u64 skipped_records(struct span line)
{
    struct span found = {line.at + line.length, 0};
    u64 number = 0;
    for (const char *at = line.at; at + 9 < line.at + line.length; at++)
        if (!memcmp(at, " records=", 9))
            found = (struct span){at, (size_t)(line.at + line.length - at)};
    return begins(line, "skipped ") && take_number(&found, " records=", &number) ? number : 0;
}

static const char *judge_lint(struct run *run)
{
    struct span rest = all_of(&run->ended.out), line = first_line(&run->ended.out);
    u64 all[4], known = 0, skipped = 0;
    int is_whole, has_warning = 0;
    if (!matches(line, "records=# events=# sections=# skipped=#", all))
        return wrong_line("no first line of lint", line);
    if (all[0] != run->log.records || all[1] != run->log.events || all[3] != run->log.skipped ||
        (run->log.is_known && all[2] != run->log.sections))
        return wrong_line("another log", line);
    while (next_line(&rest, &line, &is_whole)) {
        if (!is_whole || !matches(line, "*", NULL))
            return wrong_line("no line of lint", line);
        has_warning |= begins(line, "warning: ");
        known += known_records(line);
        skipped += skipped_records(line);
    }
    if (known + skipped != all[0] || skipped != all[3])
        return wrong("the names of lint have %lu and %lu records", known, skipped);
    return status_of(run, has_warning, "warnings");
}

/* Looks at the lines of an explained row; `is_all` says that a section's line stands before each row. */
static const char *read_explained(struct run *run, int is_all, u64 *told)
{
    struct span rest = all_of(&run->ended.out), line;
    u64 place = 0, numbers[8];
    int is_whole, has_section = 0;
    *told = 0;
    while (next_line(&rest, &line, &is_whole)) {
        int counts_as = row_counts_as(line, &place);
        if (!is_whole)
            return wrong_line("a line without an end", line);
        if (is_all && matches(line, "section #.#", numbers)) {
            has_section = 1;
        } else if (counts_as != NO_ROW) {
            if (is_all ? counts_as != FAIL || !has_section : place != run->event)
                return wrong_line("a row that was not asked for", line);
            has_section = 0;
            ++*told;
        } else if (!matches(line, "image crash=# full=none", numbers) && !matches(line, "image crash=# full=@", numbers) &&
                   !matches(line, "byte=@ cut=# shows=# last=#", numbers) && !is_equal(line, "no image")) {
            return wrong_line("no line of an explanation", line);
        }
    }
    return NULL;
}

static const char *judge_explained(struct run *run)
{
    u64 told;
    return read_explained(run, 0, &told);
}

static const char *judge_all_explained(struct run *run)
{
    u64 told;
    return read_explained(run, 1, &told);
}

static struct span last_line(const struct text *text)
{
    const char *from = text->length > 1 ? memrchr(text->at, '\n', text->length - 1) : NULL;
    size_t at = from ? (size_t)(from - text->at) + 1 : 0;
    return (struct span){text->at + at, text->length ? text->length - at - 1 : 0};
}

static const char *judge_why(struct run *run)
{
    struct span rest = all_of(&run->ended.out), line = last_line(&run->ended.out);
    u64 last[8], told = 0, section[2], place;
    int is_whole;
    if (!matches(line, "rows=# told=# untold=#; with all cures: pass=# fail=#", last))
        return wrong_line("no last line of why", line);
    while (next_line(&rest, &line, &is_whole)) {
        if (!is_whole || !matches(line, "*", NULL))
            return wrong_line("no line of why", line);
        if (begins(line, " ") || begins(line, "rows=") || matches(line, "# more like *", NULL))
            continue;
        struct span row = line;
        if (!take_number(&row, "", section) || !take_number(&row, ".", section + 1) || !begins(row, " "))
            return wrong_line("no line of why", line);
        row.at++, row.length--;
        int counts_as = row_counts_as(row, &place);
        if (counts_as != FAIL && counts_as != WARN)
            return wrong_line("no row that why tells", line);
        told++;
    }
    return told == last[1] && last[1] + last[2] <= last[0] ? NULL : wrong("why tells %lu rows, and counts %lu", told, last[1]);
}

/* Whether the text is these bytes in ASCII: a backslash twice, and what is not printed as \xHH. */
static int is_shown(struct span text, struct span bytes)
{
    for (size_t i = 0; i < bytes.length; i++) {
        unsigned char byte = bytes.at[i];
        char shown[8];
        int length = byte == '\\' ? sprintf(shown, "\\\\") : sprintf(shown, byte < 0x20 || byte > 0x7e ? "\\x%02x" : "%c", byte);
        if (text.length < (size_t)length || memcmp(text.at, shown, length))
            return 0;
        text.at += length, text.length -= length;
    }
    return text.length == 0;
}

/* What was located stands there in the log, and is the record of its number. */
static const char *judge_located(struct run *run)
{
    struct span line = first_line(&run->ended.out), rest = all_of(&run->input), record = {"", 0};
    u64 numbers[3];
    if (!matches(line, "record=# offset=# length=#", numbers))
        return wrong_line("no first line of locate", line);
    for (u64 i = 0; i < numbers[0]; i++)
        if (!next_record(&rest, &record))
            return wrong_line("a record behind the last one", line);
    struct text *out = &run->ended.out;
    if (record.at - run->input.at != (ptrdiff_t)numbers[1] || record.length != numbers[2])
        return wrong_line("another record", line);
    struct span shown = {out->at + line.length + 1, out->length - line.length - 1};
    if (shown.length == 0 || shown.at[--shown.length] != '\n' || !is_shown(shown, record))
        return wrong_line("other bytes than the record's", line);
    return NULL;
}

static const char *judge_cut(struct run *run)
{
    struct span line = last_line(&run->ended.err);
    if (!matches(line, "pmfarm: # cuts", NULL))
        return wrong_line("no last line of cut", line);
    return status_of(run, first_line(&run->ended.err).at != line.at, "lines of standard error");
}

/* The log with its cures is a log, and has the skipped records of the first one. */
static const char *judge_patch(struct run *run)
{
    static struct log_facts patched;
    read_log(all_of(&run->ended.out), &patched);
    if (patched.faulty)
        return wrong("record %lu of the log with its cures is faulty", patched.faulty);
    return patched.skipped == run->log.skipped ? NULL : wrong("%lu skipped records, and not %lu", patched.skipped, run->log.skipped);
}

static const char *judge_played(struct run *run)
{
    struct span rest = all_of(&run->ended.out), line;
    struct sums sums;
    u64 numbers[4];
    int is_whole;
    const char *fault = NULL;
    static const char *const ANSWERS[] = {
        "# task section=# number=#", "# none", "# checked", "# sent message=#", "# marked", "# lost", "# added", "# repeat", "# joined",
        "# refused NoSuchWorker", "# refused NoSuchSection", "# refused NoSuchMessage", "# refused NoSuchLedger", "# refused Gone",
        "# refused Misplaced"};
    for (u64 i = 1; i <= run->steps; i++) {
        size_t at = 0;
        if (!next_line(&rest, &line, &is_whole) || !is_whole)
            return wrong("step %lu has no answer", i);
        while (at < COUNT(ANSWERS) && !matches(line, ANSWERS[at], numbers))
            at++;
        if (at == COUNT(ANSWERS) || numbers[0] != i)
            return wrong_line("no answer", line);
    }
    for (u64 k = 0; k < run->ledgers && !fault; k++) {
        if (!next_line(&rest, &line, &is_whole) || !matches(line, "ledger #", numbers) || numbers[0] != k)
            return wrong("ledger %lu is missing", k);
        fault = read_report(&rest, 0, &sums);
    }
    return fault ? fault : rest.length ? wrong("text behind the last ledger") : NULL;
}

/* ---- Refusals and other lines of standard error ---- */

/* Each line of docs/FORMATS.md that a class of commands may write, with the statuses at which it does. */
static const struct {
    const char *class, *pattern, *statuses;
} LINES[] = {
    {"log", "pmfarm: record #: too few fields", "2"},
    {"log", "pmfarm: record #: bad number", "2"},
    {"log", "pmfarm: record #: size is zero", "2"},
    {"log", "pmfarm: record #: size is too large", "2"},
    {"log", "pmfarm: record #: range ends past 2^63", "2"},
    {"log", "pmfarm: record #: unknown marker", "2"},
    {"log", "pmfarm: hint: *", "2"},
    {"place", "pmfarm: no section #.#", "2"},
    {"place", "pmfarm: no event # in section #.#", "2"},
    {"check", "pmfarm: skipped # records", "01"},
    {"strict", "pmfarm: warning: *", "1"},
    {"cut", "pmfarm: # cuts", "012"},
    {"cut", "pmfarm: record #: too many sections", "2"},
    {"cut", "pmfarm: section #, event #: PMT.ORDERED names bytes of before the cut: it may have lost its FAIL", "12"},
    {"cut", "pmfarm: section #, event #: the piece has more than # events: *", "12"},
    {"cut", "pmfarm: record #: a piece of section # has the number #: choose another --step", "2"},
    {"cut", "pmfarm: record #: the next piece of section # has no number: choose another --step", "2"},
    {"join", "pmfarm: " INPUT_FILE ": line #: not a ledger", "2"},
    {"join", "pmfarm: " INPUT_FILE ": line #: too few fields", "2"},
    {"join", "pmfarm: " INPUT_FILE ": line #: bad number", "2"},
    {"join", "pmfarm: " INPUT_FILE ": line #: size is zero", "2"},
    {"join", "pmfarm: " INPUT_FILE ": line #: size is too large", "2"},
    {"join", "pmfarm: " INPUT_FILE ": line #: range ends past 2^63", "2"},
    {"join", "pmfarm: " INPUT_FILE ": line #: unknown marker", "2"},
    {"join", "pmfarm: " INPUT_FILE ": section #.#: rows are false", "2"},
    {"join", "pmfarm: " INPUT_FILE ": section #.#: held with other events", "2"},
    {"join", "pmfarm: section #.#: held with other events", "2"},
    {"join", "pmfarm: profiles differ", "2"},
    {"stream", "pmfarm: " INPUT_FILE ": section #.#: out of order", "2"},
    {"stream", "pmfarm: " INPUT_FILE ": profiles differ", "2"},
    {"trust", "pmfarm: merged on trust: no section was checked", "01"},
    {"sim", "pmfarm: schedule line #: bad step", "2"},
    {"sim", "pmfarm: schedule is too long", "2"},
};

/* Of a list of names: what is said of a file has its name in front, which may have any bytes. */
static int is_line_of_list(struct span line, int status)
{
    static const char *const WHOLE[] = {"pmfarm: error: no ledger is named", "pmfarm: error: a name in the list of ledgers is not UTF-8"};
    static const char *const ENDS[] = {": not a ledger", ": read failed", ": rows are false", ": held with other events"};
    if (begins(line, "pmfarm: hint: "))
        return status == 4;
    for (size_t i = 0; i < COUNT(WHOLE); i++)
        if (is_equal(line, WHOLE[i]))
            return status == 2;
    for (size_t i = 0; i < COUNT(ENDS); i++) {
        size_t length = strlen(ENDS[i]);
        if (begins(line, "pmfarm: ") && line.length > length && !memcmp(line.at + line.length - length, ENDS[i], length))
            return status == (i == 1 ? 4 : 2);
    }
    return 0;
}

static int is_documented(struct run *run, struct span line)
{
    if (run->command->kind == LIST)
        return is_line_of_list(line, run->ended.status);
    for (size_t i = 0; i < COUNT(LINES); i++)
        if (strstr(run->command->classes, LINES[i].class) && strchr(LINES[i].statuses, '0' + run->ended.status) &&
            matches(line, LINES[i].pattern, NULL))
            return 1;
    return 0;
}

static const char *judge_diagnostics(struct run *run)
{
    struct span rest = all_of(&run->ended.err), line;
    int is_whole, lines = 0, hints = 0;
    while (next_line(&rest, &line, &is_whole)) {
        if (!is_whole || !is_documented(run, line))
            return wrong_line("no line of standard error", line);
        hints += begins(line, "pmfarm: hint: ");
        lines++;
    }
    if (run->ended.status == 2 && (lines == 0 || hints > 1 || (!strstr(run->command->classes, "cut") && lines > 1 + hints)))
        return wrong("a refusal with %d lines", lines);
    return NULL;
}

/* Whether the line tells `front`, a number and one of these causes. */
static int tells(struct span line, const char *front, u64 number, unsigned causes)
{
    char wanted[200];
    for (size_t i = 0; i < COUNT(CAUSES); i++) {
        snprintf(wanted, sizeof wanted, "pmfarm: %s %lu: %s", front, number, CAUSES[i]);
        if ((causes >> i & 1) && is_equal(line, wanted))
            return 1;
    }
    return 0;
}

static const char *as_told(struct run *run, const char *wanted)
{
    struct span line = first_line(&run->ended.err);
    return run->ended.status == 2 && is_equal(line, wanted) ? NULL : wrong("it is not refused as `%s`", wanted);
}

static u64 events_of(const struct run *run, int *is_there)
{
    for (size_t i = 0; i < run->log.sections; i++)
        if (run->log.section[i].number == run->section) {
            *is_there = 1;
            return run->log.section[i].events;
        }
    *is_there = 0;
    return 0;
}

/* Whether a section and an event that are asked for are refused where the log lacks them, and nothing else is. */
static const char *judge_place(struct run *run)
{
    char wanted[120];
    int is_there;
    u64 events = events_of(run, &is_there);
    if (!is_there && !run->log.is_known)
        return NULL;
    if (is_there && run->event >= 1 && run->event <= events)
        return run->ended.status == 2 ? wrong("an event that is there is refused") : NULL;
    if (!is_there)
        snprintf(wanted, sizeof wanted, "pmfarm: no section 0.%lu", run->section);
    else
        snprintf(wanted, sizeof wanted, "pmfarm: no event %lu in section 0.%lu", run->event, run->section);
    return as_told(run, wanted);
}

/* Whether a log is refused exactly where it is faulty, with its record and cause; and how many records were skipped. */
static const char *judge_log(struct run *run)
{
    struct span line = first_line(&run->ended.err);
    const struct log_facts *log = &run->log;
    char wanted[64];
    int is_cut = strstr(run->command->classes, "cut") != NULL;
    if (is_cut)
        return run->ended.status != 2 && log->faulty ? wrong("a fault of record %lu is not told", log->faulty) : NULL;
    if (log->faulty && (run->ended.status != 2 || !tells(line, "record", log->faulty, log->causes)))
        return wrong("record %lu is not refused as it has to be", log->faulty);
    if (log->faulty)
        return NULL;
    if (strstr(run->command->classes, "place"))
        return judge_place(run);
    if (run->ended.status == 2)
        return wrong_line("a log without a fault is refused", line);
    if (!strstr(run->command->classes, "check"))
        return NULL;
    snprintf(wanted, sizeof wanted, "pmfarm: skipped %lu records", log->skipped);
    return log->skipped ? is_equal(line, wanted) ? NULL : wrong("%lu records were skipped", log->skipped)
                        : begins(line, "pmfarm: skipped ") ? wrong("no record was skipped") : NULL;
}

/* Whether a ledger that is refused at a text line has its fault there, and one with a fault is not taken. */
static const char *judge_ledger_read(struct run *run)
{
    struct span line = first_line(&run->ended.err);
    const struct ledger_facts *ledger = &run->ledger;
    char wanted[120];
    if (strstr(run->command->classes, "trust"))
        return NULL;
    if (run->ended.status != 2 && ledger->faulty)
        return wrong("a ledger is taken that has a fault at line %lu", ledger->faulty);
    if (run->ended.status != 2 && !ledger->is_rising && strstr(run->command->classes, "stream"))
        return wrong("a ledger is taken whose names do not rise");
    if (!begins(line, "pmfarm: " INPUT_FILE ": line "))
        return NULL;
    snprintf(wanted, sizeof wanted, "pmfarm: " INPUT_FILE ": line %lu: not a ledger", ledger->faulty);
    if (ledger->causes ? tells(line, INPUT_FILE ": line", ledger->faulty, ledger->causes) : is_equal(line, wanted))
        return NULL;
    return wrong("the ledger's first fault is at line %lu", ledger->faulty);
}

static const char *judge_schedule(struct run *run)
{
    char wanted[64];
    if (run->input.length > 1048576)
        return as_told(run, "pmfarm: schedule is too long");
    snprintf(wanted, sizeof wanted, "pmfarm: schedule line %lu: bad step", run->bad_step);
    return run->bad_step ? as_told(run, wanted) : run->ended.status ? wrong("a schedule without a fault is refused") : NULL;
}

/* How many bytes the run had to read; a list may name the same file on each text line. */
static size_t bytes_of(const struct run *run)
{
    if (run->command->kind == LIST)
        return run->input.length + (run->input.length / 2 + 1) * run->sound.length;
    return run->input.length + (run->command->sound >= 0 ? run->sound.length : 0);
}

static double most_cpu(const struct run *run)
{
    return CPU_SECONDS + CPU_SECONDS_A_BYTE * (double)bytes_of(run);
}

static const char *judge_limits(const struct run *run)
{
    const struct ended *ended = &run->ended;
    size_t bytes = bytes_of(run);
    if (ended->cpu > most_cpu(run))
        return wrong("%.2f s of processor time for %zu bytes", ended->cpu, bytes);
    if (ended->memory > MEMORY + MEMORY_A_BYTE * bytes)
        return wrong("%zu bytes of memory for %zu bytes", ended->memory, bytes);
    if (ended->out.length + ended->err.length > OUTPUT + OUTPUT_A_BYTE * bytes)
        return wrong("%zu bytes of output for %zu bytes", ended->out.length + ended->err.length, bytes);
    return NULL;
}

static int may_leave_a_front(const struct command *command)
{
    return strstr(command->classes, "front") != NULL;
}

static const char *judge_input(struct run *run)
{
    switch (run->command->kind) {
    case LOG:
        return judge_log(run);
    case LEDGER:
        return judge_ledger_read(run);
    case SCHEDULE:
        return judge_schedule(run);
    default:
        return NULL;
    }
}

/* Whether it ended by itself, with a status that the command has, and whether a refusal wrote nothing that it must not. */
static const char *judge_end(const struct run *run)
{
    const struct ended *ended = &run->ended;
    if (ended->is_hung)
        return wrong("no end after %d seconds", HANG_SECONDS);
    if (ended->signal)
        return wrong("it is ended by signal %d", ended->signal);
    if (ended->status < 0 || ended->status > 9 || !strchr(run->command->statuses, '0' + ended->status))
        return wrong("status %d: %.*s", ended->status, (int)first_line(&ended->err).length, first_line(&ended->err).at);
    if (ended->status >= 2 && ended->out.length && !may_leave_a_front(run->command))
        return wrong("a refusal with %zu bytes of text", ended->out.length);
    return NULL;
}

static const char *judge_run(struct run *run)
{
    const char *fault = judge_end(run);
    fault = fault ? fault : judge_limits(run);
    fault = fault ? fault : judge_diagnostics(run);
    fault = fault ? fault : judge_input(run);
    return fault || run->ended.status >= 2 ? fault : run->command->judge(run);
}

/* ---- Cross checks: what two runs of one input have to have in common ---- */

static struct text first_out, second_out;
static int first_status;
static struct ended other;

/* Runs the program with words that end in NULL. */
static void run_words(int input, ...)
{
    char *words[MOST_WORDS + 2];
    size_t count = 1;
    va_list rest;
    words[0] = (char *)program;
    va_start(rest, input);
    while ((words[count] = va_arg(rest, char *)) && count < MOST_WORDS)
        count++;
    va_end(rest);
    run_program(words, input, &other);
}

static int is_same(const struct text *a, const struct text *b)
{
    return a->length == b->length && !memcmp(a->at, b->at, a->length);
}

static void keep_first(const struct run *run)
{
    copy(&first_out, run->ended.out.at, run->ended.out.length);
    first_status = run->ended.status;
}

/* Whether the other run ended as the first one did. */
static const char *as_first(const char *what)
{
    if (other.status == first_status && is_same(&other.out, &first_out))
        return NULL;
    return wrong("%s ends otherwise, with status %d", what, other.status);
}

static void give(int file, const struct text *text)
{
    copy(&second_out, text->at, text->length);
    fill(file, &second_out);
}

/* Threads, the ledger, the file and what `explain` tells agree with a report. */
static const char *cross_check(struct run *run)
{
    struct sums sums;
    u64 told = 0;
    const char *fault;
    keep_first(run);
    run_words(INPUT, "check", "--workers", "2", NULL);
    if ((fault = as_first("check --workers 2")))
        return fault;
    run_words(NOTHING, "check", INPUT_FILE, NULL);
    if ((fault = as_first("check of the file")) || (fault = one_report(run, 0, &sums)))
        return fault;
    run_words(INPUT, "explain", "--all", NULL);
    copy(&run->ended.out, other.out.at, other.out.length);
    if (other.status || (fault = read_explained(run, 1, &told)) || told != sums.of[FAIL])
        return fault ? fault : wrong("explain --all tells %lu rows of %lu", told, sums.of[FAIL]);
    run_words(INPUT, "check", "--ledger", NULL);
    if (other.status != first_status)
        return wrong("check --ledger ends with status %d", other.status);
    give(SOUND, &other.out);
    run_words(NOTHING, "join", SOUND_FILE, NULL);
    if ((fault = as_first("join of the ledger")))
        return fault;
    run_words(NOTHING, "join", "--stream", SOUND_FILE, NULL);
    return as_first("join --stream of the ledger");
}

/* A ledger that is joined again gives what it gave. */
static const char *cross_ledger(struct run *run)
{
    const char *fault;
    keep_first(run);
    give(SOUND, &run->ended.out);
    run_words(NOTHING, "join", "--ledger", SOUND_FILE, NULL);
    if ((fault = as_first("join --ledger of it")))
        return fault;
    run_words(NOTHING, "join", "--ledger", "--stream", SOUND_FILE, SOUND_FILE, NULL);
    return as_first("join --ledger --stream of it twice");
}

/* What a join of files that are read side by side writes is what it writes without. */
static const char *cross_stream(struct run *run)
{
    keep_first(run);
    run_words(NOTHING, "join", INPUT_FILE, NULL);
    return as_first("join without --stream");
}

/* A log with its cures is a log, and has as many rows that pass and fail as `why` says. */
static const char *cross_patch(struct run *run)
{
    struct sums sums;
    u64 told[8];
    struct span line;
    const char *fault;
    run_words(INPUT, "why", NULL);
    line = last_line(&other.out);
    if (other.status || !matches(line, "rows=# told=# untold=#; with all cures: pass=# fail=#", told))
        return wrong("why ends with status %d", other.status);
    give(SOUND, &run->ended.out);
    run_words(SOUND, "check", NULL);
    if (other.status > 1)
        return wrong("the log with its cures is refused");
    copy(&run->ended.out, other.out.at, other.out.length);
    fault = one_report(run, 0, &sums);
    if (!fault && (sums.of[PASS] != told[3] || sums.of[FAIL] != told[4]))
        fault = wrong("with its cures it has pass=%lu fail=%lu, and not %lu and %lu", sums.of[PASS], sums.of[FAIL], told[3], told[4]);
    return fault;
}

/* What was cut is a log; where nothing can be lost, its check ends as that of the whole one. */
static const char *cross_cut(struct run *run)
{
    int whole;
    keep_first(run);
    run_words(INPUT, "check", NULL);
    whole = other.status;
    if (whole > 1)
        return wrong("a log that was cut is refused");
    give(SOUND, &run->ended.out);
    run_words(SOUND, "check", NULL);
    if (other.status > 1)
        return wrong("the cut log is refused");
    return first_status || other.status == whole ? NULL : wrong("the cut log ends with status %d, and not %d", other.status, whole);
}

/* ---- Commands ---- */

/* A word in capitals stands for what a run puts there; IN? is the file, or in half of the runs nothing, and standard input is read.
 * The classes tell the lines of standard error, and whether a refusal may leave a front of text. */
static const struct command COMMANDS[] = {
    {"check", "check IN?", LOG, -1, 26, "012", "log check", judge_report, cross_check},
    {"check --ledger", "check --ledger IN?", LOG, -1, 6, "012", "log check", judge_ledger, cross_ledger},
    {"check --strict", "check --strict IN?", LOG, -1, 5, "012", "log check strict", judge_strict, NULL},
    {"check --profile 2", "check --profile 2 IN?", LOG, -1, 5, "012", "log check", judge_report, NULL},
    {"check --workers 2", "check --workers 2 IN?", LOG, -1, 5, "012", "log check", judge_report, NULL},
    {"lint", "lint IN?", LOG, -1, 5, "012", "log", judge_lint, NULL},
    {"lint --unasserted", "lint --unasserted IN?", LOG, -1, 3, "012", "log", judge_lint, NULL},
    {"explain --all", "explain --all IN?", LOG, -1, 4, "02", "log", judge_all_explained, NULL},
    {"explain --event", "explain --section SECTION --event EVENT IN?", LOG, -1, 4, "02", "log place", judge_explained, NULL},
    {"why", "why IN?", LOG, -1, 4, "02", "log", judge_why, NULL},
    {"why --all-rows", "why --all-rows IN?", LOG, -1, 3, "02", "log", judge_why, NULL},
    {"why --patch", "why --patch IN?", LOG, -1, 3, "02", "log", judge_patch, cross_patch},
    {"locate", "locate --section SECTION --event EVENT IN?", LOG, -1, 4, "02", "log place", judge_located, NULL},
    {"cut --events", "cut --events EVENTS", LOG, -1, 4, "012", "log cut front", judge_cut, cross_cut},
    {"join", "join IN", LEDGER, -1, 5, "012", "join", judge_joined, NULL},
    {"join of two", "join IN SOUND", LEDGER, RIGHT_LEDGER, 2, "012", "join", judge_joined, NULL},
    {"join --ledger", "join --ledger SOUND IN", LEDGER, RIGHT_LEDGER, 3, "012", "join", judge_ledger, cross_ledger},
    {"join --summary", "join --summary IN", LEDGER, -1, 2, "012", "join", judge_summary, NULL},
    {"join --stream", "join --stream IN", LEDGER, -1, 2, "012", "join stream front", judge_joined, cross_stream},
    {"join --stream of two", "join --stream SOUND IN", LEDGER, RIGHT_LEDGER, 2, "012", "join stream front", judge_joined, NULL},
    {"join --stream --workers 2", "join --stream --workers 2 IN", LEDGER, -1, 2, "012", "join stream front", judge_joined, NULL},
    {"join --stream --trust", "join --stream --trust SOUND IN", LEDGER, RIGHT_LEDGER, 2, "012", "join stream front trust", judge_trusted,
     NULL},
    {"join --files-from", "join --files-from IN", LIST, RIGHT_LEDGER, 2, "0124", "list", judge_joined, NULL},
    {"sim", "sim --log SOUND --workers WORKERS --ledgers LEDGERS", SCHEDULE, LOG, 4, "02", "sim", judge_played, NULL},
};

struct counts {
    u64 runs, statuses[5], other;
    double cpu;
    size_t memory;
};

static struct counts counts[COUNT(COMMANDS)];

static const struct command *a_command(void)
{
    int sum = 0;
    size_t at = 0;
    for (size_t i = 0; i < COUNT(COMMANDS); i++)
        sum += COMMANDS[i].weight;
    for (int left = (int)pick((size_t)sum); left >= COMMANDS[at].weight; at++)
        left -= COMMANDS[at].weight;
    return &COMMANDS[at];
}

/* A section and an event: mostly of those that are there. */
static void choose_place(struct run *run)
{
    const struct log_facts *log = &run->log;
    size_t at = pick(log->sections);
    u64 events = log->sections ? log->section[at].events : 0;
    run->section = log->sections && pick(16) ? log->section[at].number : pick(2) ? pick(4) : chance();
    run->event = pick(16) ? 1 + pick(events) : pick(3) ? events + pick(3) : (uint32_t)chance();
}

static void spell(struct run *run, char *to, const char *word)
{
    u64 number = strcmp(word, "SECTION") == 0   ? run->section
                 : strcmp(word, "EVENT") == 0   ? run->event
                 : strcmp(word, "EVENTS") == 0  ? 1 + pick((size_t)1 << pick(9))
                 : strcmp(word, "WORKERS") == 0 ? 1 + pick(5)
                                                : run->ledgers;
    if (!isupper((unsigned char)*word))
        snprintf(to, WORD, "%s", word);
    else if (strcmp(word, "IN") == 0 || strcmp(word, "IN?") == 0)
        snprintf(to, WORD, "%s", INPUT_FILE);
    else if (strcmp(word, "SOUND") == 0)
        snprintf(to, WORD, "%s", SOUND_FILE);
    else
        snprintf(to, WORD, "%lu", number);
}

static void choose_words(struct run *run)
{
    char parts[160], *rest = NULL;
    size_t count = 0;
    snprintf(parts, sizeof parts, "%s", run->command->words);
    run->words[0] = (char *)program;
    run->stdin_file = INPUT;
    for (char *word = strtok_r(parts, " ", &rest); word; word = strtok_r(NULL, " ", &rest)) {
        if (strcmp(word, "IN?") == 0 && pick(2))
            continue;
        if (strcmp(word, "IN") == 0 || strcmp(word, "IN?") == 0)
            run->stdin_file = NOTHING;
        spell(run, run->spelled[count], word);
        run->words[count + 1] = run->spelled[count];
        count++;
    }
    run->words[count + 1] = NULL;
}

/* Makes the run of a number: its command, its inputs and its words. */
static void make_run(struct run *run, u64 seed, u64 number)
{
    begin_chance(seed, number);
    run->command = a_command();
    run->ledgers = pick(4);
    make_input(&run->input, run->command->kind);
    if (run->command->sound >= 0) {
        const struct text *sound = a_seed(run->command->sound);
        copy(&run->sound, sound->at, sound->length);
        fill(SOUND, &run->sound);
    }
    if (run->command->kind == LOG)
        read_log(all_of(&run->input), &run->log);
    if (run->command->kind == LEDGER)
        read_ledger(all_of(&run->input), &run->ledger);
    if (run->command->kind == SCHEDULE)
        run->bad_step = read_schedule(all_of(&run->input), &run->steps);
    if (run->command->kind == LOG)
        choose_place(run);
    choose_words(run);
    fill(INPUT, &run->input);
}

static void count_run(const struct run *run)
{
    struct counts *to = &counts[run->command - COMMANDS];
    const struct ended *ended = &run->ended;
    to->runs++;
    if (ended->status >= 0 && ended->status <= 4)
        to->statuses[ended->status]++;
    else
        to->other++;
    to->cpu = ended->cpu > to->cpu ? ended->cpu : to->cpu;
    to->memory = ended->memory > to->memory ? ended->memory : to->memory;
}

static void keep(const char *folder, const char *name, const struct text *text)
{
    char path[4096];
    snprintf(path, sizeof path, "%s/%s", folder, name);
    FILE *to = fopen(path, "wb");
    if (!to || fwrite(text->at, 1, text->length, to) != text->length || fclose(to))
        stop(path);
}

/* Keeps the files of a run, and tells its words. */
static void keep_run(const struct run *run, const char *folder)
{
    keep(folder, "input", &run->input);
    if (run->command->sound >= 0)
        keep(folder, "sound", &run->sound);
    printf("words");
    for (size_t i = 1; run->words[i]; i++)
        printf(" %s", run->words[i]);
    printf("%s%s\n", run->stdin_file == INPUT ? " <input" : "", run->command->kind == LIST ? " 11<sound" : "");
}

/* Runs the program, and once or twice more where it took too long: a machine that is busy may count time that is not the program's. */
static void run_in_time(struct run *run)
{
    for (int tries = 0; tries < 3; tries++) {
        run_program(run->words, run->stdin_file, &run->ended);
        if (!run->ended.is_hung && run->ended.cpu <= most_cpu(run))
            return;
    }
}

/* Does the run of a number, and tells what is wrong with it, or NULL. */
static const char *do_run(struct run *run, u64 seed, u64 number)
{
    make_run(run, seed, number);
    int is_crossed = pick(CROSS_ONE_IN) == 0;
    run_in_time(run);
    const char *fault = judge_run(run);
    if (!fault && is_crossed && run->command->cross && run->ended.status <= 1)
        fault = run->command->cross(run);
    return fault;
}

/* The same: what is wrong within has to be wrong alone. */
static const char *one_run(struct run *run, u64 seed, u64 number)
{
    is_alone = !*within;
    const char *fault = do_run(run, seed, number);
    if (fault && !is_alone) {
        stop_server();
        is_alone = 1;
        fault = do_run(run, seed, number);
    }
    count_run(run);
    return fault;
}

static double now(void)
{
    struct timespec time;
    clock_gettime(CLOCK_MONOTONIC, &time);
    return (double)time.tv_sec + 1e-9 * (double)time.tv_nsec;
}

static void tell_counts(void)
{
    for (size_t i = 0; i < COUNT(COMMANDS); i++) {
        const struct counts *of = &counts[i];
        printf("run %lu %lu %lu %lu %lu %lu %lu %.6f %zu %s\n", of->runs, of->statuses[0], of->statuses[1], of->statuses[2],
               of->statuses[3], of->statuses[4], of->other, of->cpu, of->memory, COMMANDS[i].name);
    }
}

static void add_seeds(char **words)
{
    for (; *words; words++) {
        char *file = strchr(*words, ':');
        for (int kind = 0; file && kind < KINDS; kind++)
            if (strlen(KIND_NAMES[kind]) == (size_t)(file - *words) && begins((struct span){*words, strlen(*words)}, KIND_NAMES[kind]))
                add_seed(kind, file + 1);
    }
    for (int kind = 0; kind < KINDS; kind++)
        if (!seeds[kind].count)
            stop("a kind without a seed");
}

int main(int count, char **words)
{
    static struct run run;
    int wrongs = 0;
    if (count < 9)
        stop("usage: mutate PROGRAM WITHIN SEED FIRST RUNS SECONDS FOLDER KIND:FILE..");
    program = words[1];
    within = words[2];
    u64 seed = strtoull(words[3], NULL, 10), first = strtoull(words[4], NULL, 10), runs = strtoull(words[5], NULL, 10);
    double seconds = strtod(words[6], NULL), start = now();
    const char *folder = words[7];
    add_seeds(words + 8);
    open_files();
    for (u64 i = 0; (!runs || i < runs) && (seconds == 0 || now() - start < seconds); i++) {
        const char *fault = one_run(&run, seed, first + i);
        if (*folder)
            keep_run(&run, folder);
        if (fault && wrongs < MOST_TOLD) {
            printf("wrong %lu:%lu %s: %s\n", seed, first + i, run.command->name, fault);
            wrongs++;
        }
    }
    stop_server();
    tell_counts();
    return wrongs > 0;
}
