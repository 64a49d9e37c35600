/* Measures how many bytes of stack each function uses, prints them, and fails where they are more than the header states.
 * Link it with -z now: else the first call is measured with what the dynamic linker needs to bind memcpy and memset.
 * Each call runs on a thread of its own, on a stack filled with a pattern, above a page that may not be touched. The rigs are as large as rigs
 * can be: 16 events, 1,024 joint states, and the horizon 1,000. */
#define _GNU_SOURCE
#include <pthread.h>
#include <stdio.h>
#include <string.h>
#include <sys/mman.h>
#include "wandukhai.h"

enum { EVENTS = 16, S = 32, HORIZON = 1000, CELLS = (HORIZON + 1) * S * S, TWO_ROWS = 2 * S * S, FEW_CELLS = (HORIZON / 16 + 16) * S * S };
enum { INDICES = 2100, DRAWS = 100000, SHEET = 100 * (7 + 17 * HORIZON) };
/* Just above 2^63: nearly half of all raw numbers are thrown away. */
#define HALF (UINT64_MAX / 2 + DRAWS)
enum { GUARD = 1 << 16, STACK = 1 << 20, PATTERN = 0xA5 };

static char text[65535];
static uint64_t cells[CELLS], answer[2], indices[INDICES], draws[DRAWS], scratch[2 * DRAWS], out[DRAWS], number;
static uint8_t events[INDICES * HORIZON], sheet[SHEET];
static uint64_t n, spacing;
static uint8_t limit;

/* Two monitors of 32 states that admit every event in every state, but none in the last of the first; all the others are marked. In the first
 * only events 14 and 15 lead on for ever, 14 once: N is h + 1; or, where `many`, all of them do: N is 16 ^ h. */
static void write_rig(int many)
{
    char *end = text + sprintf(text, "rig\t%d\n", EVENTS);
    int s, e, to;

    end += sprintf(end, "mon\t%d\n", S);
    for (s = 0; s < S - 1; s++)
        for (e = 0; e < EVENTS; e++) {
            to = many || e == 15 ? s : s == 0 && e == 14 ? 1 : S - 1;
            end += sprintf(end, "go\t%d\t%d\t%d\n", s, e, to);
        }
    for (s = 0; s < S - 1; s++)
        end += sprintf(end, "stop\t%d\n", s);
    end += sprintf(end, "mon\t%d\n", S);
    for (s = 0; s < S; s++)
        for (e = 0; e < EVENTS; e++)
            end += sprintf(end, "go\t%d\t%d\t%d\n", s, e, (s + 1) % S);
    for (s = 0; s < S; s++)
        end += sprintf(end, "stop\t%d\n", s);
}

static void write_many(void)
{
    write_rig(1);
}

/* A `gap` and a `reply` of 32 states each; the 13 events that neither names make N more than 13 ^ h. */
static void write_rules(void)
{
    sprintf(text, "rig\t%d\ngap\t0\t%d\nreply\t1\t2\t1\t%d\n", EVENTS, S, S - 1);
}

/* Three `bal`s of 16, 16 and 4 states with a step for every event; the 5 events whose step is 0 in each make N more than 5 ^ h. */
static void write_sums(void)
{
    static const char *const bals[] = {"bal\t-15\t0\n", "bal\t0\t15\n", "bal\t-1\t2\n"};
    static const int steps[][3] = {{-15, 0, 1}, {15, 0, -1}, {-1, 0, 1}};
    char *end = text + sprintf(text, "rig\t%d\n", EVENTS);
    int k, e;

    for (k = 0; k < 3; k++) {
        end += sprintf(end, "%s", bals[k]);
        for (e = 0; e < EVENTS; e++)
            end += sprintf(end, "amp\t%d\t%d\n", e, steps[k][e % 3]);
    }
}

/* Two `day`s of 32 states with an `open` line for each half of the day and every event; they add up to the whole day, so N is 16 ^ h. */
static void write_days(void)
{
    char *end = text + sprintf(text, "rig\t%d\n", EVENTS);
    int k, e;

    for (k = 0; k < 2; k++) {
        end += sprintf(end, "day\t%d\n", S);
        for (e = 0; e < EVENTS; e++)
            end += sprintf(end, "open\t%d\t0\t%d\nopen\t%d\t%d\t%d\n", e, S / 2, e, S / 2, S);
    }
}

/* The texts whose N is 2^64 - 1 or more at the horizon. */
static void (*const full[])(void) = {write_many, write_rules, write_sums, write_days};

static void count(void)
{
    number = wandukhai_count((const uint8_t *)text, strlen(text), HORIZON, cells, CELLS, answer);
}

static void count_forward(void)
{
    number = wandukhai_count_forward((const uint8_t *)text, strlen(text), HORIZON, cells, TWO_ROWS, answer);
}

static void scenarios(void)
{
    number = wandukhai_scenarios((const uint8_t *)text, strlen(text), HORIZON, indices, INDICES, cells, CELLS, events, sizeof events, answer);
}

static void scenarios_small(void)
{
    number = wandukhai_scenarios_small((const uint8_t *)text, strlen(text), HORIZON, indices, INDICES, cells, FEW_CELLS, events, sizeof events,
                                       answer);
}

static void index_of(void)
{
    number = wandukhai_index((const uint8_t *)text, strlen(text), events, HORIZON, cells, CELLS, answer);
}

static void shuffle(void)
{
    number = wandukhai_shuffle(n, draws, DRAWS, scratch, 2 * DRAWS, out, DRAWS, answer);
}

static void draw(void)
{
    number = wandukhai_draws(n, DRAWS, 1, limit, draws, DRAWS, answer);
}

/* The sheet of the scenarios listed last, so many of them as there is room for whatever the spacing. */
static void write_sheet(void)
{
    number = wandukhai_sheet(events, sizeof events, n, HORIZON, spacing, sheet, SHEET, answer);
}

/* Where the stack begins for the call. */
static unsigned char *top;

static void *run(void *call)
{
    top = __builtin_frame_address(0);
    (*(void (**)(void))call)();
    return NULL;
}

/* The bytes of stack that the call uses; it must return `expected`. */
static long used(void (*call)(void), uint64_t expected)
{
    unsigned char *base = mmap(NULL, GUARD + STACK, PROT_READ | PROT_WRITE, MAP_PRIVATE | MAP_ANONYMOUS, -1, 0), *low = base + GUARD;
    pthread_attr_t attributes;
    pthread_t thread;
    long bytes;

    if (base == MAP_FAILED || mprotect(base, GUARD, PROT_NONE) != 0)
        return -1;
    memset(low, PATTERN, STACK);
    if (pthread_attr_init(&attributes) != 0 || pthread_attr_setstack(&attributes, low, STACK) != 0
        || pthread_create(&thread, &attributes, run, &call) != 0 || pthread_join(thread, NULL) != 0 || number != expected)
        return -1;
    while (*low == PATTERN)
        low++;
    bytes = (long)(top - low);
    munmap(base, GUARD + STACK);
    return bytes;
}

/* The more of the bytes of two calls; -1 where one did not do what was expected. */
static long more(long a, long b)
{
    return a < 0 || b < 0 ? -1 : a > b ? a : b;
}

/* Whether the calls of one function keep to what the header states. */
static int keeps(const char *name, long most, long stated)
{
    printf("%s\t%ld of %ld bytes\n", name, most, stated);
    return most >= 0 && most <= stated;
}

int main(void)
{
    long counted, counted_forward, listed, listed_small, found, shuffled, drawn, written;
    int good = 1;
    size_t i;

    write_rig(0);
    for (i = 0; i < INDICES; i++)
        indices[i] = (i * 7919) % (HORIZON + 1);
    counted = used(count, 0);
    counted_forward = used(count_forward, 0);
    listed = used(scenarios, 0);
    listed_small = used(scenarios_small, 0);
    found = used(index_of, 0);
    for (i = 0; i < DRAWS; i++)
        draws[i] = i + (i * 7919) % (DRAWS - i);
    n = DRAWS;
    shuffled = used(shuffle, 0);
    for (i = 0; i < sizeof full / sizeof *full; i++) {
        full[i]();
        counted = more(counted, used(count, 10));
        counted_forward = more(counted_forward, used(count_forward, 10));
        listed = more(listed, used(scenarios, 10));
        listed_small = more(listed_small, used(scenarios_small, 10));
        found = more(found, used(index_of, 10));
    }
    n = UINT64_MAX;
    for (i = 0; i < DRAWS; i++)
        draws[i] = UINT64_MAX - 1 - (i * 7919) % 1000;
    shuffled = more(shuffled, used(shuffle, 0));
    limit = 255;
    drawn = used(draw, 0);
    n = HALF;
    drawn = more(drawn, used(draw, 0));
    limit = 10;
    drawn = more(drawn, used(draw, 19));
    n = 100;
    spacing = 1;
    written = used(write_sheet, 0);
    spacing = 100;
    written = more(written, used(write_sheet, 0));
    spacing = UINT64_MAX;
    written = more(written, used(write_sheet, 0));
    /* scenarios that share no start, of three digits an event: no sheet is longer */
    spacing = 1;
    for (i = 0; i < 100 * HORIZON; i++)
        events[i] = (uint8_t)(255 - i / HORIZON);
    written = more(written, used(write_sheet, 0));
    /* one more than there is room for */
    n = 101;
    written = more(written, used(write_sheet, 12));
    good &= keeps("wandukhai_count", counted, WANDUKHAI_COUNT_STACK);
    good &= keeps("wandukhai_count_forward", counted_forward, WANDUKHAI_COUNT_FORWARD_STACK);
    good &= keeps("wandukhai_scenarios", listed, WANDUKHAI_SCENARIOS_STACK);
    good &= keeps("wandukhai_scenarios_small", listed_small, WANDUKHAI_SCENARIOS_SMALL_STACK);
    good &= keeps("wandukhai_index", found, WANDUKHAI_INDEX_STACK);
    good &= keeps("wandukhai_shuffle", shuffled, WANDUKHAI_SHUFFLE_STACK);
    good &= keeps("wandukhai_draws", drawn, WANDUKHAI_DRAWS_STACK);
    good &= keeps("wandukhai_sheet", written, WANDUKHAI_SHEET_STACK);
    return good ? 0 : 1;
}
