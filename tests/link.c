/* Counts the scenarios of a rig, with two rows of cells and with all; lists them in an order shuffled from a seed, each with its index and its
 * events; writes the sheet of that list for a bench; and lists one of a longer horizon, with fewer rows of cells. */
#include <stdio.h>
#include <string.h>
#include "wandukhai.h"

enum { HORIZON = 3, STATES = 2 * 3, CELLS = (HORIZON + 1) * STATES, MOST = 8 };
enum { SPACING = 2, SHEET = MOST * (7 + 17 * HORIZON) };
enum { TWO_ROWS = 2 * STATES, LONG = 40, FEW_CELLS = (LONG / 16 + 16) * STATES };

/* Prints what a count answered; gives back the number. */
static uint64_t print_count(uint64_t number, const uint64_t answer[2])
{
    if (number == 0)
        printf("count\t%llu\t%llu\n", (unsigned long long)answer[0], (unsigned long long)answer[1]);
    else
        printf("no\t%llu\t%llu\n", (unsigned long long)number, (unsigned long long)answer[0]);
    return number;
}

static void print_scenario(uint64_t index, const uint8_t *events, int h)
{
    int k;

    printf("%llu", (unsigned long long)index);
    for (k = 0; k < h; k++)
        printf("\t%d", events[k]);
    printf("\n");
}

int main(void)
{
    /* Two 1s are at least two steps apart, and at most two come. link.rs has a rig of `mon` and `go` lines with the same scenarios of three
     * events, and the same first ones of more. */
    const char *rig = "rig\t2\ngap\t1\t2\nbal\t-2\t0\namp\t1\t-1\n";
    const uint8_t *text = (const uint8_t *)rig;
    const size_t len = strlen(rig);
    /* The same seed gives the same list; a real caller takes another for another list. */
    const uint64_t seed = 1234567;
    uint64_t cells[CELLS], few_cells[FEW_CELLS], draws[MOST], scratch[2 * MOST], order[MOST], answer[2], told[2], place, index;
    uint8_t events[MOST * HORIZON], sheet[SHEET], long_events[LONG];
    size_t i;

    if (print_count(wandukhai_count_forward(text, len, HORIZON, few_cells, TWO_ROWS, answer), answer) != 0)
        return 1;
    if (print_count(wandukhai_count(text, len, HORIZON, cells, CELLS, answer), answer) != 0)
        return 1;
    if (answer[0] > MOST || wandukhai_draws(answer[0], answer[0], seed, 255, draws, MOST, &place) != 0)
        return 1;
    if (wandukhai_shuffle(answer[0], draws, answer[0], scratch, 2 * MOST, order, MOST, &place) != 0)
        return 1;
    if (wandukhai_scenarios(text, len, HORIZON, order, answer[0], cells, CELLS, events, sizeof events, &place) != 0)
        return 1;
    for (i = 0; i < answer[0]; i++) {
        if (wandukhai_index(text, len, events + i * HORIZON, HORIZON, cells, CELLS, &index) != 0 || index != order[i])
            return 1;
        print_scenario(index, events + i * HORIZON, HORIZON);
    }
    if (wandukhai_sheet(events, sizeof events, answer[0], HORIZON, SPACING, sheet, sizeof sheet, told) != 0)
        return 1;
    printf("sheet\t%llu\t%llu\n", (unsigned long long)told[0], (unsigned long long)told[1]);
    fwrite(sheet, 1, told[0], stdout);
    if (wandukhai_scenarios_small(text, len, LONG, order, 1, few_cells, FEW_CELLS, long_events, LONG, &place) != 0)
        return 1;
    print_scenario(order[0], long_events, LONG);
    return 0;
}
