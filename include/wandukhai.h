/* Wandukhai: counts the scenarios of a rig, turns indices into scenarios and back, shuffles indices by draws, which it makes from a seed, and
 * writes sheets of bench commands.
 *
 * Link with libcapi.a (`rt lib` in crates/capi writes crates/capi/out/libcapi.a, for x86-64-v2). The functions keep no state, allocate nothing,
 * and end on any input. How much stack each uses is stated below, as WANDUKHAI_..._STACK.
 *
 * What each asks of its caller, and nothing more:
 *   - a pointer and the length after it are a buffer of that many elements, aligned as its type, and valid for the whole call;
 *   - every pointer is non-null, also that of an empty buffer;
 *   - a buffer that is not `const`, the answer's included, overlaps no other buffer.
 * What the buffers hold before a call does not matter.
 *
 * Rig text: at most 65,535 bytes. Every line, the last too, ends with byte 10; its word and its numbers are parted by one byte 9. A number
 * is one to five digits, without leading zero except 0 itself.
 *   rig E             first line; events are 0 to E-1, E from 1 to 16
 *   ord e e ...       second line, which may be left out: all E events, first to last, in the order of scenarios; without it lower first
 *   mon S             a new monitor with states 0 to S-1, S from 1 to 32, starting in 0
 *   mon S start       the same, starting in the state given, which is below S
 *   go s e t          the latest monitor, a `mon`, moves from s to t on event e; without such a line it does not admit e in s
 *   stop s            marks state s of the latest monitor, a `mon`; `go` and `stop` lines may be mixed
 *   gap e n           a new monitor: two events e are at least n steps apart, n from 2 to 32
 *   reply a b lo hi   a new monitor: after a, some b comes lo to hi steps later, lo from 1 to hi, hi up to 31; until the first such b no
 *                     further a is admitted, and an earlier b is admitted and settles nothing; a reply may still be due at the horizon
 *   bal lo hi         a new monitor of a difference that begins at 0: an event adds its step, and is admitted if the difference stays from
 *                     lo to hi; lo from -15 to 0, hi from 0 to 15
 *   amp e d           gives event e the step d, -15 to 15, in the latest monitor, a `bal`; an event without such a line has step 0
 *   day T             a new monitor of a day of T steps, T from 2 to 32: the scenario begins at step 0, each event is one step, and the day
 *                     repeats; an event is admitted at a step if it has no `open` line, or one for that step
 *   open e a b        admits event e at the steps from a up to but not including b, in the latest monitor, a `day`; a below b, b at most T;
 *                     several lines of one event add up, and equal ones may repeat
 * In lo, hi and d of `bal` and `amp` a minus sign, byte 45, may come before a nonzero number; no sign may stand anywhere else.
 * One to four monitors, of any kind; an event is admitted if every monitor admits it. A `mon` has the marks of its `stop` lines. A `gap` has n
 * states: the number of coming steps in which e is not admitted; all are marked. A `reply` has hi+1 states: 0 with nothing due, 1 just after
 * a, and one more each step; only 0 is marked. A `bal` has hi-lo+1 states: state j is the difference lo+j; all are marked. A `day` has T
 * states: the step of the day at which the coming event stands; all are marked. A `bal` starts in -lo, a `gap`, `reply` or `day` in 0.
 * A joint state is a state of each monitor; its number has the first monitor as its highest digit.
 * P is the product of all numbers of states, at most 1,024. The horizon h is 0 to 1,000. N is the number of scenarios of h events.
 *
 * A joint state is stoppable if every monitor's state is marked. It is live if, for every k, k events can follow, or fewer, none included,
 * that lead to a stoppable state. A scenario has exactly h events and passes live states only. In a rig without stoppable states it can be
 * carried on for ever; in one with them, there may be scenarios of one horizon and none of the next. The scenarios have the indices 0 to N-1:
 * of two, the one comes first whose event is first in the order of events where they first differ.
 * Live states are found by pruning all joint states: a pass removes each state that is not stoppable and from which no event leads to a state
 * left by the pass before. The last pass removes none, and is counted too.
 *
 * Returned: 0 where the call is served, else the number of refusal, with a place (0 where none is named):
 *    1  text over 65,535 bytes
 *    2  no such line form, a field that is no number, a sign where none may      place: line, from 1
 *       stand, or the last line unended; on line 2, an `ord` with other than E
 *       events
 *    3  a number out of its range, an event not below E, a start or a state of   place: line
 *       a `go` or `stop` not below S, lo over hi, b over T, or a fifth monitor
 *    4  s and e again in one monitor, a state marked twice, or an event again    place: line
 *       in one `bal`
 *    5  first line not `rig`, `rig` later, `ord` not on line 2, `go` or `stop`   place: line; at the end, lines + 1
 *       where the latest monitor is no `mon`, `amp` where it is no `bal`,
 *       `open` where it is no `day`; no monitor by the end
 *    6  P over 1,024                                                             place: line of that monitor
 *    7  h over 1,000
 *    8  cells_len below (h + 1) * P, for wandukhai_scenarios_small below
 *       (h / 16 + 16) * P, for wandukhai_count_forward below 2 * P;
 *       scratch_len below 2 * draws_len
 *    9  N is 0: no scenario of this horizon
 *   10  N is 18,446,744,073,709,551,615 or more
 *   11  index not below N                                                        place: position in the list, from 0
 *   12  out_len below indices_len * h, below draws_len, below z, or below the
 *       length of the sheet; scenarios_len below m * h
 *   13  event byte E or more                                                     place: position in the sequence, from 0
 *   14  the sequence is no scenario                                              place: the first event that is not admitted or leads to a
 *                                                                                state not live, from 0
 *   15  draw i not from i to n-1                                                 place: position, from 0
 *       z over n                                                                 place: n
 *   16  an event named twice in `ord`                                            place: line
 *   17  a equals b in `reply`                                                    place: line
 *   18  a not below b in `open`                                                  place: line
 *   19  all raw numbers of a draw thrown away; with limit 0 that is draw 0       place: the first such draw, from 0
 *   20  g is 0
 * Checks go in the order 1, 2 to 6 and 16 to 18 line by line (on one line 2, 5, 3, 16, 17 or 18, 4, 6), 7, 20, 8, 12, 13, 9, 10, 11, 14, 15,
 * 19.
 */
#ifndef WANDUKHAI_H
#define WANDUKHAI_H

#include <stddef.h>
#include <stdint.h>

#ifdef __cplusplus
extern "C" {
#endif

/* Bytes of stack that each function uses at most: measured at the horizon 1,000 with the largest rig (tests/stack.c), and a twentieth or more
 * added. A thread needs some more for itself, and some 4,096 bytes more where memcpy and memset are bound at their first call (cc's -z lazy). */
#define WANDUKHAI_COUNT_STACK 57344
#define WANDUKHAI_COUNT_FORWARD_STACK 57344
#define WANDUKHAI_SCENARIOS_STACK 57344
#define WANDUKHAI_SCENARIOS_SMALL_STACK 73728
#define WANDUKHAI_INDEX_STACK 57344
#define WANDUKHAI_SHUFFLE_STACK 4096
#define WANDUKHAI_DRAWS_STACK 4096
#define WANDUKHAI_SHEET_STACK 4096

/* Counts the scenarios of h events.
 * cells: at least (h + 1) * P numbers. Served or refused with 9 or 10, the cell at r * P + x holds the number of admitted sequences of r
 * events from joint state x through live states, or 2^64 - 1 where that is 2^64 - 1 or more; the cells past (h + 1) * P are kept.
 * After every other refusal all cells are kept.
 * answer: served, N and the passes of pruning; refused, the place and 0. */
uint64_t wandukhai_count(const uint8_t *text, size_t text_len, uint64_t h, uint64_t *cells, size_t cells_len, uint64_t answer[2]);

/* Counts the scenarios of h events, in two rows of cells at any horizon: from the front, with 1 at a live start that is pushed forward event by
 * event through live states. At h 1,000 and P 1,024 it needs 2,048 cells, wandukhai_count 1,025,024; at h 0 it needs twice as many as that one,
 * at 1 as many. Apart from 8 it returns the number, and tells the place or N and the passes, that wandukhai_count does with cells enough.
 * cells: at least 2 * P numbers. Served or refused with 9 or 10, the first 2 * P hold anything; the others are kept. After every other refusal
 * all cells are kept.
 * answer: as for wandukhai_count. */
uint64_t wandukhai_count_forward(const uint8_t *text, size_t text_len, uint64_t h, uint64_t *cells, size_t cells_len, uint64_t answer[2]);

/* Writes the scenarios of the given indices, each below N; an index may repeat.
 * cells: as for wandukhai_count, filled after 11 too.
 * out: at least indices_len * h bytes. Scenario number k of the list fills the h bytes from k * h, one byte an event; the bytes past
 * indices_len * h are kept, and all of them after a refusal.
 * place: 0 where served, else the place. */
uint64_t wandukhai_scenarios(const uint8_t *text, size_t text_len, uint64_t h, const uint64_t *indices, size_t indices_len,
                             uint64_t *cells, size_t cells_len, uint8_t *out, size_t out_len, uint64_t *place);

/* As wandukhai_scenarios, in fewer cells: for long horizons where there is too little memory for all rows. It keeps every sixteenth row and
 * works the others out when they are wanted. At h 1,000 and P 1,024 it needs 79,872 cells, wandukhai_scenarios 1,025,024. Below h 15 it needs
 * more than that one, at 15 and 16 as many. Apart from 8 it returns the number and the place, and writes the bytes, that wandukhai_scenarios
 * does with cells enough.
 * cells: at least (h / 16 + 16) * P numbers, h / 16 rounded down. Served or refused with 9, 10 or 11, the first (h / 16 + 16) * P hold
 * anything; the others are kept. After every other refusal all cells are kept.
 * out, place: as for wandukhai_scenarios. */
uint64_t wandukhai_scenarios_small(const uint8_t *text, size_t text_len, uint64_t h, const uint64_t *indices, size_t indices_len,
                                   uint64_t *cells, size_t cells_len, uint8_t *out, size_t out_len, uint64_t *place);

/* Finds the index of a sequence of event bytes; its length is the horizon.
 * cells: as for wandukhai_count, filled after 14 too.
 * answer: served, the index; refused, the place. */
uint64_t wandukhai_index(const uint8_t *text, size_t text_len, const uint8_t *sequence, size_t sequence_len, uint64_t *cells,
                         size_t cells_len, uint64_t *answer);

/* Shuffles: begins with 0 to n-1 in order; for each i from 0, swaps the numbers at i and at draw i; number i of the output is then the
 * number at i. Draw i is from i to n-1. No array of n numbers is needed; n may be any number.
 * scratch: at least 2 * draws_len numbers. The first 2 * draws_len hold anything after a served call; the others are kept, and all of
 * them after a refusal.
 * out: at least draws_len numbers; those past draws_len are kept, and all of them after a refusal.
 * place: 0 where served, else the place.
 * Any different numbers below n, in any order, come out for exactly one list of valid draws: uniform and independent draws, which the caller
 * has to see to, give a uniform sample. wandukhai_draws makes valid draws from a seed. */
uint64_t wandukhai_shuffle(uint64_t n, const uint64_t *draws, size_t draws_len, uint64_t *scratch, size_t scratch_len, uint64_t *out,
                           size_t out_len, uint64_t *place);

/* Makes z draws for wandukhai_shuffle from a seed; z is at most n. The same n and seed give the same draws: fewer draws are the first of more,
 * and a limit that serves them changes none.
 * The raw numbers are those of SplitMix64: the state, 64 bits, begins as the seed; each raw number adds 9E3779B97F4A7C15 (hexadecimal) to it,
 * modulo 2^64, and mixes a copy. The state goes on from draw to draw. For draw i, with w = n - i, a raw number below 2^64 mod w is thrown away;
 * the first other one gives the draw: i plus that number mod w. So each number from i to n-1 is the draw for equally many raw numbers. That
 * the raw numbers of a seed are uniform or independent is not said.
 * limit: the most raw numbers for one draw. Of all raw numbers less than half are thrown away, whatever w is: with 255 no 19 is to be expected.
 * out: at least z numbers, of which the first z become the draws; those past z are kept, and all of them after a refusal.
 * place: 0 where served, else the place. */
uint64_t wandukhai_draws(uint64_t n, uint64_t z, uint64_t seed, uint8_t limit, uint64_t *out, size_t out_len, uint64_t *place);

/* Writes the sheet of m scenarios of h events for a bench that saves its states, so that starts which scenarios share need not be run again.
 * A sheet has lines as a rig text has: a word and numbers, parted by one byte 9, and byte 10.
 *   load j            the current sequence becomes what slot j holds
 *   run e e ...       the events are run: the current sequence goes on by them
 *   save j            slot j holds the current sequence from here on
 * Slot j is for the first j * g events of a scenario; slot 0 holds the start, and is never saved. Each scenario, in list order, loads the deepest
 * such depth within the start that it shares with the scenario before it, the first one slot 0. It then runs on, and saves at each such depth
 * that it reaches: a run ends at the next such depth or at h, and none is empty. A scenario equal to the one before is `load` alone where g
 * divides h, and so is every one where h is 0. After the last line of a scenario the current sequence is that scenario. g may be any number but
 * 0; over h, nothing is saved and every scenario is run from the start. The slots needed are 0 to h / g, rounded down.
 * scenarios: at least m * h bytes; m * h is meant exactly, and may have more than 64 bits. Scenario number k is the h bytes from k * h, as
 * wandukhai_scenarios fills them, and any byte may stand. Those past m * h are passed over.
 * out: begins with the sheet; the bytes past it are kept, and all of them after a refusal. 7 + 17 * h bytes for each scenario are enough.
 * answer: served, the length of the sheet in bytes and the event total, which is the sum of h less the loaded depth over all scenarios; refused,
 * the place, which is 0, and 0. */
uint64_t wandukhai_sheet(const uint8_t *scenarios, size_t scenarios_len, uint64_t m, uint64_t h, uint64_t g, uint8_t *out, size_t out_len,
                         uint64_t answer[2]);

#ifdef __cplusplus
}
#endif

#endif
