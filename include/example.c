/*
 * A table in memory, what a press needs, the verdict without Ada and with her, both rights on a sheet, and the leak replayed and
 * carried out. It prints:
 *
 *   accepted
 *   right 1 in (0, 2) and (1, 2): held after 2 steps
 *   right 0 in (1, 2): never
 *   without 0: safe
 *   sheet: right 0 safe, right 1 unsafe after 1 step: rule 0 with 0 0 2
 *   unsafe after 1 step: rule 0 with 0 0 2
 *   replayed: leaks at step 0
 *   run: cell (0, 2) held 1, and holds 3
 *   run with names 1 0 2: refused 14
 *
 * The table is that of docs/FORMAT.md: two rights, of which right 0 carries right 1; Ada (0) and Ben (1) are subjects, and the
 * shade (2) is an object on which Ada has right 0; by rule 0 (a, b, c), who has right 1 on c, or a right that carries it, may enter
 * right 1 into any b's cell of c.
 */
#include "tugcaphi.h"

#include <stdio.h>
#include <string.h>

enum {
    SET = TUGCAPHI_SET,
    KINDS = 18,
    CELLS = KINDS + 32,
    CARRIES = CELLS + 32 * 32 * SET,
    RULE = CARRIES + 2 * SET,
    LENGTH = RULE + 10
};

static void table(uint8_t file[LENGTH])
{
    static const uint8_t head[KINDS] = {
        2, 4,                             /* rights, pairs */
        KINDS, 0, 32, 0,                  /* kinds: where, how long; low byte first */
        CELLS, 0, 0, 8,                   /* cells */
        CARRIES & 255, CARRIES >> 8, 4, 0, /* carries */
        RULE & 255, RULE >> 8, 10, 0,     /* rule 0 */
    };
    static const uint8_t rule[10] = {
        3, 1, 1,                          /* blanks, conditions, steps */
        1, 0, 2,                          /* right 1 in (a, c) */
        1, 1, 1, 2,                       /* enter right 1 into (b, c) */
    };
    memset(file, 0, LENGTH);
    memcpy(file, head, sizeof head);
    file[KINDS + 0] = 2;
    file[KINDS + 1] = 2;
    file[KINDS + 2] = 1;
    /* Rights below 8 are in the low byte of a set, which comes first. */
    file[CELLS + SET * (32 * 0 + 2)] = 1 << 0;
    file[CARRIES + SET * 0] = 1 << 1;
    memcpy(file + RULE, rule, sizeof rule);
}

int main(void)
{
    static uint8_t file[LENGTH], steps[TUGCAPHI_BUFFER], halves[2 * TUGCAPHI_BUFFER];
    static uint8_t sheet[2 * TUGCAPHI_ENTRY] = {0, 0, 0, 0, 1, 0, 0, 0};
    static const uint8_t both[2 * TUGCAPHI_CELL] = {1, 0, 2, 1, 1, 2}, none[TUGCAPHI_CELL] = {0, 1, 2};
    const uint8_t right = 1, ada = 0;
    const uint8_t *cell = file + CELLS + SET * (32 * 0 + 2);
    uint64_t count, at;
    uint8_t answer;
    int before;

    table(file);
    if ((answer = access_check(file, LENGTH)) != TUGCAPHI_ACCEPTED) {
        printf("refused %d\n", answer);
        return 2;
    }
    printf("accepted\n");

    if (access_need(file, LENGTH, both, sizeof both, steps, sizeof steps, &count) == TUGCAPHI_HELD)
        printf("right 1 in (0, 2) and (1, 2): held after %d steps\n", (int)count);
    if (access_need(file, LENGTH, none, sizeof none, steps, sizeof steps, &count) == TUGCAPHI_NEVER)
        printf("right 0 in (1, 2): never\n");

    if (access_judge_part(file, LENGTH, right, &ada, 1, steps, sizeof steps, &count) == TUGCAPHI_SAFE)
        printf("without 0: safe\n");

    /* Entry 1 has the second half of the buffer. */
    if (access_sheet(file, LENGTH, sheet, sizeof sheet, halves, sizeof halves) == TUGCAPHI_ANSWERED
        && sheet[1] == TUGCAPHI_SAFE && sheet[TUGCAPHI_ENTRY + 1] == TUGCAPHI_UNSAFE) {
        const uint8_t *step = halves + sizeof halves / 2;
        printf("sheet: right 0 safe, right 1 unsafe after %d step: rule %d with %d %d %d\n",
               sheet[TUGCAPHI_ENTRY + 2] + 256 * sheet[TUGCAPHI_ENTRY + 3], step[0], step[1], step[2], step[3]);
    }

    answer = access_judge(file, LENGTH, right, steps, sizeof steps, &count);
    if (answer != TUGCAPHI_UNSAFE) {
        printf(answer == TUGCAPHI_SAFE ? "safe\n" : "refused %d\n", answer);
        return answer == TUGCAPHI_SAFE ? 0 : 2;
    }
    printf("unsafe after %d step: rule %d with %d %d %d\n", (int)count, steps[0], steps[1], steps[2], steps[3]);

    answer = access_replay(file, LENGTH, steps, TUGCAPHI_STEP * count, right, &at);
    printf(answer == TUGCAPHI_LEAK ? "replayed: leaks at step %d\n" : "replayed: no leak\n", (int)at);

    before = cell[0] + 256 * cell[1];
    if (access_run(file, LENGTH, steps[0], steps[1], steps[2], steps[3], steps[4]) == TUGCAPHI_DONE)
        printf("run: cell (0, 2) held %d, and holds %d\n", before, cell[0] + 256 * cell[1]);

    /* Ben has neither right 1 nor right 0, which carries it. */
    printf("run with names 1 0 2: refused %d\n", access_run(file, LENGTH, 0, 1, 0, 2, 255));
    return 0;
}
