/* Reads the sheet text on standard input, which is to be the paper's oven, and says what the library answers. */
#include "hemdoqur.h"

#include <stdio.h>

static uint8_t text[SHEET_TEXT_BYTES + 1];
static uint32_t table[SHEET_TABLE_WORDS];
static uint8_t out[SHEET_TEXT_BYTES];

static void show(const char *what, uint32_t answer)
{
    if (answer >= SHEET_REFUSED)
        printf("%s: refused with %u: %s\n", what, (unsigned)(answer - SHEET_REFUSED),
               sheet_sentence(answer - SHEET_REFUSED));
    else
        printf("%s: %s\n", what, answer == SHEET_NO ? "no" : answer == SHEET_YES ? "yes" : "yes, marked");
}

/* The oven has two automata and one variable; a table of zeros has no sheet. */
static void size(void)
{
    static const uint32_t zeros[SHEET_TABLE_WORDS];
    uint64_t answer = sheet_size(table, SHEET_TABLE_WORDS);
    printf("size: %u actions, %u variables, %u automata\n", (unsigned)SHEET_ACTIONS(answer), (unsigned)SHEET_VARIABLES(answer),
           (unsigned)SHEET_AUTOMATA(answer));
    answer = sheet_size(zeros, SHEET_TABLE_WORDS);
    printf("size of zeros: %s\n", SHEET_ROW(answer) == SHEET_ROW_TABLE ? sheet_sentence(SHEET_ROW(answer)) : "?");
}

/* The door opens by action 1, and by action 3, which the oven does not have; then the valve moves by itself. */
static void judge(void)
{
    const uint32_t shut[2] = {0, 0}, open[2] = {1, 0};
    const int32_t on[1] = {1}, off[1] = {0};
    show("step 1", sheet_step(table, SHEET_TABLE_WORDS, 0, shut, 2, on, 1, 1, open, 2, off, 1));
    show("step 3", sheet_step(table, SHEET_TABLE_WORDS, 0, shut, 2, on, 1, 3, open, 2, off, 1));
    show("valve on", sheet_environment(table, SHEET_TABLE_WORDS, 1, open, 2, off, 1, on, 1));
    show("valve off", sheet_environment(table, SHEET_TABLE_WORDS, 1, open, 2, off, 1, off, 1));
}

/* Steam, then the door; then the environment turns the valve on, which the open door forbids, and leaves it off, which is allowed. The
 * environment judge does not read its locations. */
static void run(void)
{
    const uint32_t shut[2] = {0, 0};
    const int32_t off[1] = {0};
    const uint32_t actions[4] = {2, 1, SHEET_ENVIRONMENT, SHEET_ENVIRONMENT};
    const uint32_t new_locations[8] = {0, 0, 1, 0};
    const int32_t new_values[4] = {1, 0, 1, 0};
    uint32_t answers[4], end_locations[2], answer;
    int32_t end_values[1];
    size_t i;
    answer = sheet_run(table, SHEET_TABLE_WORDS, 0, shut, 2, off, 1, actions, 4, new_locations, 8, new_values, 4, answers, 4,
                       end_locations, 2, end_values, 1);
    for (i = 0; answer < SHEET_REFUSED && i < 4; i++)
        show("run", answers[i]);
    if (answer < SHEET_REFUSED)
        printf("end: phase %u, (%u,%u), %d\n", (unsigned)answer, (unsigned)end_locations[0], (unsigned)end_locations[1],
               (int)end_values[0]);
    show("without room for answers", sheet_run(table, SHEET_TABLE_WORDS, 0, shut, 2, off, 1, actions, 4, new_locations, 8,
                                               new_values, 4, answers, 3, end_locations, 2, end_values, 1));
    show("without room for the end", sheet_run(table, SHEET_TABLE_WORDS, 0, shut, 2, off, 1, actions, 4, new_locations, 8,
                                               new_values, 4, answers, 4, end_locations, 1, end_values, 1));
    show("a value too few", sheet_run(table, SHEET_TABLE_WORDS, 0, shut, 2, off, 1, actions, 4, new_locations, 8, new_values, 3,
                                      answers, 4, end_locations, 2, end_values, 1));
}

static void show_text(const char *what, uint64_t answer)
{
    if (SHEET_ROW(answer) != 0)
        printf("%s: refused with %u: %s\n", what, (unsigned)SHEET_ROW(answer), sheet_sentence(SHEET_ROW(answer)));
    else
        printf("%s: %u edges, %lu bytes\n", what, (unsigned)SHEET_EDGES(answer), (unsigned long)SHEET_LENGTH(answer));
}

int main(void)
{
    size_t length = fread(text, 1, sizeof text, stdin);
    uint64_t answer = sheet_read(text, length, table, SHEET_TABLE_WORDS);
    if (answer != 0) {
        printf("refused=%u,%u: %s\n", (unsigned)SHEET_ROW(answer), (unsigned)SHEET_LINE(answer),
               sheet_sentence(SHEET_ROW(answer)));
        return 0;
    }
    size();
    judge();
    run();
    answer = sheet_write(table, SHEET_TABLE_WORDS, out, sizeof out);
    printf("written: %lu bytes\n", (unsigned long)SHEET_LENGTH(answer));
    show_text("too short", sheet_write(table, SHEET_TABLE_WORDS, out, 1));
    show_text("merged", sheet_merge(table, SHEET_TABLE_WORDS, out, sizeof out));
    return 0;
}
