/* Sheets of a deck oven for C and C++: read, written, merged and judged.
 *
 * Link with libexports.a, which `rt lib` in crates/exports makes in its folder out/ (x86-64 Linux). Of the C library it
 * needs memcpy and memset, and nothing else.
 *
 * A slice is a pointer and a length: so many elements may be read there, and written where the pointer is not const.
 * The pointer is aligned for its element. It is never NULL, not even when the length is 0: that an empty slice may be
 * NULL is not promised. For an empty one, hand over the address of anything that has the element's type. What a call
 * may write lies apart from all else that it is given.
 *
 * No call keeps anything, takes memory from the heap or waits, so threads may call at the same time, each with its
 * own memory. Every length and content is answered, and every call ends.
 *
 * A refusal has a row, the number in the table of docs/FORMAT.md. It leaves all memory as it was.
 *
 * Time. Reading, writing and merging take time that the limits of a sheet bound. Each call of a judge checks the
 * whole table first, which is most of a short call's time; sheet_run checks it once for a list. The environment judge
 * then looks once at each variable, automaton and start condition. The step judge searches for edges that can be taken
 * together, and the search is exact. On a sheet that somebody wrote for an oven it takes microseconds; on the hard
 * sheets of docs/BENCHMARKS.md, up to 16 automata with 512 edges over 48 variables, under a second. No bound is known
 * that would be of use: the question is NP-hard, and a sheet can be made on purpose on which a call takes longer than
 * anybody waits; two families of such sheets are named there. A host that takes sheets from strangers tries them first,
 * or calls the step judge where it can be given up. */
#ifndef HEMDOQUR_H
#define HEMDOQUR_H

#include <stddef.h>
#include <stdint.h>

/* The version of these declarations. The first number changes when a call that was right is right no more. */
#define SHEET_VERSION_MAJOR 4
#define SHEET_VERSION_MINOR 0
#define SHEET_VERSION_PATCH 0

/* The words that a table has at least. A longer one keeps its rest. docs/TABLE.md has its layout. A table belongs to
 * the version that read it: from version 4 on a variable has three words, so texts are read again. */
#define SHEET_TABLE_WORDS 16384
/* The bytes that a text has at most, also one that is written or merged. */
#define SHEET_TEXT_BYTES 65536
/* The most actions, variables and automata that a sheet has. */
#define SHEET_MOST_ACTIONS 63
#define SHEET_MOST_VARIABLES 48
#define SHEET_MOST_AUTOMATA 16

/* The bytes of stack that a call needs. No proof speaks of them: they were measured, on the deepest and largest
 * sheets that could be made, and rounded up; rust/hemdoqur/tests/stack.rs holds the archive to them. */
#define SHEET_STACK_READ 262144
#define SHEET_STACK_WRITE 73728
#define SHEET_STACK_MERGE 573440
#define SHEET_STACK_SIZE 12288
#define SHEET_STACK_STEP 176128
#define SHEET_STACK_ENVIRONMENT 16384
#define SHEET_STACK_RUN 176128

/* The parts of the 64-bit answers. */
#define SHEET_ROW(answer) ((uint32_t)((answer) >> 32))
#define SHEET_LINE(answer) ((uint32_t)((answer) & 0xFFFFFFFFu))
#define SHEET_EDGES(answer) ((uint32_t)(((answer) >> 17) & 0x7FFFu))
#define SHEET_LENGTH(answer) ((size_t)((answer) & 0x1FFFFu))
#define SHEET_ACTIONS(answer) ((uint32_t)(((answer) >> 16) & 0xFFu))
#define SHEET_VARIABLES(answer) ((uint32_t)(((answer) >> 8) & 0xFFu))
#define SHEET_AUTOMATA(answer) ((uint32_t)((answer) & 0xFFu))

/* The judges' answers; from 100 up it is 100 + row. */
#define SHEET_NO 0u
#define SHEET_YES 1u
#define SHEET_YES_MARKED 2u
#define SHEET_REFUSED 100u

/* In the place of an action in a list of proposals: this one is for the environment judge. */
#define SHEET_ENVIRONMENT 4294967295u

/* The rows; behind them the faults of a list of proposals as a whole, which sheet_run adds to 100 as it adds a row. */
enum sheet_row {
    SHEET_ROW_TEXT_LONG = 1,
    SHEET_ROW_LINE = 2,
    SHEET_ROW_NUMBER = 3,
    SHEET_ROW_RANGE = 4,
    SHEET_ROW_LIST = 5,
    SHEET_ROW_PREDICATE = 6,
    SHEET_ROW_VARIABLE = 7,
    SHEET_ROW_NEW_VALUE = 8,
    SHEET_ROW_DEPTH = 9,
    SHEET_ROW_INTERVAL = 10,
    SHEET_ROW_NODES = 11,
    SHEET_ROW_EDGE = 12,
    SHEET_ROW_COMPOSITION = 13,
    SHEET_ROW_LEAVES = 14,
    SHEET_ROW_EDGES = 15,
    SHEET_ROW_TREE = 16,
    SHEET_ROW_TABLE_SHORT = 18,
    SHEET_ROW_TABLE = 19,
    SHEET_ROW_PHASE = 20,
    SHEET_ROW_LENGTHS = 21,
    SHEET_ROW_LOCATION = 22,
    SHEET_ROW_VALUE = 23,
    SHEET_ROW_ACTION = 24,
    SHEET_ROW_MERGED_VARIABLES = 31,
    SHEET_ROW_MERGED_EDGES = 32,
    SHEET_ROW_MERGED_DEPTH = 33,
    SHEET_ROW_MERGED_NODES = 34,
    SHEET_ROW_BUFFER_SHORT = 35,
    SHEET_ROW_WRITES = 44,
    SHEET_ROW_OWNER = 50,
    SHEET_ROW_FOREIGN = 51,
    SHEET_LISTS_UNEVEN = 101,
    SHEET_ANSWERS_SHORT = 102,
    SHEET_END_SHORT = 103
};

/* What a row, or a fault of a list, says; "" for a number that is not in use. */
static inline const char *sheet_sentence(uint32_t number)
{
    switch (number) {
    case 1: return "the text has more than 65,536 bytes";
    case 2: return "the line is not the one that is due, or has a wrong number of fields, a forbidden byte or no LF";
    case 3: return "a number is misspelled or out of its range";
    case 4: return "a variable's least value is above its greatest";
    case 5: return "a list does not rise, or a list of actions has 0 or an action above the highest";
    case 6: return "this is no predicate";
    case 7: return "the sheet has no such variable";
    case 8: return "an init, an inv or a start condition cannot have a new value";
    case 9: return "the predicate is deeper than 24";
    case 10: return "an expression can leave the numbers from -2^62 to 2^62";
    case 11: return "with this line the predicates have more than 4,096 nodes";
    case 12: return "the edge has a location or an action that is not there";
    case 13: return "this is no composition";
    case 14: return "the composition does not name the automata in order, each once";
    case 15: return "with this line there are more than 512 edges";
    case 16: return "the composition has more than 64 nodes";
    case 18: return "the table has fewer than 16,384 words";
    case 19: return "the table is not one that the reader makes";
    case 20: return "the phase is neither 0 nor 1";
    case 21: return "there are too many or too few locations or values";
    case 22: return "an automaton has no such location";
    case 23: return "a value is out of its variable's range";
    case 24: return "the sheet has no such action";
    case 31: return "merged, the sheet has more than 48 variables: its own and one for each automaton";
    case 32: return "merged, the sheet has more than 512 edges";
    case 33: return "merged, a predicate is deeper than 24";
    case 34: return "merged, the predicates have more than 4,096 nodes";
    case 35: return "the buffer is shorter than the text";
    case 44: return "the list is not that of the variables whose new value the edge mentions";
    case 50: return "a variable belongs to an automaton that is not there";
    case 51: return "the edge writes a variable that does not belong to its automaton";
    case 101: return "the list does not have a location for each automaton and a value for each variable at each action";
    case 102: return "there are fewer places for answers than actions";
    case 103: return "there are too few places for the locations or values at the end";
    default: return "";
    }
}

#ifdef __cplusplus
extern "C" {
#endif

/* Reads a text, of format 1, 2 or 3, into the first 16,384 words of a table. 0: accepted. Else row * 2^32 + line: rows
 * 1 to 16, 44, 50 and 51, or 18 for a table that is too short. Lines count from 1; rows 1 and 18 have line 0. */
uint64_t sheet_read(const uint8_t *text, size_t text_length, uint32_t *table, size_t table_length);

/* The numbers of the table's sheet, by which a caller makes its lists: SHEET_ACTIONS (the highest action),
 * SHEET_VARIABLES and SHEET_AUTOMATA take them from the answer, which is never 0. Else row * 2^32: 18 or 19 for the
 * table. */
uint64_t sheet_size(const uint32_t *table, size_t table_length);

/* Writes the text of a table, without an end mark: its length. Else row * 2^32: 18 or 19 for the table, 35 for a
 * short buffer. The bytes behind the text stay as they were. */
uint64_t sheet_write(const uint32_t *table, size_t table_length, uint8_t *out, size_t out_length);

/* Writes the text of one automaton that does exactly what all automata of the table do together, equal edges once, in
 * the format of the table's own text: edges * 2^17 + length. Else row * 2^32: 18 or 19 for the table, 31 to 34 for a
 * limit that the merged sheet breaks, 35 for a short buffer. The bytes behind the text stay as they were. */
uint64_t sheet_merge(const uint32_t *table, size_t table_length, uint8_t *out, size_t out_length);

/* May the composition take the action, from a phase (0 start, 1 running), locations and values to new locations and
 * values? SHEET_NO; SHEET_YES; SHEET_YES_MARKED where the action is in the whole's set; or 100 + row: 18 to 24. */
uint32_t sheet_step(const uint32_t *table, size_t table_length, uint32_t phase, const uint32_t *locations,
                    size_t locations_length, const int32_t *values, size_t values_length, uint32_t action,
                    const uint32_t *new_locations, size_t new_locations_length, const int32_t *new_values,
                    size_t new_values_length);

/* May the variables change so while every automaton is still? SHEET_NO; SHEET_YES; or 100 + row: 18 to 23. In a sheet
 * of format 3 a change of a variable that has an owner is a SHEET_NO; in formats 1 and 2 any variable may change. */
uint32_t sheet_environment(const uint32_t *table, size_t table_length, uint32_t phase, const uint32_t *locations,
                           size_t locations_length, const int32_t *values, size_t values_length,
                           const int32_t *new_values, size_t new_values_length);

/* Puts a list of proposals to the judges, over one check of the table. It begins at the given phase, locations and
 * values; each yes goes on to the proposed locations and values, in phase 1, and any other answer leaves them.
 *
 * Each proposal has an action in `actions`, one location for each automaton in `new_locations` and one value for each
 * variable in `new_values`: those of the first proposal, then those of the second, and so on. In place of an action,
 * SHEET_ENVIRONMENT (2^32 - 1) is for the environment judge, which does not read the proposal's locations; they have
 * their places all the same.
 *
 * 0 or 1: the phase at the end. The answer to each proposal is then in `answers`, as many as there are actions,
 * numbered as sheet_step and sheet_environment number them; a refusal is one of these answers, and the run goes on.
 * The locations at the end are in `end_locations`, one for each automaton, and the values in `end_values`, one for
 * each variable. The three may be longer; what is behind stays as it was.
 *
 * From 100 up the list is refused as a whole. These are tried in this order:
 *   118, 119  the table
 *   120       the phase
 *   121..123  the locations and values of the beginning
 *   201       100 + SHEET_LISTS_UNEVEN: not a location for each automaton and a value for each variable at each action
 *   202       100 + SHEET_ANSWERS_SHORT: fewer answers than actions
 *   203       100 + SHEET_END_SHORT: `end_locations` shorter than the automata, or `end_values` than the variables  */
uint32_t sheet_run(const uint32_t *table, size_t table_length, uint32_t phase, const uint32_t *locations,
                   size_t locations_length, const int32_t *values, size_t values_length, const uint32_t *actions,
                   size_t actions_length, const uint32_t *new_locations, size_t new_locations_length,
                   const int32_t *new_values, size_t new_values_length, uint32_t *answers, size_t answers_length,
                   uint32_t *end_locations, size_t end_locations_length, int32_t *end_values,
                   size_t end_values_length);

#ifdef __cplusplus
}
#endif

#endif
