/*
 * Yajilin: judge, proof sheet, encoder, decoder, search, batches of value lists, tally of a line's numbers and DIMACS
 * text. docs/REFERENCE.md has the formats, clauses, steps and refusals in full, with examples.
 *
 * Link with crates/ffi/out/libffi.a, which `rt lib` writes (x86-64, System V calls). Of the C library it
 * needs memcpy and memset. It allocates nothing, keeps nothing between calls and does no input or output, so calls may
 * run at the same time on buffers of their own.
 *
 * What every function has in common
 *
 * It returns 0 if the call was answered, else the number of a refusal (enum yajilin_refusal). All four words of `answer`
 * are written: after a refusal answer[0] is the value beside it and the others are 0; after an answer they are what the
 * function's comment says, and 0 where it says nothing.
 *
 * A refusal leaves every other buffer as it was. The causes are sought in the order in which the function's comment names
 * them, each over the whole input before the next.
 *
 * What a caller must ensure
 *
 * - Each pointer is that of a buffer with at least as many elements as the length after it says (`answer`: four), aligned
 *   for its type, at most 2^63 - 1 bytes. A buffer of length 0 is never looked at; its pointer may be null.
 * - A buffer that a call writes overlaps no other buffer of that call.
 * - While a call runs, nothing else writes its buffers or reads those that it writes.
 * - The thread has room on its stack: yajilin_search and yajilin_next take up to 257 KiB, with a non-zero number among the
 *   used entries up to 513 KiB, yajilin_tally up to 99 KiB, the other functions less than 64 KiB.
 *
 * The contents of a buffer may be anything: the call is answered or refused.
 *
 * A grid record: bytes 0-1 its length, 2-3 its kind, 1, 2 or 3, byte 4 rows, byte 5 columns, then the codes of the
 * N = rows * columns cells, row by row. Numbers of two bytes are little-endian. Cells are numbered from 0. A cell is open,
 * a clue or shaded. An open cell is black or on the loop, the others are neither; a shaded cell says nothing. A clue says how
 * many cells on its line are black: from its neighbour in its direction to the edge, or in kind 3 to the cell before the next
 * clue.
 *
 * - Kind 1: sides 1 to 24, a code has one byte: 0x00 open, 0x50 shaded, or a clue, 0x10 to 0x4F, whose upper four bits are
 *   its direction (1 north, 2 east, 3 south, 4 west) and whose lower four bits are its number. The length is 6 + N.
 * - Kind 2: sides 1 to 45, a code has two bytes: 0x0000 open, 0x5000 shaded, or a clue, whose upper four bits are its
 *   direction (1 to 4) and whose lower twelve bits are its number, 0 to 44. The length is 6 + 2 * N.
 * - Kind 3: sides, codes and length of kind 1. A line stops before the first clue cell in its way, so it is empty where the
 *   clue's neighbour is one; shaded cells don't stop it. In kinds 1 and 2 it goes to the edge past clues and shaded cells.
 *
 * A function that takes a record takes every kind. Accepted records of kinds 1 and 2 with the same sides and cells get the
 * same answers and refusals. One of kind 3 gets them too unless a clue stops a line; judge, clauses and tally then go by the
 * shorter line.
 *
 * A drawing has N bytes: 0x20 a clue or a shaded cell, 0x10 black, else white with the sum of its links (1 north, 2 east,
 * 4 south, 8 west).
 *
 * A clause list: literals as signed numbers, variables from 1, minus for "not"; 0 closes a clause. V is the number of
 * variables, at most YAJILIN_MOST_VARIABLES.
 */
#ifndef YAJILIN_H
#define YAJILIN_H

#include <stddef.h>
#include <stdint.h>

#ifdef __cplusplus
extern "C" {
#endif

#define YAJILIN_MOST_VARIABLES 16777216
#define YAJILIN_MOST_CELLS 2025
#define YAJILIN_MOST_SHEET_BYTES 12104
#define YAJILIN_COUNTERS 45

/* The refusals, and the value beside each. Cells, indexes and bytes are counted from 0, variables from 1. */
enum yajilin_refusal {
    YAJILIN_RECORD_LENGTH = 1,   /* record under 6 bytes, or its length field isn't its length: 0 */
    YAJILIN_KIND = 2,            /* kind not 1, 2 or 3: 0 */
    YAJILIN_SIDES = 3,           /* a side not 1 to 24, in kind 2 not 1 to 45: 0 */
    YAJILIN_CELL_COUNT = 4,      /* length not 6 + N, in kind 2 not 6 + 2 * N: 0 */
    YAJILIN_CELL_BYTE = 5,       /* a cell's code that isn't allowed: the first such cell */
    YAJILIN_ROOM = 6,            /* output shorter than needed: elements needed (2^64 - 1 if more) */
    YAJILIN_DRAWING_LENGTH = 7,  /* drawing not N bytes: 0 */
    YAJILIN_VALUE_COUNT = 8,     /* values not V bytes: 0 */
    YAJILIN_VALUE = 9,           /* a value not 0 or 1: the first such variable */
    YAJILIN_DRAWING_BYTE = 10,   /* over 0x20, 0x11 to 0x1F, 0x20 at an open cell, or another byte at a clue or a shaded
                                    cell: the first such cell */
    YAJILIN_TOUCHING = 11,       /* black beside black to its east or south: the first such cell */
    YAJILIN_CLUE_NOT_MET = 12,   /* the line of a clue hasn't its number of black cells: the first such clue's cell */
    YAJILIN_LINK_UNMATCHED = 13, /* a link unmatched or off the board: the first cell with one */
    YAJILIN_NOT_TWO_LINKS = 14,  /* a white cell without exactly two links: the first such cell */
    YAJILIN_NOT_ONE_LOOP = 15,   /* no white cell: 0; else the first white cell off the first white cell's loop */
    YAJILIN_LIST = 16,           /* a literal beyond V: its index; else a list that doesn't end in 0: its length */
    YAJILIN_SIZES = 17,          /* V too large, trail or marks not V long, used over V: 0 */
    YAJILIN_ENTRY = 18,          /* a used entry 0, beyond V, on the variable of an earlier one, or with a mark not 0 or 1:
                                    the first such entry's index */
    YAJILIN_TEXT = 19,           /* text outside the form of yajilin_read: the first byte where no accepted text can go
                                    on, or the text's length if it ends too soon */
    YAJILIN_UNTRUE = 20,         /* trail not full, or some clause without a true literal under it: 0 */
    YAJILIN_WORDS = 21,          /* words not V long: 0 */
    YAJILIN_NUMBERS = 22,        /* numbers not V long: 0; else a used entry that has a number other than 0 and mark 1, or
                                    the number of no clause that is a reason for the entry (see yajilin_search): the first
                                    such entry's index */
    YAJILIN_TALLY = 23           /* not 45 counters, a cell that isn't shaded or isn't on the board, a direction not 1 to
                                    4: 0 */
};

/* What yajilin_search and yajilin_next answer; yajilin_tally answers one of the last two. */
enum yajilin_search_answer {
    YAJILIN_FOUND = 1,
    YAJILIN_NONE = 2,
    YAJILIN_HALTED = 3
};

/*
 * Is the drawing a solution of the record's grid?
 *
 * Answered: it is. Refused: 1 to 5, 7, 10 to 15; of these 10 to 15 say why it is none.
 */
uint64_t yajilin_judge(const uint8_t *record, size_t record_bytes,
                       const uint8_t *drawing, size_t drawing_bytes,
                       uint64_t answer[4]);

/*
 * Writes the proof sheet of a solution of the record's grid into sheet: 2 * rows - 1 lines, each 3 * columns characters
 * and a line feed. Spaces at the end of a line stay. No NUL is added.
 *
 * - A cell row has three characters a cell. A clue: N, E, S or W, and its number, right-aligned in two. A shaded cell:
 *   `...`. A black cell: ` # `. A white cell: `+`, and on its left and right `-` for a link that way, else a space.
 * - Between two cell rows stands a line with `|` under the middle of each cell with a south link, spaces elsewhere.
 *
 * The open 2x2 grid's solution gives the lines ` +--+ `, ` |  | `, ` +--+ `. Grid and drawing can be got back from the
 * sheet, but not the record's kind.
 *
 * Answered: answer[0] bytes written, (2 * rows - 1) * (3 * columns + 1), at most YAJILIN_MOST_SHEET_BYTES. Bytes past
 * these are untouched.
 * Refused: 1 to 5, 7, 10 to 15 as yajilin_judge; 6. With sheet_bytes 0 a solution is always refused as 6, with the bytes
 * needed.
 */
uint64_t yajilin_sheet(const uint8_t *record, size_t record_bytes,
                       const uint8_t *drawing, size_t drawing_bytes,
                       uint8_t *sheet, size_t sheet_bytes,
                       uint64_t answer[4]);

/*
 * Writes the clauses of the record's grid into list.
 *
 * Answered: answer[0] elements written, answer[1] V, answer[2] clauses. Elements past these are untouched.
 * Refused: 1 to 5, 6. With list_length 0 an accepted record is always refused as 6, with the elements needed.
 */
uint64_t yajilin_encode(const uint8_t *record, size_t record_bytes,
                        int32_t *list, size_t list_length,
                        uint64_t answer[4]);

/*
 * Draws the values, 0 or 1, of the V variables of the record's grid, in their order, into drawing.
 *
 * Answered: the drawing is a solution. Refused: 1 to 5, 8, 7 (drawing_bytes isn't N), 9, 10 to 15 (what the values draw is
 * no solution; it isn't handed out). Only the variables for black cells and links are consulted.
 */
uint64_t yajilin_decode(const uint8_t *record, size_t record_bytes,
                        const uint8_t *values, size_t values_bytes,
                        uint8_t *drawing, size_t drawing_bytes,
                        uint64_t answer[4]);

/*
 * Searches for an assignment that satisfies the list, from the trail handed in, by at most budget steps. The first `used`
 * entries of trail are literals that are true; the mark of each is 1 for a decision whose other value has not been tried,
 * else 0. The number of each tells the clause behind it, counted from 1, or is 0. What comes after them isn't looked at. To
 * begin empty, used is 0.
 *
 * Answered: answer[0] is an enum yajilin_search_answer, answer[1] the steps that this call made, answer[2] the used count.
 * trail, marks and numbers have the trail that was reached, with 0 after the used entries. After YAJILIN_FOUND all V
 * entries are used and their literals satisfy the list; after YAJILIN_NONE nothing that was open satisfies it; after
 * YAJILIN_HALTED the call may be made again, with trail, marks, numbers and answer[2], to go on. Budgets add up: such calls
 * end with the answer, trail, marks, numbers and used count of one call with all their budgets together, and their steps are
 * its steps. Where a call answers YAJILIN_FOUND or YAJILIN_NONE, one with a larger budget answers and leaves the same.
 *
 * The numbers: an entry that a clause forced has that clause's number, a decision or a negated decision has 0. The clause
 * is a reason for the entry: it has the entry's literal, and every literal in it that differs from that one is false by
 * earlier entries. Numbers that are handed in must keep this, and an entry with mark 1 must have 0. Any entry may have 0.
 * If all used entries have 0, the list is not read for this check.
 *
 * Refused: 17 (trail_length and marks_bytes must both be V), 16, 18, 22 (numbers_length must be V).
 */
uint64_t yajilin_search(uint64_t variables,
                        const int32_t *list, size_t list_length,
                        int32_t *trail, size_t trail_length,
                        uint8_t *marks, size_t marks_bytes,
                        uint64_t *numbers, size_t numbers_length,
                        uint64_t used, uint64_t budget,
                        uint64_t answer[4]);

/*
 * Goes on to the following solution: takes a full trail that satisfies the list, drops that assignment as a falsified
 * clause would, which is a step, and searches on.
 *
 * Answered: as yajilin_search, for the assignments other than the one handed in. To list all that satisfy a list, search
 * it begun empty and after each YAJILIN_FOUND call yajilin_next with what was left, until YAJILIN_NONE: each is found
 * once, false before true at the lowest variable where two differ. A grid has one solution if the first YAJILIN_FOUND is
 * followed by YAJILIN_NONE.
 *
 * Note on YAJILIN_NONE: there is no further solution, so call neither function again. Where no mark was 1, the used entries
 * are as they were; such a trail still satisfies the list, and yajilin_search on it would answer YAJILIN_FOUND.
 *
 * Note on YAJILIN_HALTED: the trail may be full again, so only answer[1] tells whether the assignment was dropped. At 0
 * steps it was not: call yajilin_next again. After 1 or more steps call yajilin_search. Budgets add up here too.
 *
 * Numbers are as yajilin_search has them. The entry that the drop negates has the number 0.
 *
 * Refused: 17, 16, 18, 22 as yajilin_search; 20, with budget 0 too.
 */
uint64_t yajilin_next(uint64_t variables,
                      const int32_t *list, size_t list_length,
                      int32_t *trail, size_t trail_length,
                      uint8_t *marks, size_t marks_bytes,
                      uint64_t *numbers, size_t numbers_length,
                      uint64_t used, uint64_t budget,
                      uint64_t answer[4]);

/*
 * What would each number on an arrow allow? Given a shaded cell and a direction, 1 north, 2 east, 3 south or 4 west,
 * counters[n] becomes the number of solutions of the record's grid that were found with n black cells on the line that a
 * clue of that direction in the cell would have. The cell stays shaded.
 *
 * The solutions are listed as yajilin_next says: the grid's clauses are written into list, a search on them is begun empty
 * and carried on until YAJILIN_NONE. All calls together make at most budget steps.
 *
 * Answered: answer[0] is YAJILIN_NONE or YAJILIN_HALTED, answer[1] the steps in all. After YAJILIN_NONE every solution is
 * counted. So the counters add up to the number of solutions, and in kinds 1 and 2 the grid has counters[n] solutions with
 * an arrow of that direction and the number n in the cell. In kind 3 that may differ, since an arrow in the cell stops the
 * lines that go past it. After YAJILIN_HALTED those found by the first budget steps are counted, also one that the last of
 * them found. All counters are written. list has the clauses; trail, marks and numbers have in their first V elements the
 * trail at the end. Elements past what is needed are untouched.
 * Refused: 1 to 5; 23 (counters_length must be YAJILIN_COUNTERS); 6 for list, trail, marks and numbers, in this order, with
 * the elements needed, which are V for the last three. yajilin_encode tells the elements that the list needs, and V.
 */
uint64_t yajilin_tally(const uint8_t *record, size_t record_bytes,
                       uint64_t cell, uint64_t direction,
                       uint64_t *counters, size_t counters_length,
                       int32_t *list, size_t list_length,
                       int32_t *trail, size_t trail_length,
                       uint8_t *marks, size_t marks_bytes,
                       uint64_t *numbers, size_t numbers_length,
                       uint64_t budget,
                       uint64_t answer[4]);

/*
 * Which of 64 value lists satisfy the clause list? One reading of it tells for all of them. A value list has 0 or 1 for
 * each variable. words has one word for each variable, in their order; bit i of a word, the one of weight 2^i, is the
 * variable's value in value list i.
 *
 * Answered: answer[0] is a word whose bit i is set exactly if value list i satisfies every clause. An empty clause list
 * sets all 64 bits, one with an empty clause none. A caller with fewer value lists may leave anything in the other bits of
 * the words, and looks at its own bits of the answer.
 * Refused: 17 (V too large), 21, 16.
 */
uint64_t yajilin_satisfied(uint64_t variables,
                           const int32_t *list, size_t list_length,
                           const uint64_t *words, size_t words_length,
                           uint64_t answer[4]);

/*
 * Writes the DIMACS text of V and a clause list into text: `p cnf V C`, then a clause a line, single spaces, a line feed
 * after every line. No NUL is added.
 *
 * Answered: answer[0] bytes written. Bytes past these are untouched.
 * Refused: 17 (V too large), 16, 6. With text_bytes 0 a list that is fit for V is always refused as 6, with the bytes needed.
 */
uint64_t yajilin_write(uint64_t variables,
                       const int32_t *list, size_t list_length,
                       uint8_t *text, size_t text_bytes,
                       uint64_t answer[4]);

/*
 * Reads a DIMACS text into list. The form: comment lines, the header line `p cnf V C` with single spaces, then C clauses,
 * each its literals and 0. Numbers have no plus and no leading zero. Between two of them stand spaces, tabs and line feeds,
 * at least one; before the first and after the last these may stand too. So a clause may run over lines, several may stand
 * on one, and the last number may end the text. A comment line is `c` as a line's first byte, any bytes but line feeds, and a
 * line feed, which it needs at the end of the text too; after the header it may stand anywhere but inside a clause.
 *
 * Answered: answer[0] elements written, answer[1] V, answer[2] clauses. Elements past these are untouched. yajilin_write
 * gives the same bytes again if the text has the form that it writes; else other bytes, with the same V and list.
 * Refused: 19, 6. A text has fewer elements than half its bytes, so a list of text_bytes / 2 is always enough.
 */
uint64_t yajilin_read(const uint8_t *text, size_t text_bytes,
                      int32_t *list, size_t list_length,
                      uint64_t answer[4]);

#ifdef __cplusplus
}
#endif

#endif
