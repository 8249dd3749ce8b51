/* Truppidane: a proved checker for small multithreaded models. Link libtruppidane.a.
 *
 * A call reads a table, works in memory that the caller lends, and tells its answer as eleven
 * numbers, whose places are named below; it returns the first of them. Any bytes may be handed in:
 * what is no table, or no claim, is refused with its number.
 *
 *   number  meaning                                             value
 *      0    done                                                count of facts (of the claim's, when one is checked)
 *      1    cut: bytes end inside a number or before one due    length of the input
 *      2    number too long or not shortest                     its first byte
 *      3    version is not 1                                    0
 *      4    outside its column's range                          its first byte
 *      5    row not above the one before                        the row's first byte
 *      6    bytes after the end                                 the first of them
 *      7    working memory shorter than W                       W
 *      8    more facts than the budget                          the budget
 *      9    claim lacks a start fact                            smallest thread
 *     10    claim not closed                                    smallest position that lacks
 *     11    claim allows an error                               smallest row number
 *     12    space for the written claim too short               bytes needed
 *
 * The table decides W, how many bytes of working memory are used. It is at most
 * TRUPPIDANE_MOST_MEMORY; with a shorter memory the answer is 7, and its value is W.
 *
 * What is touched: on 0 the first W bytes of the memory hold 1 for each fact that holds (or is
 * claimed) and 0 for each other. On 1 to 7 no byte of the memory is changed. On 8 to 12 the first
 * W bytes are 0. Bytes from W on are never touched. All eleven numbers are always written.
 *
 * What a caller owes: each pointer leads to as many bytes as its length says (with length 0 it is
 * not followed), `told` to eleven numbers, and what is written, which is memory, space and told,
 * overlaps with nothing else that is handed in. A call keeps nothing, takes some 20 KB of stack
 * and no other memory, and always returns. Threads may call at the same time. */
#ifndef TRUPPIDANE_H
#define TRUPPIDANE_H

#include <stddef.h>
#include <stdint.h>

#ifdef __cplusplus
extern "C" {
#endif

/* The places of the numbers that tell an answer. What an answer does not have is 0. */
enum {
    TRUPPIDANE_NUMBER,  /* 0 to 12, as above */
    TRUPPIDANE_ORIGIN,  /* 1 if a number from 1 to 6 is the claim's, else 0 */
    TRUPPIDANE_VALUE,   /* as above */
    TRUPPIDANE_VERDICT, /* one of the three below */
    TRUPPIDANE_ROW,     /* the witness of "possible": the error row, from 1; 0 for the failed store, */
    TRUPPIDANE_SHARED,  /* the shared store, */
    TRUPPIDANE_LOCALS,  /* and four places for the local stores of threads 0 to 3 */
    TRUPPIDANE_BYTES = TRUPPIDANE_LOCALS + 4, /* bytes of the claim that was written */
    TRUPPIDANE_NUMBERS                        /* how many numbers there are: eleven */
};

/* The verdict, which a finished check or claim writing gives. */
enum {
    TRUPPIDANE_NO_VERDICT,
    TRUPPIDANE_SAFE,
    TRUPPIDANE_POSSIBLE
};

/* The most that W can be. */
#define TRUPPIDANE_MOST_MEMORY 2360320

/* Checks a table: runs the rules within a budget of facts, and gives their count and the verdict.
 * Answers 0 to 8. */
size_t truppidane_check(const uint8_t *table, size_t table_length,
                        uint8_t *memory, size_t memory_length,
                        size_t budget,
                        size_t told[TRUPPIDANE_NUMBERS]);

/* Checks a table and writes the claim of exactly its facts, on either verdict. Answers 0 to 8 and
 * 12. On 0 the claim is the first told[TRUPPIDANE_BYTES] bytes of the space, and no other byte of
 * the space is changed; on every other answer the space is untouched. */
size_t truppidane_write_claim(const uint8_t *table, size_t table_length,
                              uint8_t *memory, size_t memory_length,
                              size_t budget,
                              uint8_t *space, size_t space_length,
                              size_t told[TRUPPIDANE_NUMBERS]);

/* Checks a claim that anyone wrote against a table. Answers 0 to 7 and 9 to 11; on 0 the table is
 * safe, and there is no verdict beside it. */
size_t truppidane_check_claim(const uint8_t *table, size_t table_length,
                              const uint8_t *claim, size_t claim_length,
                              uint8_t *memory, size_t memory_length,
                              size_t told[TRUPPIDANE_NUMBERS]);

#ifdef __cplusplus
}
#endif

#endif
