/* Checks the table in a file and prints the answer:
 *     cc -Iinclude examples/check.c target/staticlib/libtruppidane.a -o target/check
 *     target/check TABLE
 * It ends with 0 if the table is safe, 1 if an error is possible, 2 if there is no verdict: the
 * table is refused, or the file is not read. */
#include <stdio.h>
#include "truppidane.h"

static uint8_t table[65536];
static uint8_t memory[TRUPPIDANE_MOST_MEMORY];

int main(int argc, char **argv)
{
    size_t told[TRUPPIDANE_NUMBERS];
    if (argc != 2) {
        fprintf(stderr, "usage: check TABLE\n");
        return 2;
    }
    FILE *file = fopen(argv[1], "rb");
    if (file == NULL) {
        perror(argv[1]);
        return 2;
    }
    /* No table is half as long: what is wrong with a longer file is found in these bytes. */
    size_t length = fread(table, 1, sizeof table, file);
    if (ferror(file)) {
        perror(argv[1]);
        return 2;
    }
    fclose(file);

    /* A table has no more than W facts, so this budget holds for every table. */
    if (truppidane_check(table, length, memory, sizeof memory, sizeof memory, told) != 0) {
        printf("refused %zu %zu\n", told[TRUPPIDANE_NUMBER], told[TRUPPIDANE_VALUE]);
        return 2;
    }
    printf("facts %zu\n", told[TRUPPIDANE_VALUE]);
    if (told[TRUPPIDANE_VERDICT] == TRUPPIDANE_SAFE) {
        printf("verdict safe\n");
        return 0;
    }
    /* Byte 1 of a table that was read is the number of its threads. */
    printf("verdict possible %zu %zu", told[TRUPPIDANE_ROW], told[TRUPPIDANE_SHARED]);
    for (size_t thread = 0; thread < table[1]; thread++)
        printf(" %zu", told[TRUPPIDANE_LOCALS + thread]);
    printf("\n");
    return 1;
}
