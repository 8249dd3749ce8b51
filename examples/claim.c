/* Checks the claim in a file for the table in another, and prints the answer:
 *     cc -Iinclude examples/claim.c target/staticlib/libtruppidane.a -o target/claim
 *     target/claim TABLE CLAIM
 * It ends with 0 if the claim is accepted, so that the table is safe; 1 if it is refused; 2 if a
 * file is not read. `target/claim TABLE CLAIM && load` loads only what is accepted. */
#include <stdio.h>
#include "truppidane.h"

/* No sound table has half as many bytes, and no sound claim more than W + 5: what is wrong with a
 * longer file is found in these bytes. */
static uint8_t table[65536];
static uint8_t claim[TRUPPIDANE_MOST_MEMORY + 9];
static uint8_t memory[TRUPPIDANE_MOST_MEMORY];

/* Reads a file, as far as it has room, and gives whether it is read. */
static int is_read(const char *name, uint8_t *bytes, size_t room, size_t *length)
{
    FILE *file = fopen(name, "rb");
    if (file == NULL) {
        perror(name);
        return 0;
    }
    *length = fread(bytes, 1, room, file);
    int failed = ferror(file);
    if (failed)
        perror(name);
    fclose(file);
    return !failed;
}

int main(int argc, char **argv)
{
    size_t told[TRUPPIDANE_NUMBERS], table_length, claim_length;
    if (argc != 3) {
        fprintf(stderr, "usage: claim TABLE CLAIM\n");
        return 2;
    }
    if (!is_read(argv[1], table, sizeof table, &table_length)
        || !is_read(argv[2], claim, sizeof claim, &claim_length))
        return 2;
    if (truppidane_check_claim(table, table_length, claim, claim_length, memory, sizeof memory, told) != 0) {
        printf("refused %zu %zu %zu\n", told[TRUPPIDANE_NUMBER], told[TRUPPIDANE_VALUE], told[TRUPPIDANE_ORIGIN]);
        return 1;
    }
    printf("accepted %zu\n", told[TRUPPIDANE_VALUE]);
    return 0;
}
