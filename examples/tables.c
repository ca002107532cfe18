/* Makes a staircase table, asks for one that can't be made, and takes the table
 * through alist text and back. */

#include <stdio.h>
#include <string.h>

#include "tables.h"

static uint16_t table[BS_TABLE_WORDS], again[BS_TABLE_WORDS];
static uint8_t text[BS_MOST_TEXT];

int main(void)
{
    /* Four source packets of ten, of two bytes; three ones a source column. */
    bs_made made = bs_staircase(4, 10, 3, 1, 2, table, BS_TABLE_WORDS);
    if (made.refusal != 0) {
        printf("tables.c: refused with %u\n", (unsigned)made.refusal);
        return 1;
    }
    const unsigned n = table[1], checks = table[3], ones = table[4 + checks];
    if (n != 10 || checks != 6 || ones != 23 || made.length != 5 + checks + ones) {
        printf("tables.c: wrong: %u packets, %u checks, %u ones\n", n, checks, ones);
        return 1;
    }

    /* Seeds start at 1. The table stays as it was. */
    bs_made refused = bs_staircase(4, 10, 3, 0, 2, table, BS_TABLE_WORDS);
    if (refused.refusal != 11 || refused.length != 0 || table[1] != n) {
        printf("tables.c: seed 0 gave refusal %u\n", (unsigned)refused.refusal);
        return 1;
    }

    /* Written as alist text, and read again with its packet size. */
    bs_made written = bs_alist_write(table, made.length, text, BS_MOST_TEXT);
    bs_made read = bs_alist_read(text, written.length, 2, again, BS_TABLE_WORDS);
    if (written.refusal != 0 || memcmp(text, "10 6\n", 5) != 0 || read.refusal != 0 || read.length != made.length
        || memcmp(again, table, made.length * sizeof table[0]) != 0) {
        printf("tables.c: text of %u bytes, refused with %u and %u\n",
               (unsigned)written.length, (unsigned)written.refusal, (unsigned)read.refusal);
        return 1;
    }

    /* A number less is no alist text. */
    bs_made cut = bs_alist_read(text, written.length - 3, 2, again, BS_TABLE_WORDS);
    if (cut.refusal != 12 || cut.length != 0) {
        printf("tables.c: a text cut short gave refusal %u\n", (unsigned)cut.refusal);
        return 1;
    }
    printf("tables.c: %u packets, %u checks, %u ones; seed 0 refused with %u; the same table from %u bytes of text, cut short refused with %u\n",
           n, checks, ones, (unsigned)refused.refusal, (unsigned)written.length, (unsigned)cut.refusal);
    return 0;
}
