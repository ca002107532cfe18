/* Tables: makes tables of checks, for the uplink and for the receiver, and
 * exchanges them as alist text.
 *
 * A block is n packets of s bytes, at places 0 to n - 1. A check is a set of
 * places; the block is a codeword if the packets of each check sum to zero
 * (bytewise exclusive-or). The table of checks is made of 16-bit numbers:
 *
 *     2, n, s,   m, the m weights,   W0, the W0 places, check by check,
 *                                    ascending within a check
 *
 * n and s are 1 to 1,024, m at most 512, a weight at most 64, W0 at most
 * 6,144. Checks are numbered from 0. A table has 5 + m + W0 numbers.
 *
 * bs_staircase needs about 85 KiB of stack, bs_alist_read about 130 KiB,
 * bs_alist_write about 195 KiB.
 *
 * No call writes a byte that isn't named here. Lengths count elements, not
 * bytes. A pointer isn't null even where its length is 0.
 *
 * refusal is 0 if the call was accepted. A refused call gives 0 in all other
 * fields and leaves its buffers as they were:
 *
 *      1  writing: the table has fewer than 5 numbers
 *      2  n, s or m beyond its limits, of the table to make or to write;
 *         writing: also a first number that isn't 2
 *      3  a weight over 64, or more than 6,144 ones; writing: also weights,
 *         ones and length that don't fit each other
 *      4  writing: a place at or above n, or places that don't ascend
 *      5  a buffer of wrong length; a text buffer that is too short
 *     11  parameters of which no staircase table is made
 *     12  reading: no alist text
 *     13  reading: column and row lists disagree
 *
 * Alist text, as the research group exchanges matrices: decimal numbers, one
 * blank between them and a line feed after each line. Columns are places and
 * rows are checks. The lines:
 *
 *     n m                       columns and rows
 *     cmax rmax                 the greatest weight of a column, of a row
 *     the n weights of the columns
 *     the m weights of the rows
 *     n lines, one a column: the rows that it is in, numbered from 1, then 0
 *              up to cmax numbers
 *     m lines, one a row: the columns that are in it, likewise up to rmax
 *
 * s isn't in the text. The table 2 4 1, 2, 2 3, 5, 0 1, 1 2 3 is
 *
 *     4 2
 *     2 3
 *     1 2 1 1
 *     2 3
 *     1 0
 *     1 2
 *     2 0
 *     2 0
 *     1 2 0
 *     2 3 4
 */
#ifndef BS_TABLES_H
#define BS_TABLES_H

#include <stddef.h>
#include <stdint.h>

#ifdef __cplusplus
extern "C" {
#endif

#define BS_TABLE_WORDS 6661    /* length of the buffer for a table */
#define BS_MOST_TEXT   1200000 /* no table's text is longer */

typedef struct {
    uint32_t refusal;
    uint32_t length; /* numbers of the table, or bytes of the text; 0 if
                        refused */
} bs_made;

/* Makes the table of an LDPC-Staircase code by RFC 5170: n is packets, of
 * which the first sources carry the file, s is size, and there are m = packets
 * - sources checks. Check i holds source places by the RFC's generator and
 * fill from the seed, at least two of them, then place sources + i - 1 if i is
 * above 0, then place sources + i. Each source place lies in at least ones
 * checks. Such a table is planned with no check set aside and with the source
 * packets at places 0 to sources - 1, in their order.
 *
 * sources, packets, ones, seed and size may be any numbers at all. table_len
 * is exactly BS_TABLE_WORDS; what table holds beforehand doesn't count.
 *
 * Accepted: the first length numbers are the table, the rest is kept. The
 * table lent to other calls has that length.
 * Refusals, in the order in which they are looked for:
 *
 *     11  sources 0, packets not above sources, ones outside 3 to 10 or above
 *         packets - sources, or seed outside 1 to 2,147,483,646
 *      2  packets over 1,024, size outside 1 to 1,024, or more than 512 checks
 *      5  table_len isn't BS_TABLE_WORDS
 *     11  the fill needs more than 65,536 draws of the generator, those that
 *         it rejects counted too: so it is whenever sources is 1
 *      3  a check of more than 64 places, or more than 6,144 ones in all
 *
 * Refused: every number of the buffer is kept. */
bs_made bs_staircase(size_t sources, size_t packets, size_t ones, size_t seed,
                     size_t size, uint16_t *table, size_t table_len);

/* Makes the table of an alist text: n columns and m rows are its places and
 * checks, s is size. A table that bs_alist_write has written, read with its s,
 * is the same table.
 *
 * text may hold any bytes and have any length, size may be any number.
 * Numbers stand between blanks, line feeds (0a) and carriage returns (0d), any
 * number of them, and the ends of the text; how it is cut into lines doesn't
 * count. A number has at most six digits, leading zeros among them. Lists may
 * come unsorted. table_len is exactly BS_TABLE_WORDS; what table holds
 * beforehand doesn't count.
 *
 * Accepted: the first length numbers are the table, the places of each check
 * ascending; the rest is kept.
 * Refusals, in the order in which they are looked for:
 *
 *     12  anything but such numbers; too few or too many for n, m, cmax and
 *         rmax; a cmax or rmax that isn't the greatest weight; an entry of a
 *         column outside 1 to m, of a row outside 1 to n, or twice in its
 *         list; padding other than 0
 *     13  some column names a row that doesn't name it, or the other way round
 *      2  n outside 1 to 1,024, size outside 1 to 1,024, or more than 512 rows
 *      3  a row of more than 64 entries, or more than 6,144 in all
 *      5  table_len isn't BS_TABLE_WORDS
 *
 * Refused: every number of the table is kept. text is never written.
 *
 * A text within the limits takes time in proportion to its length. One beyond
 * them is read to its end all the same, since 12 and 13 come before 2: the
 * columns' lists m / 1,024 times and the rows' lists n / 1,024 times, which for
 * a text of 4 MB can take half a minute. Hand on no longer text than you want
 * to wait for. */
bs_made bs_alist_read(const uint8_t *text, size_t text_len, size_t size,
                      uint16_t *table, size_t table_len);

/* Writes a table as alist text: lists ascending, one blank between numbers, a
 * line feed after each line and nothing else. A list or a line of no numbers is
 * a line feed alone.
 *
 * table_len is the table's length. What text holds beforehand doesn't count. A
 * text buffer of BS_MOST_TEXT bytes is never too short.
 *
 * Accepted: the first length bytes are the text, with no zero byte behind it;
 * the rest is kept.
 * Refusals, in the order in which they are looked for:
 *
 *      1  table_len below 5
 *      2  the first number isn't 2; n or s outside 1 to 1,024; m over 512
 *      3  table_len below 5 + m, a weight over 64, W0 over 6,144 or not the sum
 *         of the weights, or table_len not 5 + m + W0
 *      4  a place at or above n, or places of a check that don't ascend
 *      5  text_len is below the text's length
 *
 * Refused: every byte of text is kept. table is never written. */
bs_made bs_alist_write(const uint16_t *table, size_t table_len, uint8_t *text,
                       size_t text_len);

#ifdef __cplusplus
}
#endif

#endif
