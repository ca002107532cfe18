/* The week in one program, over all three libraries: makes a staircase table,
 * plans it, encodes a file, loses packets, repairs the block and verifies it.
 * On the bench a wrong byte is found, and its packet restored; two wrong
 * packets are refused. One plan serves packets of 64, 256 and 1,024 bytes. */

#include <stdio.h>
#include <string.h>

#include "receiver.h"
#include "tables.h"
#include "uplink.h"

enum { MOST_PLACES = 1024, MOST_SIZE = 1024, FIRST_INFORMATION = 5 };

static uint16_t table[BS_TABLE_WORDS];
static uint32_t plan[BS_PLAN_WORDS];
static uint64_t work[BS_WORK_WORDS];
static uint8_t file[MOST_PLACES * MOST_SIZE];
static uint8_t sent[MOST_PLACES * MOST_SIZE];
static uint8_t block[MOST_PLACES * MOST_SIZE];
static uint8_t map[MOST_PLACES];
static uint8_t scratch[1]; /* no check is set aside: no scratch is lent */

static int failed(const char *what, unsigned number)
{
    printf("week.c: %s: %u\n", what, number);
    return 1;
}

/* A file of so many bytes; the rest of its last packet is zero. */
static void write_file(size_t bytes)
{
    static const char text[] = "Light 14 moved 0.2 miles south. Wreck at 54 11 N 007 53 E. ";
    memset(file, 0, sizeof file);
    for (size_t i = 0; i < bytes; i++)
        file[i] = (uint8_t)(text[i % (sizeof text - 1)] + i / (sizeof text - 1) % 7);
}

/* A staircase table, as both ends make it: sources, packets, ones and seed. */
typedef struct {
    size_t sources, packets, ones, seed;
} matrix;

static bs_made make(matrix m, size_t size)
{
    return bs_staircase(m.sources, m.packets, m.ones, m.seed, size, table, BS_TABLE_WORDS);
}

/* Plans the matrix. The plan holds for packets of every size; its table here
 * has packets of one byte. 0 if all went well. */
static int make_plan(matrix m, bs_planned *planned)
{
    bs_made made = make(m, 1);
    if (made.refusal != 0)
        return failed("table refused", made.refusal);
    *planned = bs_plan(table, made.length, plan, BS_PLAN_WORDS, work, BS_WORK_WORDS);
    if (planned->refusal != 0)
        return failed("planning refused", planned->refusal);
    if (planned->gap != 0)
        return failed("checks set aside", planned->gap);
    if (planned->kept != m.packets - m.sources)
        return failed("checks kept", planned->kept);
    for (size_t i = 0; i < m.sources; i++)
        if (plan[FIRST_INFORMATION + i] != i)
            return failed("not in natural order: information place", plan[FIRST_INFORMATION + i]);
    return 0;
}

/* On the bench: the block that was sent, with a wrong byte at the end of its
 * last packet, which lies in the last check alone. Verification finds it, and
 * repair blames that place. 0 if all went well; told is what verification said. */
static int one_wrong(size_t length, size_t packets, size_t size, bs_verified *told)
{
    block[packets * size - 1] ^= 0x01;
    *told = bs_verify(table, length, block, packets * size);
    if (told->refusal != 0 || told->codeword != 0 || told->byte != size - 1)
        return failed("a wrong byte was found at", told->byte);

    memset(map, 0, packets);
    bs_repaired repaired = bs_repair(table, length, block, packets * size, map, packets);
    if (repaired.refusal != 0 || repaired.restored != 1)
        return failed("a wrong packet was refused", repaired.refusal);
    if (map[packets - 1] != 3 || memcmp(block, sent, packets * size) != 0)
        return failed("a wrong packet wasn't blamed, mark", map[packets - 1]);
    return 0;
}

/* The same with a wrong byte at the start of the first packet too: repair
 * refuses, and tells what verification does. 0 if all went well. */
static int two_wrong(size_t length, size_t packets, size_t size)
{
    block[0] ^= 0x01;
    block[packets * size - 1] ^= 0x01;
    memset(map, 0, packets);
    bs_verified told = bs_verify(table, length, block, packets * size);
    bs_repaired repaired = bs_repair(table, length, block, packets * size, map, packets);
    if (repaired.refusal != 8)
        return failed("two wrong packets: refusal", repaired.refusal);
    if (repaired.check != told.check || repaired.byte != told.byte)
        return failed("two wrong packets: check", repaired.check);
    return 0;
}

/* Carries one file from the uplink to the receiver, by the plan, with packets
 * of so many bytes. Every step-th packet is lost. 0 if all went well. */
static int carry(matrix m, bs_planned planned, size_t size, size_t step)
{
    const size_t sources = m.sources, packets = m.packets;

    /* The uplink. The file lies in the block as it is, then the repair packets. */
    write_file(sources * size - 5);
    bs_encoded encoded = bs_encode(plan, planned.length, size, file, sources * size,
                                   sent, packets * size, scratch, 0, SIZE_MAX);
    if (encoded.refusal != 0)
        return failed("encoding refused", encoded.refusal);
    if (memcmp(sent, file, sources * size) != 0)
        return failed("the file isn't at the lowest places, sources", (unsigned)sources);

    /* On the way: every step-th packet is lost. */
    unsigned lost = 0;
    memcpy(block, sent, packets * size);
    memset(map, 0, packets);
    for (size_t place = step / 2; place < packets; place += step) {
        map[place] = 1;
        memset(block + place * size, 0xee, size);
        lost++;
    }

    /* The receiver, whose table has the size that was encoded with. */
    bs_made made = make(m, size);
    if (made.refusal != 0)
        return failed("table refused", made.refusal);
    if (bs_verify(table, made.length, block, packets * size).codeword != 0)
        return failed("passed with lost packets", lost);
    bs_repaired repaired = bs_repair(table, made.length, block, packets * size, map, packets);
    if (repaired.refusal != 0)
        return failed("repair refused", repaired.refusal);
    if (repaired.restored != lost || repaired.lost != 0)
        return failed("still lost", repaired.lost);
    bs_verified verified = bs_verify(table, made.length, block, packets * size);
    if (verified.refusal != 0 || verified.codeword != 1)
        return failed("check fails", verified.check);
    if (memcmp(block, sent, packets * size) != 0)
        return failed("another block came back, lost", lost);

    if (one_wrong(made.length, packets, size, &verified) != 0
        || two_wrong(made.length, packets, size) != 0)
        return 1;
    if (verified.check != planned.kept - 1)
        return failed("a wrong byte was found in check", verified.check);

    printf("week.c: %u packets of %u bytes, %u checks, %u ones; encoded with %u additions;\n"
           "        %u lost, %u restored with %u additions; the file came back in natural order;\n"
           "        a wrong byte was found in check %u at byte %u, and its packet restored;\n"
           "        two wrong packets were refused\n",
           (unsigned)packets, (unsigned)size, (unsigned)planned.kept, (unsigned)planned.ones,
           (unsigned)encoded.additions, lost, (unsigned)repaired.restored,
           (unsigned)repaired.additions, (unsigned)verified.check, (unsigned)verified.byte);
    return 0;
}

int main(void)
{
    static const matrix small = {20, 30, 3, 2024}, large = {800, 1000, 3, 12345};
    bs_planned planned;

    /* A small file. */
    if (make_plan(small, &planned) != 0 || carry(small, planned, 16, 6) != 0)
        return 1;

    /* Files of 51,195, 204,795 and 819,195 bytes by one plan. */
    if (make_plan(large, &planned) != 0)
        return 1;
    return carry(large, planned, 64, 10) != 0 || carry(large, planned, 256, 10) != 0
        || carry(large, planned, 1024, 10) != 0;
}
