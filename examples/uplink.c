/* Plans a table once, then encodes blocks of it with packets of 64, 256 and
 * 1,024 bytes; then plans and encodes at the limits of a plan, and beyond. */

#include <stdio.h>

#include "uplink.h"

enum { PLACES = 7, SOURCES = 4, MOST_SIZE = 1024 };

static uint32_t plan[BS_PLAN_WORDS];
static uint64_t work[BS_WORK_WORDS];
static uint8_t information[SOURCES * MOST_SIZE];
static uint8_t block[PLACES * MOST_SIZE];
static uint8_t scratch[BS_MOST_ASIDE * MOST_SIZE]; /* g * size bytes are lent */

/* With packets of one byte: the information, for places 0, 1, 2 and 4, and its
 * block. */
static const uint8_t source[SOURCES] = {0x01, 0x02, 0x04, 0x08};
static const uint8_t codeword[PLACES] = {0x01, 0x02, 0x04, 0x0e, 0x08, 0x0b, 0x0d};

/* Byte j of a packet: its first byte, turned by j bits. */
static uint8_t turned(uint8_t first, size_t j)
{
    return (uint8_t)((first << j % 8) | (first >> (8 - j % 8)));
}

/* Encodes by the plan with packets of so many bytes. 0 if all went well. */
static int encode(bs_planned planned, size_t size)
{
    for (size_t i = 0; i < SOURCES * size; i++)
        information[i] = turned(source[i / size], i % size);
    bs_encoded encoded = bs_encode(plan, planned.length, size,
                                   information, SOURCES * size,
                                   block, PLACES * size,
                                   scratch, planned.gap * size, SIZE_MAX);
    if (encoded.refusal != 0 || encoded.additions != planned.additions) {
        printf("uplink.c: encoding failed, refusal %u\n", (unsigned)encoded.refusal);
        return 1;
    }

    /* Each byte position is the block of its own bytes. */
    for (size_t i = 0; i < PLACES * size; i++)
        if (block[i] != turned(codeword[i / size], i % size)) {
            printf("uplink.c: packets of %u bytes: byte %u of place %u is wrong\n",
                   (unsigned)size, (unsigned)(i % size), (unsigned)(i / size));
            return 1;
        }
    return 0;
}

/* Plans copies of a table of four packets side by side: three checks each, of
 * which one is set aside. */
static bs_planned plan_copies(uint16_t copies)
{
    static const uint16_t places[9] = {0, 1, 2, 0, 1, 3, 0, 2, 3};
    static uint16_t table[5 + 12 * (BS_MOST_ASIDE + 1)];
    size_t len = 0;
    table[len++] = 2;
    table[len++] = (uint16_t)(4 * copies);
    table[len++] = 64;
    table[len++] = (uint16_t)(3 * copies);
    for (uint16_t c = 0; c < 3 * copies; c++)
        table[len++] = 3;
    table[len++] = (uint16_t)(9 * copies);
    for (uint16_t i = 0; i < 9 * copies; i++)
        table[len++] = (uint16_t)(4 * (i / 9) + places[i % 9]);
    return bs_plan(table, len, plan, BS_PLAN_WORDS, work, BS_WORK_WORDS);
}

/* Encodes by a plan of one place and so many steps, each of which clears it. */
static bs_encoded encode_steps(uint32_t steps)
{
    static const uint32_t head[] = {3, 1, 0, 1, 0};
    for (size_t i = 0; i < 5; i++)
        plan[i] = head[i];
    plan[5] = steps;
    for (size_t i = 0; i < steps; i++)
        plan[6 + i] = 0;
    return bs_encode(plan, 6 + (size_t)steps, 64, information, 0, block, 64, scratch, 0, SIZE_MAX);
}

int main(void)
{
    /* Seven packets, three checks of four places each. The table has a size,
     * its plan has none. */
    static const uint16_t table[] = {
        2, 7, 64,
        3, 4, 4, 4,
        12, 0, 2, 4, 6, 1, 2, 5, 6, 3, 4, 5, 6,
    };

    bs_planned planned = bs_plan(table, sizeof table / sizeof table[0],
                                 plan, BS_PLAN_WORDS, work, BS_WORK_WORDS);
    if (planned.refusal != 0 || planned.kept != PLACES - SOURCES) {
        printf("uplink.c: planning failed, refusal %u\n", (unsigned)planned.refusal);
        return 1;
    }
    if (encode(planned, 64) != 0 || encode(planned, 256) != 0 || encode(planned, 1024) != 0)
        return 1;

    /* A packet has 1 to 1,024 bytes: another size is refused before anything
     * else is looked at. */
    bs_encoded refused = bs_encode(plan, planned.length, 1025, information, 0, block, 0, scratch, 0, SIZE_MAX);
    if (refused.refusal != 2 || refused.additions != 0) {
        printf("uplink.c: packets of 1025 bytes gave refusal %u\n", (unsigned)refused.refusal);
        return 1;
    }

    /* At the limits, and beyond. */
    if (plan_copies(BS_MOST_ASIDE).gap != BS_MOST_ASIDE || plan_copies(BS_MOST_ASIDE + 1).refusal != 6
        || encode_steps(BS_MOST_STEPS).refusal != 0 || encode_steps(BS_MOST_STEPS + 1).refusal != 9) {
        printf("uplink.c: wrong at the limits of a plan\n");
        return 1;
    }
    printf("uplink.c: %u checks kept, gap %u; %u additions with packets of 64, 256 and 1024 bytes; 1025 bytes refused with %u\n",
           (unsigned)planned.kept, (unsigned)planned.gap, (unsigned)planned.additions, (unsigned)refused.refusal);
    return 0;
}
