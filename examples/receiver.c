/* Repairs a block that lost three packets, then verifies it. Then repairs one
 * where no check has a single lost place. Then one with a wrong packet, and one
 * with two. Then finds where two packets differ that should be equal. Then merges
 * what two receivers heard. Then tells why places are restored, lost or received.
 * Then goes on under a longer table in the middle of a pass. */

#include <stdio.h>
#include <string.h>

#include "receiver.h"

/* Seven packets of one byte, three checks of four places each. */
static const uint16_t table[] = {
    2, 7, 1,
    3, 4, 4, 4,
    12, 0, 2, 4, 6, 1, 2, 5, 6, 3, 4, 5, 6,
};
static const size_t table_len = sizeof table / sizeof table[0];
static const uint8_t sent[7] = {0x01, 0x02, 0x04, 0x0e, 0x08, 0x0b, 0x0d};

static int repair_and_verify(void)
{
    /* Places 3, 5 and 6 didn't arrive. */
    uint8_t block[7] = {0x01, 0x02, 0x04, 0, 0x08, 0, 0};
    uint8_t map[7] = {0, 0, 0, 1, 0, 1, 1};

    bs_repaired repaired = bs_repair(table, table_len, block, sizeof block, map, sizeof map);
    if (repaired.refusal != 0 || repaired.lost != 0 || memcmp(block, sent, sizeof sent) != 0) {
        printf("receiver.c: repair failed, refusal %u, lost %u\n",
               (unsigned)repaired.refusal, (unsigned)repaired.lost);
        return 1;
    }

    bs_verified verified = bs_verify(table, table_len, block, sizeof block);
    bs_part part = bs_packet(7, 1, 5, block, sizeof block);
    if (verified.codeword != 1 || part.length != 1 || block[part.start] != 0x0b) {
        printf("receiver.c: verification failed\n");
        return 1;
    }
    printf("receiver.c: %u restored, %u lost, %u additions; packet 5 is %02x\n",
           (unsigned)repaired.restored, (unsigned)repaired.lost,
           (unsigned)repaired.additions, (unsigned)block[part.start]);
    return 0;
}

static int repair_fully(void)
{
    /* Places 2, 4 and 6 didn't arrive. Each check has lost two places or more. */
    static uint64_t work[8192];
    const size_t work_len = sizeof work / sizeof work[0];
    uint8_t block[7] = {0x01, 0x02, 0, 0x0e, 0, 0x0b, 0};
    uint8_t map[7] = {0, 0, 1, 0, 1, 0, 1};

    bs_repaired repaired = bs_repair(table, table_len, block, sizeof block, map, sizeof map);
    if (repaired.refusal != 0 || repaired.restored != 0 || repaired.lost != 3) {
        printf("receiver.c: repair restored %u\n", (unsigned)repaired.restored);
        return 1;
    }
    bs_fully_repaired full =
        bs_full_repair(table, table_len, block, sizeof block, map, sizeof map, work, work_len);
    if (full.refusal != 0 || full.restored != 3 || full.lost != 0 ||
        memcmp(block, sent, sizeof sent) != 0) {
        printf("receiver.c: full repair failed, refusal %u, lost %u\n",
               (unsigned)full.refusal, (unsigned)full.lost);
        return 1;
    }
    printf("receiver.c: fully repaired: %u restored, %u lost; packets 2, 4, 6 are %02x %02x %02x\n",
           (unsigned)full.restored, (unsigned)full.lost,
           (unsigned)block[2], (unsigned)block[4], (unsigned)block[6]);
    return 0;
}

static int blame_a_place(void)
{
    /* All seven arrived, but place 0 has 11 where 01 was sent. Without it no
     * packets contradict, and the others restore it; of no other place is that
     * true. So it is marked 3. */
    uint8_t block[7] = {0x11, 0x02, 0x04, 0x0e, 0x08, 0x0b, 0x0d};
    uint8_t map[7] = {0};

    bs_repaired repaired = bs_repair(table, table_len, block, sizeof block, map, sizeof map);
    if (repaired.refusal != 0 || repaired.restored != 1 || map[0] != 3 ||
        memcmp(block, sent, sizeof sent) != 0) {
        printf("receiver.c: a wrong packet: refusal %u, mark %u\n",
               (unsigned)repaired.refusal, (unsigned)map[0]);
        return 1;
    }
    /* Whoever can't risk that the blame fell on a right packet looks for a 3. */
    const uint8_t *blamed = memchr(map, 3, sizeof map);
    printf("receiver.c: packets contradicted: place %u blamed, and restored as %02x\n",
           (unsigned)(blamed - map), (unsigned)block[0]);
    return 0;
}

static int refuse_two_wrong(void)
{
    /* Place 3 is wrong too: no single place can be blamed. */
    uint8_t block[7] = {0x11, 0x02, 0x04, 0x0f, 0x08, 0x0b, 0x0d};
    uint8_t map[7] = {0};

    bs_repaired repaired = bs_repair(table, table_len, block, sizeof block, map, sizeof map);
    if (repaired.refusal != 8 || block[0] != 0x11 || map[0] != 0) {
        printf("receiver.c: two wrong packets: refusal %u\n", (unsigned)repaired.refusal);
        return 1;
    }
    printf("receiver.c: two wrong packets: check %u fails at byte %u\n",
           (unsigned)repaired.check, (unsigned)repaired.byte);
    return 0;
}

static int find_the_byte(void)
{
    /* Two packets of eight bytes, each sent twice: a check for each pair. */
    static const uint16_t pairs[] = {
        2, 4, 8,
        2, 2, 2,
        4, 0, 1, 2, 3,
    };
    const size_t pairs_len = sizeof pairs / sizeof pairs[0];

    /* All four arrived, but the copies of the second packet differ. Either may
     * be the wrong one, so that none is blamed. */
    uint8_t block[33] = "54 11 N 54 11 N 007 53 E007 58 E";
    uint8_t map[4] = {0, 0, 0, 0};

    bs_verified verified = bs_verify(pairs, pairs_len, block, 32);
    if (verified.refusal != 0 || verified.codeword != 0 ||
        verified.check != 1 || verified.byte != 5) {
        printf("receiver.c: verification told check %u, byte %u\n",
               (unsigned)verified.check, (unsigned)verified.byte);
        return 1;
    }
    bs_repaired repaired = bs_repair(pairs, pairs_len, block, 32, map, sizeof map);
    if (repaired.refusal != 8 || repaired.check != 1 || repaired.byte != 5) {
        printf("receiver.c: repair answered %u, check %u, byte %u\n",
               (unsigned)repaired.refusal, (unsigned)repaired.check, (unsigned)repaired.byte);
        return 1;
    }
    printf("receiver.c: packets contradict: check %u fails at byte %u\n",
           (unsigned)repaired.check, (unsigned)repaired.byte);
    return 0;
}

/* What the first and the second receiver heard; zero and 1 where they didn't. */
static const uint8_t first_block[7] = {0x01, 0x02, 0, 0x0e, 0, 0, 0x0d};
static const uint8_t first_map[7] = {0, 0, 1, 0, 1, 1, 0};
static const uint8_t second_block[7] = {0, 0, 0x04, 0x0e, 0, 0x0b, 0};
static const uint8_t second_map[7] = {1, 1, 0, 0, 1, 0, 1};

static bs_merged merge_with(const uint8_t *second, uint8_t *block, uint8_t *map)
{
    return bs_merge(table, table_len, first_block, 7, first_map, 7, second, 7, second_map, 7,
                    block, 7, map, 7);
}

static int restores_none(const uint8_t *heard, const uint8_t *heard_map)
{
    uint8_t block[7], map[7];
    memcpy(block, heard, 7);
    memcpy(map, heard_map, 7);
    return bs_repair(table, table_len, block, 7, map, 7).restored == 0;
}

static int merge_two(void)
{
    /* Alone neither restores a place: each check has lost two or more. */
    if (!restores_none(first_block, first_map) || !restores_none(second_block, second_map)) {
        printf("receiver.c: one receiver alone restored a place\n");
        return 1;
    }
    uint8_t block[7], map[7];
    bs_merged merged = merge_with(second_block, block, map);
    if (merged.refusal != 0 || merged.lost != 0 || memcmp(block, sent, sizeof sent) != 0) {
        printf("receiver.c: merging failed, refusal %u, lost %u\n",
               (unsigned)merged.refusal, (unsigned)merged.lost);
        return 1;
    }
    printf("receiver.c: merged: %u agreed, %u single, %u silent, %u clash; %u restored, %u lost\n",
           (unsigned)merged.agreed, (unsigned)merged.single, (unsigned)merged.silent,
           (unsigned)merged.clash, (unsigned)merged.restored, (unsigned)merged.lost);

    /* One bit of place 3 is wrong at the second. Both heard that place, so that
     * neither is believed, and it is restored from the others. */
    uint8_t wrong[7];
    memcpy(wrong, second_block, 7);
    wrong[3] ^= 0x80;
    merged = merge_with(wrong, block, map);
    if (merged.refusal != 0 || merged.clash != 1 || map[3] != 2 ||
        memcmp(block, sent, sizeof sent) != 0) {
        printf("receiver.c: a clash: refusal %u, clash %u, mark %u\n",
               (unsigned)merged.refusal, (unsigned)merged.clash, (unsigned)map[3]);
        return 1;
    }
    printf("receiver.c: place 3 in clash, and restored as %02x\n", (unsigned)block[3]);
    return 0;
}

static uint16_t reason[BS_REASON_NUMBERS];

/* Why a place of the sent block is as it is, where these places didn't arrive. */
static bs_reason why(const uint8_t *lost, size_t place)
{
    static uint64_t work[8192];
    uint8_t block[7], map[7];
    for (size_t p = 0; p < 7; p++) {
        block[p] = lost[p] ? 0 : sent[p];
        map[p] = lost[p];
    }
    return bs_why(table, table_len, block, sizeof block, map, sizeof map,
                  work, sizeof work / sizeof work[0], place, reason, BS_REASON_NUMBERS);
}

/* Whether the list is this, with zeros behind it. */
static int listed(const uint16_t *list, size_t length)
{
    for (size_t i = 0; i < BS_REASON_NUMBERS; i++) {
        if (reason[i] != (i < length ? list[i] : 0)) {
            return 0;
        }
    }
    return 1;
}

/* Whether the answer is of this kind with this list; says so if it isn't. */
static int tells(bs_reason told, uint32_t kind, const uint16_t *list, size_t length)
{
    if (told.refusal == 0 && told.kind == kind && told.length == length && listed(list, length)) {
        return 1;
    }
    printf("receiver.c: why: refusal %u, kind %u, length %u\n",
           (unsigned)told.refusal, (unsigned)told.kind, (unsigned)told.length);
    return 0;
}

static void print_list(const char *text, uint32_t length)
{
    printf("receiver.c: %s", text);
    for (uint32_t i = 0; i < length; i++) {
        printf(" %u", (unsigned)reason[i]);
    }
    printf("\n");
}

static int ask_why(void)
{
    /* Places 2, 4 and 6 didn't arrive, and are restored. Checks 0 and 1 both hold
     * 2 and 6, so that these cancel, and place 4 is left. */
    static const uint8_t three[7] = {0, 0, 1, 0, 1, 0, 1};
    static const uint16_t checks[] = {0, 1};
    bs_reason told = why(three, 4);
    if (!tells(told, 2, checks, 2) || told.restored != 3 || told.lost != 0) {
        return 1;
    }
    print_list("place 4 is restored by checks", told.length);

    /* A received place has no list. */
    if (!tells(why(three, 3), 1, NULL, 0)) {
        return 1;
    }
    printf("receiver.c: place 3 is received\n");

    /* Places 2, 4 and 5 didn't arrive. Each check holds two of them, so that
     * nothing tells if the three are off by the same. */
    static const uint8_t others[7] = {0, 0, 1, 0, 1, 1, 0};
    static const uint16_t together[] = {2, 4, 5};
    told = why(others, 4);
    if (!tells(told, 3, together, 3) || told.restored != 0 || told.lost != 3) {
        return 1;
    }
    print_list("place 4 stays lost with", told.length);

    /* There is no place 7; the list stays as it was. */
    told = why(others, 7);
    if (told.refusal != 14 || told.kind != 0 || !listed(together, 3)) {
        printf("receiver.c: place 7: refusal %u\n", (unsigned)told.refusal);
        return 1;
    }
    printf("receiver.c: place 7 is refused with %u\n", (unsigned)told.refusal);
    return 0;
}

/* The table with two checks more, and a new place in each. */
static const uint16_t longer[] = {
    2, 9, 1,
    5, 4, 4, 4, 3, 3,
    18, 0, 2, 4, 6, 1, 2, 5, 6, 3, 4, 5, 6, 1, 4, 7, 0, 2, 8,
};
/* The same, but the new checks come first. */
static const uint16_t mixed[] = {
    2, 9, 1,
    5, 3, 3, 4, 4, 4,
    18, 1, 4, 7, 0, 2, 8, 0, 2, 4, 6, 1, 2, 5, 6, 3, 4, 5, 6,
};
static const size_t longer_len = sizeof longer / sizeof longer[0];
static const uint8_t sent_longer[9] = {0x01, 0x02, 0x04, 0x0e, 0x08, 0x0b, 0x0d, 0x0a, 0x05};

/* A pass up to its middle, in buffers with room for the new places. */
typedef struct {
    uint8_t block[9];
    uint8_t map[9];
} pass;

/* Places 0, 1, 3 and 4 didn't arrive. Place 1 is restored; then checks 0 and 2
 * have two lost places each. What stands at places 7 and 8 never counts. */
static bs_repaired first_half(pass *half)
{
    static const pass came = {
        {0, 0, 0x04, 0, 0, 0x0b, 0x0d, 0xee, 0xee},
        {1, 1, 0, 1, 1, 0, 0, 0xee, 0xee},
    };
    *half = came;
    return bs_repair(table, table_len, half->block, 7, half->map, 7);
}

/* Goes on under a table of as many numbers as the longer one. */
static bs_repaired go_on(pass *half, const uint16_t *with, const uint8_t *arrivals,
                         const uint8_t *arrivals_map)
{
    return bs_lengthen(table, table_len, with, longer_len, half->block, 9, half->map, 9,
                       arrivals, 9, arrivals_map, 9);
}

static int lengthen_the_table(void)
{
    pass half;
    bs_repaired repaired = first_half(&half);
    if (repaired.refusal != 0 || repaired.restored != 1 || repaired.lost != 3) {
        printf("receiver.c: the first half: refusal %u, restored %u\n",
               (unsigned)repaired.refusal, (unsigned)repaired.restored);
        return 1;
    }
    printf("receiver.c: half a pass: %u restored, %u lost\n",
           (unsigned)repaired.restored, (unsigned)repaired.lost);

    /* Place 7 arrives, and gives back place 4, from which the others follow. Place
     * 1 arrives too, but is known: it is ignored, and stays marked as restored. */
    static const uint8_t arrivals[9] = {0, 0x02, 0, 0, 0, 0, 0, 0x0a, 0};
    static const uint8_t arrivals_map[9] = {1, 0, 1, 1, 1, 1, 1, 0, 1};
    static const uint8_t marks[9] = {2, 2, 0, 2, 2, 0, 0, 0, 2};
    repaired = go_on(&half, longer, arrivals, arrivals_map);
    if (repaired.refusal != 0 || repaired.lost != 0 ||
        memcmp(half.block, sent_longer, 9) != 0 || memcmp(half.map, marks, 9) != 0) {
        printf("receiver.c: lengthening failed, refusal %u, lost %u\n",
               (unsigned)repaired.refusal, (unsigned)repaired.lost);
        return 1;
    }
    printf("receiver.c: longer table: %u restored, %u lost, %u additions; packet 8 is %02x\n",
           (unsigned)repaired.restored, (unsigned)repaired.lost,
           (unsigned)repaired.additions, (unsigned)half.block[8]);
    return 0;
}

static int refuse_an_arrival(void)
{
    /* Places 7 and 8 arrive, but one bit of place 7 is wrong. No place is blamed.
     * Both stay in the block, and the map says so. */
    static const uint8_t arrivals[9] = {0, 0, 0, 0, 0, 0, 0, 0x8a, 0x05};
    static const uint8_t arrivals_map[9] = {1, 1, 1, 1, 1, 1, 1, 0, 0};
    static const pass entered = {
        {0, 0x02, 0x04, 0, 0, 0x0b, 0x0d, 0x8a, 0x05},
        {1, 2, 0, 1, 1, 0, 0, 0, 0},
    };
    pass half;
    first_half(&half);
    bs_repaired repaired = go_on(&half, longer, arrivals, arrivals_map);
    if (repaired.refusal != 8 || memcmp(&half, &entered, sizeof half) != 0) {
        printf("receiver.c: a wrong arrival: refusal %u\n", (unsigned)repaired.refusal);
        return 1;
    }
    printf("receiver.c: an arrival contradicts: check %u fails at byte %u\n",
           (unsigned)repaired.check, (unsigned)repaired.byte);
    return 0;
}

static int refuse_another_table(void)
{
    /* The checks are those of the longer table, but the old ones aren't first. */
    static const uint8_t arrivals[9] = {0};
    static const uint8_t arrivals_map[9] = {1, 1, 1, 1, 1, 1, 1, 1, 1};
    pass half, before;
    first_half(&half);
    before = half;
    bs_repaired repaired = go_on(&half, mixed, arrivals, arrivals_map);
    if (repaired.refusal != 15 || memcmp(&half, &before, sizeof half) != 0) {
        printf("receiver.c: another table: refusal %u\n", (unsigned)repaired.refusal);
        return 1;
    }
    printf("receiver.c: a table with the new checks first is refused with %u\n",
           (unsigned)repaired.refusal);
    return 0;
}

int main(void)
{
    return repair_and_verify() != 0 || repair_fully() != 0 || blame_a_place() != 0
        || refuse_two_wrong() != 0 || find_the_byte() != 0 || merge_two() != 0
        || ask_why() != 0 || lengthen_the_table() != 0 || refuse_an_arrival() != 0
        || refuse_another_table() != 0;
}
