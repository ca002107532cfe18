/* Uplink: planning and encoding of sparse-check blocks.
 *
 * A block is n packets of s bytes, at places 0 to n - 1. A check is a set of
 * places; the block is a codeword if the packets of each check sum to zero
 * (bytewise exclusive-or). The table of checks is made of 16-bit numbers:
 *
 *     2, n, s,   m, the m weights,   W0, the W0 places, check by check,
 *                                    ascending within a check
 *
 * n and s are 1 to 1,024, m at most 512, a weight at most 64, W0 at most
 * 6,144.
 *
 * The planner turns a table into a plan once; the encoder carries out the
 * plan for each block. A plan is made of 32-bit numbers:
 *
 *     3, n, g, M,   n - M, the information places, ascending,
 *     the count of steps, the steps
 *
 * A step is kind * 16,777,216 + to * 4,096 + from. Kind 0 clears slot to
 * (from is 0), kind 1 adds slot from into slot to. Slots 0 to n - 1 are the
 * places of the block, n to n + g - 1 those of the scratch.
 *
 * A plan holds for packets of every size, 1 to 1,024 bytes: s isn't in it, and
 * the size is given with each encoding. Tables that differ in s alone have the
 * same plan. Byte j of the packets in the block comes from byte j of the
 * information packets alone, as if packets had one byte. The receiver's table
 * must have as s the size that was encoded with.
 *
 * Earlier plans started with 4, n, s, g, M. A stored one is refused with 9:
 * write 3 for the 4 and leave out s (the limits below hold of it too), or make
 * it anew from its table. bs_encode has grown by size: build callers anew.
 *
 * Which checks the planner sets aside has changed since (C-18). A table that
 * has any may get another plan than before: other information places, another
 * gap, and 6 where it was accepted or the other way round. A plan stored
 * before, in the layout above and within the limits below, still runs and
 * gives the block that carries the information at its own information places;
 * go by those of the plan that encodes.
 *
 * Two limits are lower since (C-20): a plan sets at most BS_MOST_ASIDE checks
 * aside, where it was 32, and has at most BS_MOST_STEPS steps, where it was
 * 13,344. A stored plan beyond either is refused with 9: make it anew from its
 * table. If it was made before C-18, the planner may set fewer checks aside
 * now; if more than BS_MOST_ASIDE still, the table is refused with 6, and
 * there is no plan for it. The receiver's calls take such a table as before.
 * No plan that bs_plan makes is refused with 9, and all buffers have the
 * lengths that they had.
 *
 * No call writes a byte that isn't named here. Lengths count elements, not
 * bytes. Buffers lent to one call don't overlap, and a pointer isn't null even
 * where its length is 0.
 *
 * refusal is 0 if the call was accepted. A refused call gives 0 in all other
 * fields and, where nothing else is said, leaves its buffers as they were:
 *
 *      1  a table of fewer than 5 words
 *      2  first word not 2, or n, s or m beyond its limits; of bs_encode: a
 *         size outside 1 to 1,024
 *      3  too few words for the weights, a weight over 64, W0 over 6,144 or
 *         not the sum of the weights, or a table of wrong length
 *      4  a place not below n, or not ascending in its check
 *      5  a buffer of wrong length
 *      6  more than BS_MOST_ASIDE checks set aside
 *      9  a plan that isn't well-formed: wrong counts or length, n outside 1
 *         to 1,024, g over BS_MOST_ASIDE or over M, M over n or 512, more
 *         than BS_MOST_STEPS steps, places not ascending below n, or a step
 *         that names no slot, adds a slot into itself, clears with from above
 *         0, has an unknown kind or writes an information place
 *
 * bs_plan looks for 1 to 6 in this order, bs_encode for 2, then 9, then 5.
 */
#ifndef BS_UPLINK_H
#define BS_UPLINK_H

#include <stddef.h>
#include <stdint.h>

#ifdef __cplusplus
extern "C" {
#endif

#define BS_PLAN_WORDS 15360 /* least length of the planner's plan buffer */
#define BS_WORK_WORDS 8192  /* length of the planner's work buffer */
#define BS_MOST_ASIDE 20    /* the most checks set aside, so packets of scratch */
#define BS_MOST_STEPS 12708 /* the most steps of a plan */

typedef struct {
    uint32_t refusal;
    uint32_t length;    /* words of the plan */
    uint32_t kept;      /* M: checks kept, so n - M packets of information */
    uint32_t ones;      /* W: places in the kept checks */
    uint32_t gap;       /* g: checks set aside, packets of scratch */
    uint32_t additions; /* add steps of the plan */
} bs_planned;

/* Plans a table. plan_len is at least BS_PLAN_WORDS; the plan's length is
 * written, the rest kept. work_len is exactly BS_WORK_WORDS; work may hold
 * anything, and is all zero after planning.
 * Refusals: 1 to 6. After 6 the plan is kept and work is all zero. */
bs_planned bs_plan(const uint16_t *table, size_t table_len,
                   uint32_t *plan, size_t plan_len,
                   uint64_t *work, size_t work_len);

typedef struct {
    uint32_t refusal;
    uint32_t additions; /* add steps carried out */
} bs_encoded;

/* Encodes one block by a plan, with packets of size bytes; the s of the table
 * that was planned plays no part. plan_len is exactly the plan's length,
 * information has (n - M) * size bytes, block n * size, scratch g * size. At
 * most limit steps are carried out; a limit at or above the count of steps,
 * such as SIZE_MAX, means all of them. What block and scratch hold beforehand
 * doesn't count.
 *
 * Accepted: block and scratch hold what the steps leave in their slots.
 * Refusals, in the order in which they are looked for:
 *
 *      2  size 0 or over 1,024, whatever plan and buffers are
 *      9  a plan that isn't well-formed, whatever the buffers are
 *      5  information, block or scratch of another length
 *
 * Refused: every byte of block and scratch is kept. */
bs_encoded bs_encode(const uint32_t *plan, size_t plan_len, size_t size,
                     const uint8_t *information, size_t information_len,
                     uint8_t *block, size_t block_len,
                     uint8_t *scratch, size_t scratch_len,
                     size_t limit);

#ifdef __cplusplus
}
#endif

#endif
