/* Receiver: repair, full repair, the reason for a missing packet, merging, going
 * on under a longer table, and verification of sparse-check blocks.
 *
 * A block is n packets of s bytes, at places 0 to n - 1. A check is a set of
 * places; the block is a codeword if the packets of each check sum to zero
 * (bytewise exclusive-or). The table of checks is made of 16-bit numbers:
 *
 *     2, n, s,   m, the m weights,   W0, the W0 places, check by check,
 *                                    ascending within a check
 *
 * n and s are 1 to 1,024, m at most 512, a weight at most 64, W0 at most
 * 6,144. Checks are numbered from 0, and so are the bytes of a packet.
 *
 * No call writes a byte that isn't named here. Lengths count elements, not
 * bytes. Buffers lent to one call don't overlap, but for two that are only read;
 * and a pointer isn't null even where its length is 0.
 *
 * refusal is 0 if the call was accepted. A refused call gives 0 in all other
 * fields, but for check and byte with 8 of bs_repair, bs_merge and bs_lengthen,
 * and, where nothing else is said, leaves its buffers as they were:
 *
 *      1  a table of fewer than 5 words
 *      2  first word not 2, or n, s or m beyond its limits
 *      3  too few words for the weights, a weight over 64, W0 over 6,144 or
 *         not the sum of the weights, or a table of wrong length
 *      4  a place not below n, or not ascending in its check
 *      5  a buffer of wrong length
 *      7  a byte of the lost map over 1; of bs_merge, in either listener's map;
 *         of bs_lengthen, in the arrivals' map
 *      8  of bs_repair: the received packets contradict each other, and not
 *         exactly one place can be blamed for it; of bs_merge: the merged
 *         packets contradict each other; of bs_lengthen: those carried over and
 *         entered do; of bs_full_repair and bs_why: no codeword agrees with them
 *     10  a place not below n in bs_packet
 *     14  a place not below n in bs_why
 *     15  of bs_lengthen: the new table hasn't the old checks first and
 *         unchanged, or has fewer places, or another s
 *     16  of bs_lengthen: a byte of the map carried over is over 2 at an old
 *         place
 *
 * Of several causes the one with the lowest number is given; but 14 comes
 * before 8, 15 and 16 come before 7, and with two tables 1 to 4 of the old one
 * come before those of the new one.
 *
 * bs_why needs about 110 KiB of stack.
 *
 * bs_repaired has grown by check and byte, bs_verified by byte: build callers
 * anew.
 */
#ifndef BS_RECEIVER_H
#define BS_RECEIVER_H

#include <stddef.h>
#include <stdint.h>

#ifdef __cplusplus
extern "C" {
#endif

#define BS_REASON_NUMBERS 1024 /* length of the reason buffer */

typedef struct {
    uint32_t refusal;
    uint32_t restored;  /* places restored, a blamed one too */
    uint32_t lost;      /* places still lost */
    uint32_t additions; /* packets added: weight - 1 for each check used */
    uint32_t check;     /* with 8 the lowest check that fails; else 0 */
    uint32_t byte;      /* with 8 the lowest byte where it fails; else 0 */
} bs_repaired;

/* Restores lost packets. block has n * s bytes. map has n bytes: 0 received,
 * 1 lost. While some check has exactly one lost place, the lowest such check
 * restores it. What stays lost is the largest stopping set. Bytes that lie at
 * lost places beforehand don't count. If afterwards a check without a lost
 * place doesn't sum to zero, the received packets contradict each other.
 *
 * Then a place may be blamed. A received place is a suspect if the same
 * repair, with this place marked lost too, restores it and meets no
 * contradiction. If there is exactly one suspect, the call is accepted with
 * that repair, and the place is marked 3. If there is none, or more than one,
 * the call is refused with 8. Where nothing contradicts, no place is blamed.
 *
 * Accepted: map bytes of restored places become 2, that of the blamed place
 * becomes 3, all others stay 0 or 1. Packets of restored places and of the
 * blamed one are in the block, and places still lost hold zero bytes. All
 * other received places are kept. The blamed place counts as restored, and
 * additions are those of the repair with it marked lost. Its packet is another
 * than the one that came, which is gone.
 *
 * A 3 doesn't say that this packet was wrong: the blame can fall on a right
 * one. All that is promised is that every check without a lost place sums to
 * zero and that received packets change at that place alone. For example:
 * checks 1 2, 0 1 2 3 and 2 3, four zero bytes sent, places 2 and 3 lost, and
 * 01 came at place 1. Place 0 is marked 3 and all four bytes become 01, which
 * is a codeword, but not the one that was sent. A loader that can't risk this
 * takes a block with a 3 in its map for one that isn't repaired, and waits for
 * the next pass. If one packet alone is wrong, and its place would be restored
 * if it were lost too, the blame falls on no other place.
 *
 * Refusals: 1 to 5, 7 and 8. After 8 every place that map says is lost holds
 * zero bytes; map and received places are kept.
 *
 * With 8 check and byte tell of the repair in which no place is blamed: of
 * the block as restored, before lost places become zero. check is the lowest
 * check that fails: of those then without a lost place, the first whose
 * packets don't sum to zero. byte is the position, 0 to s - 1, of the lowest
 * byte of that sum that isn't zero. So 0 and 0 say that check 0 fails at byte
 * 0. If the call is accepted, or refused with another number, both are 0. */
bs_repaired bs_repair(const uint16_t *table, size_t table_len,
                      uint8_t *block, size_t block_len,
                      uint8_t *map, size_t map_len);

typedef struct {
    uint32_t refusal;
    uint32_t restored; /* places restored */
    uint32_t lost;     /* places still lost */
    uint32_t check;    /* 0 */
    uint32_t byte;     /* 0 */
} bs_fully_repaired;

/* Restores every lost packet that the received ones decide: a place is
 * restored exactly if all codewords that agree with the received packets
 * agree there. It blames no place. Where it is accepted, bs_repair would be
 * too, and would blame none; so it restores what bs_repair restores, with the
 * same packets, and more where that stops. block and map are as for bs_repair.
 * work has exactly 8,192 64-bit words, as the planner's; what it holds doesn't
 * count, and neither do bytes at lost places.
 *
 * Accepted: map bytes of restored places become 2, their packets are in the
 * block, and places still lost hold zero bytes. Received places are kept.
 * work is zero. Where nothing stays lost the block is a codeword.
 * Refusals: 1 to 5, 7 and 8. 8 says that no codeword agrees with the received
 * packets: wherever bs_repair answers 8 or blames a place, and also where only
 * several checks together contradict; check and byte are 0. After 8 every
 * place that map says is lost holds zero bytes, map and received places are
 * kept, and work is zero. After any other refusal all buffers are as they
 * were.
 *
 * A map that a repair has marked is refused with 7, by both calls: to go on
 * with more packets, set the 2s back to 1, or to 0 to take restored packets
 * for received ones. Set a 3 back to 1: the place is lost, as the repair that
 * marked it took it. bs_lengthen takes the 2s as they are. */
bs_fully_repaired bs_full_repair(const uint16_t *table, size_t table_len,
                                 uint8_t *block, size_t block_len,
                                 uint8_t *map, size_t map_len,
                                 uint64_t *work, size_t work_len);

typedef struct {
    uint32_t refusal;
    uint32_t kind;     /* 1 received, 2 restored, 3 lost; 0 if refused */
    uint32_t length;   /* numbers in the list */
    uint32_t restored; /* places restored, as of bs_full_repair */
    uint32_t lost;     /* places still lost, as of bs_full_repair */
    uint32_t check;    /* 0 */
    uint32_t byte;     /* 0 */
} bs_reason;

/* Repairs as bs_full_repair does, and says why one place is then as it is.
 * block, map and work are as for bs_full_repair. reason has exactly 1,024
 * 16-bit numbers; what it holds doesn't count.
 *
 * Accepted: block and map are as bs_full_repair leaves them, and work is zero.
 * reason holds a list, ascending, and then zeros; its length is returned. The
 * list depends on table and map alone, and not on a packet. Lost places here
 * are those that map says are lost beforehand.
 *
 *   1, received   the list is empty.
 *   2, restored   the used checks whose sum holds this place and otherwise only
 *                 received places: so the packet is the sum of what was
 *                 received there. A check is used if its lost places aren't the
 *                 sum of those of lower used checks. There is only one such
 *                 list, and it is never empty.
 *   3, lost       a set of lost places with this one in it that every check
 *                 meets an even number of times: add one packet, whatever it
 *                 is, to all of these places, and no check tells. Of two such
 *                 sets it is the one without the highest place in which they
 *                 differ. All of its places are still lost.
 *
 * Refusals: 1 to 5, 7, 14 and 8, the first of these in this order. After 8
 * block, map and work are as bs_full_repair leaves them: every place that map
 * says is lost holds zero bytes, map and received places are kept, and work is
 * zero; reason is kept. After any other refusal all buffers are as they were.
 *
 * A map that a repair has marked is refused with 7. So to ask for several
 * places of one block keep the map that came, and lend a copy each time; the
 * block can stay as it is. */
bs_reason bs_why(const uint16_t *table, size_t table_len,
                 uint8_t *block, size_t block_len,
                 uint8_t *map, size_t map_len,
                 uint64_t *work, size_t work_len,
                 size_t place,
                 uint16_t *reason, size_t reason_len);

typedef struct {
    uint32_t refusal;
    uint32_t agreed;    /* places that both heard, with the same packet */
    uint32_t single;    /* places that one heard */
    uint32_t silent;    /* places that none heard */
    uint32_t clash;     /* places that both heard, with packets that differ */
    uint32_t restored;  /* places restored */
    uint32_t lost;      /* places still lost */
    uint32_t additions; /* packets added: weight - 1 for each check used */
    uint32_t check;     /* with 8 the lowest check that fails; else 0 */
    uint32_t byte;      /* with 8 the lowest byte where it fails; else 0 */
} bs_merged;

/* Merges what two listeners have of one block, and repairs it. block1, map1
 * and block2, map2 are the listeners', as for bs_repair: blocks of n * s bytes,
 * maps of n bytes, 0 received and 1 lost. They are only read. block3 and map3
 * are written, and have the same lengths; what they hold beforehand never
 * counts, so that no byte of map3 gives 7. Bytes at places that a listener's
 * map says are lost don't count either, nor which listener comes first.
 *
 * A place that both heard with the same packet, every byte of it, is agreed; one
 * that a single listener heard is single; their packets are taken, with mark 0.
 * A place that none heard is silent, and one that both heard with packets that
 * differ is in clash: these are lost, with mark 1, and neither packet of a clash
 * is believed. Then lost places are restored as bs_repair restores them; but
 * where packets contradict no place is blamed.
 *
 * Accepted: the four counts add up to n, and restored and lost to silent and
 * clash. Map bytes of restored places are 2, of places still lost 1, of all
 * others 0. Packets of restored places are in block3, and places still lost
 * hold zero bytes. To go on with bs_full_repair set the 2s to 0.
 *
 * If both listeners heard what was sent, wherever they heard anything, nothing
 * clashes and nothing is refused with 8; every packet of block3 that isn't
 * still lost is as it was sent; and no place is lost that either listener would
 * have received, or that bs_repair would have restored from what it heard.
 *
 * Refusals: 1 to 5, 7 and 8. After 8 map3 holds the merged 0 and 1, block3 the
 * merged packets, and zero bytes at its lost places; all counts are 0, and check
 * and byte are as for bs_repair. After any other refusal block3 and map3 are as
 * they were. */
bs_merged bs_merge(const uint16_t *table, size_t table_len,
                   const uint8_t *block1, size_t block1_len,
                   const uint8_t *map1, size_t map1_len,
                   const uint8_t *block2, size_t block2_len,
                   const uint8_t *map2, size_t map2_len,
                   uint8_t *block3, size_t block3_len,
                   uint8_t *map3, size_t map3_len);

/* Goes on with a block in the middle of a pass, under a longer table. new_table
 * has the checks of old_table first, in their order and unchanged; new ones come
 * after them. It has the same s and at least as many places: the new places come
 * after the old ones, which are those below the old n. Every table is a
 * lengthening of itself, and a lengthening of a lengthening is one of the first
 * table. So a block can be gone on with again and again, also where only packets
 * have come and the table is still the same; old_table and new_table may then be
 * one table. Tables of bs_staircase with different packet counts are in general
 * no lengthenings of each other, since their fill depends on the number of checks.
 *
 * n and s are the new table's from here on. block has n * s bytes and map n
 * bytes. To carry over, put block and map as the repair left them at the start
 * of buffers of these lengths. What they hold at new places never counts: these
 * start as lost. At old places map has 0 received, 1 lost, 2 restored; bytes
 * that lie at lost places don't count. A place that bs_repair has marked 3 must
 * be set back by whoever carries on, to 1, as its packet is in doubt: then an
 * arrival there is taken. With a 3 the call is refused with 16.
 *
 * arrivals has n * s bytes and arrivals_map n bytes: 0 at a place whose packet
 * has come since, 1 at any other, where bytes of arrivals don't count. They are
 * only read. An arrival at a lost place is entered: its packet goes into block,
 * and its mark becomes 0. An arrival at a known place, marked 0 or 2, is
 * ignored, even if the packets differ: mark and packet stay. Then lost places
 * are restored as bs_repair restores them, by the new table's checks; but where
 * packets contradict no place is blamed.
 *
 * Accepted: map bytes of restored places become 2, and their packets are in
 * block. Places still lost have mark 1 and hold zero bytes, new ones too. All
 * other marks and packets are as carried over or entered. The counts are this
 * call's alone: restored and lost add up to the places that are lost when the
 * arrivals have been entered.
 *
 * If the block carried over, and which of its places are lost, are as bs_repair
 * leaves them under the old table where it blames no place, and if all packets
 * received, before and since, agree with one codeword of the new table, then
 * the call isn't refused with 8; and block, and which places are lost, are as
 * bs_repair leaves them under the new table from all packets received so far.
 * Marks 0 and 2 can differ from its: a place restored before its packet came
 * stays 2. What such a call leaves can be carried over again, with the same promise.
 *
 * Refusals: 1 to 4 of the old table, 1 to 4 of the new one, 5, 15, 16, 7 and 8,
 * the first of these in this order. 5 is judged of each of the four buffers, by
 * the new table; 16 looks at old places only, 7 at all n places. After 8 map
 * stays as entered: 0 at the arrivals that were entered, 1 at all other places
 * that were lost and at all other new ones, and known places keep their 0 or 2.
 * block holds the packets entered beside those carried over, and zero bytes at
 * its lost places. All counts are 0, and check and byte are as for bs_repair, by
 * the new table's checks. So block and map are then of the new table's places,
 * and can be gone on with under it; an arrival is taken back by setting its mark
 * to 1. After any other refusal block and map are as they were. */
bs_repaired bs_lengthen(const uint16_t *old_table, size_t old_table_len,
                        const uint16_t *new_table, size_t new_table_len,
                        uint8_t *block, size_t block_len,
                        uint8_t *map, size_t map_len,
                        const uint8_t *arrivals, size_t arrivals_len,
                        const uint8_t *arrivals_map, size_t arrivals_map_len);

typedef struct {
    uint32_t refusal;
    uint32_t codeword; /* 1 if the block is a codeword, else 0 */
    uint32_t check;    /* the lowest check that fails; 0 if none does */
    uint32_t byte;     /* the lowest byte where it fails; 0 if none does */
} bs_verified;

/* Says whether a block of n * s bytes is a codeword. If it isn't, check is the
 * lowest check whose packets don't sum to zero, and byte the position, 0 to
 * s - 1, of the lowest byte of that sum that isn't zero. For a codeword, and
 * where refused, both are 0. Writes nothing. Refusals: 1 to 5. */
bs_verified bs_verify(const uint16_t *table, size_t table_len,
                      const uint8_t *block, size_t block_len);

typedef struct {
    uint32_t refusal;
    size_t start;  /* where the packet starts in the block */
    size_t length; /* its bytes: s; 0 if refused */
} bs_part;

/* Where the packet of one place lies in a block of n * s bytes. Writes
 * nothing. Refusals: 2, 5 and 10. */
bs_part bs_packet(size_t n, size_t s, size_t place,
                  const uint8_t *block, size_t block_len);

#ifdef __cplusplus
}
#endif

#endif
