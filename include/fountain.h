/* Card reader, card cutter, dealing and its inverse, writer, the seed at a position of the schedule, read check, the choice
 * between two base callers, store (the hall's shelf) and restorer of a DNA-storage pool, for C and C++ hosts.
 *
 * Link libcapi.a and libstrand.a: fountain_check_read is in libstrand.a, the other nine are in libcapi.a. The two have
 * no name in common, and together need nothing but memcpy and memset.
 *
 * Each function returns 0, or the number of the first of its questions that says no. They are asked in the order in which each
 * function lists them below. A call that returns a number other than 0 has changed no buffer, no list and no answer.
 *
 * No function reads or writes outside the buffers that it is handed, fails to return, or keeps state. They may be called from
 * several threads at once, if no call writes what another one reads or writes.
 *
 * What the caller answers for, and nothing checks:
 *   - each pointer stands for as many elements as the length after it says, aligned as C aligns their type;
 *   - a pointer may be NULL only where its length is 0, and `answer` is never NULL;
 *   - a buffer that a function may write (a pointer with no const) overlaps no other buffer of that call. Buffers that it only
 *     reads may overlap each other. */
#ifndef FOUNTAIN_H
#define FOUNTAIN_H

#include <stddef.h>
#include <stdint.h>

#ifdef __cplusplus
extern "C" {
#endif

/* All functions but the card reader and fountain_seed_at take the numbers of a pool card and its weights:
 *
 *   F            file length in bytes, 1 to 8,388,608
 *   L            segment length in bytes, 1 to 64
 *   R            check bytes, 2 or 4
 *   m            longest run of one base allowed, 1 to 20, counted through the sites as below
 *   lo, hi       limits of C and G in thousandths of the strand's own n bases, lo <= hi <= 1000
 *   dealt        whether the card has a fourth field, the width: 0 says no, any other byte yes
 *   width        W, by which the file is dealt, 2 to F; ignored if dealt is 0
 *   weights      the degree weights: four bytes each, most significant first (a card has them from its byte 20 on)
 *   weights_len  how many bytes these are, 4 * D
 *
 * They ask these questions first:
 *
 *    2  F, L or R out of range, or more than 131,072 segments
 *    3  m, lo or hi out of range
 *    4  weights not a multiple of 4 bytes, none, more than 1,024 or than there are segments, or their sum 0 or over 32 bits
 *   27  dealt is not 0, and width is below 2 or above F (so that a file of one byte has no width)
 *
 * A card with a width is for a file that is dealt before it is cut into segments, so that a long stretch of zeros is spread over
 * many of them. fountain_deal deals it; the writer is handed the dealt file, the restorer gives back the dealt file with marks by
 * dealt segment, and fountain_undeal makes the file of it again.
 *
 * The order that goes to synthesis has an annealing site on each side of a strand: GTTTCAGAGTTCTACAGTCCGACGATC before it and
 * TGGAATTCTCGGGTGCCAAGG after it. A run of one base counts, with its whole length in the order, if at least one of its bases is
 * the strand's: a strand that ends in TTT has a run of 4 with the T of the site, one that starts with CCC a run of 4 with the C. A
 * run of a site alone does not count.
 *
 * D is the number of weights, K the number of segments (F divided by L, rounded up), n the strand length, 4 * (4 + L + R)
 * letters. A record is a seed (four bytes, most significant first), L payload bytes, a state byte and a read count (four bytes, most
 * significant first): 9 + L bytes. The state is 0 if the payload is that of a clean read, and 1 if it is that of a mended one; any other
 * byte counts as mended. The read count is how many reads are behind the record: 1 when it is appended, and one more at each repeat or
 * replacement. Records of before, 4 + L bytes without a state or 5 + L bytes without a read count, cannot be told apart from these: do
 * not hand them over. */

/* Reads a pool card.
 *
 *   card, card_len    the bytes of the card
 *   answer            lent for nine numbers: F, L, R, m, lo, hi, D, dealt (1 if the card has a width, else 0) and W (0 if it has
 *                     none), in this order
 *
 * Returns 0 if the card is accepted, and fills answer; its weights are the 4 * D bytes from card + 20 on. Otherwise:
 *
 *    1  not three whole fields of tags 1, 2 and 3 and lengths 6, 5 and a multiple of 4, and behind them nothing or a whole fourth
 *       of tag 4 and length 4
 *    2, 3, 4, 27  as above */
uint32_t fountain_read_card(const uint8_t *card, size_t card_len, uint64_t answer[9]);

/* Cuts a pool card: writes its bytes from its numbers and weights.
 *
 *   F .. weights_len  as above
 *   out, out_len      lent for the card, at least 20 + weights_len bytes, or 27 + weights_len if dealt is not 0 (no card has more
 *                     than 4,123)
 *   answer            lent for one number: the card's length in bytes, 20 + weights_len, or 27 + weights_len if dealt is not 0
 *
 * Returns 0 and fills answer. The card is then the first answer[0] bytes of out, and those past it are as they were. It has a
 * width just if dealt is not 0. fountain_read_card, handed the card, accepts it and gives these numbers, but W 0 if dealt is 0; and
 * a card that it accepts, cut again from its numbers and weights, is the same bytes. Otherwise:
 *
 *    2, 3, 4, 27  as above
 *   19  out is shorter than the card that would be written */
uint32_t fountain_cut_card(uint32_t F, uint8_t L, uint8_t R, uint8_t m, uint16_t lo, uint16_t hi, uint8_t dealt, uint32_t width,
                           const uint8_t *weights, size_t weights_len,
                           uint8_t *out, size_t out_len,
                           uint64_t answer[1]);

/* Deals a file: puts first all of its bytes whose place modulo W is 0, in order, then those with 1, and so on. Without a width it
 * copies them as they are.
 *
 *   F .. weights_len    as above
 *   source, source_len  the file, at least F bytes, of which those past F are not looked at
 *   target, target_len  lent for the dealt file, at least F bytes
 *
 * For example, the file 00 01 02 03 04 05 06 (F 7) with W 3 is dealt as 00 03 06 01 04 02 05.
 *
 * Returns 0. The first F bytes of target are then those of the dealt file, and its bytes past these are as they were. Otherwise:
 *
 *    2, 3, 4, 27  as above
 *   28  source or target is shorter than F bytes */
uint32_t fountain_deal(uint32_t F, uint8_t L, uint8_t R, uint8_t m, uint16_t lo, uint16_t hi, uint8_t dealt, uint32_t width,
                       const uint8_t *weights, size_t weights_len,
                       const uint8_t *source, size_t source_len,
                       uint8_t *target, size_t target_len);

/* The inverse of dealing: makes a file again of the dealt file that the restorer gave back. Without a width it copies the bytes as
 * they are.
 *
 *   F .. weights_len    as above
 *   source, source_len  the dealt file, at least F bytes, of which those past F are not looked at (a restorer's file has K * L)
 *   target, target_len  lent for the file, at least F bytes
 *
 * Returns 0. The first F bytes of target are then those of the file that fountain_deal, handed the same numbers and weights, deals
 * as the first F bytes of source, and its bytes past these are as they were. Otherwise:
 *
 *    2, 3, 4, 27  as above
 *   28  source or target is shorter than F bytes */
uint32_t fountain_undeal(uint32_t F, uint8_t L, uint8_t R, uint8_t m, uint16_t lo, uint16_t hi, uint8_t dealt, uint32_t width,
                         const uint8_t *weights, size_t weights_len,
                         const uint8_t *source, size_t source_len,
                         uint8_t *target, size_t target_len);

/* Writes strands of a file.
 *
 *   F .. weights_len  as above
 *   file, file_len    the file, F bytes; the dealt one if the card has a width
 *   start             the first seed to try, not 0
 *   wanted            how many strands to make, at most 1,000,000
 *   budget            how many seeds to try at most
 *   out, out_len      lent for the strands, at least wanted * (n + 1) bytes: n letters and a newline byte for each
 *   list, list_len    lent as scratch memory, at least D places
 *   answer            lent for six numbers: the stop (0 done: made is wanted; 1 spent: tried is budget), made, tried, the next
 *                     seed, with which a later call goes on, and how many strands were dropped for a run and for GC alone
 *
 * A strand is dropped for a run if it has one longer than m, whatever its C and G are, and for GC alone if its runs are within m
 * and it has fewer C and G than lo or more than hi allows, so that tried is made plus both. For example, 10 strands of the file
 * 1B 27 4E E4 from seed 0x12345678 on (F 4, L 1, R 2, two weights of 1, budget 1,000); the answer of the first line is
 * {0, 10, 62, 0xD862C7F9, 23, 29}:
 *
 *      m   lo   hi    made  tried  dropped for a run  for GC alone
 *      3  450  550      10     62                 23            29
 *      4  450  550      10     49                  7            32
 *      3  400  600      10     13                  2             1
 *
 * Returns 0 and fills answer. The first made * (n + 1) bytes of out then hold the strands, and its bytes past these are as they
 * were. The first D places of list hold anything, those past D are as they were. Otherwise:
 *
 *    2, 3, 4, 27  as above
 *    5  file_len is not F
 *    6  start is 0
 *    7  wanted is over 1,000,000, or out is shorter than wanted * (n + 1) bytes
 *    8  list has fewer than D places */
uint32_t fountain_write(uint32_t F, uint8_t L, uint8_t R, uint8_t m, uint16_t lo, uint16_t hi, uint8_t dealt, uint32_t width,
                        const uint8_t *weights, size_t weights_len,
                        const uint8_t *file, size_t file_len,
                        uint32_t start, uint32_t wanted, uint32_t budget,
                        uint8_t *out, size_t out_len,
                        uint32_t *list, size_t list_len,
                        uint64_t answer[6]);

/* The seed at a position of the seed schedule: so many steps after a start.
 *
 *   start             the start, not 0
 *   steps             the position: how many steps to take, 0 or more
 *   answer            lent for one number: the seed
 *
 * The schedule comes back to its start after 4,294,967,295 steps and not sooner, so no two strands of one call of fountain_write
 * carry the same seed. To split a job over several writers, give each a stretch of the schedule, the first from position 0 on,
 * each other from where the one before it ends. A writer's start is the seed at the position where its stretch begins, and its
 * budget at most the length of its stretch. If the lengths sum to at most 4,294,967,295, no two of the writers print one seed, also
 * where one of them is done before its stretch is at its end. All must count from one start: the stretches of two starts that were
 * chosen each by itself may overlap. For example, from start 0x12345678, stretches of 1,000,000:
 *
 *      position     the writer's start
 *             0             0x12345678
 *     1,000,000             0x6BF1B778
 *     2,000,000             0x1CA43C7F
 *     3,000,000             0x44BC2AAD
 *
 * Returns 0 and fills answer. Otherwise:
 *
 *    6  start is 0 */
uint32_t fountain_seed_at(uint32_t start, uint32_t steps, uint64_t answer[1]);

/* Checks one read under a pool card. A read of n letters with wrong bytes, four letters being a byte, is mended where there is a word
 * with all check sums 0 that differs from it in at most R/2 bytes: one with R 2, two with R 4. There is at most one such word. The wrong
 * bytes may be any, those of the seed and the check bytes too.
 *
 *   F .. weights_len  as above
 *   read, read_len    the letters of the read, n of them
 *   out, out_len      lent for the droplet, at least 4 + L bytes
 *
 * For example, under the bench card the strand of seed 1 is AAAAAAAAAAAAAAACTGCAATCGTCAT. TTTTAAAAAAAAAAACTGCAATCGTCAT, in which its
 * first byte is wrong, is accepted with its seed and payload; TAAAAAAAAAAAAAACTGCAATCGTCAA, in which its first and last bytes are, is
 * refused under 11. A read that is damaged further may by chance be near to another strand, and is then mended to that one.
 *
 * Returns 0 if the read is accepted, mended or not: the first 4 + L bytes of out then hold the seed (four bytes, most significant
 * first) and the L payload bytes, and its bytes past these are as they were. Otherwise:
 *
 *    2, 3, 4, 27  as above
 *    9  the read does not have the strand length
 *   10  a letter that is none of A, C, G, T (N and small letters are none)
 *   11  no word with all check sums 0 differs from the read in at most R/2 bytes
 *   12  the seed of that word is 0
 *   13  its strand does not pass the screen: a run longer than m, counted through the sites, or C and G outside lo and hi
 *   16  the read is accepted, but out is shorter than 4 + L bytes */
uint32_t fountain_check_read(uint32_t F, uint8_t L, uint8_t R, uint8_t m, uint16_t lo, uint16_t hi, uint8_t dealt, uint32_t width,
                             const uint8_t *weights, size_t weights_len,
                             const uint8_t *read, size_t read_len,
                             uint8_t *out, size_t out_len);

/* Chooses between two base callers. Each has read the same ordered strand, and its call is what it read, the letters of the
 * sites included. A call passes if it has n + 48 letters, the first 27 are the site before the strand and the last 21 the site
 * after it, and fountain_check_read accepts the n letters between them, mended or not. The sites must be right to the letter: a
 * wrong letter there is not mended, and a small letter is a wrong one. The first call that passes is chosen. So if the first
 * caller's passes, the second's may be anything; a clean second call does not beat a first one that must be mended.
 *
 *   F .. weights_len    as above
 *   first, first_len    the letters of the first caller's call
 *   second, second_len  the letters of the second caller's call
 *   answer              lent for one number: 0 if the first call is chosen, 1 if the second is
 *
 * For example, under the bench card, two calls of the strand of seed 1, AAAAAAAAAAAAAAACTGCAATCGTCAT:
 *
 *      first   GTTTCAGAGTTCTACAGTCCGACGATTAAAAAAAAAAAAAAACTGCAATCGTCATTGGAATTCTCGGGTGCCAAGG
 *      second  GTTTCAGAGTTCTACAGTCCGACGATCTTTTAAAAAAAAAAACTGCAATCGTCATTGGAATTCTCGGGTGCCAAGG
 *
 * In the first the site before the strand ends in T and not in C, so it does not pass, though the strand itself is clean. The
 * second passes, for the one wrong byte of its strand can be mended: answer[0] is 1. Handed over the other way round, the call
 * with the wrong byte is the first, and answer[0] is 0.
 *
 * Returns 0 and fills answer. The letters to read are those between the sites of the chosen call. They stand in the call itself,
 * as read and before any mending (TTTTAAAAAAAAAAACTGCAATCGTCAT in the example). A host takes them so, and hands them to
 * fountain_check_read or fountain_store as a read:
 *
 *      const uint8_t *read = (answer[0] == 0 ? first : second) + 27;
 *      size_t read_len = 4 * (4 + (size_t)L + R);
 *
 * Otherwise there are no letters to read:
 *
 *    2, 3, 4, 27  as above
 *   21  neither call passes */
uint32_t fountain_choose_call(uint32_t F, uint8_t L, uint8_t R, uint8_t m, uint16_t lo, uint16_t hi,
                              uint8_t dealt, uint32_t width, const uint8_t *weights, size_t weights_len,
                              const uint8_t *first, size_t first_len,
                              const uint8_t *second, size_t second_len,
                              uint64_t answer[1]);

/* Offers one read to a store. An empty store is a buffer of any length and bytes with count 0. A read is clean if its own check sums are 0,
 * and mended otherwise. The first record of its seed decides: a clean read takes over a record that is mended, even where it has another
 * payload. A mended read takes over none, nor does a clean read take over a clean record.
 *
 *   F .. weights_len  as above
 *   store, store_len  the store: records from its start
 *   count             how many records it holds
 *   read, read_len    the letters of the read, n of them
 *   answer            lent for two numbers: what became of the read (0 accepted: its record was appended; 1 repeat: the first
 *                     record of its seed has its payload already; 2 replaced: it took over the first record of its seed), and the
 *                     count to hand to the next call, which a repeat and a replacement leave as it was
 *
 * For example, under the bench card the strand of seed 1 is AAAAAAAAAAAAAAACTGCAATCGTCAT, and its payload is E4. The read
 * TTTTAAAAAAAAAAACTGCAATCGTCAT, mended, is offered to an empty store, then the strand itself, twice; the record after each:
 *
 *      read                          answer[0]  record
 *      TTTTAAAAAAAAAAACTGCAATCGTCAT          0  00 00 00 01 E4 01 00 00 00 01
 *      AAAAAAAAAAAAAAACTGCAATCGTCAT          2  00 00 00 01 E4 00 00 00 00 02
 *      AAAAAAAAAAAAAAACTGCAATCGTCAT          1  00 00 00 01 E4 00 00 00 00 03
 *
 * In a store that was empty at first the read counts sum to the number of reads that were not refused. That of record i, a size_t
 * counted from 0:
 *
 *      const uint8_t *at = store + i * (9 + L) + 5 + L;
 *      uint32_t reads = (uint32_t)at[0] << 24 | (uint32_t)at[1] << 16 | (uint32_t)at[2] << 8 | at[3];
 *
 * Returns 0 and fills answer. If the read was accepted, the 9 + L bytes of store from count * (9 + L) on hold its record, with a read
 * count of 1; if it replaced, the first record of its seed has its payload, state 0 and a read count of one more; if it was a repeat,
 * that record has a read count of one more, and its payload and state are as they were. All other bytes of store are as they were. (A
 * read count of 0, which no call writes, is 1 after a repeat or a replacement.) Otherwise (the next call is handed the same count):
 *
 *    2, 3, 4, 27  as above
 *   14  count * (9 + L) is more than store_len
 *    9 to 13  as of fountain_check_read
 *   15  the first record of this seed has another payload, and is clean or the read is mended
 *   20  the read would repeat or replace that record, but its read count is 4,294,967,295
 *   16  the seed is new, and there is no space for its record */
uint32_t fountain_store(uint32_t F, uint8_t L, uint8_t R, uint8_t m, uint16_t lo, uint16_t hi, uint8_t dealt, uint32_t width,
                        const uint8_t *weights, size_t weights_len,
                        uint8_t *store, size_t store_len, size_t count,
                        const uint8_t *read, size_t read_len,
                        uint64_t answer[2]);

/* Restores what the records of a store give of a file. It looks at their seeds and payloads, and not at their states and read counts. To
 * restore from clean reads alone, hand over a store of the records whose state is 0, copied one behind the other, and their number.
 *
 *   F .. weights_len  as above
 *   store, store_len  the store, of which nothing is written
 *   count             how many records it holds
 *   file, file_len    lent for the segments, at least K * L bytes; those of the dealt file if the card has a width
 *   marks, marks_len  lent for the marks, at least K bytes
 *   list, list_len    lent as scratch memory, at least D places
 *   answer            lent for three numbers: the segments present (marks that are 1), sweeps, and contradictions (records whose
 *                     segments are all present but do not give the payload)
 *
 * Returns 0 and fills answer. Segment i then stands in the L bytes of file from i * L on if marks[i] is 1; if it is missing,
 * marks[i] and these bytes are 0. The bytes of file past K * L and of marks past K are as they were. The first D places of list
 * hold anything, those past D are as they were. Otherwise:
 *
 *    2, 3, 4, 27  as above
 *   14  count * (9 + L) is more than store_len
 *   17  a record of the store has seed 0
 *   18  file is shorter than K * L bytes, or marks than K
 *    8  list has fewer than D places */
uint32_t fountain_restore(uint32_t F, uint8_t L, uint8_t R, uint8_t m, uint16_t lo, uint16_t hi, uint8_t dealt, uint32_t width,
                          const uint8_t *weights, size_t weights_len,
                          const uint8_t *store, size_t store_len, size_t count,
                          uint8_t *file, size_t file_len,
                          uint8_t *marks, size_t marks_len,
                          uint32_t *list, size_t list_len,
                          uint64_t answer[3]);

#ifdef __cplusplus
}
#endif

#endif
