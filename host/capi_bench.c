/* Runs document 01's bench example through all functions and compares every number and every byte with the values that
 * stand there or follow from its rules: reads card P and cuts it again, writes strands of file Q, checks and stores the reads of
 * seeds 2, 1, 3, and restores. On the way it has calls refused, reads mended (document 02, Item 3), and runs document 02's example of
 * runs over the joints (Item 1) and the header's examples of dropped strands (Item 12), of a file of seven bytes, dealt by W = 3 (Item
 * 14), of positions of the seed schedule, with a job that two writers share (Item 7), of clean reads over mended ones (Item 5),
 * of the reads behind a record (Item 6), and of the choice between two base callers (Item 8). Lent buffers and answers end in
 * bytes that must survive, but in the job of two writers and the one with a dealt file, and all of them must survive a refusal.
 * Returns 1 if anything differs.
 *
 *   capi_bench bench.card */
#include <stdio.h>
#include <string.h>
#include "fountain.h"

enum { CANARY = 0xA5, SPARE = 8, N = 28, LINE = N + 1, DROPLET = 5, RECORD = 10, K = 4, D = 2 };
#define UNSET UINT64_C(0xA5A5A5A5A5A5A5A5)

static const uint8_t Q[4] = {0x1B, 0x27, 0x4E, 0xE4};
/* the bench reads of seeds 2, 1 and 3 */
static const char *const READS[3] = {
    "AAAAAAAAAAAAAAAGCGGCGTCCTCTG", "AAAAAAAAAAAAAAACTGCAATCGTCAT", "AAAAAAAAAAAAAAATAGCTCGAACACA"};
static const uint8_t DROPLETS[3][DROPLET] = {{0, 0, 0, 2, 0x69}, {0, 0, 0, 1, 0xE4}, {0, 0, 0, 3, 0x27}};
/* their records, of two clean reads each */
static const uint8_t RECORDS[3][RECORD] = {
    {0, 0, 0, 2, 0x69, 0, 0, 0, 0, 2}, {0, 0, 0, 1, 0xE4, 0, 0, 0, 0, 2}, {0, 0, 0, 3, 0x27, 0, 0, 0, 0, 2}};
static int failures;

static void number(const char *what, uint64_t got, uint64_t wanted)
{
    if (got != wanted) {
        printf("%s: %llu, and not %llu\n", what, (unsigned long long)got, (unsigned long long)wanted);
        failures++;
    }
}

static void bytes(const char *what, const void *got, const void *wanted, size_t length)
{
    if (memcmp(got, wanted, length) != 0) {
        printf("%s: other bytes\n", what);
        failures++;
    }
}

/* All of these bytes are as they were lent. */
static void kept(const char *what, const void *got, size_t length)
{
    const uint8_t *b = (const uint8_t *)got;
    for (size_t i = 0; i < length; i++)
        if (b[i] != CANARY) {
            printf("%s: byte %lu was written\n", what, (unsigned long)i);
            failures++;
            return;
        }
}

/* The numbers of an answer, with one more place past them, which is never written. */
static void answers(const char *what, const uint64_t *got, const uint64_t *wanted, size_t length)
{
    for (size_t i = 0; i < length; i++)
        number(what, got[i], wanted[i]);
    number(what, got[length], UNSET);
}

static void lend(void *buffer, size_t length)
{
    memset(buffer, CANARY, length);
}

/* What a host holds after it has read a card. */
struct pool {
    uint32_t F;
    uint8_t L, R, m;
    uint16_t lo, hi;
    uint8_t dealt;
    uint32_t width;
    const uint8_t *weights;
    size_t weights_len;
};
#define CARD(p) (p)->F, (p)->L, (p)->R, (p)->m, (p)->lo, (p)->hi, (p)->dealt, (p)->width, (p)->weights, (p)->weights_len

/* The same card with a width. */
static struct pool dealt_by(const struct pool *p, uint32_t width)
{
    struct pool dealt = *p;
    dealt.dealt = 1;
    dealt.width = width;
    return dealt;
}

static struct pool read_card(const uint8_t *card, size_t card_len)
{
    static const uint64_t wanted[9] = {4, 1, 2, 15, 214, 1000, D, 0, 0};
    uint64_t a[10];
    lend(a, sizeof a);
    number("a card cut short", fountain_read_card(card, card_len - 1, a), 1);
    number("no card", fountain_read_card(NULL, 0, a), 1);
    kept("the answer of a refused card", a, sizeof a);
    number("card P", fountain_read_card(card, card_len, a), 0);
    answers("the answer of card P", a, wanted, 9);
    struct pool p = {(uint32_t)a[0], (uint8_t)a[1], (uint8_t)a[2],  (uint8_t)a[3], (uint16_t)a[4],
                     (uint16_t)a[5], (uint8_t)a[7], (uint32_t)a[8], card + 20,     (size_t)(4 * a[6])};
    return p;
}

/* Card P cut from its numbers, and the longest card with every number at its most (document 02, Item 2). */
static void cut_cards(const struct pool *p, const uint8_t *card, size_t card_len)
{
    static const uint8_t longest[20] = {1, 0, 6, 0x00, 0x80, 0x00, 0x00, 64, 4, 2, 0, 5, 20, 0x03, 0xE8, 0x03, 0xE8, 3, 0x10, 0x00};
    static const uint8_t widest[7] = {4, 0, 4, 0x00, 0x80, 0x00, 0x00};
    static uint8_t weights[4 * 1024], out[27 + sizeof weights + SPARE];
    struct pool sizes = *p, limits = *p, plan = *p;
    struct pool most = {8388608, 64, 4, 20, 1000, 1000, 0, 0, weights, sizeof weights}, dealt = dealt_by(&most, 8388608);
    const uint64_t wanted[1] = {card_len}, wanted_most[1] = {20 + sizeof weights}, wanted_dealt[1] = {27 + sizeof weights};
    uint64_t a[2];
    sizes.R = 3;
    limits.hi = 1001;
    plan.weights_len = 7;
    lend(out, sizeof out);
    lend(a, sizeof a);
    number("cut: 2", fountain_cut_card(CARD(&sizes), out, 0, a), 2);
    number("cut: 3", fountain_cut_card(CARD(&limits), out, 0, a), 3);
    number("cut: 4", fountain_cut_card(CARD(&plan), out, 0, a), 4);
    number("cut: 19", fountain_cut_card(CARD(p), out, card_len - 1, a), 19);
    number("cut: 19, no buffer", fountain_cut_card(CARD(p), NULL, 0, a), 19);
    kept("the buffer of a refused card", out, sizeof out);
    kept("the answer of a refused cutter", a, sizeof a);
    number("cut", fountain_cut_card(CARD(p), out, card_len, a), 0);
    answers("the cutter's answer", a, wanted, 1);
    bytes("card P", out, card, card_len);
    kept("the buffer past card P", out + card_len, sizeof out - card_len);
    for (size_t i = 0; i < sizeof weights; i++)
        weights[i] = i % 4 < 2 ? 0 : (uint8_t)(i / 4 + i % 4);
    lend(out, sizeof out);
    number("cut the longest", fountain_cut_card(CARD(&most), out, sizeof out, a), 0);
    answers("the answer of the longest", a, wanted_most, 1);
    bytes("the longest card before its weights", out, longest, sizeof longest);
    bytes("the weights of the longest card", out + 20, weights, sizeof weights);
    kept("the buffer past the longest card", out + 20 + sizeof weights, 7 + SPARE);
    number("cut the longest with a width", fountain_cut_card(CARD(&dealt), out, sizeof out, a), 0);
    answers("the answer of the longest with a width", a, wanted_dealt, 1);
    bytes("the longest card before its weights, with a width", out, longest, sizeof longest);
    bytes("the weights of the longest card with a width", out + 20, weights, sizeof weights);
    bytes("the width of the longest card", out + 20 + sizeof weights, widest, sizeof widest);
    kept("the buffer past the longest card with a width", out + 27 + sizeof weights, SPARE);
}

/* A card for the file of seven bytes below: hex 01 0006 00000007 01 02 / 02 0005 0F 0000 03E8 / 03 0004 00000001, and behind it
 * 04 0004 00000003. */
static const uint8_t SEVEN_CARD[31] = {1, 0, 6, 0, 0, 0, 7, 1, 2, 2, 0, 5, 15, 0, 0, 0x03, 0xE8, 3, 0, 4, 0, 0, 0, 1,
                                       4, 0, 4, 0, 0, 0, 3};

static void cut_width(const struct pool *p)
{
    static const uint64_t length[1] = {31}, plain_length[1] = {24};
    static const uint64_t wanted[9] = {7, 1, 2, 15, 0, 1000, 1, 1, 3}, plain_wanted[9] = {7, 1, 2, 15, 0, 1000, 1, 0, 0};
    struct pool wide = dealt_by(p, 8), plain = *p, no_plan = wide;
    uint8_t out[31 + SPARE], card[32];
    uint64_t a[10];
    plain.dealt = 0;
    no_plan.weights_len = 0;
    lend(out, sizeof out);
    lend(a, sizeof a);
    number("cut: 4 before 27", fountain_cut_card(CARD(&no_plan), out, 0, a), 4);
    number("cut: 27 before 19", fountain_cut_card(CARD(&wide), out, 0, a), 27);
    number("cut: 19 with a width", fountain_cut_card(CARD(p), out, 30, a), 19);
    kept("the buffer of a refused card with a width", out, sizeof out);
    kept("the answer of a refused cutter with a width", a, sizeof a);
    number("cut with a width", fountain_cut_card(CARD(p), out, 31, a), 0);
    answers("the length with a width", a, length, 1);
    bytes("the card with a width", out, SEVEN_CARD, 31);
    kept("the buffer past the card with a width", out + 31, SPARE);
    number("read with a width", fountain_read_card(out, 31, a), 0);
    answers("the numbers of the card with a width", a, wanted, 9);

    lend(a, sizeof a);
    memcpy(card, SEVEN_CARD, 31);
    card[31] = 0;
    number("read: a byte after the width", fountain_read_card(card, 32, a), 1);
    for (size_t i = 25; i < 31; i++)
        number("read: a part of the fourth field", fountain_read_card(card, i, a), 1);
    card[26] = 5;
    number("read: another length of the fourth field", fountain_read_card(card, 32, a), 1);
    card[26] = 4;
    card[30] = 8;
    number("read: 27", fountain_read_card(card, 31, a), 27);
    kept("the answer of a refused card with a width", a, sizeof a);

    lend(out, sizeof out);
    number("cut without the field", fountain_cut_card(CARD(&plain), out, 24, a), 0);
    answers("the length without the field", a, plain_length, 1);
    bytes("the card without the field", out, SEVEN_CARD, 24);
    kept("the buffer past the card without the field", out + 24, 7 + SPARE);
    lend(a, sizeof a);
    number("read without the field", fountain_read_card(out, 24, a), 0);
    answers("the numbers of the card without the field", a, plain_wanted, 9);
}

typedef uint32_t dealing(uint32_t, uint8_t, uint8_t, uint8_t, uint16_t, uint16_t, uint8_t, uint32_t, const uint8_t *, size_t,
                         const uint8_t *, size_t, uint8_t *, size_t);

/* What dealing and its inverse refuse, and what they copy without the field. */
static void deal_refused(const struct pool *p, dealing *call)
{
    static const uint32_t wrong[4] = {0, 1, 8, 0xFFFFFFFF};
    static const uint8_t source[8] = {0, 1, 2, 3, 4, 5, 6, 7};
    uint8_t target[7 + SPARE];
    struct pool sizes = dealt_by(p, 8), limits = sizes, plan = sizes;
    sizes.R = 3;
    limits.hi = 1001;
    plan.weights_len = 3;
    lend(target, sizeof target);
    number("deal: 2", call(CARD(&sizes), source, 0, target, 0), 2);
    number("deal: 3", call(CARD(&limits), source, 0, target, 0), 3);
    number("deal: 4", call(CARD(&plan), source, 0, target, 0), 4);
    for (int i = 0; i < 4; i++) {
        struct pool other = dealt_by(p, wrong[i]);
        number("deal: 27", call(CARD(&other), source, 7, target, sizeof target), 27);
        number("deal: 27 before 28", call(CARD(&other), NULL, 0, NULL, 0), 27);
    }
    number("deal: 28, source", call(CARD(p), source, 6, target, sizeof target), 28);
    number("deal: 28, target", call(CARD(p), source, 8, target, 6), 28);
    number("deal: 28, nothing", call(CARD(p), NULL, 0, NULL, 0), 28);
    kept("the target of refused dealing", target, sizeof target);
    for (int i = 0; i < 4; i++) {
        struct pool plain = dealt_by(p, wrong[i]);
        plain.dealt = 0;
        lend(target, sizeof target);
        number("deal: 28 without the field", call(CARD(&plain), source, 6, target, sizeof target), 28);
        kept("the target of a refused copy", target, sizeof target);
        number("copy", call(CARD(&plain), source, 8, target, sizeof target), 0);
        bytes("the copy", target, source, 7);
        kept("the target past the copy", target + 7, SPARE);
    }
}

/* Seven bytes dealt by W = 3: those of the places 0, 3, 6, then of 1, 4, then of 2, 5; and by the least W, one just above 7 / 2 and
 * the most. Any byte but 0 says that the field is there. */
static void deal(const struct pool *p)
{
    static const uint8_t file[8] = {0, 1, 2, 3, 4, 5, 6, 7};
    static const struct {
        uint8_t yes;
        uint32_t width;
        uint8_t dealt[7];
    } rows[5] = {
        {1, 3, {0, 3, 6, 1, 4, 2, 5}},
        {2, 3, {0, 3, 6, 1, 4, 2, 5}},
        {128, 2, {0, 2, 4, 6, 1, 3, 5}},
        {255, 4, {0, 4, 1, 5, 2, 6, 3}},
        {1, 7, {0, 1, 2, 3, 4, 5, 6}},
    };
    for (int i = 0; i < 5; i++) {
        struct pool there = dealt_by(p, rows[i].width);
        uint8_t target[7 + SPARE], back[7 + SPARE];
        there.dealt = rows[i].yes;
        lend(target, sizeof target);
        lend(back, sizeof back);
        number("deal", fountain_deal(CARD(&there), file, sizeof file, target, sizeof target), 0);
        bytes("the dealt file", target, rows[i].dealt, 7);
        kept("the target past the dealt file", target + 7, SPARE);
        number("undeal", fountain_undeal(CARD(&there), target, sizeof target, back, 7), 0);
        bytes("the file again", back, file, 7);
        kept("the target past the file", back + 7, SPARE);
    }
    deal_refused(p, fountain_deal);
    deal_refused(p, fountain_undeal);
}

/* Every other call refuses card P with a W that is no width, before its own questions and after 4. */
static void refused_widths(const struct pool *p)
{
    static const uint32_t wrong[4] = {0, 1, 5, 0xFFFFFFFF};
    for (int i = 0; i < 4; i++) {
        struct pool other = dealt_by(p, wrong[i]), plan = other;
        uint8_t buffer[LINE + SPARE], marks[K];
        uint32_t list[D];
        uint64_t a[7];
        plan.weights_len = 7;
        lend(buffer, sizeof buffer);
        lend(marks, sizeof marks);
        lend(list, sizeof list);
        lend(a, sizeof a);
        number("write: 27", fountain_write(CARD(&other), Q, 3, 1, 1, 5, buffer, sizeof buffer, list, D, a), 27);
        number("check: 27", fountain_check_read(CARD(&other), Q, 0, buffer, sizeof buffer), 27);
        number("choose: 27", fountain_choose_call(CARD(&other), Q, 0, Q, 0, a), 27);
        number("store: 27", fountain_store(CARD(&other), buffer, 0, 1, Q, 0, a), 27);
        number("restore: 27", fountain_restore(CARD(&other), NULL, 0, 1, buffer, K, marks, K, list, D, a), 27);
        number("write: 4", fountain_write(CARD(&plan), Q, 3, 1, 1, 5, buffer, sizeof buffer, list, D, a), 4);
        number("check: 4", fountain_check_read(CARD(&plan), Q, 0, buffer, sizeof buffer), 4);
        number("choose: 4", fountain_choose_call(CARD(&plan), Q, 0, Q, 0, a), 4);
        number("store: 4", fountain_store(CARD(&plan), buffer, 0, 1, Q, 0, a), 4);
        number("restore: 4", fountain_restore(CARD(&plan), NULL, 0, 1, buffer, K, marks, K, list, D, a), 4);
        kept("the buffer of a refused width", buffer, sizeof buffer);
        kept("the marks of a refused width", marks, sizeof marks);
        kept("the number list of a refused width", list, sizeof list);
        kept("the answer of a refused width", a, sizeof a);
    }
}

/* File Q, dealt by W = 3, is 1B E4 27 4E, so that the strand of seed 1, which picks segment 3, carries 4E. From it alone the
 * restorer gives back 00 00 00 4E, which undealt has 4E in its place 2. */
static void dealt_job(const struct pool *p)
{
    static const uint8_t dealt[K] = {0x1B, 0xE4, 0x27, 0x4E}, record[RECORD] = {0, 0, 0, 1, 0x4E, 0, 0, 0, 0, 1};
    static const uint8_t restored[K] = {0, 0, 0, 0x4E}, restored_marks[K] = {0, 0, 0, 1}, undealt[K] = {0, 0, 0x4E, 0};
    static const uint64_t sheet[3] = {1, 2, 0};
    struct pool job = dealt_by(p, 3);
    uint8_t file[K], line[LINE], store[RECORD], marks[K], back[K];
    uint32_t list[D];
    uint64_t a[7];
    job.m = 20;
    job.lo = 0;
    number("deal Q", fountain_deal(CARD(&job), Q, K, file, K), 0);
    bytes("Q dealt", file, dealt, K);
    number("write Q dealt", fountain_write(CARD(&job), file, K, 1, 1, 1, line, LINE, list, D, a), 0);
    number("made of Q dealt", a[1], 1);
    number("store a dealt strand", fountain_store(CARD(&job), store, RECORD, 0, line, N, a), 0);
    bytes("the record of Q dealt", store, record, RECORD);
    lend(a, sizeof a);
    number("restore Q dealt", fountain_restore(CARD(&job), store, RECORD, 1, file, K, marks, K, list, D, a), 0);
    answers("the sheet of Q dealt", a, sheet, 3);
    bytes("the dealt segments", file, restored, K);
    bytes("the dealt marks", marks, restored_marks, K);
    number("undeal Q", fountain_undeal(CARD(&job), file, K, back, K), 0);
    bytes("Q undealt", back, undealt, K);
}

static void write_refused(const struct pool *p)
{
    uint8_t out[3 * LINE + SPARE];
    uint32_t list[D + SPARE];
    uint64_t a[7];
    struct pool sizes = *p, limits = *p, plan = *p;
    sizes.R = 3;
    limits.hi = 1001;
    plan.weights_len = 7;
    lend(out, sizeof out);
    lend(list, sizeof list);
    lend(a, sizeof a);
    number("write: 2", fountain_write(CARD(&sizes), Q, 4, 1, 3, 10, out, sizeof out, list, D, a), 2);
    number("write: 3", fountain_write(CARD(&limits), Q, 4, 1, 3, 10, out, sizeof out, list, D, a), 3);
    number("write: 4", fountain_write(CARD(&plan), Q, 4, 1, 3, 10, out, sizeof out, list, D, a), 4);
    number("write: 5", fountain_write(CARD(p), Q, 3, 0, 3, 10, out, sizeof out, list, D, a), 5);
    number("write: 6", fountain_write(CARD(p), Q, 4, 0, 3, 10, out, 0, list, D, a), 6);
    number("write: 7", fountain_write(CARD(p), Q, 4, 1, 3, 10, out, 3 * LINE - 1, list, 0, a), 7);
    number("write: 8", fountain_write(CARD(p), Q, 4, 1, 3, 10, out, 3 * LINE, list, D - 1, a), 8);
    kept("the buffer of a refused writer", out, sizeof out);
    kept("the number list of a refused writer", list, sizeof list);
    kept("the answer of a refused writer", a, sizeof a);
}

/* The strand of one seed. Each of the bench seeds passes the screen, so that one is wanted and one tried. */
static void write_one(const struct pool *p, uint32_t seed, const char *strand)
{
    uint8_t out[LINE + SPARE];
    uint32_t list[D + SPARE];
    uint64_t a[7];
    uint64_t wanted[6] = {0, 1, 1, (uint64_t)seed << 1, 0, 0};
    lend(out, sizeof out);
    lend(list, sizeof list);
    lend(a, sizeof a);
    number("write", fountain_write(CARD(p), Q, 4, seed, 1, 5, out, sizeof out, list, D + SPARE, a), 0);
    answers("the writer's answer", a, wanted, 6);
    bytes("the strand", out, strand, N);
    number("the newline byte", out[N], '\n');
    kept("the buffer past the strand", out + LINE, SPARE);
    kept("the number list past D", list + D, SPARE * sizeof list[0]);
}

/* Seeds 1 and 2 are the first two of the schedule. A budget that is spent, one that is spent on a strand that does not pass
 * (seed 1's has a run of 15), and nothing wanted. */
static void write_ends(const struct pool *p)
{
    static const uint64_t spent[6] = {1, 2, 2, 4, 0, 0}, unmade[6] = {1, 0, 1, 2, 1, 0}, none[6] = {0, 0, 0, 7, 0, 0};
    struct pool run_14 = *p;
    uint8_t out[3 * LINE + SPARE];
    uint32_t list[D];
    uint64_t a[7];
    run_14.m = 14;
    lend(out, sizeof out);
    lend(a, sizeof a);
    number("write: unmade", fountain_write(CARD(&run_14), Q, 4, 1, 3, 1, out, sizeof out, list, D, a), 0);
    answers("the answer with nothing made", a, unmade, 6);
    kept("the buffer with nothing made", out, sizeof out);
    number("write: spent", fountain_write(CARD(p), Q, 4, 1, 3, 2, out, sizeof out, list, D, a), 0);
    answers("the answer of a spent writer", a, spent, 6);
    bytes("the strand of seed 1", out, READS[1], N);
    bytes("the strand of seed 2", out + LINE, READS[0], N);
    kept("the buffer past two strands", out + 2 * LINE, LINE + SPARE);
    lend(a, sizeof a);
    number("write: none wanted", fountain_write(CARD(p), Q, 4, 7, 0, 0, NULL, 0, list, D, a), 0);
    answers("the answer with none wanted", a, none, 6);
}

static void check_reads(const struct pool *p)
{
    static const uint8_t all_a[N + 1] = "AAAAAAAAAAAAAAAAAAAAAAAAAAAA";
    uint8_t out[DROPLET + SPARE];
    for (int i = 0; i < 3; i++) {
        const uint8_t *read = (const uint8_t *)READS[i];
        lend(out, sizeof out);
        number("check: 16", fountain_check_read(CARD(p), read, N, out, DROPLET - 1), 16);
        number("check: 9", fountain_check_read(CARD(p), read, N - 1, out, sizeof out), 9);
        number("check: 12", fountain_check_read(CARD(p), all_a, N, out, sizeof out), 12);
        kept("the buffer of a refused read", out, sizeof out);
        number("check", fountain_check_read(CARD(p), read, N, out, sizeof out), 0);
        bytes("the droplet", out, DROPLETS[i], DROPLET);
        kept("the buffer past the droplet", out + DROPLET, SPARE);
    }
}

/* Three seeds in schedule order. The first one's strand ends in TTT and meets the T of the site behind it, the second one's
 * starts with CCC and meets the C of the site before it: runs of four, which m = 4 allows and m = 3 does not. */
static void joints(const struct pool *p)
{
    static const char *const strands[3] = {
        "AGGTGCGTGTGATCACTGCAGAAGGTTT", "CCCTATCTCTACGGAGCATGACGATGCC", "GGTGCGTGTGATCACAAGCTGTTATTTA"};
    static const uint32_t start = 0x2B9BB8D1;
    static const uint64_t at_4[6] = {0, 1, 1, 0x573771A2, 0, 0}, at_3[6] = {0, 1, 3, 0x5CDDC64D, 2, 0};
    struct pool run_3 = *p, run_4 = *p;
    uint8_t line[LINE + SPARE], out[DROPLET + SPARE];
    uint32_t list[D];
    uint64_t a[7];
    run_3.m = 3;
    run_4.m = 4;
    for (int i = 0; i < 3; i++) {
        const uint8_t *read = (const uint8_t *)strands[i];
        lend(out, sizeof out);
        number("check at m = 3", fountain_check_read(CARD(&run_3), read, N, out, sizeof out), i < 2 ? 13 : 0);
        if (i < 2)
            kept("the buffer of a read refused at a joint", out, sizeof out);
        number("check at m = 4", fountain_check_read(CARD(&run_4), read, N, out, sizeof out), 0);
    }
    lend(line, sizeof line);
    lend(a, sizeof a);
    number("write at m = 4", fountain_write(CARD(&run_4), Q, 4, start, 1, 3, line, sizeof line, list, D, a), 0);
    answers("the answer at m = 4", a, at_4, 6);
    bytes("the strand that ends in TTT", line, strands[0], N);
    number("write at m = 3", fountain_write(CARD(&run_3), Q, 4, start, 1, 3, line, sizeof line, list, D, a), 0);
    answers("the answer at m = 3", a, at_3, 6);
    bytes("the strand with no run of four", line, strands[2], N);
    kept("the buffer past the strand at m = 3", line + LINE, SPARE);
}

/* Strands of seed 1 misread (document 02, Item 3): with R = 2 one wrong byte is mended, in the seed, the payload or the check bytes,
 * however many of its letters are wrong, and two are refused; with R = 4 none, one and two are mended, and these three are refused. The
 * screen is asked of the mended strand, and a mended seed 0 is refused as 12. */
static void mended(const struct pool *p)
{
    static const char *const two[4] = {"TTTTAAAAAAAAAAACTGCAATCGTCAT", "AAAAAAAAAAAAAAACTGCTATCGTCAT", "AAAAAAAAAAAAAAACTGCAATCGTCAA",
                                       "TAAAAAAAAAAAAAACTGCAATCGTCAA"};
    static const char *const four[4] = {"AAAAAAAAAAAAAAACTGCAGCCGAAAGAGGCCCGA", "AAAAAAAAAAAAAAACTGCAGCCGAAAGAGGCCCGT",
                                        "TAAAAAAAAAAAAAACTGCAGCCGAAAGAGGCCCGT", "TAAAAAAAAAAAAAACAGCAGCCGAAAGAGGCCCGT"};
    struct pool r_4 = *p, run_14 = *p;
    uint8_t out[DROPLET + SPARE];
    r_4.R = 4;
    r_4.lo = 0;
    run_14.m = 14;
    for (int i = 0; i < 4; i++) {
        lend(out, sizeof out);
        number("a read of the strand, R = 2", fountain_check_read(CARD(p), (const uint8_t *)two[i], N, out, sizeof out), i < 3 ? 0 : 11);
        if (i < 3)
            bytes("its droplet", out, DROPLETS[1], DROPLET);
        kept("the buffer past it", out + (i < 3 ? DROPLET : 0), i < 3 ? SPARE : sizeof out);
        lend(out, sizeof out);
        number("a read of the strand, R = 4", fountain_check_read(CARD(&r_4), (const uint8_t *)four[i], N + 8, out, sizeof out), i < 3 ? 0 : 11);
        if (i < 3)
            bytes("its droplet", out, DROPLETS[1], DROPLET);
        kept("the buffer past it", out + (i < 3 ? DROPLET : 0), i < 3 ? SPARE : sizeof out);
    }
    lend(out, sizeof out);
    number("mended to a run of 15", fountain_check_read(CARD(&run_14), (const uint8_t *)two[0], N, out, sizeof out), 13);
    number("mended to seed 0", fountain_check_read(CARD(p), (const uint8_t *)"AAAAAAAAAAAAAAAAAAAAAAAAAAAC", N, out, sizeof out), 12);
    kept("the buffer of a mended strand that is refused", out, sizeof out);
}

/* An ordered strand, and the lengths of the site before it and of a base caller's call of it (document 02, Item 8). */
#define SITE_BEFORE "GTTTCAGAGTTCTACAGTCCGACGATC"
#define SITE_AFTER "TGGAATTCTCGGGTGCCAAGG"
#define ORDERED(strand) SITE_BEFORE strand SITE_AFTER
enum { BEFORE = 27, CALL = N + 48, CALL_MOST = 96 };

/* Hands over two calls, each a string or NULL for none, in memory that must stay as it is. Wanted is 0 for the first call, 1 for
 * the second, or the number of the refusal. Of the chosen call the letters are taken as the header says: they are as read, and
 * the read check accepts them with the droplet. */
static void choose(const char *what, const struct pool *p, const char *first, const char *second, uint32_t wanted,
                   const char *letters, const uint8_t *droplet)
{
    const char *const calls[2] = {first, second};
    uint8_t lent[2][CALL_MOST + SPARE], as_lent[2][CALL_MOST + SPARE], out[DROPLET + SPARE];
    const uint8_t *at[2];
    size_t length[2];
    uint64_t a[2];
    const uint64_t chosen[1] = {wanted};
    lend(lent, sizeof lent);
    lend(out, sizeof out);
    lend(a, sizeof a);
    for (int i = 0; i < 2; i++) {
        length[i] = calls[i] == NULL ? 0 : strlen(calls[i]);
        at[i] = calls[i] == NULL ? NULL : lent[i];
        if (calls[i] != NULL)
            memcpy(lent[i], calls[i], length[i]);
    }
    memcpy(as_lent, lent, sizeof lent);
    uint32_t returned = fountain_choose_call(CARD(p), at[0], length[0], at[1], length[1], a);
    bytes("the calls after the choice", lent, as_lent, sizeof lent);
    if (wanted > 1) {
        number(what, returned, wanted);
        kept("the answer of a refused pair", a, sizeof a);
        return;
    }
    number(what, returned, 0);
    answers(what, a, chosen, 1);
    if (returned != 0 || a[0] != wanted)
        return;
    const uint8_t *read = (a[0] == 0 ? at[0] : at[1]) + BEFORE;
    size_t read_len = 4 * (4 + (size_t)p->L + p->R);
    number("the letters to read", read_len, strlen(letters));
    bytes("the letters to read", read, letters, read_len);
    number("check the letters", fountain_check_read(CARD(p), read, read_len, out, sizeof out), 0);
    bytes("the droplet of the letters", out, droplet, DROPLET);
    kept("the buffer past the droplet of the letters", out + DROPLET, SPARE);
}

/* The card questions come first, in their order and whatever the calls are. */
static void choose_refused(const struct pool *p, const char *first, const char *second)
{
    struct pool width = dealt_by(p, 5), plan = width, limits, sizes;
    plan.weights_len = 7;
    limits = plan;
    limits.hi = 1001;
    sizes = limits;
    sizes.R = 3;
    choose("choose: 2", &sizes, first, second, 2, NULL, NULL);
    choose("choose: 3", &limits, first, second, 3, NULL, NULL);
    choose("choose: 4", &plan, first, second, 4, NULL, NULL);
    choose("choose: 27", &width, first, second, 27, NULL, NULL);
}

/* A call that does not pass, beside one that does, beside none and beside itself. */
static void passed_over(const char *what, const struct pool *p, const char *call)
{
    static const char fine[] = ORDERED("AAAAAAAAAAAAAAAGCGGCGTCCTCTG");
    choose(what, p, call, fine, 1, READS[0], DROPLETS[0]);
    choose(what, p, fine, call, 0, READS[0], DROPLETS[0]);
    choose(what, p, call, NULL, 21, NULL, NULL);
    choose(what, p, call, call, 21, NULL, NULL);
}

/* Calls of the strand of seed 1 without the right sites, with a letter too few, too many or in another place, and calls with a
 * middle that the read check refuses under 10, 11, 12 and 13. Then each letter as another one: a site is never mended, and the
 * strand is. */
static void wrong_calls(const struct pool *p)
{
    static const char *const calls[] = {
        "", "AAAAAAAAAAAAAAACTGCAATCGTCAT", SITE_BEFORE SITE_AFTER, SITE_AFTER "AAAAAAAAAAAAAAACTGCAATCGTCAT" SITE_BEFORE,
        "TTTCAGAGTTCTACAGTCCGACGATCAAAAAAAAAAAAAAACTGCAATCGTCAT" SITE_AFTER, ORDERED("AAAAAAAAAAAAAACTGCAATCGTCAT"),
        SITE_BEFORE "AAAAAAAAAAAAAAACTGCAATCGTCATTGGAATTCTCGGGTGCCAAG", "A" ORDERED("AAAAAAAAAAAAAAACTGCAATCGTCAT"),
        ORDERED("AAAAAAAAAAAAAAAACTGCAATCGTCAT"), ORDERED("AAAAAAAAAAAAAAACTGCAATCGTCAT") "G",
        "TTTCAGAGTTCTACAGTCCGACGATCAAAAAAAAAAAAAAACTGCAATCGTCAT" SITE_AFTER "G",
        "G" SITE_BEFORE "AAAAAAAAAAAAAAACTGCAATCGTCATTGGAATTCTCGGGTGCCAAG",
        ORDERED("AAAAAAAAAAAAAAACTGCAATCGTCAN"), ORDERED("aAAAAAAAAAAAAAACTGCAATCGTCAT"), ORDERED("TAAAAAAAAAAAAAACTGCAATCGTCAA"),
        ORDERED("AAAAAAAAAAAAAAAAAAAAAAAAAAAA"), ORDERED("CAAAAAAAAAAAAAAAAAAACTGTATGT")};
    static const char clean[CALL + 1] = ORDERED("AAAAAAAAAAAAAAACTGCAATCGTCAT"), others[] = "ACGTacgtN";
    for (size_t i = 0; i < sizeof calls / sizeof calls[0]; i++)
        passed_over("a call that does not pass", p, calls[i]);
    for (size_t i = 0; i < CALL; i++) {
        int in_site = i < BEFORE || i >= BEFORE + N;
        for (int k = 0; k < (in_site ? 9 : 4); k++) {
            char call[CALL + 1], letters[N + 1] = "";
            memcpy(call, clean, sizeof call);
            call[i] = others[k];
            memcpy(letters, call + BEFORE, N);
            if (in_site && call[i] != clean[i])
                passed_over("a wrong letter in a site", p, call);
            else
                choose("a wrong letter in the strand", p, call, clean, 0, letters, DROPLETS[1]);
        }
    }
}

/* The header's two calls of the strand of seed 1, and others: the first that passes is chosen, mended or clean, whatever the
 * second is. What passes depends on the card: lo = 215 refuses that strand; with R = 4 calls are longer, and two bytes mended. */
static void choose_calls(const struct pool *p)
{
    static const char wrong_site[] = "GTTTCAGAGTTCTACAGTCCGACGATTAAAAAAAAAAAAAAACTGCAATCGTCATTGGAATTCTCGGGTGCCAAGG";
    static const char misread[] = "GTTTCAGAGTTCTACAGTCCGACGATCTTTTAAAAAAAAAAACTGCAATCGTCATTGGAATTCTCGGGTGCCAAGG";
    static const char clean[] = ORDERED("AAAAAAAAAAAAAAACTGCAATCGTCAT"), seed_2[] = ORDERED("AAAAAAAAAAAAAAAGCGGCGTCCTCTG");
    static const char clean_4[] = ORDERED("AAAAAAAAAAAAAAACTGCAGCCGAAAGAGGCCCGA");
    static const char two_wrong[] = ORDERED("TAAAAAAAAAAAAAACTGCAGCCGAAAGAGGCCCGT");
    static const char three_wrong[] = ORDERED("TAAAAAAAAAAAAAACAGCAGCCGAAAGAGGCCCGT");
    static const uint64_t first[1] = {0};
    struct pool r_4 = *p, lo_215 = *p, width = dealt_by(p, 4);
    uint64_t a[2];
    r_4.R = 4;
    r_4.lo = 0;
    lo_215.lo = 215;
    choose("the header's calls", p, wrong_site, misread, 1, "TTTTAAAAAAAAAAACTGCAATCGTCAT", DROPLETS[1]);
    choose("the other way round", p, misread, wrong_site, 0, "TTTTAAAAAAAAAAACTGCAATCGTCAT", DROPLETS[1]);
    choose("mended before clean", p, misread, clean, 0, "TTTTAAAAAAAAAAACTGCAATCGTCAT", DROPLETS[1]);
    choose("clean before mended", p, clean, misread, 0, READS[1], DROPLETS[1]);
    choose("calls of two strands", p, clean, seed_2, 0, READS[1], DROPLETS[1]);
    choose("calls of two strands", p, seed_2, clean, 0, READS[0], DROPLETS[0]);
    choose("no second call", p, clean, NULL, 0, READS[1], DROPLETS[1]);
    choose("no first call", p, NULL, clean, 1, READS[1], DROPLETS[1]);
    choose("no calls", p, NULL, NULL, 21, NULL, NULL);
    choose("with a width", &width, wrong_site, clean, 1, READS[1], DROPLETS[1]);
    choose("lo = 215", &lo_215, clean, seed_2, 1, READS[0], DROPLETS[0]);
    choose("lo = 215, neither", &lo_215, clean, misread, 21, NULL, NULL);
    choose("R = 4", &r_4, clean_4, two_wrong, 0, "AAAAAAAAAAAAAAACTGCAGCCGAAAGAGGCCCGA", DROPLETS[1]);
    choose("R = 4, mended", &r_4, three_wrong, two_wrong, 1, "TAAAAAAAAAAAAAACTGCAGCCGAAAGAGGCCCGT", DROPLETS[1]);
    choose("R = 4, neither", &r_4, three_wrong, clean, 21, NULL, NULL);
    choose_refused(p, NULL, NULL);
    choose_refused(p, wrong_site, NULL);
    choose_refused(p, clean, misread);
    wrong_calls(p);
    /* one lent call as both */
    lend(a, sizeof a);
    number("one call twice", fountain_choose_call(CARD(p), (const uint8_t *)clean, CALL, (const uint8_t *)clean, CALL, a), 0);
    answers("the choice of one call twice", a, first, 1);
}

/* One job under the header's three limits, and one that is spent on a strand with both faults (document 02, Item 12). */
static void drops(const struct pool *p)
{
    static const struct {
        uint8_t m;
        uint16_t lo, hi;
        uint32_t budget;
        uint64_t answer[6];
    } jobs[4] = {
        {3, 450, 550, 1000, {0, 10, 62, 0xD862C7F9, 23, 29}},
        {4, 450, 550, 1000, {0, 10, 49, 0x506EC32B, 7, 32}},
        {3, 400, 600, 1000, {0, 10, 13, 0x8ACEB9DE, 2, 1}},
        {3, 450, 550, 20, {1, 2, 20, 0x675CDD91, 5, 13}},
    };
    for (int i = 0; i < 4; i++) {
        struct pool tight = *p;
        uint8_t out[10 * LINE + SPARE];
        uint32_t list[D];
        uint64_t a[7];
        size_t made = (size_t)jobs[i].answer[1];
        tight.m = jobs[i].m;
        tight.lo = jobs[i].lo;
        tight.hi = jobs[i].hi;
        lend(out, sizeof out);
        lend(a, sizeof a);
        number("write: drops", fountain_write(CARD(&tight), Q, 4, 0x12345678, 10, jobs[i].budget, out, sizeof out, list, D, a), 0);
        answers("the answer with drops", a, jobs[i].answer, 6);
        kept("the buffer past the strands made", out + made * LINE, sizeof out - made * LINE);
    }
}

/* The header's positions, and others that follow from document 01: the one of seed 1 falls out at its 32nd step, and the schedule is
 * back after 4,294,967,295 steps (document 02, Item 7). */
static void seeds_at(void)
{
    static const struct {
        uint32_t start, steps, seed;
    } positions[] = {
        {0x12345678, 0, 0x12345678}, {0x12345678, 1000000, 0x6BF1B778}, {0x12345678, 2000000, 0x1CA43C7F},
        {0x12345678, 3000000, 0x44BC2AAD}, {1, 1, 2}, {0x80000000, 1, 0xC5}, {1, 31, 0x80000000}, {1, 32, 0xC5},
        {0x12345678, 0xFFFFFFFF, 0x12345678}, {0xFFFFFFFF, 0xFFFFFFFF, 0xFFFFFFFF}, {2, 0xFFFFFFFE, 1},
    };
    uint64_t a[2];
    lend(a, sizeof a);
    number("seed at: 6", fountain_seed_at(0, 0, a), 6);
    number("seed at: 6, with steps", fountain_seed_at(0, 1000000, a), 6);
    kept("the answer of a refused start", a, sizeof a);
    for (size_t i = 0; i < sizeof positions / sizeof positions[0]; i++) {
        const uint64_t wanted[1] = {positions[i].seed};
        lend(a, sizeof a);
        number("seed at", fountain_seed_at(positions[i].start, positions[i].steps, a), 0);
        answers("the seed at a position", a, wanted, 1);
    }
}

/* The first job of `drops` by two writers: the first has the schedule's first 20 seeds and the second those from position 20 on. They
 * print what one writer prints, and no seed twice. */
static void split_job(const struct pool *p)
{
    static const uint32_t start = 0x12345678;
    struct pool tight = *p;
    uint8_t whole[10 * LINE], parts[10 * LINE], droplets[10][DROPLET];
    uint32_t list[D];
    uint64_t a[6], second[1], tried, next;
    lend(whole, sizeof whole);
    lend(parts, sizeof parts);
    lend(a, sizeof a);
    lend(second, sizeof second);
    tight.m = 3;
    tight.lo = 450;
    tight.hi = 550;
    number("write whole", fountain_write(CARD(&tight), Q, 4, start, 10, 62, whole, sizeof whole, list, D, a), 0);
    number("made whole", a[1], 10);
    tried = a[2];
    next = a[3];
    number("write the first part", fountain_write(CARD(&tight), Q, 4, start, 10, 20, parts, sizeof parts, list, D, a), 0);
    number("made in the first part", a[1], 2);
    number("seed at position 20", fountain_seed_at(start, 20, second), 0);
    number("where the first part would go on", a[3], second[0]);
    number("write the second part", fountain_write(CARD(&tight), Q, 4, (uint32_t)second[0], 8, 42, parts + 2 * LINE,
                                                   sizeof parts - 2 * LINE, list, D, a), 0);
    number("made in the second part", a[1], 8);
    number("tried in both parts", 20 + a[2], tried);
    number("where the second part would go on", a[3], next);
    bytes("the two parts", parts, whole, sizeof whole);
    for (int i = 0; i < 10; i++) {
        number("check a line", fountain_check_read(CARD(&tight), parts + i * LINE, N, droplets[i], DROPLET), 0);
        for (int j = 0; j < i; j++)
            number("a seed printed twice", memcmp(droplets[i], droplets[j], 4) == 0, 0);
    }
}

/* How many reads are behind a record of a store: the header's lines. */
static uint32_t reads_behind(const uint8_t *store, uint8_t L, size_t i)
{
    const uint8_t *at = store + i * (9 + L) + 5 + L;
    uint32_t reads = (uint32_t)at[0] << 24 | (uint32_t)at[1] << 16 | (uint32_t)at[2] << 8 | at[3];
    return reads;
}

/* Stores the reads of seeds 2, 1 and 3 in this order, each twice. The shelf has no space for a fourth record. In the end there are as many
 * reads behind all records as calls that returned 0. */
static void store_reads(const struct pool *p, uint8_t *store, size_t store_len)
{
    uint64_t a[3], behind = 0;
    for (size_t i = 0; i < 3; i++) {
        const uint8_t *read = (const uint8_t *)READS[i];
        const uint64_t accepted[2] = {0, i + 1}, repeat[2] = {1, i + 1};
        lend(a, sizeof a);
        number("store: 9", fountain_store(CARD(p), store, store_len, i, read, N - 1, a), 9);
        number("store: 14", fountain_store(CARD(p), store, store_len, (size_t)-1, read, N, a), 14);
        number("store: 16", fountain_store(CARD(p), store, (i + 1) * RECORD - 1, i, read, N, a), 16);
        kept("the answer of a refused read", a, sizeof a);
        kept("the shelf past its records", store + i * RECORD, store_len - i * RECORD);
        number("store", fountain_store(CARD(p), store, store_len, i, read, N, a), 0);
        answers("an accepted read", a, accepted, 2);
        number("the reads behind a new record", reads_behind(store, p->L, i), 1);
        number("store again", fountain_store(CARD(p), store, store_len, i + 1, read, N, a), 0);
        answers("a repeat", a, repeat, 2);
        bytes("the records", store, RECORDS, (i + 1) * RECORD);
    }
    kept("the shelf past three records", store + 3 * RECORD, store_len - 3 * RECORD);
    for (size_t i = 0; i < 3; i++)
        behind += reads_behind(store, p->L, i);
    number("the reads behind all records", behind, 6);
}

/* The strand of seed 1 and a read of it with its first byte wrong, on a shelf that has that seed in its second record with a payload and a
 * state, and again in its third (document 02, Item 5). A clean read takes over a mended record, whatever its payload and with any state
 * but 0; a mended read takes over none. If the read is not refused, there is one more behind that record, 4 and not 3. The shelf is full,
 * and no other byte changes. */
static void clean_beats_mended(const struct pool *p)
{
    static const char *const reads[2] = {"AAAAAAAAAAAAAAACTGCAATCGTCAT", "TTTTAAAAAAAAAAACTGCAATCGTCAT"};
    static const struct {
        int mended;
        uint8_t payload, state, returned, answer, payload_after, state_after;
    } cases[] = {
        {0, 0xE4, 1, 0, 2, 0xE4, 0}, {0, 0xE5, 1, 0, 2, 0xE4, 0},  {0, 0xE4, 7, 0, 2, 0xE4, 0},  {0, 0xE5, 255, 0, 2, 0xE4, 0},
        {0, 0xE4, 0, 0, 1, 0xE4, 0}, {0, 0xE5, 0, 15, 0, 0xE5, 0}, {1, 0xE4, 0, 0, 1, 0xE4, 0},  {1, 0xE5, 0, 15, 0, 0xE5, 0},
        {1, 0xE4, 1, 0, 1, 0xE4, 1}, {1, 0xE5, 1, 15, 0, 0xE5, 1}, {1, 0xE4, 7, 0, 1, 0xE4, 7},
    };
    for (size_t i = 0; i < sizeof cases / sizeof cases[0]; i++) {
        const uint8_t behind = cases[i].returned == 0 ? 4 : 3;
        const uint8_t wanted[3 * RECORD] = {0, 0, 0, 2, 0x69, 1, 0, 0, 0, 1,
                                            0, 0, 0, 1, cases[i].payload_after, cases[i].state_after, 0, 0, 0, behind,
                                            0, 0, 0, 1, 0xE5, 1, 0, 0, 0, 2};
        const uint64_t answer[2] = {cases[i].answer, 3};
        uint8_t store[3 * RECORD + SPARE] = {0, 0, 0, 2, 0x69, 1, 0, 0, 0, 1,
                                             0, 0, 0, 1, cases[i].payload, cases[i].state, 0, 0, 0, 3,
                                             0, 0, 0, 1, 0xE5, 1, 0, 0, 0, 2};
        uint64_t a[3];
        lend(store + 3 * RECORD, SPARE);
        lend(a, sizeof a);
        number("store over a record", fountain_store(CARD(p), store, sizeof store - SPARE, 3, (const uint8_t *)reads[cases[i].mended], N, a),
               cases[i].returned);
        if (cases[i].returned == 0)
            answers("the answer over a record", a, answer, 2);
        else
            kept("the answer of a read with another payload", a, sizeof a);
        bytes("the records", store, wanted, sizeof wanted);
        kept("the shelf past them", store + 3 * RECORD, SPARE);
    }
}

/* The header's example: a mended read, its strand, and the strand again, in an empty shelf. */
static void replaced(const struct pool *p)
{
    static const char *const reads[3] = {"TTTTAAAAAAAAAAACTGCAATCGTCAT", "AAAAAAAAAAAAAAACTGCAATCGTCAT", "AAAAAAAAAAAAAAACTGCAATCGTCAT"};
    static const uint64_t wanted[3][2] = {{0, 1}, {2, 1}, {1, 1}};
    uint8_t store[RECORD + SPARE];
    uint64_t a[3];
    lend(store, sizeof store);
    for (size_t i = 0; i < 3; i++) {
        const uint8_t record[RECORD] = {0, 0, 0, 1, 0xE4, i == 0, 0, 0, 0, (uint8_t)(i + 1)};
        lend(a, sizeof a);
        number("store", fountain_store(CARD(p), store, sizeof store, i > 0, (const uint8_t *)reads[i], N, a), 0);
        answers("accepted, replaced, repeat", a, wanted[i], 2);
        bytes("the record", store, record, RECORD);
        kept("the shelf past it", store + RECORD, SPARE);
    }
}

/* The same two reads on a shelf that has their seed in its second record with some reads behind it, and again in its third (document 02,
 * Item 6). A repeat and a replacement add one, with the carry, and from 0 too; where there are 4,294,967,295 they are refused as 20, and
 * another payload that is not taken over is refused as 15 all the same. A repeat leaves the state, 7 too. The records before and behind
 * it have counts that are full, which hinders none, and no other byte changes. */
static void read_counts(const struct pool *p)
{
    static const char *const reads[2] = {"AAAAAAAAAAAAAAACTGCAATCGTCAT", "TTTTAAAAAAAAAAACTGCAATCGTCAT"};
    static const struct {
        int mended;
        uint8_t payload, state, behind[4], returned, answer, payload_after, state_after, behind_after[4];
    } cases[] = {
        {0, 0xE4, 0, {0, 0, 0, 1}, 0, 1, 0xE4, 0, {0, 0, 0, 2}},
        {0, 0xE4, 1, {0, 0, 0, 1}, 0, 2, 0xE4, 0, {0, 0, 0, 2}},
        {0, 0xE5, 1, {0, 0, 0, 2}, 0, 2, 0xE4, 0, {0, 0, 0, 3}},
        {1, 0xE4, 0, {0, 0, 0, 2}, 0, 1, 0xE4, 0, {0, 0, 0, 3}},
        {1, 0xE4, 1, {0, 0, 0, 3}, 0, 1, 0xE4, 1, {0, 0, 0, 4}},
        {1, 0xE4, 7, {0, 0, 0, 4}, 0, 1, 0xE4, 7, {0, 0, 0, 5}},
        {0, 0xE4, 0, {0, 0, 0, 0}, 0, 1, 0xE4, 0, {0, 0, 0, 1}},
        {0, 0xE5, 7, {0, 0, 0, 0}, 0, 2, 0xE4, 0, {0, 0, 0, 1}},
        {0, 0xE4, 0, {0x12, 0x34, 0x56, 0x78}, 0, 1, 0xE4, 0, {0x12, 0x34, 0x56, 0x79}},
        {0, 0xE4, 0, {0, 0, 0, 0xFF}, 0, 1, 0xE4, 0, {0, 0, 1, 0}},
        {1, 0xE4, 7, {0, 0, 0xFF, 0xFF}, 0, 1, 0xE4, 7, {0, 1, 0, 0}},
        {0, 0xE4, 0, {0, 0xFF, 0xFF, 0xFF}, 0, 1, 0xE4, 0, {1, 0, 0, 0}},
        {0, 0xE5, 1, {0, 0xFF, 0xFF, 0xFF}, 0, 2, 0xE4, 0, {1, 0, 0, 0}},
        {0, 0xE4, 0, {0x7F, 0xFF, 0xFF, 0xFF}, 0, 1, 0xE4, 0, {0x80, 0, 0, 0}},
        {0, 0xE4, 0, {0xFF, 0, 0xFF, 0xFF}, 0, 1, 0xE4, 0, {0xFF, 1, 0, 0}},
        {0, 0xE4, 0, {0xFF, 0xFF, 0xFF, 0xFE}, 0, 1, 0xE4, 0, {0xFF, 0xFF, 0xFF, 0xFF}},
        {1, 0xE4, 7, {0xFF, 0xFF, 0xFF, 0xFE}, 0, 1, 0xE4, 7, {0xFF, 0xFF, 0xFF, 0xFF}},
        {0, 0xE5, 1, {0xFF, 0xFF, 0xFF, 0xFE}, 0, 2, 0xE4, 0, {0xFF, 0xFF, 0xFF, 0xFF}},
        {0, 0xE4, 0, {0xFF, 0xFF, 0xFF, 0xFF}, 20, 0, 0xE4, 0, {0xFF, 0xFF, 0xFF, 0xFF}},
        {1, 0xE4, 0, {0xFF, 0xFF, 0xFF, 0xFF}, 20, 0, 0xE4, 0, {0xFF, 0xFF, 0xFF, 0xFF}},
        {1, 0xE4, 7, {0xFF, 0xFF, 0xFF, 0xFF}, 20, 0, 0xE4, 7, {0xFF, 0xFF, 0xFF, 0xFF}},
        {0, 0xE4, 1, {0xFF, 0xFF, 0xFF, 0xFF}, 20, 0, 0xE4, 1, {0xFF, 0xFF, 0xFF, 0xFF}},
        {0, 0xE5, 7, {0xFF, 0xFF, 0xFF, 0xFF}, 20, 0, 0xE5, 7, {0xFF, 0xFF, 0xFF, 0xFF}},
        {0, 0xE5, 0, {0xFF, 0xFF, 0xFF, 0xFF}, 15, 0, 0xE5, 0, {0xFF, 0xFF, 0xFF, 0xFF}},
        {1, 0xE5, 0, {0xFF, 0xFF, 0xFF, 0xFF}, 15, 0, 0xE5, 0, {0xFF, 0xFF, 0xFF, 0xFF}},
        {1, 0xE5, 1, {0xFF, 0xFF, 0xFF, 0xFF}, 15, 0, 0xE5, 1, {0xFF, 0xFF, 0xFF, 0xFF}},
        {1, 0xE5, 0, {0, 0, 0, 1}, 15, 0, 0xE5, 0, {0, 0, 0, 1}},
    };
    for (size_t i = 0; i < sizeof cases / sizeof cases[0]; i++) {
        const uint8_t *b = cases[i].behind, *c = cases[i].behind_after;
        const uint8_t wanted[3 * RECORD] = {0, 0, 0, 2, 0x69, 1, 0xFF, 0xFF, 0xFF, 0xFF,
                                            0, 0, 0, 1, cases[i].payload_after, cases[i].state_after, c[0], c[1], c[2], c[3],
                                            0, 0, 0, 1, 0xE4, 0, 0xFF, 0xFF, 0xFF, 0xFF};
        const uint64_t answer[2] = {cases[i].answer, 3};
        uint8_t store[3 * RECORD + SPARE] = {0, 0, 0, 2, 0x69, 1, 0xFF, 0xFF, 0xFF, 0xFF,
                                             0, 0, 0, 1, cases[i].payload, cases[i].state, b[0], b[1], b[2], b[3],
                                             0, 0, 0, 1, 0xE4, 0, 0xFF, 0xFF, 0xFF, 0xFF};
        const uint8_t *read = (const uint8_t *)reads[cases[i].mended];
        uint64_t a[3];
        lend(store + 3 * RECORD, SPARE);
        lend(a, sizeof a);
        number("count: 14", fountain_store(CARD(p), store, 3 * RECORD - 1, 3, read, N, a), 14);
        number("count: 9", fountain_store(CARD(p), store, 3 * RECORD, 3, read, N - 1, a), 9);
        number("count", fountain_store(CARD(p), store, 3 * RECORD, 3, read, N, a), cases[i].returned);
        if (cases[i].returned == 0)
            answers("the answer of a counted read", a, answer, 2);
        else
            kept("the answer of a read that is not counted", a, sizeof a);
        bytes("the records and their counts", store, wanted, sizeof wanted);
        kept("the shelf past them", store + 3 * RECORD, SPARE);
    }
}

/* A new record has a count of 1, whatever stood there; at 4,294,967,294 its next read is the last one that is counted, clean or mended. */
static void last_counts(const struct pool *p)
{
    static const uint8_t lent[3] = {0, CANARY, 0xFF};
    static const uint8_t clean[RECORD] = {0, 0, 0, 1, 0xE4, 0, 0, 0, 0, 1}, mended[RECORD] = {0, 0, 0, 1, 0xE4, 1, 0, 0, 0, 1};
    static const uint8_t full[RECORD] = {0, 0, 0, 1, 0xE4, 1, 0xFF, 0xFF, 0xFF, 0xFF};
    static const uint64_t accepted[2] = {0, 1}, repeat[2] = {1, 1};
    const uint8_t *strand = (const uint8_t *)"AAAAAAAAAAAAAAACTGCAATCGTCAT", *misread = (const uint8_t *)"TTTTAAAAAAAAAAACTGCAATCGTCAT";
    uint8_t store[RECORD + SPARE];
    uint64_t a[3];
    lend(a, sizeof a);
    for (int i = 0; i < 3; i++) {
        lend(store, sizeof store);
        memset(store, lent[i], RECORD);
        number("accept a clean read", fountain_store(CARD(p), store, RECORD, 0, strand, N, a), 0);
        answers("the answer of a clean read", a, accepted, 2);
        bytes("the record of a clean read", store, clean, RECORD);
        memset(store, lent[i], RECORD);
        number("accept a mended read", fountain_store(CARD(p), store, RECORD, 0, misread, N, a), 0);
        answers("the answer of a mended read", a, accepted, 2);
        bytes("the record of a mended read", store, mended, RECORD);
        kept("the shelf past a new record", store + RECORD, SPARE);
    }
    memcpy(store, full, RECORD);
    store[RECORD - 1] = 0xFE;
    number("the reads behind a record that is nearly full", reads_behind(store, p->L, 0), 4294967294);
    number("the last read", fountain_store(CARD(p), store, sizeof store, 1, misread, N, a), 0);
    answers("the answer of the last read", a, repeat, 2);
    bytes("the full record", store, full, RECORD);
    number("the reads behind a full record", reads_behind(store, p->L, 0), 4294967295);
    lend(a, sizeof a);
    number("a repeat too many", fountain_store(CARD(p), store, sizeof store, 1, misread, N, a), 20);
    number("a replacement too many", fountain_store(CARD(p), store, sizeof store, 1, strand, N, a), 20);
    number("another seed beside a full record", fountain_store(CARD(p), store, sizeof store, 1, (const uint8_t *)READS[0], N, a), 16);
    kept("the answer of a read too many", a, sizeof a);
    bytes("the full record", store, full, RECORD);
    kept("the shelf past the full record", store + RECORD, SPARE);
}

static void restore_refused(const struct pool *p, const uint8_t *store)
{
    static const uint8_t seed_zero[RECORD] = {0, 0, 0, 0, 1, 0, 0, 0, 0, 1};
    uint8_t file[K + SPARE], marks[K + SPARE];
    uint32_t list[D + SPARE];
    uint64_t a[4];
    lend(file, sizeof file);
    lend(marks, sizeof marks);
    lend(list, sizeof list);
    lend(a, sizeof a);
    number("restore: 14", fountain_restore(CARD(p), store, 3 * RECORD - 1, 3, file, K, marks, K, list, D, a), 14);
    number("restore: 17", fountain_restore(CARD(p), seed_zero, RECORD, 1, file, 0, marks, K, list, D, a), 17);
    number("restore: 18", fountain_restore(CARD(p), store, 3 * RECORD, 3, file, K - 1, marks, K, list, 0, a), 18);
    number("restore: 18, marks", fountain_restore(CARD(p), store, 3 * RECORD, 3, file, K, marks, K - 1, list, 0, a), 18);
    number("restore: 8", fountain_restore(CARD(p), store, 3 * RECORD, 3, file, K, marks, K, list, D - 1, a), 8);
    kept("the file of a refused restore", file, sizeof file);
    kept("the marks of a refused restore", marks, sizeof marks);
    kept("the number list of a refused restore", list, sizeof list);
    kept("the answer of a refused restore", a, sizeof a);
}

static void restore(const struct pool *p, const uint8_t *store, size_t count, const uint64_t *wanted, const uint8_t *file_wanted,
                    const uint8_t *marks_wanted)
{
    uint8_t file[K + SPARE], marks[K + SPARE];
    uint32_t list[D + SPARE];
    uint64_t a[4];
    lend(file, sizeof file);
    lend(marks, sizeof marks);
    lend(list, sizeof list);
    lend(a, sizeof a);
    number("restore", fountain_restore(CARD(p), store, count * RECORD, count, file, sizeof file, marks, sizeof marks, list,
                                       D + SPARE, a), 0);
    answers("the restore's answer", a, wanted, 3);
    bytes("the file", file, file_wanted, K);
    bytes("the marks", marks, marks_wanted, K);
    kept("the file past K * L", file + K, SPARE);
    kept("the marks past K", marks + K, SPARE);
    kept("the number list past D", list + D, SPARE * sizeof list[0]);
}

int main(int argc, char **argv)
{
    static const uint64_t three[3] = {3, 3, 0}, none[3] = {0, 1, 0};
    static const uint8_t file[K] = {0, 0x27, 0x4E, 0xE4}, marks[K] = {0, 1, 1, 1}, zeros[K] = {0, 0, 0, 0};
    /* seed 1 picks segment 3: the first of these records fills it, though it is mended and no read is behind it, and the other three
     * contradict it */
    static const uint8_t disputed[4 * RECORD] = {0, 0, 0, 1, 0xE4, 1, 0, 0, 0, 0, 0, 0, 0, 1, 0xE5, 0, 0xFF, 0xFF, 0xFF, 0xFF,
                                                 0, 0, 0, 1, 0xE6, 7, 0, 0, 0, 9, 0, 0, 0, 1, 0xE7, 0, 0, 0, 0, 1};
    static const uint64_t one[3] = {1, 2, 3};
    static const uint8_t last_file[K] = {0, 0, 0, 0xE4}, last_mark[K] = {0, 0, 0, 1};
    uint8_t card[64], store[3 * RECORD + 4];
    FILE *in = argc == 2 ? fopen(argv[1], "rb") : NULL;
    if (in == NULL) {
        fprintf(stderr, "usage: capi_bench CARD\n");
        return 2;
    }
    size_t card_len = fread(card, 1, sizeof card, in);
    fclose(in);
    number("the card's length", card_len, 28);
    struct pool p = read_card(card, card_len);
    cut_cards(&p, card, card_len);
    struct pool seven = {7, 1, 2, 15, 0, 1000, 1, 3, SEVEN_CARD + 20, 4};
    cut_width(&seven);
    deal(&seven);
    refused_widths(&p);
    dealt_job(&p);
    write_refused(&p);
    write_one(&p, 2, READS[0]);
    write_one(&p, 1, READS[1]);
    write_one(&p, 3, READS[2]);
    write_ends(&p);
    check_reads(&p);
    joints(&p);
    mended(&p);
    choose_calls(&p);
    drops(&p);
    seeds_at();
    split_job(&p);
    lend(store, sizeof store);
    store_reads(&p, store, sizeof store);
    clean_beats_mended(&p);
    replaced(&p);
    read_counts(&p);
    last_counts(&p);
    restore_refused(&p, store);
    restore(&p, store, 3, three, file, marks);
    restore(&p, NULL, 0, none, zeros, zeros);
    restore(&p, disputed, 4, one, last_file, last_mark);
    return failures == 0 ? 0 : 1;
}
