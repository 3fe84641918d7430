/* Checks reads as the reader's host program does: takes a pool card's file name, reads one read a line from standard input,
 * and prints for each line the number that the read check returned and, for an accepted read, seed and payload in hex.
 *
 *   check_reads pool.card < reads
 *
 * The card's numbers are taken from their places without a test of their own: the read check refuses wrong ones. Only where the
 * weights end is looked at, since a fourth field, the width, may stand behind them: a file that ends elsewhere is no pool card. */
#define _POSIX_C_SOURCE 200809L
#include <stdio.h>
#include <stdlib.h>
#include "fountain.h"
#include "lines.h"

enum { CARD_MOST = 8192, WEIGHTS_START = 20, FOURTH = 7, DROPLET_MOST = 4 + 64 };

struct card {
    uint8_t bytes[CARD_MOST];
    size_t length, weights_len;
    uint8_t dealt;
    uint32_t width;
};

static uint32_t number(const uint8_t *bytes, int count)
{
    uint32_t n = 0;
    for (int i = 0; i < count; i++)
        n = n << 8 | bytes[i];
    return n;
}

/* Finds where the weights end and whether a fourth field of tag 4 and length 4 is behind them. Returns 0 if the card ends
 * elsewhere. */
static int find_fourth(struct card *c)
{
    if (c->length < WEIGHTS_START)
        return 0;
    c->weights_len = number(c->bytes + WEIGHTS_START - 2, 2);
    size_t end = WEIGHTS_START + c->weights_len;
    c->dealt = c->length != end;
    c->width = 0;
    if (!c->dealt)
        return 1;
    if (c->length != end + FOURTH || number(c->bytes + end, 3) != 0x040004)
        return 0;
    c->width = number(c->bytes + end + 3, 4);
    return 1;
}

static void check(const struct card *c, const struct line *line)
{
    uint8_t droplet[DROPLET_MOST];
    const uint8_t *card = c->bytes;
    uint8_t L = card[7];
    uint32_t answer = fountain_check_read(number(card + 3, 4), L, card[8], card[12],
                                          (uint16_t)number(card + 13, 2), (uint16_t)number(card + 15, 2),
                                          c->dealt, c->width, card + WEIGHTS_START, c->weights_len,
                                          letters(line), line->length, droplet, sizeof droplet);
    printf("%u", (unsigned)answer);
    if (answer == 0) {
        printf(" %08X ", (unsigned)number(droplet, 4));
        for (int i = 0; i < L; i++)
            printf("%02X", droplet[4 + i]);
    }
    putchar('\n');
}

int main(int argc, char **argv)
{
    static struct card card;
    if (argc != 2) {
        fprintf(stderr, "usage: check_reads CARD < READS\n");
        return 2;
    }
    FILE *file = fopen(argv[1], "rb");
    if (file == NULL) {
        perror(argv[1]);
        return 2;
    }
    card.length = fread(card.bytes, 1, sizeof card.bytes, file);
    int more = fgetc(file) != EOF;
    fclose(file);
    if (more || !find_fourth(&card)) {
        fprintf(stderr, "%s: no pool card\n", argv[1]);
        return 2;
    }
    struct line line = {NULL, 0, 0};
    while (next_line(&line))
        check(&card, &line);
    free(line.text);
    return ferror(stdin) ? 2 : 0;
}
