/* A pool card's file, read and asked the questions 1 to 4 and 27, for the programs that are handed one by name. */
#ifndef CARD_FILE_H
#define CARD_FILE_H

#include <errno.h>
#include <stdio.h>
#include <stdlib.h>
#include <string.h>
#include "card_questions.h"
#include "fountain.h"

/* A byte more is kept than a length of two bytes can say and a fourth field has, so that the reader refuses what is longer. */
enum { HEAD = 20, FOURTH = 7, CARD_KEPT = HEAD + 65535 + FOURTH + 1 };

/* The places of the card's numbers in the reader's answer. */
enum { F, L, R, M, LO, HI, D, DEALT, W, ANSWERED };

struct card {
    uint8_t bytes[CARD_KEPT]; /* the weights are 4 * D bytes from HEAD on */
    uint64_t numbers[ANSWERED];
};

/* Reads an accepted card. Otherwise says what is wrong, and stops: with status 1 if the card is refused, with 2 if it could not
 * be read. */
static void read_card_file(const char *program, const char *name, struct card *card)
{
    FILE *file = fopen(name, "rb");
    size_t length = file == NULL ? 0 : fread(card->bytes, 1, sizeof card->bytes, file);
    if (file == NULL || ferror(file)) {
        fprintf(stderr, "%s: %s: %s\n", program, name, strerror(errno));
        exit(2);
    }
    fclose(file);
    uint32_t refused = fountain_read_card(card->bytes, length, card->numbers);
    if (refused != 0) {
        fprintf(stderr, "%s: %s is refused by question %u: %s\n", program, name, (unsigned)refused, question(refused));
        exit(1);
    }
}

#endif
