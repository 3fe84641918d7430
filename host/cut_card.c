/* Cuts a pool card, so that nobody types one in a hex editor: takes the card's six numbers as arguments and its weights from
 * standard input, one decimal number a line, that of degree 1 first, and puts the card on standard output. With -w the card gets a
 * fourth field, the width W by which the file is dealt; without it the field is absent.
 *
 *   cut_card [-w W] F L R m lo hi < weights > pool.card
 *
 * Status 0: the card was cut. 1: it is refused, and the question is named. 2: a number is none, too large or missing, and its name
 * or line is given; or something could not be read or written. With 1 and 2 the reason stands on standard error, and nothing
 * was put on standard output, unless that is what failed. */
#include <ctype.h>
#include <stdio.h>
#include <stdlib.h>
#include <string.h>
#include "card_questions.h"
#include "fountain.h"

/* One weight more than a card may have is kept, so that the cutter refuses what has too many. */
enum { HEAD = 20, WEIGHTS_KEPT = 1025, FOURTH = 7, CARD_MOST = HEAD + 4 * 1024 + FOURTH, QUOTED_MOST = 40 };
#define WORD_MOST UINT32_C(4294967295)

static const struct {
    const char *name;
    uint32_t most; /* what the card's field can hold */
} NUMBERS[6] = {{"F", WORD_MOST}, {"L", 255}, {"R", 255}, {"m", 255}, {"lo", 65535}, {"hi", 65535}};

/* A number as it was typed. However long it is, its first characters and its value are all that is kept. */
struct typed {
    char quoted[QUOTED_MOST];
    size_t length;
    int digits_only;
    uint64_t value; /* of the digits; from WORD_MOST + 1 on it grows no more */
};

static const struct typed NOTHING = {{0}, 0, 1, 0};

static void type(struct typed *t, int c)
{
    if (t->length < QUOTED_MOST)
        t->quoted[t->length] = (char)(isprint(c) ? c : '?');
    t->length++;
    if (c < '0' || c > '9')
        t->digits_only = 0;
    else if (t->value <= WORD_MOST)
        t->value = 10 * t->value + (uint64_t)(c - '0');
}

/* The number, if it is one of at most `most`. Otherwise says what is wrong with it, and stops. */
static uint32_t number(const char *where, const struct typed *t, uint32_t most)
{
    int shown = (int)(t->length < QUOTED_MOST ? t->length : QUOTED_MOST);
    const char *more = t->length > QUOTED_MOST ? ".." : "";
    if (t->length == 0)
        fprintf(stderr, "cut_card: %s: the number is missing\n", where);
    else if (!t->digits_only)
        fprintf(stderr, "cut_card: %s: '%.*s%s' is no decimal number\n", where, shown, t->quoted, more);
    else if (t->value > most)
        fprintf(stderr, "cut_card: %s: '%.*s%s' is too large: %lu at most\n", where, shown, t->quoted, more, (unsigned long)most);
    else
        return (uint32_t)t->value;
    exit(2);
}

static void usage(const char *which, const char *what)
{
    fprintf(stderr, "cut_card: %s%s\nusage: cut_card [-w W] F L R m lo hi < WEIGHTS > CARD\n", which, what);
    exit(2);
}

static uint32_t number_of_word(const char *name, const char *word, uint32_t most)
{
    struct typed t = NOTHING;
    for (const char *c = word; *c != '\0'; c++)
        type(&t, (unsigned char)*c);
    return number(name, &t, most);
}

/* Takes the words after the program's name: the option, if it comes first, and the six numbers. Returns whether W is there. */
static int take_words(int argc, char **argv, uint32_t numbers[6], uint32_t *width)
{
    int with_width = argc > 1 && strcmp(argv[1], "-w") == 0;
    int first = with_width ? 3 : 1;
    int given = argc < first ? 0 : argc - first;
    if (with_width && argc < first)
        usage("W", " is missing");
    if (given < 6)
        usage(NUMBERS[given].name, " is missing");
    if (given > 6)
        usage(argv[first + 6], ": there are six numbers, and this is one more");
    *width = with_width ? number_of_word("W", argv[2], WORD_MOST) : 0;
    for (int i = 0; i < 6; i++)
        numbers[i] = number_of_word(NUMBERS[i].name, argv[first + i], NUMBERS[i].most);
    return with_width;
}

/* The next line of standard input, or 0 if there is none. A line ends with a newline, with a carriage return before it or not, or
 * where the input ends. */
static int read_line(struct typed *t)
{
    int c = getchar();
    if (c == EOF)
        return 0;
    *t = NOTHING;
    while (c != EOF && c != '\n') {
        int next = getchar();
        if (c != '\r' || next != '\n')
            type(t, c);
        c = next;
    }
    return 1;
}

/* The bytes of the weights. */
static size_t read_weights(uint8_t weights[4 * WEIGHTS_KEPT])
{
    struct typed t;
    size_t count = 0;
    for (unsigned long at = 1; read_line(&t); at++) {
        char where[32];
        if (ferror(stdin))
            break;
        snprintf(where, sizeof where, "line %lu", at);
        uint32_t weight = number(where, &t, WORD_MOST);
        if (count < WEIGHTS_KEPT) {
            for (int i = 0; i < 4; i++)
                weights[4 * count + (size_t)i] = (uint8_t)(weight >> (24 - 8 * i));
            count++;
        }
    }
    if (ferror(stdin)) {
        perror("cut_card: standard input");
        exit(2);
    }
    return 4 * count;
}

int main(int argc, char **argv)
{
    static uint8_t weights[4 * WEIGHTS_KEPT], card[CARD_MOST];
    uint32_t n[6], width;
    uint64_t length[1];
    int dealt = take_words(argc, argv, n, &width);
    size_t weights_len = read_weights(weights);
    uint32_t refused = fountain_cut_card(n[0], (uint8_t)n[1], (uint8_t)n[2], (uint8_t)n[3], (uint16_t)n[4], (uint16_t)n[5],
                                         (uint8_t)dealt, width, weights, weights_len, card, sizeof card, length);
    if (refused != 0) {
        fprintf(stderr, "cut_card: refused by question %u: %s\n", (unsigned)refused, question(refused));
        return 1;
    }
    if (fwrite(card, 1, (size_t)length[0], stdout) != length[0] || fclose(stdout) != 0) {
        perror("cut_card: standard output");
        return 2;
    }
    return 0;
}
