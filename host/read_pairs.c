/* Chooses between two base callers, as the host of an instrument that has both does: takes a pool card's file name, reads two
 * lines a pair from standard input, the first caller's call of an ordered strand and the second caller's, and puts on standard
 * output the letters between the sites of the chosen call, as they were read. That is one read a line, for check_reads or the
 * listing program. A refused pair is an empty line, which these refuse, so that line 4 is always of pair 4; standard error has
 * its number, as in `pair 4: refused under 21`, and at the end one line of counts, as `pairs 5 first 3 second 1 refused 1`.
 *
 *   read_pairs pool.card < calls > reads
 *
 * Status 0: all pairs were answered, refused ones too. 1: the card is refused, and the question is named. 2: the last pair has no
 * second call, and those before it were answered; or something could not be read or written. */
#define _POSIX_C_SOURCE 200809L
#include "card_file.h"
#include "lines.h"

/* The letters of the site before the strand. */
enum { BEFORE = 27 };

/* The first two are the choices that fountain_choose_call answers. */
enum { FIRST, SECOND, REFUSED, OUTCOMES };

static void stop(const char *stream)
{
    perror(stream);
    exit(2);
}

/* Answers a pair and counts it. The letters are put out straight from the line that they were read into, and copied nowhere. */
static void choose(const struct card *card, const struct line *first, const struct line *second, unsigned long counts[OUTCOMES])
{
    const uint64_t *n = card->numbers;
    uint64_t answer[1];
    uint32_t refused = fountain_choose_call((uint32_t)n[F], (uint8_t)n[L], (uint8_t)n[R], (uint8_t)n[M],
                                            (uint16_t)n[LO], (uint16_t)n[HI], (uint8_t)n[DEALT], (uint32_t)n[W],
                                            card->bytes + HEAD, (size_t)(4 * n[D]),
                                            letters(first), first->length, letters(second), second->length, answer);
    counts[refused != 0 ? REFUSED : answer[0]]++;
    if (refused != 0)
        fprintf(stderr, "pair %lu: refused under %u\n", counts[FIRST] + counts[SECOND] + counts[REFUSED], (unsigned)refused);
    else
        fwrite(letters(answer[0] == FIRST ? first : second) + BEFORE, 1, (size_t)(4 * (4 + n[L] + n[R])), stdout);
    putchar('\n');
    if (ferror(stdout))
        stop("read_pairs: standard output");
}

int main(int argc, char **argv)
{
    static struct card card;
    struct line first = {NULL, 0, 0}, second = {NULL, 0, 0};
    unsigned long counts[OUTCOMES] = {0, 0, 0};
    int whole = 1;
    if (argc != 2) {
        fprintf(stderr, "usage: read_pairs CARD < CALLS\n");
        return 2;
    }
    read_card_file("read_pairs", argv[1], &card);
    while (next_line(&first) && (whole = next_line(&second)))
        choose(&card, &first, &second, counts);
    if (!feof(stdin))
        stop("read_pairs: standard input");
    if (fclose(stdout) != 0)
        stop("read_pairs: standard output");
    free(first.text);
    free(second.text);
    unsigned long pairs = counts[FIRST] + counts[SECOND] + counts[REFUSED];
    if (!whole)
        fprintf(stderr, "read_pairs: pair %lu: the second call is missing\n", pairs + 1);
    fprintf(stderr, "pairs %lu first %lu second %lu refused %lu\n", pairs, counts[FIRST], counts[SECOND], counts[REFUSED]);
    return whole ? 0 : 2;
}
