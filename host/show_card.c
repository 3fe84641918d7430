/* Shows a pool card, so that a person can check it: its numbers, W only if the card has it, and then its weights by degree.
 *
 *   show_card pool.card
 *
 * Status 0: the card is accepted and shown. 1: it is refused, and the question is named. 2: it could not be read, or not be shown. */
#include "card_file.h"

static const struct {
    const char *name, *meaning;
} NUMBERS[6] = {
    {"F", "file length in bytes"},
    {"L", "segment length in bytes"},
    {"R", "check bytes of a strand"},
    {"m", "longest run of one base allowed"},
    {"lo", "C and G at least, in thousandths"},
    {"hi", "C and G at most, in thousandths"},
};

static void show(const char *name, uint64_t number, const char *meaning)
{
    printf("%-4s %10lu  %s\n", name, (unsigned long)number, meaning);
}

static uint32_t weight(const uint8_t *bytes)
{
    return (uint32_t)bytes[0] << 24 | (uint32_t)bytes[1] << 16 | (uint32_t)bytes[2] << 8 | bytes[3];
}

int main(int argc, char **argv)
{
    static struct card card;
    const uint64_t *numbers = card.numbers;
    if (argc != 2) {
        fprintf(stderr, "usage: show_card CARD\n");
        return 2;
    }
    read_card_file("show_card", argv[1], &card);
    for (int i = 0; i < 6; i++)
        show(NUMBERS[i].name, numbers[i], NUMBERS[i].meaning);
    if (numbers[DEALT] != 0)
        show("W", numbers[W], "width by which the file is dealt");
    show("D", numbers[D], "weights, by degree:");
    for (unsigned long i = 0; i < numbers[D]; i++)
        printf("%4lu %10lu\n", i + 1, (unsigned long)weight(card.bytes + HEAD + 4 * i));
    if (ferror(stdout) || fclose(stdout) != 0) {
        perror("show_card: standard output");
        return 2;
    }
    return 0;
}
