/* Runs the read check on cases from standard input, each buffer in memory of just its own length, so that a memory checker
 * sees every byte read or written out of bounds. Prints for each case the number returned and the out buffer in hex.
 *
 *   check_read_cases < cases
 *
 * A line is: F L R m lo hi dealt width weights read out, the last three in hex; '-' stands for NULL and '.' for no bytes. */
#define _POSIX_C_SOURCE 200809L
#include <stdio.h>
#include <stdlib.h>
#include <string.h>
#include <sys/types.h>
#include "fountain.h"

struct buffer {
    uint8_t *bytes;
    size_t length;
};

static void stop(const char *why)
{
    fprintf(stderr, "check_read_cases: %s\n", why);
    exit(2);
}

static unsigned digit(char c)
{
    if (c >= '0' && c <= '9')
        return (unsigned)(c - '0');
    if (c >= 'A' && c <= 'F')
        return (unsigned)(c - 'A') + 10;
    stop("not a hex digit");
    return 0;
}

static char *next_word(char **rest)
{
    char *word = strtok_r(NULL, " \n", rest);
    if (word == NULL)
        stop("a line is too short");
    return word;
}

static unsigned long next_number(char **rest)
{
    return strtoul(next_word(rest), NULL, 10);
}

static struct buffer next_buffer(char **rest)
{
    const char *word = next_word(rest);
    struct buffer b = {NULL, 0};
    if (strcmp(word, "-") == 0)
        return b;
    if (strcmp(word, ".") != 0)
        b.length = strlen(word) / 2;
    b.bytes = malloc(b.length);
    if (b.bytes == NULL && b.length > 0)
        stop("out of memory");
    for (size_t i = 0; i < b.length; i++)
        b.bytes[i] = (uint8_t)(digit(word[2 * i]) << 4 | digit(word[2 * i + 1]));
    return b;
}

static void run_case(char *line)
{
    char *rest = NULL;
    char *first = strtok_r(line, " \n", &rest);
    if (first == NULL)
        stop("an empty line");
    uint32_t F = (uint32_t)strtoul(first, NULL, 10);
    uint8_t L = (uint8_t)next_number(&rest);
    uint8_t R = (uint8_t)next_number(&rest);
    uint8_t m = (uint8_t)next_number(&rest);
    uint16_t lo = (uint16_t)next_number(&rest);
    uint16_t hi = (uint16_t)next_number(&rest);
    uint8_t dealt = (uint8_t)next_number(&rest);
    uint32_t width = (uint32_t)next_number(&rest);
    struct buffer weights = next_buffer(&rest);
    struct buffer read = next_buffer(&rest);
    struct buffer out = next_buffer(&rest);
    uint32_t answer = fountain_check_read(F, L, R, m, lo, hi, dealt, width, weights.bytes, weights.length,
                                          read.bytes, read.length, out.bytes, out.length);
    printf("%u ", (unsigned)answer);
    for (size_t i = 0; i < out.length; i++)
        printf("%02X", out.bytes[i]);
    puts(out.length == 0 ? "-" : "");
    free(weights.bytes);
    free(read.bytes);
    free(out.bytes);
}

int main(void)
{
    char *line = NULL;
    size_t size = 0;
    while (getline(&line, &size, stdin) >= 0)
        run_case(line);
    free(line);
    return ferror(stdin) ? 2 : 0;
}
