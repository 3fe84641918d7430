/* The lines of standard input, for the programs that take one read or one call a line. A last line without a newline counts, and
 * an empty line has no letters. Who includes this asks for POSIX's getline. */
#ifndef LINES_H
#define LINES_H

#include <stdint.h>
#include <stdio.h>
#include <sys/types.h>

/* At first all of it is 0; what getline allocated is freed by the caller at the end. */
struct line {
    char *text;
    size_t size, length; /* of the memory, and of the letters */
};

static const uint8_t *letters(const struct line *line)
{
    return (const uint8_t *)line->text;
}

/* Reads the next line, without its newline. Returns 0 if there is none. */
static int next_line(struct line *line)
{
    ssize_t got = getline(&line->text, &line->size, stdin);
    if (got < 0)
        return 0;
    line->length = (size_t)got;
    if (line->length > 0 && line->text[line->length - 1] == '\n')
        line->length--;
    return 1;
}

#endif
