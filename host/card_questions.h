/* What the questions 1 to 4 and 27 ask of a pool card, in words, for the programs that cut one or are handed one. Question 4 also
 * asks that the bytes of the weights are a multiple of 4: that cannot fail there. */
#ifndef CARD_QUESTIONS_H
#define CARD_QUESTIONS_H

static const char *question(unsigned number)
{
    switch (number) {
    case 1:
        return "three whole fields, of tags 1, 2, 3 and lengths 6, 5 and a multiple of 4, and behind them nothing or a whole fourth, "
               "of tag 4 and length 4?";
    case 2:
        return "F from 1 to 8388608, L from 1 to 64, R 2 or 4, and F / L, rounded up, at most 131072?";
    case 3:
        return "m from 1 to 20, lo at most hi, hi at most 1000?";
    case 4:
        return "at least 1 weight, at most 1024, no more than F / L rounded up, and their sum from 1 to 4294967295?";
    case 27:
        return "W from 2 to F?";
    default:
        return "see fountain.h";
    }
}

#endif
