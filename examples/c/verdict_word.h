/* The word for the number of a verdict. */
#ifndef VERDICT_WORD_H
#define VERDICT_WORD_H

#include "kifsang.h"

/* Any number but the three is no verdict, and is not taken for one. */
static inline const char *verdict_word(uint32_t verdict)
{
    switch (verdict) {
    case KIFSANG_WITHIN:
        return "within";
    case KIFSANG_CLOSE:
        return "close";
    case KIFSANG_OVER:
        return "over";
    default:
        return "none";
    }
}

#endif
