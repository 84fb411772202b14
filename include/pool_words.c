/* Refusals in words (see pool_words in pool.h). The installed libraries hold it; another build adds this one file. */
#include "pool.h"

const char *pool_words(uint32_t refusal)
{
    switch (refusal) {
    case POOL_DONE:
        return "done";
#define REFUSAL(number, name, sentence, advice) \
    case number:                                \
        return sentence "; " advice;
#include "pool_refusals.def"
#undef REFUSAL
    default:
        return "unknown refusal";
    }
}
