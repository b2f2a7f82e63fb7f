/* the calls that correct words, by the fast engine and by the slow one */
#ifndef ENGINES_H
#define ENGINES_H

#include "spuggenor.h"

struct engine {
    struct card_word (*correct)(uint32_t);
    struct card_reading (*read_words)(const uint32_t *, size_t, uint8_t *, size_t);
    struct card_reading (*read_listing)(const uint8_t *, size_t, uint8_t *, size_t);
};
static const struct engine engines[] = {
    {card_correct, card_read_words, card_read_listing},
    {card_correct_slowly, card_read_words_slowly, card_read_listing_slowly},
};

#endif
