/* Takes a reply word apart. Which five bits are a symbol is asked of the library. */
#include "symbols.h"

#include "kuzhenga.h"

unsigned symbol_at(uint32_t word, unsigned n)
{
    return word >> (15 - 5 * n) & 31u;
}

unsigned nibble_of(unsigned symbol)
{
    for (unsigned nibble = 0; nibble < NO_NIBBLE; nibble++)
        if (symbol_at(kuzhenga_reply_transitions_for(nibble << 8), 0) == symbol)
            return nibble;
    return NO_NIBBLE;
}

unsigned nibble_at(uint32_t word, unsigned n)
{
    return nibble_of(symbol_at(word, n));
}

unsigned needed_checksum(uint32_t word)
{
    uint32_t value = nibble_at(word, 0) << 8 | nibble_at(word, 1) << 4 | nibble_at(word, 2);
    return nibble_at(kuzhenga_reply_transitions_for(value), CHECKSUM_SYMBOL);
}
