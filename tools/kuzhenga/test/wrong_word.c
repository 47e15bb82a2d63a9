/* Wraps the library's call that gives a capture's word. Its last bit is then wrong, and `kuzhenga draw` must stop. */
#include <stddef.h>
#include <stdint.h>

uint32_t __real_kuzhenga_reply_transitions(const uint16_t *samples, size_t samples_len, uint32_t pin_mask,
                                           uint16_t *word, size_t word_len);
uint32_t __wrap_kuzhenga_reply_transitions(const uint16_t *samples, size_t samples_len, uint32_t pin_mask,
                                           uint16_t *word, size_t word_len);

uint32_t __wrap_kuzhenga_reply_transitions(const uint16_t *samples, size_t samples_len, uint32_t pin_mask,
                                           uint16_t *word, size_t word_len)
{
    uint32_t refusal = __real_kuzhenga_reply_transitions(samples, samples_len, pin_mask, word, word_len);
    if (refusal == 0)
        word[0] ^= 1;
    return refusal;
}
