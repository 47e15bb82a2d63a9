/* Uses of the header that must not compile. Each number of WRONG above 0 is one use. With WRONG 0 the file compiles.
 * host/check tries each as C and as C++. It makes no warning an error. */
#include "kuzhenga.h"

uint32_t use(const uint16_t *bank, const uint16_t *slots, struct kuzhenga_reading reading,
             struct kuzhenga_replies taken, struct kuzhenga_stats stats, struct kuzhenga_reply_stats of_replies);

uint32_t use(const uint16_t *bank, const uint16_t *slots, struct kuzhenga_reading reading,
             struct kuzhenga_replies taken, struct kuzhenga_stats stats, struct kuzhenga_reply_stats of_replies)
{
#if WRONG == 1
    /* Once this gave 39321600 for a speed of 600. A lane's four slots are no reading. */
    return kuzhenga_reading_number(kuzhenga_lane_reply(taken.slots, 0));
#elif WRONG == 2
    /* All four lanes' replies are no reading. */
    return kuzhenga_reading_number(taken);
#elif WRONG == 3
    /* Slots of any kind are no reading either. */
    return kuzhenga_reading_number(slots);
#elif WRONG == 4
    /* A reading is not the replies of four lanes. */
    return kuzhenga_lane_number(reading, 0);
#elif WRONG == 5
    /* A part of the replies is not the replies of four lanes either. */
    return kuzhenga_lane_number(taken.slots + 1, 0);
#elif WRONG == 6
    /* The counts of replies are not those of frames. */
    return kuzhenga_frames_started(of_replies);
#elif WRONG == 7
    return kuzhenga_lane_valid(stats, 0);
#elif WRONG == 8
    /* The header does not say where a field of a state lies. */
    return bank[KUZHENGA_BANK_IN_SECOND];
#else
    return bank[0] + slots[0] + kuzhenga_reading_number(reading) + kuzhenga_lane_number(taken, 0)
           + kuzhenga_frames_started(stats) + kuzhenga_lane_valid(of_replies, 0);
#endif
}
