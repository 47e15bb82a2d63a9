/* Only for tests: where each field of a bank lies in its slots, as in crates/bank_slots_spec/specs/Places.antt. A host
 * needs none of it, and it may change with the version. So include/kuzhenga.h does not say it. */
#ifndef BANK_PLACES_H
#define BANK_PLACES_H

enum {
    PLACE_TIMING = 0,
    PLACE_VALUES = 4,
    PLACE_LEASE_STARTED = 8,
    PLACE_LEASE_OVER = 12, /* 0 without a lease, else its duration + 1 */
    PLACE_REQUEST = 16,    /* 0 for none, else lane + 1 */
    PLACE_REQUEST_SENT = 17,
    PLACE_RUN = 18, /* 0 for none, else lane + 1; then the run */
    PLACE_BUSY = 23,
    PLACE_FAULTED = 24,
    PLACE_BIDIRECTIONAL = 25,
    PLACE_RECEIVING = 26,
    PLACE_REPLIES_WAITING = 27,
    PLACE_REPLIES_HELD = 28,
    PLACE_IN_SECOND = 29, /* for each lane: 1 if it sends from the second buffer, else 0 */
    PLACE_COMPLETION_MASK = 33,
    PLACE_FRAME_STARTED = 35,
    PLACE_COUNTS = 39,
    PLACE_REPLIES = 61
};

/* A lane's slots from PLACE_REPLIES on: the reply's kind, its number, and three counts. */
enum {
    REPLY_SLOTS = 9,
    REPLY_NUMBER = 1,
    REPLY_COUNTS = 3,
    STORED_REFUSAL = 16 /* a kind of 16 or more is a refusal: 16 + its number */
};

#endif
