/* A fuzzer that is guided: libFuzzer keeps each input that reaches something new, and changes it further. An input is
 * taken three times: as a capture file, as a list of calls of one bank, and as the numbers of host/fuzz.c's own calls.
 * The first two are compared with code in C that reads a capture file and keeps a bank, in the headers that follow
 * below. host/fuzz_guided builds and runs this.
 *
 * libFuzzer sees the branches of code in C alone. It does not see those of the proved archive, which its own toolchain
 * compiles without libFuzzer's counters. So the archive's answers are counted here instead. Each pair of a call and
 * the number that it returned has a counter. So has each event, each kind of reading, and each count of edges. If an
 * input makes the archive answer something new, libFuzzer keeps it, as it does for a new branch.
 */
#define GUIDED
#include "fuzz.c"

/* ---- counters -------------------------------------------------------------------------------------------------- */

enum {
    CALLS = 64, /* more than there are names of calls */
    REFUSALS = 32,
    /* Where the counters begin of what is not a number that a call returned: */
    EDGES = CALLS * REFUSALS,   /* the count of level changes in a capture */
    BITS = EDGES + 64,          /* the count of bits that are set in a word */
    VALUES = BITS + 33,         /* the four highest bits of a value, with EDT off and on */
    KINDS = VALUES + 32,        /* the kind of a reading */
    SERVICES = KINDS + 16,      /* the event of a service and the count of its orders */
    INTERRUPTS = SERVICES + 64, /* those of an interrupt */
    REPLIES = INTERRUPTS + 64,  /* the kind or the refusal of a reply that is taken */
    COUNTERS = REPLIES + 32
};

__attribute__((section("__libfuzzer_extra_counters"))) static uint8_t counters[COUNTERS];

/* For bookkeeping, whose branches and comparisons tell the fuzzer nothing. */
#define UNSEEN __attribute__((noinline, no_sanitize("coverage")))

UNSEEN static void reached(unsigned counter)
{
    if (counters[counter] < UINT8_MAX)
        counters[counter]++;
}

/* A call has the place at which its name was first met. */
UNSEEN static void note(const char *name, uint32_t r)
{
    static const char *names[CALLS];
    unsigned place = 0;
    while (place < CALLS - 1 && names[place] != NULL && names[place] != name)
        place++;
    names[place] = name;
    reached(place * REFUSALS + (r < REFUSALS ? r : REFUSALS - 1));
}

/* ---- numbers --------------------------------------------------------------------------------------------------- */

static const uint8_t *source;
static size_t source_left;

/* The low bytes are the input's next ones. If too few are left, xorshift makes the number. */
UNSEEN static uint64_t random_number(unsigned bytes)
{
    uint64_t drawn = 0;
    if (source_left < bytes)
        return xorshift();
    for (unsigned i = 0; i < bytes; i++)
        drawn |= (uint64_t)source[i] << 8 * i;
    source += bytes;
    source_left -= bytes;
    return drawn;
}

/* Only the first eight bytes begin xorshift. If a later one changes, what xorshift makes stays. */
static void take_numbers_from(const uint8_t *data, size_t size)
{
    source = data;
    source_left = size;
    seed = 1;
    seed = random_number(8) | 1;
}

/* ---- slices with given contents -------------------------------------------------------------------------------- */

UNSEEN static struct slice *lend_these(const void *contents, size_t len, size_t width)
{
    struct slice *s = &lent[lent_count];
    *s = (struct slice){.at = ends[lent_count] - len * width, .before = copies[lent_count], .len = len,
                        .bytes = len * width, .fits = 1};
    lent_count++;
    if (s->bytes) {
        memcpy(s->at, contents, s->bytes);
        memcpy(s->before, contents, s->bytes);
    }
    return s;
}

static struct slice *show_these(const void *contents, size_t len, size_t width)
{
    struct slice *s = lend_these(contents, len, width);
    s->read_only = 1;
    return s;
}

/* A slice for an answer. It holds bytes that no answer is likely to have. */
static struct slice *lend_room(size_t len, size_t width)
{
    static unsigned char unlikely[MOST];
    if (unlikely[0] == 0)
        memset(unlikely, 0xa5, sizeof unlikely);
    return lend_these(unlikely, len, width);
}

UNSEEN static void agree(const char *what, uint64_t given, uint64_t wanted)
{
    if (given != wanted)
        fail(what, (unsigned long)given);
}

#include "fuzz_guided_file.h"
#include "fuzz_guided_bank.h"

/* ---- new bytes ------------------------------------------------------------------------------------------------- */

/* The capture file of a simulated reply, of any value, place, mask and length, at times with a sample changed. Every
 * fourth value has its low nine bits 0: if EDT is off, most of these are refused with 11 (zero period). */
static size_t simulated_file(uint8_t *file)
{
    uint16_t samples[KUZHENGA_WINDOW_SAMPLES * 2], written[1];
    size_t lead = 1 + xorshift() % 90, count = lead + KUZHENGA_REPLY_SAMPLES + xorshift() % KUZHENGA_WINDOW_SAMPLES;
    uint32_t mask = xorshift() % 4 ? 1u << xorshift() % 16 : 1 + (uint32_t)(xorshift() % 65535);
    uint32_t value = (uint32_t)xorshift() & (xorshift() % 4 ? 0xfff : 0xe00);
    must(kuzhenga_simulate_reply(samples, count, value, lead, mask));
    if (xorshift() % 4 == 0)
        samples[xorshift() % count] ^= (uint16_t)mask;
    must(kuzhenga_write_capture(samples, count, mask, xorshift() % 2, file, KUZHENGA_FILE_BYTES, written, 1));
    return written[0];
}

size_t LLVMFuzzerMutate(uint8_t *data, size_t size, size_t most);
size_t LLVMFuzzerCustomMutator(uint8_t *data, size_t size, size_t most, unsigned begin);

/* Mostly the fuzzer's own changes. These seldom make a file of another length, or a reply with a good checksum. */
size_t LLVMFuzzerCustomMutator(uint8_t *data, size_t size, size_t most, unsigned begin)
{
    static uint8_t file[KUZHENGA_FILE_BYTES];
    seed = (uint64_t)begin << 1 | 1;
    xorshift();
    size_t length = xorshift() % 16 ? most + 1 : simulated_file(file);
    if (length > most)
        return LLVMFuzzerMutate(data, size, most);
    memcpy(data, file, length);
    return length;
}

/* ---- the fuzzer's calls ---------------------------------------------------------------------------------------- */

static void any_calls(const uint8_t *data, size_t size)
{
    static void (*const groups[])(void) = {replies,  packets,       sequences,  commands,
                                           captures, bank_commands, bank_cycle, bank_looks};
    take_numbers_from(data, size);
    for (int i = 0; i < 4 && source_left > 0; i++)
        groups[below(sizeof groups / sizeof *groups)]();
}

int LLVMFuzzerInitialize(int *argc, char ***argv);
int LLVMFuzzerInitialize(int *argc, char ***argv)
{
    (void)argc, (void)argv;
    make_areas();
    return 0;
}

int LLVMFuzzerTestOneInput(const uint8_t *data, size_t size);
int LLVMFuzzerTestOneInput(const uint8_t *data, size_t size)
{
    if (size > MOST)
        return 0;
    file_calls(data, size);
    bank_list(data, size);
    any_calls(data, size);
    return 0;
}
