/* What the parts of the test share. */
#include "curdmesa.h"

/* A call that writes a text, over all that it needs. */
typedef struct Call Call;
struct Call {
    int32_t (*run)(Call *call, uint8_t *out, size_t out_len, uint64_t *needed);
    const uint8_t *bytes;
    size_t len;
    uint32_t kinds;
    bool keep, keep_headers;
    const uint8_t *answers;
    uint64_t *losses;
    uint64_t *ledger;
    CurdmesaDsn dsn;
    CurdmesaAuth auth;
    uint64_t secs;
    uint32_t nanos;
    int32_t number;
};

void expect(const char *what, long long got, long long due);
void expect_text(const char *what, const uint8_t *got, size_t len, const char *due);
void expect_part(const char *what, const uint8_t *out, CurdmesaPlace place, const char *due);
void expect_losses(const char *what, const uint64_t *losses, const uint64_t *due);

/* A block of exactly `len` bytes, one at least where malloc(0) might give null. Without `from` each
 * is 0xA5. */
uint8_t *block(const void *from, size_t len);

/* Whether the bytes of a block are still 0xA5. */
int is_untouched(const uint8_t *bytes, size_t from, size_t to);

/*
 * Runs a call that gives a text: with every room that is too short, with one that fits exactly,
 * and, if it can be repeated, with one that is longer.
 */
void gives(const char *what, Call *call, const char *due, int repeated);

/* Runs a call that gives no text. */
void refuses(const char *what, Call *call, int32_t due);

/* Runs a call on a text in a block of its own; the printed form is left in `out`. */
int32_t run_text(Call *call, const char *text, uint8_t *out, size_t room, uint64_t *needed);

/* Items of any type, losses, words, and what is made of a DSN. */
void test_items(void);

/* Rate limits, and the measure of an envelope. */
void test_limits(void);

/* Faults, what is shown, and repairs. */
void test_faults(void);

/* Envelope headers that are read into a struct. */
void test_envelope_headers(void);

/* What makes envelopes, items and events. */
void test_making(void);
