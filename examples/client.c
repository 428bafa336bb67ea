/*
 * A client's queue: keeps the last few envelopes, drops attachments, and reports what is lost.
 *
 *   client FILE..
 *
 * Each file is an envelope. Those that the queue has room for are printed without attachments, byte
 * for byte, and behind them a report of all that was lost. Status 1 if the library refuses an
 * envelope, 2 if a file can't be read or the output not be written.
 */
#include "curdmesa.h"

#include <stdio.h>
#include <stdlib.h>
#include <time.h>

enum { ROOM = 3, LONGEST = 65536, ITEMS = 100 };

typedef struct Envelope {
    uint8_t bytes[LONGEST];
    size_t len;
} Envelope;

static uint64_t ledger[CURDMESA_LEDGER];

/* Ends the program if the library refuses something. */
static int32_t check(int32_t status) {
    if (status == CURDMESA_OK || status == CURDMESA_NOTHING_LEFT)
        return status;
    fprintf(stderr, "client: status %d\n", (int)status);
    exit(1);
}

/* Records losses. One that would exceed 2^64-1 is refused. */
static void record(const uint64_t *losses, uint32_t reason) {
    uint64_t refused;
    check(curdmesa_ledger_record_losses(ledger, CURDMESA_LEDGER, losses, CURDMESA_LOSSES, reason,
                                        &refused));
}

/* Prints an envelope without its attachments, and records what is lost with them. */
static void send_without_attachments(const Envelope *it) {
    static uint8_t out[LONGEST];
    uint8_t keep[ITEMS], word[64];
    uint64_t losses[CURDMESA_LOSSES], offset = 0, needed;
    CurdmesaAnyFrame frame;
    size_t items = 0;
    while (items < ITEMS &&
           check(curdmesa_any_frames_next(it->bytes, it->len, &offset, &frame, word, sizeof word,
                                          &needed)) == CURDMESA_OK)
        keep[items++] = frame.kind != CURDMESA_ITEM_ATTACHMENT;
    check(curdmesa_envelope_forward(it->bytes, it->len, keep, items, false, out, LONGEST, &needed,
                                    losses, CURDMESA_LOSSES));
    fwrite(out, 1, (size_t)needed, stdout);
    record(losses, CURDMESA_REASON_BEFORE_SEND);
}

int main(int argc, char **argv) {
    static Envelope queue[ROOM], report;
    uint64_t losses[CURDMESA_LOSSES], needed;
    for (int at = 1; at < argc; at++) {
        Envelope *it = &queue[at % ROOM];
        if (at > ROOM) { /* The oldest one makes room. */
            check(curdmesa_envelope_losses(it->bytes, it->len, losses, CURDMESA_LOSSES));
            record(losses, CURDMESA_REASON_QUEUE_OVERFLOW);
        }
        FILE *file = fopen(argv[at], "rb");
        it->len = file == NULL ? LONGEST : fread(it->bytes, 1, LONGEST, file);
        if (it->len == LONGEST || fclose(file) != 0)
            return 2;
    }
    for (int at = argc > ROOM ? argc - ROOM : 1; at < argc; at++)
        send_without_attachments(&queue[at % ROOM]);
    check(curdmesa_ledger_flush(ledger, CURDMESA_LEDGER, (uint64_t)time(NULL), 0, report.bytes,
                                LONGEST, &needed));
    fwrite(report.bytes, 1, (size_t)needed, stdout);
    return fflush(stdout) == 0 && !ferror(stdout) ? 0 : 2;
}
