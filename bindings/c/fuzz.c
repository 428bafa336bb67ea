/*
 * A fuzz target: of any bytes, what the calls on envelopes answer agrees, a normal form is its own
 * normal form, and what is forwarded is the bytes of the header line and of the kept items. An item
 * that is appended is the last frame, and nothing before it changes.
 *
 *   make fuzz LIB=.. KIT_C=.. && mkdir -p corpus && cp ../../.ci/?*.envelope corpus && ./fuzz corpus
 */
#include "curdmesa.h"

#include <stdio.h>
#include <stdlib.h>
#include <string.h>

static void wanted(bool holds, const char *what) {
    if (!holds) {
        fprintf(stderr, "not as wanted: %s\n", what);
        abort();
    }
}

/* A block of exactly this length, so that a read or a write past an end is seen. */
static uint8_t *block(size_t len) {
    uint8_t *bytes = calloc(len ? len : 1, 1);
    wanted(bytes != NULL, "memory");
    return bytes;
}

/* The normal form of bytes, or NULL with its status. */
static uint8_t *normal_form(const uint8_t *bytes, size_t len, size_t *out_len, int32_t *status) {
    uint64_t needed = 0;
    uint8_t *none = block(0);
    *status = curdmesa_envelope_normalize(bytes, len, 1595256674, 0, 42, none, 0, &needed);
    free(none);
    if (*status != CURDMESA_NO_ROOM) {
        wanted(*status >= CURDMESA_UNEXPECTED_EOF && needed == 0, "a refusal has no text");
        return NULL;
    }
    uint8_t *out = block((size_t)needed);
    *out_len = (size_t)needed;
    *status = curdmesa_envelope_normalize(bytes, len, 1595256674, 0, 42, out, *out_len, &needed);
    wanted(*status == CURDMESA_OK && needed == *out_len, "the same text with room");
    return out;
}

/* A normal form is its own normal form, unless it nests deeper than a payload may. */
static void is_steady(const uint8_t *text, size_t len) {
    size_t again_len = 0;
    int32_t status;
    uint8_t *again = normal_form(text, len, &again_len, &status);
    wanted(again != NULL || status == CURDMESA_INVALID_ITEM_PAYLOAD ||
               status == CURDMESA_INVALID_HEADER,
           "a normal form is read");
    wanted(again == NULL || (again_len == len && memcmp(again, text, len) == 0),
           "a normal form is its own");
    free(again);
}

/* Frames stand in the bytes, in order. */
static int32_t frames_stand(const uint8_t *bytes, size_t len) {
    uint64_t offset = 0;
    CurdmesaFrame frame = {0};
    for (;;) {
        uint64_t before = offset;
        int32_t status = curdmesa_frames_next(bytes, len, &offset, &frame);
        if (status != CURDMESA_OK)
            return status;
        wanted(before < offset && offset <= len, "frames go on");
        wanted(frame.header_offset + frame.header_length <= frame.payload_offset, "in order");
        wanted(frame.payload_offset + frame.payload_length <= offset, "within");
        wanted(frame.kind < CURDMESA_ITEMS, "a kind");
    }
}

/* What is lost with the frames, one by one, is what is lost with the envelope. */
static void sums_agree(const uint64_t *each, const uint8_t *bytes, size_t len) {
    uint64_t *all = (uint64_t *)(void *)block(CURDMESA_LOSSES * sizeof(uint64_t));
    wanted(curdmesa_envelope_losses(bytes, len, all, CURDMESA_LOSSES) == CURDMESA_OK, "losses");
    wanted(memcmp(all, each, CURDMESA_LOSSES * sizeof(uint64_t)) == 0, "the same losses");
    free(all);
}

static void adds(uint64_t *sums, const uint8_t *bytes, const CurdmesaAnyFrame *frame) {
    uint64_t *one = (uint64_t *)(void *)block(CURDMESA_LOSSES * sizeof(uint64_t));
    wanted(curdmesa_frame_losses(bytes + frame->header_offset, (size_t)frame->header_length,
                                 bytes + frame->payload_offset, (size_t)frame->payload_length, one,
                                 CURDMESA_LOSSES) == CURDMESA_OK,
           "losses of a frame");
    for (int i = 0; i < CURDMESA_LOSSES; i++)
        sums[i] = sums[i] > UINT64_MAX - one[i] ? UINT64_MAX : sums[i] + one[i];
    free(one);
}

/* Forwards each second item, and then all: the bytes that are left are those of the header line and
 * of the kept items. */
static void forwards(const uint8_t *bytes, size_t len, const uint8_t *left, size_t left_len,
                     size_t items) {
    uint64_t needed = 0, *losses = (uint64_t *)(void *)block(CURDMESA_LOSSES * sizeof(uint64_t));
    uint8_t *keep = block(items), *out = block(len);
    for (size_t i = 0; i < items; i++)
        keep[i] = i % 2 == 0;
    int32_t status = curdmesa_envelope_forward(bytes, len, keep, items, false, out, len, &needed,
                                               losses, CURDMESA_LOSSES);
    wanted(status == (items == 0 ? CURDMESA_NOTHING_LEFT : CURDMESA_OK), "forwarded");
    wanted(items == 0 || (needed == left_len && memcmp(out, left, left_len) == 0), "what is left");
    memset(keep, 1, items);
    status = curdmesa_envelope_forward(bytes, len, keep, items, true, out, len, &needed, losses,
                                       CURDMESA_LOSSES);
    wanted(items == 0 || (status == CURDMESA_OK && needed == len && memcmp(out, bytes, len) == 0),
           "all is left");
    for (int i = 0; i < CURDMESA_LOSSES; i++)
        wanted(losses[i] == 0, "nothing lost");
    free(out);
    free(keep);
    free(losses);
}

/* Items of any type stand in the bytes, one behind the other. */
static int32_t items_stand(const uint8_t *bytes, size_t len) {
    uint64_t offset = 0, needed, *losses;
    losses = (uint64_t *)(void *)block(CURDMESA_LOSSES * sizeof(uint64_t));
    uint8_t *word = block(len), *left = block(len);
    size_t left_len = 0, items = 0;
    CurdmesaAnyFrame frame = {0};
    int32_t status;
    while ((status = curdmesa_any_frames_next(bytes, len, &offset, &frame, word, len, &needed)) ==
           CURDMESA_OK) {
        if (items == 0) {
            left_len = (size_t)frame.item_offset;
            memcpy(left, bytes, left_len);
        }
        uint32_t kind = CURDMESA_ITEM_UNKNOWN;
        wanted((curdmesa_item_of_word(word, (size_t)needed, &kind) == CURDMESA_OK) ==
                   (frame.kind < CURDMESA_ITEMS),
               "a word");
        wanted(kind == frame.kind, "the word's kind");
        wanted(frame.item_offset + frame.item_length == offset && offset <= len, "items go on");
        wanted(frame.item_offset <= frame.header_offset &&
                   frame.header_offset + frame.header_length <= frame.payload_offset &&
                   frame.payload_offset + frame.payload_length <= offset,
               "in order");
        if (items % 2 == 0) {
            memcpy(left + left_len, bytes + frame.item_offset, (size_t)frame.item_length);
            left_len += (size_t)frame.item_length;
        }
        adds(losses, bytes, &frame);
        items++;
    }
    if (status == CURDMESA_NOTHING_LEFT) {
        sums_agree(losses, bytes, len);
        forwards(bytes, len, left, left_len, items);
    } else
        wanted(curdmesa_envelope_losses(bytes, len, losses, CURDMESA_LOSSES) == status,
               "the same refusal");
    free(word);
    free(left);
    free(losses);
    return status;
}

/* What is lost with an envelope is recorded, reported in an item and put back; and the ledger is
 * read back from its bytes. */
static void records(const uint8_t *bytes, size_t len, int32_t framed) {
    uint64_t *ledger = (uint64_t *)(void *)block(CURDMESA_LEDGER * sizeof(uint64_t));
    uint64_t *read = (uint64_t *)(void *)block(CURDMESA_LEDGER * sizeof(uint64_t));
    uint64_t needed = 0, refused = 0;
    int32_t status = curdmesa_ledger_record_envelope(ledger, CURDMESA_LEDGER, bytes, len,
                                                     CURDMESA_REASON_SEND_ERROR, &refused);
    wanted(status == (framed == CURDMESA_NOTHING_LEFT ? CURDMESA_OK : framed), "recorded");
    uint8_t *kept = block(CURDMESA_LEDGER_BYTES);
    wanted(curdmesa_ledger_write(ledger, CURDMESA_LEDGER, kept, CURDMESA_LEDGER_BYTES, &needed) ==
               CURDMESA_OK,
           "a ledger written");
    wanted(curdmesa_ledger_read(kept, CURDMESA_LEDGER_BYTES, read, CURDMESA_LEDGER) == CURDMESA_OK,
           "a ledger read");
    wanted(memcmp(ledger, read, CURDMESA_LEDGER * sizeof *read) == 0, "the same ledger");
    if (curdmesa_ledger_read(bytes, len, read, CURDMESA_LEDGER) == CURDMESA_OK)
        wanted(curdmesa_ledger_write(read, CURDMESA_LEDGER, kept, CURDMESA_LEDGER_BYTES,
                                     &needed) == CURDMESA_OK &&
                   needed == len && memcmp(kept, bytes, len) == 0,
               "the bytes of a ledger");
    uint8_t *item = block(16384);
    memcpy(item, "{}\n", 3);
    memcpy(read, ledger, CURDMESA_LEDGER * sizeof *read);
    status = curdmesa_ledger_flush_item(ledger, CURDMESA_LEDGER, 5, 0, item + 3, 16381, &needed);
    wanted(status == CURDMESA_OK || status == CURDMESA_NOTHING_LEFT, "reported");
    if (status == CURDMESA_OK)
        wanted(curdmesa_ledger_record_envelope(ledger, CURDMESA_LEDGER, item, (size_t)needed + 3, 0,
                                               &refused) == CURDMESA_OK &&
                   refused == 0,
               "put back");
    wanted(memcmp(ledger, read, CURDMESA_LEDGER * sizeof *read) == 0, "the same losses");
    free(item);
    free(kept);
    free(read);
    free(ledger);
}

/* Counts the items, and tells the last. */
static size_t count(const uint8_t *bytes, size_t len, CurdmesaAnyFrame *frame) {
    uint64_t offset = 0, needed;
    uint8_t *word = block(len);
    size_t items = 0;
    int32_t status;
    while ((status = curdmesa_any_frames_next(bytes, len, &offset, frame, word, len, &needed)) ==
           CURDMESA_OK)
        items++;
    wanted(status == CURDMESA_NOTHING_LEFT, "all items");
    free(word);
    return items;
}

/* Any bytes as the payload of an item behind any bytes, and as its header. */
static void appends(const uint8_t *bytes, size_t len, int32_t items) {
    static const uint8_t header[] = "{\"type\":\"x\"}";
    size_t room = 2 * len + 64;
    uint64_t needed = 0;
    uint8_t *out = block(room);
    CurdmesaAnyFrame before = {0}, frame = {0};
    int32_t status = curdmesa_envelope_append(bytes, len, header, sizeof header - 1, bytes, len, out,
                                              room, &needed);
    wanted(status == (items == CURDMESA_NOTHING_LEFT ? CURDMESA_OK : items), "appended");
    if (status == CURDMESA_OK) {
        wanted(memcmp(out, bytes, len) == 0, "nothing before the item changes");
        wanted(count(out, (size_t)needed, &frame) == count(bytes, len, &before) + 1, "one more");
        wanted(frame.payload_length == len &&
                   memcmp(out + frame.payload_offset, bytes, len) == 0,
               "its payload");
    }
    const CurdmesaPair lengths = {len, 0};
    status = curdmesa_envelope_make((const uint8_t *)"{}", 2, bytes, len, &lengths, 1, out, room,
                                    &needed);
    wanted(status == CURDMESA_INVALID_ITEM_HEADER ||
               (status == CURDMESA_OK && count(out, (size_t)needed, &frame) == 1 &&
                frame.payload_length == 0),
           "made");
    free(out);
}

/* Any bytes as the small texts whose calls have no parts that the tests don't ask. */
static void texts(const uint8_t *bytes, size_t len) {
    uint64_t needed = 0;
    CurdmesaAuth auth;
    memset(&auth, 0, sizeof auth);
    uint32_t number = 0;
    uint8_t *none = block(0), *out;
    int32_t status = curdmesa_auth_from_query(bytes, len, none, 0, &needed, &auth);
    if (status == CURDMESA_NO_ROOM) {
        out = block((size_t)needed);
        wanted(curdmesa_auth_from_query(bytes, len, out, (size_t)needed, &needed, &auth) ==
                   CURDMESA_OK,
               "the same authentication with room");
        wanted(auth.public_key.length > 0 &&
                   auth.public_key.offset + auth.public_key.length <= needed,
               "a key within");
        free(out);
    }
    curdmesa_dsn_envelope_url(bytes, len, none, 0, &needed);
    curdmesa_dsn_auth(bytes, len, 5, 0, bytes, len, none, 0, &needed);
    curdmesa_json_text(bytes, len, none, 0, &needed);
    curdmesa_category_of_word(bytes, len, &number);
    curdmesa_reason_of_word(bytes, len, &number);
    free(none);
}

/* Any bytes as rate limits: no end comes earlier, and all are held by a second time. */
static void limits(const uint8_t *bytes, size_t len) {
    uint64_t *held = (uint64_t *)(void *)block(CURDMESA_LIMITS * sizeof(uint64_t));
    uint64_t before[CURDMESA_LIMITS], end = 0;
    for (int i = 0; i < CURDMESA_LIMITS; i++)
        before[i] = held[i] = 1595256640 + 60 * (uint64_t)i;
    int32_t status = curdmesa_limits_update(held, CURDMESA_LIMITS, bytes, len, 1595256674, 5);
    wanted(curdmesa_limits_retry_after(held, CURDMESA_LIMITS, bytes, len, 1595256674, 5) == status,
           "both read UTF-8");
    for (uint32_t i = 0; i < CURDMESA_CATEGORIES; i++) {
        wanted(held[i + 1] >= before[i + 1] && held[0] >= before[0], "no earlier end");
        wanted(curdmesa_limits_category_end(held, CURDMESA_LIMITS, i, &end) == CURDMESA_OK &&
                   end >= held[0] && end >= held[i + 1],
               "the later end");
    }
    memcpy(before, held, sizeof before);
    curdmesa_limits_update(held, CURDMESA_LIMITS, bytes, len, 1595256674, 5);
    curdmesa_limits_retry_after(held, CURDMESA_LIMITS, bytes, len, 1595256674, 5);
    wanted(memcmp(before, held, sizeof before) == 0, "twice is once");
    free(held);
}

/* A measure counts the frames of any type. */
static void measures(const uint8_t *bytes, size_t len, int32_t status) {
    uint64_t items[CURDMESA_MEASURES] = {0}, sizes[CURDMESA_MEASURES] = {0}, longest = 0;
    uint64_t offset = 0, needed, due = 0;
    CurdmesaAnyFrame frame = {0};
    int32_t got = curdmesa_envelope_measure(bytes, len, items, CURDMESA_MEASURES, sizes,
                                            CURDMESA_MEASURES, &longest);
    wanted(got == (status == CURDMESA_NOTHING_LEFT ? CURDMESA_OK : status), "measured");
    if (got != CURDMESA_OK)
        return;
    uint8_t *word = block(len);
    while (curdmesa_any_frames_next(bytes, len, &offset, &frame, word, len, &needed) ==
           CURDMESA_OK) {
        uint32_t kind = frame.kind < CURDMESA_ITEMS ? frame.kind : CURDMESA_ITEMS;
        items[kind]--;
        sizes[kind] -= frame.payload_length;
        due = frame.payload_length > due ? frame.payload_length : due;
    }
    for (int i = 0; i < CURDMESA_MEASURES; i++)
        wanted(items[i] == 0 && sizes[i] == 0, "all items and bytes");
    wanted(longest == due, "the longest payload");
    free(word);
}

static void filters(const uint8_t *bytes, size_t len, uint32_t kinds, bool keep) {
    uint64_t needed = 0, *losses = (uint64_t *)(void *)block(CURDMESA_LOSSES * sizeof(uint64_t));
    uint8_t *out = block(len + 512);
    int32_t status = curdmesa_envelope_filter(bytes, len, 1595256674, 0, 42, kinds, keep, !keep,
                                              out, len + 512, &needed, losses, CURDMESA_LOSSES);
    wanted(status != CURDMESA_INVALID_ARGUMENT && status != CURDMESA_NO_MOMENT, "filtered");
    if (status == CURDMESA_OK)
        is_steady(out, (size_t)needed);
    free(out);
    free(losses);
}

/* Faults are told exactly where the check refuses, in the bytes. */
static void explains(const uint8_t *bytes, size_t len, int32_t due) {
    uint64_t count = 0, needed = 0, again = 0;
    int32_t error = -1;
    CurdmesaFault faults[4];
    uint8_t *none = block(0);
    int32_t status = curdmesa_envelope_explain(bytes, len, 1595256674, 0, faults, 4, &count, &error,
                                               none, 0, &needed);
    free(none);
    wanted(status == (needed == 0 ? CURDMESA_OK : CURDMESA_NO_ROOM), "explained");
    wanted(error == due && (count == 0) == (due == CURDMESA_OK), "a fault where it is refused");
    uint8_t *out = block((size_t)needed);
    status = curdmesa_envelope_explain(bytes, len, 1595256674, 0, faults, 4, &count, &error, out,
                                       (size_t)needed, &again);
    wanted(status == CURDMESA_OK && again == needed, "the same faults with room");
    for (uint64_t i = 0; i < count && i < 4; i++) {
        const CurdmesaFault *fault = &faults[i];
        wanted(fault->start <= fault->end && fault->end <= len, "an item within");
        wanted(fault->misfit.start <= fault->misfit.end && fault->misfit.end <= len, "within");
        wanted(fault->message.length > 0 &&
                   fault->message.offset + fault->message.length <= needed,
               "a line");
    }
    free(out);
}

/* What is shown says whether the check accepts. */
static void shows(const uint8_t *bytes, size_t len, int32_t due) {
    uint64_t needed = 0, again = 0;
    uint8_t *none = block(0);
    int32_t status = curdmesa_envelope_show_json(bytes, len, none, 0, &needed);
    free(none);
    wanted(status == CURDMESA_NO_ROOM, "an object");
    uint8_t *out = block((size_t)needed + 1);
    status = curdmesa_envelope_show_json(bytes, len, out, (size_t)needed, &again);
    wanted(status == CURDMESA_OK && again == needed, "the same object with room");
    out[needed] = 0;
    const char *accepted = strstr((const char *)out, "\"accepted\":");
    wanted(accepted && (accepted[11] == 't') == (due == CURDMESA_OK), "the verdict of the check");
    free(out);
}

/* What mending writes is steady, and reads; the notes are in order. */
static void mends(const uint8_t *bytes, size_t len, uint32_t repairs, int32_t due) {
    uint64_t count = 0, needed = 0, envelope_len = 0, behind = 0;
    int32_t error = -1;
    CurdmesaNote notes[8];
    uint8_t *none = block(0);
    int32_t status = curdmesa_envelope_mend(bytes, len, 1595256674, 0, 42, repairs, len & 1, notes,
                                            8, &count, &error, &envelope_len, none, 0, &needed);
    free(none);
    if (status == CURDMESA_INVALID_HEADER) {
        wanted(due == CURDMESA_INVALID_HEADER, "a header line that is refused");
        return;
    }
    wanted(status == CURDMESA_NO_ROOM && error == due, "mended");
    uint8_t *out = block((size_t)needed);
    status = curdmesa_envelope_mend(bytes, len, 1595256674, 0, 42, repairs, len & 1, notes, 8,
                                    &count, &error, &envelope_len, out, (size_t)needed, &needed);
    wanted(status == CURDMESA_OK && envelope_len <= needed, "the same with room");
    is_steady(out, (size_t)envelope_len);
    for (uint64_t i = 0; i < count && i < 8; i++) {
        wanted(behind <= notes[i].start && notes[i].start <= notes[i].end, "in order");
        behind = notes[i].end;
    }
    wanted(behind <= len, "within");
    free(out);
}

/* The texts of the header line stand within what is written, if the envelope's header reads. */
static void headers(const uint8_t *bytes, size_t len, int32_t due) {
    uint64_t needed = 0, again = 0;
    CurdmesaHeader header;
    uint8_t *none = block(0);
    int32_t status = curdmesa_envelope_header(bytes, len, none, 0, &needed, &header);
    free(none);
    wanted((status == CURDMESA_INVALID_HEADER) == (due == CURDMESA_INVALID_HEADER), "a header");
    uint8_t *out = block((size_t)needed);
    if (status != CURDMESA_INVALID_HEADER) {
        status = curdmesa_envelope_header(bytes, len, out, (size_t)needed, &again, &header);
        wanted(status == CURDMESA_OK && again == needed, "the same texts with room");
        const CurdmesaPlace places[] = {
            header.event_id,         header.dsn,           header.sdk_name,
            header.sdk_version,      header.trace.trace_id, header.trace.public_key,
            header.trace.release,    header.trace.environment,
            header.trace.transaction};
        uint64_t sum = 0;
        for (size_t i = 0; i < sizeof places / sizeof places[0]; i++) {
            wanted(places[i].offset + places[i].length <= needed, "a text within");
            sum += places[i].length;
        }
        wanted(sum == needed, "no other text");
    }
    free(out);
}

int LLVMFuzzerTestOneInput(const uint8_t *data, size_t size) {
    uint8_t *bytes = block(size);
    if (size)
        memcpy(bytes, data, size);
    int32_t status;
    size_t len = 0;
    uint8_t *text = normal_form(bytes, size, &len, &status);
    wanted(curdmesa_envelope_check(bytes, size, 1595256674, 0) == status,
           "check and normalize");
    int32_t framed = frames_stand(bytes, size), items = items_stand(bytes, size);
    records(bytes, size, items);
    texts(bytes, size);
    limits(bytes, size);
    measures(bytes, size, items);
    explains(bytes, size, status);
    shows(bytes, size, status);
    mends(bytes, size, (uint32_t)(size % 3), status);
    appends(bytes, size, items);
    headers(bytes, size, status);
    if (text) {
        is_steady(text, len);
        wanted(framed == CURDMESA_NOTHING_LEFT, "an envelope's frames");
        wanted(items == CURDMESA_NOTHING_LEFT, "an envelope's items");
        filters(bytes, size, (uint32_t)(size % (1u << CURDMESA_ITEMS)), size & 1);
    }
    free(text);
    free(bytes);
    return 0;
}
