/*
 * Curdmesa: Sentry envelopes, DSNs, auth headers and client reports, for callers in C and C++.
 *
 * Every function is stateless: there is no global state and no handle. What a call returns depends
 * on its arguments alone, and on whether memory could be allocated; ids that are absent from an
 * envelope are drawn from a generator seeded with `seed`. Functions may be called from several
 * threads at once, as long as no two running calls share memory that one of them writes.
 *
 * What a caller owes to every function:
 *
 * - No pointer is null, not even with length 0.
 * - A pointer is aligned for its type, and points to as many elements as the length beside it says,
 *   or to one element without a length. A length in bytes is at most PTRDIFF_MAX.
 * - What a function writes (every parameter that isn't const) overlaps none of its other
 *   parameters.
 * - What a function reads is set: what its const parameters point to, `*offset` and a ledger. What
 *   it only writes needn't be, such as `out`, `*needed`, structs and losses. A bool is 0 or 1.
 * - Functions aren't called from a signal handler, and in the forked child of a process with threads
 *   only where malloc may be called there: glibc's may, though POSIX doesn't promise it. Each calls
 *   malloc, realloc and free of the program, and keeps nothing allocated.
 * - There are 128 KiB of stack: as measured, an envelope whose JSON nests as deep as it may takes
 *   96. What memory a call takes grows with the input, as measured up to 165 times its length:
 *   limit the length of what you hand in.
 *
 * Buffers: a function with `out`, `out_len` and `needed` writes a text of `*needed` bytes, without
 * a terminating zero byte, to the front of `out`, and leaves the rest of `out` as it was. If the
 * text is longer than `out_len`, the status is CURDMESA_NO_ROOM: `*needed` is the length of the
 * text and `out` is unchanged. The call can be repeated with more room; with the same arguments it
 * gives the same text. With any other status but CURDMESA_OK `*needed` is 0 and `out` is unchanged.
 *
 * Link libcurdmesa, as `pkg-config --cflags --libs curdmesa` tells. It divides integers of 128 bits
 * by `__udivti3`, which `cc` takes from libgcc or compiler-rt by itself. With -nostdlib, or where
 * the linker is called directly, add -lgcc after libcurdmesa.a; memcpy, memmove, memset, malloc,
 * realloc and free are the program's then.
 */
#ifndef CURDMESA_H
#define CURDMESA_H

#include <stdbool.h>
#include <stddef.h>
#include <stdint.h>

#ifdef __cplusplus
extern "C" {
#endif

/* ---- the version --------------------------------------------------------------------------- */

/* The version of this header: 1,000,000 for each major version, 1,000 for each minor one, and 1 for
 * each patch. */
#define CURDMESA_VERSION 2000
#define CURDMESA_VERSION_TEXT "0.2.0"

/* Returns the version of the library. It is CURDMESA_VERSION, if both are of one release. */
uint32_t curdmesa_version(void);

/* ---- statuses ------------------------------------------------------------------------------ */

/* What every function below returns. */
enum {
    /* Done; all results are set. */
    CURDMESA_OK = 0,
    /* The text is longer than `out`, which is unchanged; `*needed` is set, the losses of the calls
     * that filter or forward, and the numbers of those that explain or mend. */
    CURDMESA_NO_ROOM = 1,
    /* No such moment: past the year 9999, or 10^9 nanoseconds or more. */
    CURDMESA_NO_MOMENT = 2,
    /* The text isn't UTF-8. */
    CURDMESA_NOT_UTF8 = 3,
    /* The text isn't a timestamp, isn't a crontab schedule, or isn't a known word; or the bytes
     * aren't a ledger's. */
    CURDMESA_INVALID_TEXT = 4,
    /* A number, an offset, an answer or the length of a table is out of range. */
    CURDMESA_INVALID_ARGUMENT = 5,
    /* No item is left; or the ledger holds no loss. */
    CURDMESA_NOTHING_LEFT = 6,
    /* The sum would exceed 2^64-1. */
    CURDMESA_LEDGER_FULL = 7,

    /* The bytes are no envelope: the first check that fails. */

    /* Only white space is left where an item is expected, or fewer bytes than an item header
     * states. */
    CURDMESA_UNEXPECTED_EOF = 10,
    /* Never returned: an empty header line is CURDMESA_INVALID_HEADER. */
    CURDMESA_MISSING_HEADER = 11,
    /* Never returned: bytes that are no item header are CURDMESA_INVALID_ITEM_HEADER. */
    CURDMESA_MISSING_ITEM_HEADER = 12,
    /* An item header, or a payload of a stated length, is followed by anything but a line feed or
     * the end. */
    CURDMESA_MISSING_NEWLINE = 13,
    /* The first line isn't one JSON object without floats that reads as envelope headers. */
    CURDMESA_INVALID_HEADER = 14,
    /* An item doesn't begin with a JSON object without floats that reads as an item header. */
    CURDMESA_INVALID_ITEM_HEADER = 15,
    /* A payload isn't one JSON text without floats that reads as its item type. */
    CURDMESA_INVALID_ITEM_PAYLOAD = 16,
    /* An allocation failed, in any function; nothing is known of the input. */
    CURDMESA_OUT_OF_MEMORY = 17,

    /* The text is no DSN: the first check that fails, in this order: no URL (20), the path (23),
     * the project id (24), the user name (22), the scheme (21), no host (20). */

    /* No URL, or a URL without a host. */
    CURDMESA_DSN_INVALID_URL = 20,
    /* The scheme is neither http nor https. */
    CURDMESA_DSN_INVALID_SCHEME = 21,
    /* No user name, which is the public key. */
    CURDMESA_DSN_NO_USERNAME = 22,
    /* The path is "/". */
    CURDMESA_DSN_NO_PROJECT_ID = 23,
    /* The project id is empty. */
    CURDMESA_DSN_INVALID_PROJECT_ID = 24,

    /* The text is no client authentication: the first check that fails. */

    /* The text doesn't begin with the word "sentry", in any ASCII case. */
    CURDMESA_AUTH_NON_SENTRY = 30,
    /* A sentry_version, up to its first '.', isn't a whole number of 16 bits. */
    CURDMESA_AUTH_INVALID_VERSION = 31,
    /* The public key (sentry_key) is absent or empty. */
    CURDMESA_AUTH_MISSING_PUBLIC_KEY = 32
};

/*
 * Writes what a status means to `out`, in English, such as "the text isn't UTF-8".
 *
 * CURDMESA_OK, CURDMESA_NO_ROOM, CURDMESA_INVALID_ARGUMENT if no status has the number.
 */
int32_t curdmesa_status_text(int32_t status, uint8_t *out, size_t out_len, uint64_t *needed);

/* ---- envelopes ----------------------------------------------------------------------------- */

/* Item types: the number of an item in CurdmesaFrame and CurdmesaAnyFrame, and its bit in the
 * filter's `kinds`. */
enum {
    CURDMESA_ITEM_EVENT = 0,
    CURDMESA_ITEM_SESSION = 1,
    CURDMESA_ITEM_SESSIONS = 2,
    CURDMESA_ITEM_TRANSACTION = 3,
    CURDMESA_ITEM_ATTACHMENT = 4,
    CURDMESA_ITEM_CHECK_IN = 5,
    CURDMESA_ITEM_USER_REPORT = 6,
    CURDMESA_ITEM_REPLAY_RECORDING = 7,
    CURDMESA_ITEM_LOG = 8,
    CURDMESA_ITEM_TRACE_METRIC = 9,
    CURDMESA_ITEM_CLIENT_REPORT = 10,
    CURDMESA_ITEMS = 11
};

/* The bit of an item type in the filter's `kinds`. */
#define CURDMESA_KIND(item) ((uint32_t)1 << (item))

/* The number of every other item type in CurdmesaAnyFrame. */
#define CURDMESA_ITEM_UNKNOWN UINT32_MAX

/*
 * Writes the word of an item type to `out`: its `type` in item headers, such as "event".
 *
 * CURDMESA_OK, CURDMESA_NO_ROOM, CURDMESA_INVALID_ARGUMENT if `kind` is 11 or more.
 */
int32_t curdmesa_item_word(uint32_t kind, uint8_t *out, size_t out_len, uint64_t *needed);

/*
 * Sets `*kind` to the number of the item type that a word names; unchanged unless the status is
 * CURDMESA_OK. Doesn't allocate.
 *
 * CURDMESA_OK, CURDMESA_NOT_UTF8, CURDMESA_INVALID_TEXT if no item type has the word.
 */
int32_t curdmesa_item_of_word(const uint8_t *word, size_t word_len, uint32_t *kind);

/*
 * Parses an envelope and writes its normal form to `out`.
 *
 * The moment `now`, in seconds and nanoseconds since 1970-01-01T00:00:00Z, fills absent timestamps;
 * absent ids are drawn from a generator seeded with `seed` alone, so hand in another random number
 * with each envelope.
 *
 * CURDMESA_OK, CURDMESA_NO_ROOM, CURDMESA_NO_MOMENT, CURDMESA_UNEXPECTED_EOF to
 * CURDMESA_OUT_OF_MEMORY.
 */
int32_t curdmesa_envelope_normalize(const uint8_t *bytes, size_t bytes_len, uint64_t now_secs,
                                    uint32_t now_nanos, uint64_t seed, uint8_t *out, size_t out_len,
                                    uint64_t *needed);

/*
 * Parses an envelope, and writes nothing. The parameters are those of curdmesa_envelope_normalize.
 *
 * CURDMESA_OK, CURDMESA_NO_MOMENT, CURDMESA_UNEXPECTED_EOF to CURDMESA_OUT_OF_MEMORY.
 */
int32_t curdmesa_envelope_check(const uint8_t *bytes, size_t bytes_len, uint64_t now_secs,
                                uint32_t now_nanos);

/*
 * Parses an envelope, removes items by their type, and writes what is left to `out`.
 *
 * `kinds` has a bit for each item type (CURDMESA_KIND). With `keep` the items of these types are
 * kept and all others removed; without, the items of these types are removed. An attachment is also
 * removed if no event and no transaction is kept. With `keep_headers` all envelope headers but the
 * event id stay; without, none does. The event id becomes that of the first event or transaction
 * that is left.
 *
 * `losses` has CURDMESA_LOSSES (120) sums: losses[CURDMESA_LOSS(category, reason)] becomes the
 * quantity of a category that is lost with the removed items for a reason, or without a known one
 * (CURDMESA_NO_REASON); a sum stops at 2^64-1. Losses are set with CURDMESA_OK, CURDMESA_NO_ROOM
 * and CURDMESA_NOTHING_LEFT, and unchanged with every other status.
 *
 * CURDMESA_OK, CURDMESA_NO_ROOM, CURDMESA_NO_MOMENT, CURDMESA_INVALID_ARGUMENT if `kinds` has
 * another bit or `losses_len` isn't 120, CURDMESA_NOTHING_LEFT, CURDMESA_UNEXPECTED_EOF to
 * CURDMESA_OUT_OF_MEMORY.
 */
int32_t curdmesa_envelope_filter(const uint8_t *bytes, size_t bytes_len, uint64_t now_secs,
                                 uint32_t now_nanos, uint64_t seed, uint32_t kinds, bool keep,
                                 bool keep_headers, uint8_t *out, size_t out_len, uint64_t *needed,
                                 uint64_t *losses, size_t losses_len);

/* An item of an envelope: places of its header and its payload in the envelope's bytes. */
typedef struct CurdmesaFrame {
    /* The item header, from its '{' to its '}'. */
    uint64_t header_offset;
    uint64_t header_length;
    /* The payload, without the line feeds around it. */
    uint64_t payload_offset;
    uint64_t payload_length;
    /* The item type: CURDMESA_ITEM_EVENT to CURDMESA_ITEM_CLIENT_REPORT. */
    uint32_t kind;
} CurdmesaFrame;

/*
 * Finds the next item of an envelope. Neither the envelope's header line nor payloads are parsed.
 *
 * `*offset` is 0 at first, and afterwards what the call before has set: where the next item
 * begins. With every status but CURDMESA_OK `*offset` and `*frame` are unchanged.
 *
 * CURDMESA_OK, CURDMESA_NOTHING_LEFT after the last item, CURDMESA_INVALID_ARGUMENT if `*offset` is
 * neither 0 nor `bytes_len` nor directly behind a line feed, CURDMESA_UNEXPECTED_EOF,
 * CURDMESA_MISSING_NEWLINE, CURDMESA_INVALID_ITEM_HEADER (also for an unknown item type),
 * CURDMESA_OUT_OF_MEMORY.
 */
int32_t curdmesa_frames_next(const uint8_t *bytes, size_t bytes_len, uint64_t *offset,
                             CurdmesaFrame *frame);

/* ---- items of any type --------------------------------------------------------------------- */

/* An item of any type: places of the item, its header and its payload in the envelope's bytes. */
typedef struct CurdmesaAnyFrame {
    /* All bytes of the item: the white space in front, its header and payload, and the line feeds.
     * An envelope is its header line with the line feed, and the bytes of its items. */
    uint64_t item_offset;
    uint64_t item_length;
    /* The item header, from its '{' to its '}'. */
    uint64_t header_offset;
    uint64_t header_length;
    /* The payload, without the line feeds around it. */
    uint64_t payload_offset;
    uint64_t payload_length;
    /* The item type: CURDMESA_ITEM_EVENT to CURDMESA_ITEM_CLIENT_REPORT, or
     * CURDMESA_ITEM_UNKNOWN. */
    uint32_t kind;
} CurdmesaAnyFrame;

/*
 * Finds the next item of an envelope, of any type, and writes the word of its type to `out`: the
 * string `type` of the item header, unescaped. Payloads aren't parsed, and of item headers only
 * `type` and `length` are read; floats are allowed.
 *
 * `*offset` is 0 at first, and afterwards what the call before has set: where the next item
 * begins. With every status but CURDMESA_OK `*offset` and `*frame` are unchanged.
 *
 * CURDMESA_OK, CURDMESA_NO_ROOM, CURDMESA_NOTHING_LEFT after the last item,
 * CURDMESA_INVALID_ARGUMENT if `*offset` is neither 0 nor `bytes_len` nor directly behind a line
 * feed, CURDMESA_INVALID_HEADER if `*offset` is 0 and the first line isn't one JSON object,
 * CURDMESA_UNEXPECTED_EOF, CURDMESA_MISSING_NEWLINE, CURDMESA_INVALID_ITEM_HEADER,
 * CURDMESA_OUT_OF_MEMORY.
 */
int32_t curdmesa_any_frames_next(const uint8_t *bytes, size_t bytes_len, uint64_t *offset,
                                 CurdmesaAnyFrame *frame, uint8_t *out, size_t out_len,
                                 uint64_t *needed);

/*
 * Forwards an envelope: writes it to `out` without the items that are dropped, byte for byte.
 *
 * `keep` has an answer for each item, in the order of curdmesa_any_frames_next: 1 keeps the item, 0
 * drops it. With `attachments_follow` all attachments are dropped if an event or a transaction is
 * dropped and none is kept.
 *
 * `losses` has CURDMESA_LOSSES (120) sums, and becomes what is lost with the dropped items, as
 * curdmesa_frame_losses tells of each; a sum stops at 2^64-1. Losses are set with CURDMESA_OK,
 * CURDMESA_NO_ROOM and CURDMESA_NOTHING_LEFT, and unchanged with every other status.
 *
 * CURDMESA_OK, CURDMESA_NO_ROOM, CURDMESA_NOTHING_LEFT if no item is left,
 * CURDMESA_INVALID_ARGUMENT if `keep_len` isn't the number of items, an answer is neither 0 nor 1,
 * or `losses_len` isn't 120, CURDMESA_INVALID_HEADER, CURDMESA_UNEXPECTED_EOF,
 * CURDMESA_MISSING_NEWLINE, CURDMESA_INVALID_ITEM_HEADER, CURDMESA_OUT_OF_MEMORY.
 */
int32_t curdmesa_envelope_forward(const uint8_t *bytes, size_t bytes_len, const uint8_t *keep,
                                  size_t keep_len, bool attachments_follow, uint8_t *out,
                                  size_t out_len, uint64_t *needed, uint64_t *losses,
                                  size_t losses_len);

/*
 * Sets `losses` to what is lost if an envelope isn't sent: the sums over all its items, as
 * curdmesa_frame_losses tells of each; a sum stops at 2^64-1. `losses` is unchanged unless the
 * status is CURDMESA_OK.
 *
 * CURDMESA_OK, CURDMESA_INVALID_ARGUMENT if `losses_len` isn't 120, CURDMESA_INVALID_HEADER,
 * CURDMESA_UNEXPECTED_EOF, CURDMESA_MISSING_NEWLINE, CURDMESA_INVALID_ITEM_HEADER,
 * CURDMESA_OUT_OF_MEMORY.
 */
int32_t curdmesa_envelope_losses(const uint8_t *bytes, size_t bytes_len, uint64_t *losses,
                                 size_t losses_len);

/*
 * Sets `losses` to what is lost if an item isn't sent, given its header and its payload. An item
 * that can't be read counts 1 in the category of its type, an attachment the bytes of its payload,
 * and an item of a type without a category nothing. `losses` is unchanged unless the status is
 * CURDMESA_OK.
 *
 * CURDMESA_OK, CURDMESA_INVALID_ARGUMENT if `losses_len` isn't 120, CURDMESA_INVALID_ITEM_HEADER,
 * CURDMESA_OUT_OF_MEMORY.
 */
int32_t curdmesa_frame_losses(const uint8_t *header, size_t header_len, const uint8_t *payload,
                              size_t payload_len, uint64_t *losses, size_t losses_len);

/* ---- making -------------------------------------------------------------------------------- */

/* The lengths of two texts that stand one after the other, in bytes. */
typedef struct CurdmesaPair {
    uint64_t first;
    uint64_t second;
} CurdmesaPair;

/*
 * Makes an envelope of a header line, such as "{}", and items, and writes it to `out`.
 *
 * The header and the payload of each item stand one after the other in `texts`, without anything
 * between them, and `lengths` has the lengths of both. Header line and payloads are written byte for
 * byte, each with a line feed behind it. So are item headers, but one that doesn't state the length
 * of its payload is made to, by a first member "length".
 *
 * CURDMESA_OK, CURDMESA_NO_ROOM, CURDMESA_INVALID_ARGUMENT if the lengths don't add up to
 * `texts_len`, CURDMESA_INVALID_HEADER if the header line isn't one JSON object in one line,
 * CURDMESA_INVALID_ITEM_HEADER if an item header isn't one JSON object with a string "type", without
 * white space around it, or has a "length" that isn't its payload's, CURDMESA_OUT_OF_MEMORY.
 */
int32_t curdmesa_envelope_make(const uint8_t *header, size_t header_len, const uint8_t *texts,
                               size_t texts_len, const CurdmesaPair *lengths, size_t lengths_len,
                               uint8_t *out, size_t out_len, uint64_t *needed);

/*
 * Appends an item to an envelope, and writes the longer envelope to `out`: the bytes of the
 * envelope, a line feed if they don't end with one that ends an item or the header line, and the
 * item as curdmesa_envelope_make writes it. A header line alone is an envelope. The payloads of the
 * envelope aren't parsed, and of item headers only "type" and "length" are read.
 *
 * CURDMESA_OK, CURDMESA_NO_ROOM, CURDMESA_INVALID_HEADER, CURDMESA_UNEXPECTED_EOF,
 * CURDMESA_MISSING_NEWLINE, CURDMESA_INVALID_ITEM_HEADER if a header of the envelope, or that of the
 * item, is refused, CURDMESA_OUT_OF_MEMORY.
 */
int32_t curdmesa_envelope_append(const uint8_t *bytes, size_t bytes_len, const uint8_t *header,
                                 size_t header_len, const uint8_t *payload, size_t payload_len,
                                 uint8_t *out, size_t out_len, uint64_t *needed);

/*
 * Makes an event, and writes the normal form of an envelope with that event alone to `out`.
 *
 * `level` is "fatal", "error", "warning", "info" or "debug"; a text of length 0 is left out, and an
 * event without a level is an error. The key and the value of each tag stand one after the other in
 * `tags`, without anything between them, and `tag_lengths` has the lengths of both; of tags with the
 * same key the last counts. The timestamp is `now`, and the event id is drawn from a generator
 * seeded with `seed` alone: hand in another random number with each event.
 *
 * CURDMESA_OK, CURDMESA_NO_ROOM, CURDMESA_NO_MOMENT, CURDMESA_NOT_UTF8 if a text isn't UTF-8,
 * CURDMESA_INVALID_ARGUMENT if the lengths don't add up to `tags_len`,
 * CURDMESA_INVALID_ITEM_PAYLOAD if the level is none of these words, CURDMESA_OUT_OF_MEMORY.
 */
int32_t curdmesa_event_make(const uint8_t *level, size_t level_len, const uint8_t *message,
                            size_t message_len, const uint8_t *release, size_t release_len,
                            const uint8_t *environment, size_t environment_len,
                            const uint8_t *tags, size_t tags_len, const CurdmesaPair *tag_lengths,
                            size_t tag_lengths_len, uint64_t now_secs, uint32_t now_nanos,
                            uint64_t seed, uint8_t *out, size_t out_len, uint64_t *needed);

/*
 * Writes a text as a JSON string to `out`: in quotes, with the shortest escapes.
 *
 * CURDMESA_OK, CURDMESA_NO_ROOM, CURDMESA_NOT_UTF8, CURDMESA_OUT_OF_MEMORY.
 */
int32_t curdmesa_json_text(const uint8_t *text, size_t text_len, uint8_t *out, size_t out_len,
                           uint64_t *needed);

/* ---- small texts --------------------------------------------------------------------------- */

/* A place in a text: `length` bytes from byte `offset` on. Length 0 where there is no text. */
typedef struct CurdmesaPlace {
    uint64_t offset;
    uint64_t length;
} CurdmesaPlace;

/* The parts of a DSN, as places in the text that was written to `out`. */
typedef struct CurdmesaDsn {
    CurdmesaPlace public_key;
    /* Length 0 if the DSN has no secret key. */
    CurdmesaPlace secret_key;
    CurdmesaPlace host;
    /* The path before the project id, with a slash at both ends. */
    CurdmesaPlace path;
    CurdmesaPlace project_id;
    /* The organization id in a host such as o42.ingest.sentry.io; 0 without `has_org_id`. */
    uint64_t org_id;
    /* The port; defaults to 80 for http and to 443 for https. */
    uint32_t port;
    /* 1 for https, 0 for http. */
    uint32_t is_https;
    /* 1 if the host names an organization, else 0. */
    uint32_t has_org_id;
} CurdmesaDsn;

/*
 * Parses a DSN, writes its printed form to `out`, and sets `*dsn` to its parts.
 *
 * The printed form is the DSN with its URL normalized: the host in lower case, for example, and
 * characters percent-encoded, so parts are places in `out` and not in the given text. `*dsn` is
 * unchanged unless the status is CURDMESA_OK.
 *
 * CURDMESA_OK, CURDMESA_NO_ROOM, CURDMESA_NOT_UTF8, CURDMESA_OUT_OF_MEMORY (also for a URL of 4
 * GB), CURDMESA_DSN_INVALID_URL to CURDMESA_DSN_INVALID_PROJECT_ID.
 */
int32_t curdmesa_dsn_parse(const uint8_t *text, size_t text_len, uint8_t *out, size_t out_len,
                           uint64_t *needed, CurdmesaDsn *dsn);

/*
 * Parses a DSN, and writes the URL of its envelope endpoint to `out`:
 * SCHEME://HOST:PORT/PATH/api/PROJECT_ID/envelope/, without the port if it is the scheme's default.
 *
 * The statuses of curdmesa_dsn_parse.
 */
int32_t curdmesa_dsn_envelope_url(const uint8_t *text, size_t text_len, uint8_t *out,
                                  size_t out_len, uint64_t *needed);

/*
 * Parses a DSN, and writes a client's X-Sentry-Auth header to `out`: the DSN's keys, protocol
 * version 7, the timestamp `now`, and the client's name and version, such as "my-client/1.0";
 * without a client `client_len` is 0.
 *
 * CURDMESA_NO_MOMENT, CURDMESA_NOT_UTF8 also if the client isn't, and the statuses of
 * curdmesa_dsn_parse.
 */
int32_t curdmesa_dsn_auth(const uint8_t *text, size_t text_len, uint64_t now_secs,
                          uint32_t now_nanos, const uint8_t *client, size_t client_len,
                          uint8_t *out, size_t out_len, uint64_t *needed);

/* The parts of client authentication, as places in the text that was written to `out`. */
typedef struct CurdmesaAuth {
    CurdmesaPlace public_key;
    /* Length 0 if there is no secret key, or an empty one: see `has_secret_key`. */
    CurdmesaPlace secret_key;
    /* The client's name and version. Length 0 if there is none, or an empty one. */
    CurdmesaPlace client;
    /* The client's timestamp; 0 without `has_timestamp`: it is absent, or can't be read. */
    uint64_t timestamp_secs;
    uint32_t timestamp_nanos;
    /* The protocol version; 7 if it is absent. */
    uint32_t version;
    /* 1 or 0. */
    uint32_t has_secret_key;
    uint32_t has_client;
    uint32_t has_timestamp;
} CurdmesaAuth;

/*
 * Parses the value of an X-Sentry-Auth header, writes its printed form to `out`, and sets `*auth`
 * to its parts. `*auth` is unchanged unless the status is CURDMESA_OK. A value may have any
 * characters but commas, line ends too, and is printed as it is.
 *
 * CURDMESA_OK, CURDMESA_NO_ROOM, CURDMESA_NOT_UTF8, CURDMESA_OUT_OF_MEMORY,
 * CURDMESA_AUTH_NON_SENTRY to CURDMESA_AUTH_MISSING_PUBLIC_KEY.
 */
int32_t curdmesa_auth_parse(const uint8_t *text, size_t text_len, uint8_t *out, size_t out_len,
                            uint64_t *needed, CurdmesaAuth *auth);

/*
 * Parses client authentication in the query string of a URL, such as
 * "sentry_key=abc&sentry_version=7", as curdmesa_auth_parse does in a header. Keys and values are
 * percent-decoded, with the replacement character in place of what isn't UTF-8.
 *
 * CURDMESA_OK, CURDMESA_NO_ROOM, CURDMESA_OUT_OF_MEMORY, CURDMESA_AUTH_INVALID_VERSION,
 * CURDMESA_AUTH_MISSING_PUBLIC_KEY.
 */
int32_t curdmesa_auth_from_query(const uint8_t *query, size_t query_len, uint8_t *out,
                                 size_t out_len, uint64_t *needed, CurdmesaAuth *auth);

/*
 * Parses an RFC 3339 timestamp: seconds since 1970-01-01T00:00:00Z, and nanoseconds. Both are
 * unchanged unless the status is CURDMESA_OK. Doesn't allocate.
 *
 * CURDMESA_OK, CURDMESA_NOT_UTF8, CURDMESA_INVALID_TEXT, also before 1970 and past the year 9999.
 */
int32_t curdmesa_rfc3339_parse(const uint8_t *text, size_t text_len, uint64_t *secs,
                               uint32_t *nanos);

/*
 * Writes a moment as RFC 3339 in UTC, such as 2020-07-20T14:51:14.296Z, without trailing zeros in
 * the fraction. The text has at most 30 bytes.
 *
 * CURDMESA_OK, CURDMESA_NO_ROOM, CURDMESA_NO_MOMENT, CURDMESA_OUT_OF_MEMORY.
 */
int32_t curdmesa_rfc3339_format(uint64_t secs, uint32_t nanos, uint8_t *out, size_t out_len,
                                uint64_t *needed);

/*
 * Checks that a text is a crontab schedule of five fields. Doesn't allocate.
 *
 * CURDMESA_OK, CURDMESA_NOT_UTF8, CURDMESA_INVALID_TEXT.
 */
int32_t curdmesa_crontab_check(const uint8_t *text, size_t text_len);

/* ---- envelope headers ---------------------------------------------------------------------- */

/* The dynamic sampling context of a trace, with texts as places in the text that was written to
 * `out`. What is absent is 0 and has length 0. */
typedef struct CurdmesaTrace {
    /* 32 hex digits in lower case. */
    CurdmesaPlace trace_id;
    /* The public key of the DSN that the trace is sent to. */
    CurdmesaPlace public_key;
    CurdmesaPlace release;
    CurdmesaPlace environment;
    /* The transaction name. */
    CurdmesaPlace transaction;
    /* In billionths: 10^9 is a rate of 1. */
    uint64_t sample_rate;
    /* The random value that the sample rate is compared with, in billionths. */
    uint64_t sample_rand;
    uint64_t org_id;
    /* 1 or 0. */
    uint32_t sampled;
    uint32_t has_trace_id;
    uint32_t has_public_key;
    uint32_t has_release;
    uint32_t has_environment;
    uint32_t has_transaction;
    uint32_t has_sample_rate;
    uint32_t has_sample_rand;
    uint32_t has_org_id;
    uint32_t has_sampled;
} CurdmesaTrace;

/* The members of an envelope's header line, with texts as places in the text that was written to
 * `out`. What is absent is 0 and has length 0. */
typedef struct CurdmesaHeader {
    /* Hyphenated, in lower case. */
    CurdmesaPlace event_id;
    /* The printed form of the DSN, which curdmesa_dsn_parse takes apart. */
    CurdmesaPlace dsn;
    /* Name and version of the SDK that sends the envelope. */
    CurdmesaPlace sdk_name;
    CurdmesaPlace sdk_version;
    CurdmesaTrace trace;
    /* The time of sending. */
    uint64_t sent_at_secs;
    uint32_t sent_at_nanos;
    /* 1 or 0. */
    uint32_t has_event_id;
    uint32_t has_dsn;
    uint32_t has_sdk;
    uint32_t has_sent_at;
    uint32_t has_trace;
} CurdmesaHeader;

/*
 * Parses the header line of an envelope, writes the texts in it to `out`, and sets `*header` to its
 * members. `*header` is unchanged unless the status is CURDMESA_OK. Members of other keys are
 * ignored, and what stands behind the header line isn't parsed.
 *
 * CURDMESA_OK, CURDMESA_NO_ROOM, CURDMESA_INVALID_HEADER, CURDMESA_OUT_OF_MEMORY.
 */
int32_t curdmesa_envelope_header(const uint8_t *bytes, size_t bytes_len, uint8_t *out,
                                 size_t out_len, uint64_t *needed, CurdmesaHeader *header);

/* ---- faults and repairs -------------------------------------------------------------------- */

/* The index of the header line in CurdmesaFault, which is no item. */
#define CURDMESA_HEADER_LINE UINT64_MAX

/* What a fault of CurdmesaFault is. */
enum {
    /* The framing is at fault, or no single place inside the item or the header line. */
    CURDMESA_CAUSE_WHOLE = 0,
    /* The text isn't JSON: `misfit.start` is the byte at which it breaks. */
    CURDMESA_CAUSE_SYNTAX = 1,
    /* A value inside doesn't fit. */
    CURDMESA_CAUSE_PLACE = 2
};

/* What a repair of CurdmesaNote did. */
enum {
    /* A number of seconds became an RFC 3339 string, cut to nanoseconds. */
    CURDMESA_REPAIR_AS_MOMENT = 0,
    /* A value became a string of its own characters. */
    CURDMESA_REPAIR_AS_TEXT = 1,
    /* The type of an attribute became `string`, beside a value that became a string. */
    CURDMESA_REPAIR_AS_STRING_TYPE = 2,
    /* An empty array was put where a required array is absent or doesn't fit. */
    CURDMESA_REPAIR_AS_EMPTY_LIST = 3,
    /* A member or an item of an array was taken out. */
    CURDMESA_REPAIR_TAKEN_OUT = 4,
    /* The event id of the envelope header was put. */
    CURDMESA_REPAIR_HEADER_ID = 5,
    /* `length` in the item header became the size of the repaired payload. */
    CURDMESA_REPAIR_LENGTH = 6,
    /* An item that can't be repaired was left out of the envelope. */
    CURDMESA_REPAIR_LEFT = 7
};

/* Which repairs curdmesa_envelope_mend may make. */
enum {
    /* None: items that don't read are left out. */
    CURDMESA_REPAIRS_STRICT = 0,
    /* Those that lose nothing but form: values become strings, an absent or null array becomes an
     * empty one, null members are taken out. */
    CURDMESA_REPAIRS_FORM = 1,
    /* All: what still doesn't fit is taken out, the smallest such part. */
    CURDMESA_REPAIRS_ALL = 2
};

/* A value that doesn't fit: its bytes in the envelope, and texts in `out` about it. */
typedef struct CurdmesaMisfit {
    /* The value's bytes, from `start` up to `end`. Of an absent value both are at the bracket that
     * ends its object; of broken JSON both are the byte at which it breaks. */
    uint64_t start;
    uint64_t end;
    /* Keys and indices that lead to the value, such as exception.values[0].type. */
    CurdmesaPlace path;
    /* What reads there, such as "an RFC 3339 string"; of broken JSON what is expected there. */
    CurdmesaPlace wanted;
    /* The JSON type of what stands there, such as "decimal", or "absent". */
    CurdmesaPlace found;
    /* The number or boolean that stands there, its first 40 characters. */
    CurdmesaPlace value;
} CurdmesaMisfit;

/* A fault of an envelope: the check that fails, and where. */
typedef struct CurdmesaFault {
    /* Index of the item, or CURDMESA_HEADER_LINE. */
    uint64_t item;
    /* The bytes of the item, or of the header line, from `start` up to `end`. */
    uint64_t start;
    uint64_t end;
    /* What doesn't fit; with CURDMESA_CAUSE_WHOLE all bytes from `start` up to `end`. */
    CurdmesaMisfit misfit;
    /* Item type; length 0 if it can't be read. */
    CurdmesaPlace word;
    /* The fault in a line. */
    CurdmesaPlace message;
    /* The first check of the item that fails, as if it stood alone: CURDMESA_UNEXPECTED_EOF to
     * CURDMESA_INVALID_ITEM_PAYLOAD. */
    int32_t error;
    /* CURDMESA_CAUSE_WHOLE to CURDMESA_CAUSE_PLACE. */
    uint32_t cause;
} CurdmesaFault;

/*
 * Tells why curdmesa_envelope_check refuses an envelope: every fault in order, of the header line
 * and then item by item, at most 1,000 of an item.
 *
 * `*error` becomes CURDMESA_OK if the bytes are an envelope, else the status of the first check
 * that fails; `*count` the number of faults, 0 with CURDMESA_OK. The first `faults_len` of them are
 * written to `faults`, and their texts to `out`. With CURDMESA_NO_ROOM `*error` and `*count` are
 * set too, and `faults` is unchanged; with every other status all three are unchanged.
 *
 * CURDMESA_OK, CURDMESA_NO_ROOM, CURDMESA_NO_MOMENT, CURDMESA_OUT_OF_MEMORY.
 */
int32_t curdmesa_envelope_explain(const uint8_t *bytes, size_t bytes_len, uint64_t now_secs,
                                  uint32_t now_nanos, CurdmesaFault *faults, size_t faults_len,
                                  uint64_t *count, int32_t *error, uint8_t *out, size_t out_len,
                                  uint64_t *needed);

/*
 * Writes a JSON object to `out` that tells what is known of an envelope: whether
 * curdmesa_envelope_check accepts it, the type, the verdict and the bytes of each item, its faults
 * and its header, what would be lost if all items were dropped, and what its events and
 * transactions say. A refused envelope is shown up to the first item that can't be split off.
 *
 * CURDMESA_OK, CURDMESA_NO_ROOM, CURDMESA_OUT_OF_MEMORY.
 */
int32_t curdmesa_envelope_show_json(const uint8_t *bytes, size_t bytes_len, uint8_t *out,
                                    size_t out_len, uint64_t *needed);

/* A change of an envelope: some bytes, and what stands there instead. */
typedef struct CurdmesaNote {
    /* Index of the item. */
    uint64_t item;
    /* The bytes that are replaced, from `start` up to `end`. */
    uint64_t start;
    uint64_t end;
    /* The value that was repaired. */
    CurdmesaMisfit misfit;
    /* The bytes that stand there instead. */
    CurdmesaPlace instead;
    /* Item type; length 0 if it can't be read, or the item is read as it stands. */
    CurdmesaPlace word;
    /* The note in a line; with CURDMESA_REPAIR_LEFT the item's fault. */
    CurdmesaPlace message;
    /* The first check of the item that fails as it stands: CURDMESA_UNEXPECTED_EOF to
     * CURDMESA_INVALID_ITEM_PAYLOAD, or CURDMESA_OK if only the header's id was put. */
    int32_t error;
    /* CURDMESA_REPAIR_AS_MOMENT to CURDMESA_REPAIR_LEFT. */
    uint32_t repair;
} CurdmesaNote;

/*
 * Parses an envelope item by item: where an item is refused, the least is changed that lets it
 * read, and an item that can't be repaired is left out. `repairs` is CURDMESA_REPAIRS_STRICT to
 * CURDMESA_REPAIRS_ALL; with `header_event_id` an event or a transaction without an id takes that
 * of the envelope header. An item that needs more than 10,000 notes is left out.
 *
 * The normal form of the envelope is written to `out`, and has `*envelope_len` bytes; behind it
 * stand the texts of the notes. `*count` becomes the number of notes; the first `notes_len` of them
 * are written to `notes`, in the order of their bytes. `*error` becomes CURDMESA_OK if the bytes
 * are an envelope as they stand, else the status of the first check that fails. With
 * CURDMESA_NO_ROOM `*envelope_len`, `*count` and `*error` are set too, and `notes` is unchanged;
 * with every other status all four are unchanged. `now` and `seed` are those of
 * curdmesa_envelope_normalize.
 *
 * CURDMESA_OK, CURDMESA_NO_ROOM, CURDMESA_NO_MOMENT, CURDMESA_INVALID_ARGUMENT if `repairs` is 3 or
 * more, CURDMESA_INVALID_HEADER if the header line is refused, CURDMESA_OUT_OF_MEMORY.
 */
int32_t curdmesa_envelope_mend(const uint8_t *bytes, size_t bytes_len, uint64_t now_secs,
                               uint32_t now_nanos, uint64_t seed, uint32_t repairs,
                               bool header_event_id, CurdmesaNote *notes, size_t notes_len,
                               uint64_t *count, int32_t *error, uint64_t *envelope_len,
                               uint8_t *out, size_t out_len, uint64_t *needed);

/* ---- losses and the ledger ----------------------------------------------------------------- */

/* Data categories of client reports. */
enum {
    CURDMESA_CATEGORY_ERROR = 0,
    CURDMESA_CATEGORY_SESSION = 1,
    CURDMESA_CATEGORY_TRANSACTION = 2,
    CURDMESA_CATEGORY_SPAN = 3,
    CURDMESA_CATEGORY_ATTACHMENT = 4,
    CURDMESA_CATEGORY_MONITOR = 5,
    CURDMESA_CATEGORY_LOG_ITEM = 6,
    CURDMESA_CATEGORY_LOG_BYTE = 7,
    CURDMESA_CATEGORY_TRACE_METRIC = 8,
    CURDMESA_CATEGORY_TRACE_METRIC_BYTE = 9,
    CURDMESA_CATEGORY_FEEDBACK = 10,
    CURDMESA_CATEGORY_REPLAY = 11,
    CURDMESA_CATEGORIES = 12
};

/* Discard reasons of client reports. */
enum {
    CURDMESA_REASON_SEND_ERROR = 0,
    CURDMESA_REASON_INTERNAL_SDK_ERROR = 1,
    CURDMESA_REASON_NETWORK_ERROR = 2,
    CURDMESA_REASON_RATELIMIT_BACKOFF = 3,
    CURDMESA_REASON_QUEUE_OVERFLOW = 4,
    CURDMESA_REASON_BUFFER_OVERFLOW = 5,
    CURDMESA_REASON_EVENT_PROCESSOR = 6,
    CURDMESA_REASON_BEFORE_SEND = 7,
    CURDMESA_REASON_SAMPLE_RATE = 8,
    CURDMESA_REASONS = 9,
    /* In losses: no reason is known. */
    CURDMESA_NO_REASON = -1
};

/*
 * Writes the word of a category in client reports to `out`, such as "error".
 *
 * CURDMESA_OK, CURDMESA_NO_ROOM, CURDMESA_INVALID_ARGUMENT if `category` is 12 or more.
 */
int32_t curdmesa_category_word(uint32_t category, uint8_t *out, size_t out_len, uint64_t *needed);

/*
 * Sets `*category` to the number of the category that a word names; unchanged unless the status is
 * CURDMESA_OK. Doesn't allocate.
 *
 * CURDMESA_OK, CURDMESA_NOT_UTF8, CURDMESA_INVALID_TEXT if no category has the word.
 */
int32_t curdmesa_category_of_word(const uint8_t *word, size_t word_len, uint32_t *category);

/*
 * Writes the word of a reason in client reports to `out`, such as "before_send".
 *
 * CURDMESA_OK, CURDMESA_NO_ROOM, CURDMESA_INVALID_ARGUMENT if `reason` is 9 or more.
 */
int32_t curdmesa_reason_word(uint32_t reason, uint8_t *out, size_t out_len, uint64_t *needed);

/*
 * Sets `*reason` to the number of the reason that a word names; unchanged unless the status is
 * CURDMESA_OK. Doesn't allocate.
 *
 * CURDMESA_OK, CURDMESA_NOT_UTF8, CURDMESA_INVALID_TEXT if no reason has the word.
 */
int32_t curdmesa_reason_of_word(const uint8_t *word, size_t word_len, uint32_t *reason);

/* Number of sums in losses, and the place of one. */
#define CURDMESA_LOSSES 120
#define CURDMESA_LOSS(category, reason) (10 * (category) + (reason) + 1)

/*
 * A ledger is an array of CURDMESA_LEDGER (108) sums in the caller's memory: the quantity of each
 * category that was lost for each reason and isn't reported yet. All zero is the empty ledger.
 */
#define CURDMESA_LEDGER 108
#define CURDMESA_LEDGER_SUM(category, reason) (9 * (category) + (reason))

/*
 * Adds a loss to a ledger. With every status but CURDMESA_OK the ledger is unchanged.
 *
 * CURDMESA_OK, CURDMESA_INVALID_ARGUMENT if `category` is 12 or more, `reason` is 9 or more, or
 * `ledger_len` isn't 108, CURDMESA_LEDGER_FULL exactly if the sum would exceed 2^64-1.
 */
int32_t curdmesa_ledger_record(uint64_t *ledger, size_t ledger_len, uint32_t category,
                               uint32_t reason, uint64_t quantity);

/*
 * Adds losses to a ledger, sum by sum: those of a category without a reason under `reason`, all
 * others under their own.
 *
 * A sum is refused, and not added, if the ledger's would exceed 2^64-1; `*refused` becomes the
 * number of refused sums. With every status but CURDMESA_OK the ledger and `*refused` are
 * unchanged.
 *
 * CURDMESA_OK, CURDMESA_INVALID_ARGUMENT if `reason` is 9 or more, `ledger_len` isn't 108, or
 * `losses_len` isn't 120.
 */
int32_t curdmesa_ledger_record_losses(uint64_t *ledger, size_t ledger_len, const uint64_t *losses,
                                      size_t losses_len, uint32_t reason, uint64_t *refused);

/*
 * Adds to a ledger what is lost if an envelope isn't sent: as curdmesa_ledger_record_losses does
 * with what curdmesa_envelope_losses tells. So an envelope with a client report that can't be sent
 * is put back into the ledger: the losses that it reports have their own reasons. With every status
 * but CURDMESA_OK the ledger and `*refused` are unchanged.
 *
 * CURDMESA_OK, CURDMESA_INVALID_ARGUMENT if `reason` is 9 or more or `ledger_len` isn't 108,
 * CURDMESA_INVALID_HEADER, CURDMESA_UNEXPECTED_EOF, CURDMESA_MISSING_NEWLINE,
 * CURDMESA_INVALID_ITEM_HEADER, CURDMESA_OUT_OF_MEMORY.
 */
int32_t curdmesa_ledger_record_envelope(uint64_t *ledger, size_t ledger_len, const uint8_t *bytes,
                                        size_t bytes_len, uint32_t reason, uint64_t *refused);

/*
 * Sets `*quantity` to what a ledger holds of a category and a reason; unchanged unless the status
 * is CURDMESA_OK.
 *
 * CURDMESA_OK, CURDMESA_INVALID_ARGUMENT as curdmesa_ledger_record.
 */
int32_t curdmesa_ledger_held(const uint64_t *ledger, size_t ledger_len, uint32_t category,
                             uint32_t reason, uint64_t *quantity);

/*
 * Moves all losses of a ledger into a client report of the moment `now`, and writes the report to
 * `out` as an envelope of that one item. The report has an item for each category and reason with a
 * sum above 0, by category and then by reason.
 *
 * With CURDMESA_OK the ledger is all zero afterwards, and the losses are only in the text: if it
 * can't be sent, curdmesa_ledger_record_envelope puts them back. With every other status the ledger
 * is unchanged.
 *
 * CURDMESA_OK, CURDMESA_NO_ROOM, CURDMESA_NO_MOMENT, CURDMESA_INVALID_ARGUMENT if `ledger_len`
 * isn't 108, CURDMESA_NOTHING_LEFT if the ledger holds no loss, CURDMESA_OUT_OF_MEMORY.
 */
int32_t curdmesa_ledger_flush(uint64_t *ledger, size_t ledger_len, uint64_t now_secs,
                              uint32_t now_nanos, uint8_t *out, size_t out_len, uint64_t *needed);

/*
 * Does what curdmesa_ledger_flush does, but writes the report's item alone: its header and its
 * payload, each with a line feed. Behind an envelope that ends with a line feed it is one more item
 * of that envelope.
 *
 * The statuses of curdmesa_ledger_flush.
 */
int32_t curdmesa_ledger_flush_item(uint64_t *ledger, size_t ledger_len, uint64_t now_secs,
                                   uint32_t now_nanos, uint8_t *out, size_t out_len,
                                   uint64_t *needed);

/* Number of bytes that curdmesa_ledger_write writes. */
#define CURDMESA_LEDGER_BYTES 882

/*
 * Writes a ledger to `out` as bytes, as a spool keeps it over a restart: the line
 * "curdmesa ledger 1", and each sum in eight bytes, the lowest first.
 *
 * CURDMESA_OK, CURDMESA_NO_ROOM, CURDMESA_INVALID_ARGUMENT if `ledger_len` isn't 108,
 * CURDMESA_OUT_OF_MEMORY.
 */
int32_t curdmesa_ledger_write(const uint64_t *ledger, size_t ledger_len, uint8_t *out,
                              size_t out_len, uint64_t *needed);

/*
 * Sets a ledger to the sums of the one that curdmesa_ledger_write has written; unchanged unless the
 * status is CURDMESA_OK. Doesn't allocate.
 *
 * CURDMESA_OK, CURDMESA_INVALID_ARGUMENT if `ledger_len` isn't 108, CURDMESA_INVALID_TEXT if the
 * bytes aren't a ledger's.
 */
int32_t curdmesa_ledger_read(const uint8_t *bytes, size_t bytes_len, uint64_t *ledger,
                             size_t ledger_len);

/* ---- rate limits and measures ---------------------------------------------------------------- */

/*
 * Rate limits are an array of CURDMESA_LIMITS (13) seconds since 1970 in the caller's memory: when
 * the limit of all categories ends, and then when that of each category does; 0 where there is none.
 * All zero is no limits. Programs that keep it write it down as it is.
 *
 * https://develop.sentry.dev/sdk/expected-features/rate-limiting/
 */
#define CURDMESA_LIMITS 13

/*
 * Holds the limits that the value of an `X-Sentry-Rate-Limits` header states, which came at the
 * moment `now`, beside those that are held: of two ends the later one counts. Doesn't allocate.
 *
 * Ends are whole seconds, rounded up, and at most that of the year 9999. A number of seconds that
 * can't be read stands for 60, and an empty list of categories for all; categories that have no
 * number here are ignored, and so is what follows the categories. With every status but CURDMESA_OK
 * the limits are unchanged.
 *
 * CURDMESA_OK, CURDMESA_NOT_UTF8, CURDMESA_NO_MOMENT, CURDMESA_INVALID_ARGUMENT if `limits_len` isn't
 * 13.
 */
int32_t curdmesa_limits_update(uint64_t *limits, size_t limits_len, const uint8_t *header,
                               size_t header_len, uint64_t now_secs, uint32_t now_nanos);

/*
 * Holds a limit of all categories that the value of a `Retry-After` header states, beside those that
 * are held: of an answer with status 429 that has no `X-Sentry-Rate-Limits`. Doesn't allocate.
 *
 * The value is a number of seconds or an HTTP date; any other, as the empty text for an absent
 * header, stands for 60 seconds. With every status but CURDMESA_OK the limits are unchanged.
 *
 * CURDMESA_OK, CURDMESA_NOT_UTF8, CURDMESA_NO_MOMENT, CURDMESA_INVALID_ARGUMENT if `limits_len` isn't
 * 13.
 */
int32_t curdmesa_limits_retry_after(uint64_t *limits, size_t limits_len, const uint8_t *text,
                                    size_t text_len, uint64_t now_secs, uint32_t now_nanos);

/*
 * Sets `*end` to the second since 1970 in which the later of the limits of a category and of all
 * categories ends, 0 if there is none: the category is limited while the clock shows less. Unchanged
 * unless the status is CURDMESA_OK.
 *
 * CURDMESA_OK, CURDMESA_INVALID_ARGUMENT if `category` is 12 or more, or `limits_len` isn't 13.
 */
int32_t curdmesa_limits_category_end(const uint64_t *limits, size_t limits_len, uint32_t category,
                                     uint64_t *end);

/*
 * Sets `*end` as curdmesa_limits_category_end does, for items of the type with this word, by the
 * category that is lost with them. Logs and metrics are limited by two categories; a client report or
 * an item of an unknown type has none, and is limited by the limit of all categories alone.
 *
 * CURDMESA_OK, CURDMESA_NOT_UTF8, CURDMESA_INVALID_ARGUMENT if `limits_len` isn't 13.
 */
int32_t curdmesa_limits_item_end(const uint64_t *limits, size_t limits_len, const uint8_t *word,
                                 size_t word_len, uint64_t *end);

/* Number of counts of a measure: one for each item type, and the last for unknown types. */
#define CURDMESA_MEASURES 12

/*
 * Counts the items of an envelope into `items`, and the bytes of their payloads into `sizes`, by
 * their types; `*longest` becomes the size of the longest payload, 0 if there is none. Only the
 * header line and item headers are read. Unchanged unless the status is CURDMESA_OK.
 *
 * CURDMESA_OK, CURDMESA_INVALID_ARGUMENT if `items_len` or `sizes_len` isn't 12, or the statuses of
 * curdmesa_any_frames_next for bytes that are refused, CURDMESA_OUT_OF_MEMORY.
 */
int32_t curdmesa_envelope_measure(const uint8_t *bytes, size_t bytes_len, uint64_t *items,
                                  size_t items_len, uint64_t *sizes, size_t sizes_len,
                                  uint64_t *longest);

#ifdef __cplusplus
}
#endif

#endif
