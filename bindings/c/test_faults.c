/* Tests of the calls that tell why an envelope is refused, show one, and repair one. */
#include "test.h"

#include <stdlib.h>
#include <string.h>

#define ROOM 2048

static void expect_at(const char *what, const uint8_t *out, CurdmesaPlace place, const char *due) {
    expect_text(what, out + place.offset, (size_t)place.length, due);
}

static int is_zero(const void *bytes, size_t len) {
    for (size_t i = 0; i < len; i++)
        if (((const uint8_t *)bytes)[i] != 0)
            return 0;
    return 1;
}

/* ---- faults -------------------------------------------------------------------------------- */

/* What an envelope tells that has one fault. */
typedef struct {
    const char *bytes;
    int32_t error;
    uint32_t cause;
    uint64_t item, start, end, value_start, value_end;
    const char *word, *path, *wanted, *found, *value, *message;
} OneFault;

static const OneFault ONE_FAULT[] = {
    {"{}\n{\"type\":\"event\"}\n{\"timestamp\":1.5}", CURDMESA_INVALID_ITEM_PAYLOAD,
     CURDMESA_CAUSE_PLACE, 0, 3, 37, 33, 36, "event", "timestamp",
     "whole seconds or an RFC 3339 string", "decimal", "1.5",
     "item 0 `event` at bytes 3..37: invalid item payload: `timestamp` at bytes 33..36: wanted "
     "whole seconds or an RFC 3339 string, found decimal 1.5"},
    {"{}\n{\"type\":\"event\"}\n{\"exception\":{\"values\":[{\"type\":null}]}}",
     CURDMESA_INVALID_ITEM_PAYLOAD, CURDMESA_CAUSE_PLACE, 0, 3, 60, 52, 56, "event",
     "exception.values[0].type", "a string", "null", "",
     "item 0 `event` at bytes 3..60: invalid item payload: `exception.values[0].type` at bytes "
     "52..56: wanted a string, found null"},
    {"{}\n{\"type\":\"event\"}\n{\"message\":}", CURDMESA_INVALID_ITEM_PAYLOAD,
     CURDMESA_CAUSE_SYNTAX, 0, 3, 32, 31, 31, "event", "", "a value", "", "",
     "item 0 `event` at bytes 3..32: invalid item payload: no JSON at byte 31: expected a value"},
    {"{}\n{\"type\":\"event\",\"length\":5}\n{}", CURDMESA_UNEXPECTED_EOF, CURDMESA_CAUSE_WHOLE, 0,
     3, 33, 3, 33, "", "", "", "", "",
     "item 0 `` at bytes 3..33: unexpected end of file: the whole"},
    {"{}\n{\"type\":\"profile\"}\n{}", CURDMESA_INVALID_ITEM_HEADER, CURDMESA_CAUSE_PLACE, 0, 3, 24,
     11, 20, "profile", "type", "one of the known words", "string", "",
     "item 0 `profile` at bytes 3..24: invalid item header: `type` at bytes 11..20: wanted one of "
     "the known words, found string"},
    {"{\"sent_at\":1}", CURDMESA_INVALID_HEADER, CURDMESA_CAUSE_PLACE, CURDMESA_HEADER_LINE, 0, 13,
     11, 12, "", "sent_at", "an RFC 3339 string", "integer", "1",
     "header line: invalid envelope header: `sent_at` at bytes 11..12: wanted an RFC 3339 string, "
     "found integer 1"},
};

static int32_t explain(const char *text, CurdmesaFault *faults, size_t faults_len, uint64_t *count,
                       int32_t *error, uint8_t *out, size_t out_len, uint64_t *needed) {
    uint8_t *bytes = block(text, strlen(text));
    int32_t status = curdmesa_envelope_explain(bytes, strlen(text), 1700000000, 0, faults,
                                               faults_len, count, error, out, out_len, needed);
    free(bytes);
    return status;
}

static void expect_fault(const OneFault *due, const CurdmesaFault *found, const uint8_t *out) {
    const char *what = due->bytes;
    expect(what, found->error, due->error);
    expect(what, found->cause, due->cause);
    expect(what, (long long)found->item, (long long)due->item);
    expect(what, (long long)found->start, (long long)due->start);
    expect(what, (long long)found->end, (long long)due->end);
    expect(what, (long long)found->misfit.start, (long long)due->value_start);
    expect(what, (long long)found->misfit.end, (long long)due->value_end);
    expect_at(what, out, found->word, due->word);
    expect_at(what, out, found->misfit.path, due->path);
    expect_at(what, out, found->misfit.wanted, due->wanted);
    expect_at(what, out, found->misfit.found, due->found);
    expect_at(what, out, found->misfit.value, due->value);
    expect_at(what, out, found->message, due->message);
}

/* The fault, with the very room that it needs, and with every room that is too short. */
static void tells_one(const OneFault *due) {
    const char *what = due->bytes;
    CurdmesaFault *faults = calloc(2, sizeof *faults);
    uint64_t count = 9, needed = 9, again;
    int32_t error = 9;
    uint8_t *out = block(NULL, 0);
    expect(what, explain(what, faults, 2, &count, &error, out, 0, &needed), CURDMESA_NO_ROOM);
    free(out);
    for (size_t room = 1; room < needed; room++) {
        out = block(NULL, room);
        count = again = 9;
        error = 9;
        expect(what, explain(what, faults, 2, &count, &error, out, room, &again),
               CURDMESA_NO_ROOM);
        expect(what, (long long)again, (long long)needed);
        expect(what, (long long)count, 1);
        expect(what, error, due->error);
        expect(what, is_untouched(out, 0, room), 1);
        expect(what, is_zero(faults, 2 * sizeof *faults), 1);
        free(out);
    }
    out = block(NULL, (size_t)needed);
    count = error = 9;
    expect(what, explain(what, faults, 2, &count, &error, out, (size_t)needed, &again),
           CURDMESA_OK);
    expect(what, (long long)count, 1);
    expect(what, error, due->error);
    expect_fault(due, &faults[0], out);
    expect(what, is_zero(&faults[1], sizeof *faults), 1);
    free(out);
    free(faults);
}

/* Of three faults as many rows as there is room for. */
static void tells_some(void) {
    static const char *const bytes = "{}\n{\"type\":\"profile\"}\n1\n{\"type\":\"event\"}\n{}\n"
                                     "{\"type\":\"event\"}\n{\"release\":1,\"dist\":2}\n";
    for (size_t rows = 0; rows <= 4; rows++) {
        CurdmesaFault *faults = calloc(4, sizeof *faults);
        uint8_t *out = block(NULL, ROOM);
        uint64_t count = 9, needed = 9;
        int32_t error = 9;
        expect("some", explain(bytes, faults, rows, &count, &error, out, ROOM, &needed),
               CURDMESA_OK);
        expect("count", (long long)count, 3);
        expect("error", error, CURDMESA_INVALID_ITEM_HEADER);
        size_t told = rows < 3 ? rows : 3;
        expect("others", is_zero(faults + told, (4 - told) * sizeof *faults), 1);
        expect("behind", is_untouched(out, (size_t)needed, ROOM), 1);
        if (rows == 0)
            expect("no texts", (long long)needed, 0);
        if (told > 0)
            expect_at("first", out, faults[0].word, "profile");
        if (told == 3) {
            expect("item", (long long)faults[1].item, 2);
            expect_at("second", out, faults[1].misfit.path, "release");
            expect("item", (long long)faults[2].item, 2);
            expect_at("third", out, faults[2].misfit.path, "dist");
            expect("error", faults[2].error, CURDMESA_INVALID_ITEM_PAYLOAD);
        }
        free(out);
        free(faults);
    }
}

static void tells_none(void) {
    CurdmesaFault fault;
    memset(&fault, 0, sizeof fault);
    uint64_t count = 9, needed = 9;
    int32_t error = 9;
    uint8_t *out = block(NULL, 8);
    expect("none", explain("{}", &fault, 1, &count, &error, out, 8, &needed), CURDMESA_OK);
    expect("count", (long long)count, 0);
    expect("error", error, CURDMESA_OK);
    expect("needed", (long long)needed, 0);
    count = needed = 9;
    error = 9;
    expect("moment",
           curdmesa_envelope_explain((const uint8_t *)"{", 1, 0, 1000000000, &fault, 1, &count,
                                     &error, out, 8, &needed),
           CURDMESA_NO_MOMENT);
    expect("count", (long long)count, 9);
    expect("error", error, 9);
    expect("needed", (long long)needed, 0);
    expect("row", is_zero(&fault, sizeof fault), 1);
    expect("out", is_untouched(out, 0, 8), 1);
    free(out);
}

/* ---- what is shown --------------------------------------------------------------------------- */

static int32_t run_show(Call *call, uint8_t *out, size_t out_len, uint64_t *needed) {
    return curdmesa_envelope_show_json(call->bytes, call->len, out, out_len, needed);
}

static void shows(const char *text, const char *due) {
    Call call = {.run = run_show, .len = strlen(text)};
    uint8_t *bytes = block(text, call.len);
    call.bytes = bytes;
    gives(text, &call, due, 1);
    free(bytes);
}

static void test_show(void) {
    shows("{}\n{\"type\":\"attachment\"}\nhelloworld",
          "{\"bytes\":35,\"accepted\":true,\"items\":[{\"type\":\"attachment\",\"accepted\":true,"
          "\"start\":3,\"length\":32,\"header_start\":3,\"header_length\":21,\"payload_start\":25,"
          "\"payload_length\":10}],\"unread\":null,\"error\":null,\"faults\":[],"
          "\"header_length\":3,\"header\":{},\"losses\":{\"attachment\":10},\"events\":[],"
          "\"transactions\":[]}");
    shows("{}\n{\"type\":\"event\"}\n{\"timestamp\":1.5}",
          "{\"bytes\":37,\"accepted\":false,\"items\":[{\"type\":\"event\",\"accepted\":false,"
          "\"start\":3,\"length\":34,\"header_start\":3,\"header_length\":16,\"payload_start\":20,"
          "\"payload_length\":17}],\"unread\":null,\"error\":\"invalid item payload\","
          "\"faults\":[{\"end\":37,\"error\":\"invalid item payload\",\"found\":\"decimal\","
          "\"from\":33,\"item\":0,\"path\":\"timestamp\",\"start\":3,\"to\":36,\"type\":\"event\","
          "\"value\":\"1.5\",\"wanted\":\"whole seconds or an RFC 3339 string\"}],"
          "\"header_length\":3,\"header\":{},\"losses\":{\"error\":1},\"events\":[],"
          "\"transactions\":[]}");
    shows("", "{\"bytes\":0,\"accepted\":false,\"items\":[],\"unread\":null,"
              "\"error\":\"invalid envelope header\",\"faults\":[{\"at\":0,\"end\":0,"
              "\"error\":\"invalid envelope header\",\"expected\":\"a value\",\"item\":null,"
              "\"start\":0,\"type\":\"\"}],\"header_length\":0,\"header\":{},\"losses\":{},"
              "\"events\":[],\"transactions\":[]}");
}

/* ---- repairs ------------------------------------------------------------------------------- */

/* What an envelope becomes, and one of its notes. */
typedef struct {
    const char *bytes, *spliced;
    uint32_t repairs;
    uint64_t count, at;
    uint32_t repair;
    uint64_t item, start, end;
    const char *word, *path, *instead, *message;
} OneNote;

/* Which id is drawn for an item without one isn't said. */
#define ID "\"event_id\":\"9ec79c33ec9942ab8353589fcb2e04dc\"}"

#define TIMESTAMP "{}\n{\"type\":\"event\",\"length\":63}\n{\"timestamp\":1.5," ID
#define TIMESTAMP_MENDED                                                                           \
    "{}\n{\"type\":\"event\",\"length\":84}\n{\"timestamp\":\"1970-01-01T00:00:01.5Z\"," ID

static const OneNote ONE_NOTE[] = {
    {TIMESTAMP, TIMESTAMP_MENDED, CURDMESA_REPAIRS_FORM, 2, 0, CURDMESA_REPAIR_LENGTH, 0, 28, 30,
     "event", "length", "84", "item 0 `event`: `length` at bytes 28..30: integer: length"},
    {TIMESTAMP, TIMESTAMP_MENDED, CURDMESA_REPAIRS_FORM, 2, 1, CURDMESA_REPAIR_AS_MOMENT, 0, 45, 48,
     "event", "timestamp", "\"1970-01-01T00:00:01.5Z\"",
     "item 0 `event`: `timestamp` at bytes 45..48: decimal: as an RFC 3339 string"},
    {"{}\n{\"type\":\"event\"}\n{\"tags\":{\"a\":1.5}," ID,
     "{}\n{\"type\":\"event\"}\n{\"tags\":{\"a\":\"1.5\"}," ID, CURDMESA_REPAIRS_FORM, 1, 0,
     CURDMESA_REPAIR_AS_TEXT, 0, 33, 36, "event", "tags.a", "\"1.5\"",
     "item 0 `event`: `tags.a` at bytes 33..36: decimal: as a string"},
    {"{}\n{\"type\":\"log\"}\n{\"items\":[{\"level\":\"info\",\"body\":\"b\",\"timestamp\":1,"
     "\"attributes\":{\"a\":{\"value\":1.5,\"type\":\"double\"}}}]}",
     "{}\n{\"type\":\"log\"}\n{\"items\":[{\"level\":\"info\",\"body\":\"b\",\"timestamp\":1,"
     "\"attributes\":{\"a\":{\"value\":\"1.5\",\"type\":\"string\"}}}]}",
     CURDMESA_REPAIRS_FORM, 2, 1, CURDMESA_REPAIR_AS_STRING_TYPE, 0, 107, 115, "log",
     "items[0].attributes.a.type", "\"string\"",
     "item 0 `log`: `items[0].attributes.a.type` at bytes 107..115: string: as the type `string`"},
    {"{}\n{\"type\":\"transaction\"}\n{\"spans\":null," ID,
     "{}\n{\"type\":\"transaction\"}\n{\"spans\":[]," ID, CURDMESA_REPAIRS_FORM, 1, 0,
     CURDMESA_REPAIR_AS_EMPTY_LIST, 0, 35, 39, "transaction", "spans", "[]",
     "item 0 `transaction`: `spans` at bytes 35..39: null: as an empty array"},
    {"{}\n{\"type\":\"event\"}\n{\"level\":\"loud\"," ID, "{}\n{\"type\":\"event\"}\n{" ID,
     CURDMESA_REPAIRS_ALL, 1, 0, CURDMESA_REPAIR_TAKEN_OUT, 0, 21, 36, "event", "level", "",
     "item 0 `event`: `level` at bytes 21..36: string: taken out"},
    {"{}\n{\"type\":\"profile\"}\n{}\n{\"type\":\"event\"}\n{" ID, "{}\n{\"type\":\"event\"}\n{" ID,
     CURDMESA_REPAIRS_STRICT, 1, 0, CURDMESA_REPAIR_LEFT, 0, 3, 25, "profile", "", "",
     "item 0 `profile` at bytes 3..25: invalid item header: `type` at bytes 11..20: wanted one of "
     "the known words, found string"},
};

static int32_t mend(const char *text, uint32_t repairs, CurdmesaNote *notes, size_t notes_len,
                    uint64_t *told, int32_t *error, uint8_t *out, size_t out_len,
                    uint64_t *needed) {
    uint8_t *bytes = block(text, strlen(text));
    int32_t status = curdmesa_envelope_mend(bytes, strlen(text), 1700000000, 0, 42, repairs, false,
                                            notes, notes_len, &told[0], error, &told[1], out,
                                            out_len, needed);
    free(bytes);
    return status;
}

/* The mended envelope is the normal form of the bytes with what the notes put there. */
static void mends_one(const OneNote *due) {
    const char *what = due->bytes;
    CurdmesaNote *notes = calloc(2, sizeof *notes), *note = notes + due->at;
    uint8_t *out = block(NULL, ROOM), *normal = block(NULL, ROOM);
    uint64_t told[2] = {9, 9}, needed = 9, len = 0, again = 9;
    int32_t error = 9;
    expect(what, mend(what, due->repairs, notes, 2, told, &error, out, ROOM, &needed),
           CURDMESA_OK);
    expect(what, curdmesa_envelope_normalize((const uint8_t *)due->spliced, strlen(due->spliced),
                                             1700000000, 0, 42, normal, ROOM, &len),
           CURDMESA_OK);
    expect(what, (long long)told[1], (long long)len);
    expect(what, memcmp(out, normal, (size_t)len), 0);
    expect(what, (long long)told[0], (long long)due->count);
    expect(what, error,
           curdmesa_envelope_check((const uint8_t *)what, strlen(what), 1700000000, 0));
    expect(what, note->error, error);
    expect(what, note->repair, due->repair);
    expect(what, (long long)note->item, (long long)due->item);
    expect(what, (long long)note->start, (long long)due->start);
    expect(what, (long long)note->end, (long long)due->end);
    expect_at(what, out, note->word, due->word);
    expect_at(what, out, note->misfit.path, due->path);
    expect_at(what, out, note->instead, due->instead);
    expect_at(what, out, note->message, due->message);
    expect(what, is_zero(notes + due->count, (2 - due->count) * sizeof *notes), 1);
    expect(what, is_untouched(out, (size_t)needed, ROOM), 1);
    /* With a byte less there is no room, and nothing but the numbers is told. */
    uint8_t *less = block(NULL, (size_t)needed - 1);
    memset(notes, 0, 2 * sizeof *notes);
    told[0] = told[1] = 9;
    error = 9;
    expect(what, mend(what, due->repairs, notes, 2, told, &error, less, (size_t)needed - 1, &again),
           CURDMESA_NO_ROOM);
    expect(what, (long long)again, (long long)needed);
    expect(what, (long long)told[0], (long long)due->count);
    expect(what, (long long)told[1], (long long)len);
    expect(what, error != 9, 1);
    expect(what, is_zero(notes, 2 * sizeof *notes), 1);
    expect(what, is_untouched(less, 0, (size_t)needed - 1), 1);
    free(less);
    free(normal);
    free(out);
    free(notes);
}

/* What reads stays as it is; some calls are refused. */
static void mends_none(void) {
    CurdmesaNote note;
    memset(&note, 0, sizeof note);
    uint8_t *out = block(NULL, 64);
    uint64_t told[2] = {9, 9}, needed = 9;
    int32_t error = 9;
    expect("reads", mend("{}", CURDMESA_REPAIRS_ALL, &note, 1, told, &error, out, 64, &needed),
           CURDMESA_OK);
    expect("count", (long long)told[0], 0);
    expect("length", (long long)told[1], 3);
    expect("error", error, CURDMESA_OK);
    expect_text("reads", out, (size_t)needed, "{}\n");
    free(out);
    out = block(NULL, 64);
    told[0] = told[1] = needed = 9;
    error = 9;
    expect("header",
           mend("{\"dsn\":1}", CURDMESA_REPAIRS_ALL, &note, 1, told, &error, out, 64, &needed),
           CURDMESA_INVALID_HEADER);
    expect("needed", (long long)needed, 0);
    expect("repairs", mend("{}", 3, &note, 1, told, &error, out, 64, &needed),
           CURDMESA_INVALID_ARGUMENT);
    expect("moment",
           curdmesa_envelope_mend((const uint8_t *)"{}", 2, 0, 1000000000, 42, 1, false, &note, 1,
                                  &told[0], &error, &told[1], out, 64, &needed),
           CURDMESA_NO_MOMENT);
    expect("count", (long long)told[0], 9);
    expect("length", (long long)told[1], 9);
    expect("error", error, 9);
    expect("row", is_zero(&note, sizeof note), 1);
    expect("out", is_untouched(out, 0, 64), 1);
    free(out);
}

/* An event without an id gets the header's where that is asked for. */
static void mends_ids(void) {
    static const char *const text = "{\"event_id\":\"9ec79c33-ec99-42ab-8353-589fcb2e04dc\"}\n"
                                    "{\"type\":\"event\"}\n{}";
    CurdmesaNote note;
    uint8_t *bytes = block(text, strlen(text)), *out = block(NULL, ROOM);
    for (int asked = 0; asked < 2; asked++) {
        uint64_t count = 9, needed = 9, len = 9;
        int32_t error = 9;
        memset(&note, 0, sizeof note);
        expect("id",
               curdmesa_envelope_mend(bytes, strlen(text), 1700000000, 0, 42, CURDMESA_REPAIRS_FORM,
                                      asked, &note, 1, &count, &error, &len, out, ROOM, &needed),
               CURDMESA_OK);
        expect("count", (long long)count, asked);
        expect("error", error, CURDMESA_OK);
    }
    expect("repair", note.repair, CURDMESA_REPAIR_HEADER_ID);
    expect("item's error", note.error, CURDMESA_OK);
    expect("start", (long long)note.start, (long long)strlen(text) - 1);
    expect_at("id", out, note.instead, "\"event_id\":\"9ec79c33ec9942ab8353589fcb2e04dc\"");
    free(bytes);
    free(out);
}

/* Of two notes as many rows as there is room for. */
static void mends_some(void) {
    for (size_t rows = 0; rows <= 2; rows++) {
        CurdmesaNote notes[2];
        memset(notes, 0, sizeof notes);
        uint8_t *out = block(NULL, ROOM);
        uint64_t told[2] = {9, 9}, needed = 9;
        int32_t error = 9;
        expect("some", mend(TIMESTAMP, 1, notes, rows, told, &error, out, ROOM, &needed),
               CURDMESA_OK);
        expect("count", (long long)told[0], 2);
        expect("others", is_zero(notes + rows, (2 - rows) * sizeof *notes), 1);
        expect("texts", needed == told[1], rows == 0);
        expect("behind", is_untouched(out, (size_t)needed, ROOM), 1);
        free(out);
    }
}

void test_faults(void) {
    for (size_t i = 0; i < sizeof ONE_FAULT / sizeof *ONE_FAULT; i++)
        tells_one(&ONE_FAULT[i]);
    tells_some();
    tells_none();
    test_show();
    for (size_t i = 0; i < sizeof ONE_NOTE / sizeof *ONE_NOTE; i++)
        mends_one(&ONE_NOTE[i]);
    mends_none();
    mends_ids();
    mends_some();
}
