/* Tests of what makes envelopes, items and events. */
#include "test.h"

#include <stdlib.h>
#include <string.h>

/* A call that makes something, over all that it needs. */
typedef struct {
    Call call;
    const char *line;
    const char *texts;
    CurdmesaPair lengths[3];
    size_t pairs;
    const char *level;
} Making;

static int32_t run_make(Call *call, uint8_t *out, size_t out_len, uint64_t *needed) {
    const Making *it = (const Making *)call;
    size_t line_len = strlen(it->line), texts_len = strlen(it->texts);
    uint8_t *line = block(it->line, line_len), *texts = block(it->texts, texts_len);
    int32_t status = curdmesa_envelope_make(line, line_len, texts, texts_len, it->lengths,
                                            it->pairs, out, out_len, needed);
    free(line);
    free(texts);
    return status;
}

/* The bytes are the line, and the item the first pair. */
static int32_t run_append(Call *call, uint8_t *out, size_t out_len, uint64_t *needed) {
    const Making *it = (const Making *)call;
    size_t len = strlen(it->line), first = (size_t)it->lengths[0].first;
    size_t second = (size_t)it->lengths[0].second;
    uint8_t *bytes = block(it->line, len), *header = block(it->texts, first);
    uint8_t *payload = block(it->texts + first, second);
    int32_t status = curdmesa_envelope_append(bytes, len, header, first, payload, second, out,
                                              out_len, needed);
    free(bytes);
    free(header);
    free(payload);
    return status;
}

static int32_t run_json(Call *call, uint8_t *out, size_t out_len, uint64_t *needed) {
    return curdmesa_json_text(call->bytes, call->len, out, out_len, needed);
}

/* The line is the message, and the texts are the tags. */
static int32_t run_event(Call *call, uint8_t *out, size_t out_len, uint64_t *needed) {
    const Making *it = (const Making *)call;
    return curdmesa_event_make((const uint8_t *)it->level, strlen(it->level),
                               (const uint8_t *)it->line, strlen(it->line),
                               (const uint8_t *)"app@1.0", 7, (const uint8_t *)"", 0,
                               (const uint8_t *)it->texts, strlen(it->texts), it->lengths,
                               it->pairs, call->secs, call->nanos, 42, out, out_len, needed);
}

static void test_envelopes_made(void) {
    Making it = {.call = {.run = run_make}, .line = "{}", .texts = ""};
    gives("no items", &it.call, "{}\n", 1);
    it.texts = "{\"type\":\"a\"}x\ny{\"type\":\"b\",\"length\":2}\xC3\xA9{ \"type\":\"c\",\"x\":1.5}";
    it.lengths[0] = (CurdmesaPair){12, 3};
    it.lengths[1] = (CurdmesaPair){23, 2};
    it.lengths[2] = (CurdmesaPair){21, 0};
    it.pairs = 3;
    gives("three items", &it.call,
          "{}\n{\"length\":3,\"type\":\"a\"}\nx\ny\n{\"type\":\"b\",\"length\":2}\n\xC3\xA9\n"
          "{\"length\":0, \"type\":\"c\",\"x\":1.5}\n\n",
          1);
    it.pairs = 2;
    refuses("texts that are left", &it.call, CURDMESA_INVALID_ARGUMENT);
    it.pairs = 3;
    it.lengths[2].second = 1;
    refuses("texts that are cut", &it.call, CURDMESA_INVALID_ARGUMENT);
    it.lengths[2].second = UINT64_MAX;
    refuses("lengths past all", &it.call, CURDMESA_INVALID_ARGUMENT);
    it.lengths[2].second = 0;
    it.line = "{}\n";
    refuses("two lines", &it.call, CURDMESA_INVALID_HEADER);
    it.line = "[]";
    refuses("no object", &it.call, CURDMESA_INVALID_HEADER);
    it.line = "{}";
    it.lengths[0] = (CurdmesaPair){12, 2};
    it.lengths[1] = (CurdmesaPair){24, 2};
    refuses("a cut header", &it.call, CURDMESA_INVALID_ITEM_HEADER);
}

static void test_appended(void) {
    const char *const ends[][2] = {
        {"{}", "\n"},
        {"{}\n", ""},
        {"{}\n{\"type\":\"x\"}", "\n\n"},
        {"{}\n{\"type\":\"x\"}\n", "\n"},
        {"{}\n{\"type\":\"x\"}\nab", "\n"},
        {"{}\n{\"type\":\"x\"}\nab\n", ""},
        {"{}\n{\"type\":\"x\",\"length\":3}\nab\n", "\n"},
    };
    Making it = {.call = {.run = run_append}, .texts = "{\"type\":\"y\"}[]", .pairs = 1};
    it.lengths[0] = (CurdmesaPair){12, 2};
    for (size_t i = 0; i < sizeof ends / sizeof *ends; i++) {
        char due[100] = "";
        strcat(strcat(strcat(due, ends[i][0]), ends[i][1]), "{\"length\":2,\"type\":\"y\"}\n[]\n");
        it.line = ends[i][0];
        gives("an item behind an end", &it.call, due, 1);
    }
    it.line = "{}\n{\"type\":\"x\",\"length\":9}\nab";
    refuses("a cut envelope", &it.call, CURDMESA_UNEXPECTED_EOF);
    it.line = "{}\n \n";
    refuses("a blank item", &it.call, CURDMESA_UNEXPECTED_EOF);
    it.line = "{}\n{\"type\":\"x\",\"length\":1}\nab";
    refuses("a payload that goes on", &it.call, CURDMESA_MISSING_NEWLINE);
    it.line = "";
    refuses("no header line", &it.call, CURDMESA_INVALID_HEADER);
    it.line = "{}";
    it.texts = "{\"type\":\"x\",\"length\":null}";
    it.lengths[0] = (CurdmesaPair){26, 0};
    refuses("a null length", &it.call, CURDMESA_INVALID_ITEM_HEADER);
    it.texts = "{\"type\":\"x\",\"length\":3}ab";
    it.lengths[0] = (CurdmesaPair){23, 2};
    refuses("another length", &it.call, CURDMESA_INVALID_ITEM_HEADER);
    it.texts = "{\"type\":\"x\"}\n";
    it.lengths[0] = (CurdmesaPair){13, 0};
    refuses("white space around a header", &it.call, CURDMESA_INVALID_ITEM_HEADER);
}

static void test_json_texts(void) {
    const char *const rows[][2] = {
        {"", "\"\""},
        {"a\"b\\c\n\x1F", "\"a\\\"b\\\\c\\n\\u001f\""},
        {"\xC3\xA9/", "\"\xC3\xA9/\""},
    };
    Call call = {.run = run_json};
    for (size_t i = 0; i < sizeof rows / sizeof *rows; i++) {
        call.len = strlen(rows[i][0]);
        uint8_t *text = block(rows[i][0], call.len);
        call.bytes = text;
        gives("a JSON string", &call, rows[i][1], 1);
        free(text);
    }
    call.bytes = (const uint8_t *)"\xFF";
    call.len = 1;
    refuses("not UTF-8", &call, CURDMESA_NOT_UTF8);
}

/* Whether the text has a part. */
static int has(const uint8_t *text, size_t len, const char *part) {
    size_t size = strlen(part);
    for (size_t i = 0; i + size <= len; i++)
        if (memcmp(text + i, part, size) == 0)
            return 1;
    return 0;
}

static void test_events_made(void) {
    const char *const parts[] = {
        "\"level\":\"warning\"",       "\"message\":\"a \\\"line\\\"\\n\"",
        "\"release\":\"app@1.0\"",     "\"tags\":{\"disk\":\"sda\",\"k\":\"\"}",
        "\"timestamp\":1700000000",
    };
    Making it = {.call = {.run = run_event, .secs = 1700000000}};
    it.line = "a \"line\"\n";
    it.level = "warning";
    it.texts = "kdisksda";
    it.lengths[0] = (CurdmesaPair){1, 0};
    it.lengths[1] = (CurdmesaPair){4, 3};
    it.pairs = 2;
    uint8_t *out = block(NULL, 1000), *again = block(NULL, 1000);
    uint64_t needed = 0, length = 0;
    expect("an event", run_event(&it.call, out, 1000, &needed), CURDMESA_OK);
    for (size_t i = 0; i < sizeof parts / sizeof *parts; i++)
        expect(parts[i], has(out, (size_t)needed, parts[i]), 1);
    expect("no environment", has(out, (size_t)needed, "environment"), 0);
    expect("accepted", curdmesa_envelope_check(out, (size_t)needed, 0, 0), CURDMESA_OK);
    expect("its own normal form",
           curdmesa_envelope_normalize(out, (size_t)needed, 0, 0, 1, again, 1000, &length),
           CURDMESA_OK);
    expect("as long", (long long)length, (long long)needed);
    expect("the same", memcmp(out, again, (size_t)needed), 0);
    expect("no room", run_event(&it.call, again, (size_t)needed - 1, &length), CURDMESA_NO_ROOM);
    expect("as long", (long long)length, (long long)needed);
    free(out);
    free(again);
    it.level = "grave";
    refuses("no such level", &it.call, CURDMESA_INVALID_ITEM_PAYLOAD);
    it.level = "";
    it.line = "\xFF";
    refuses("a message that isn't UTF-8", &it.call, CURDMESA_NOT_UTF8);
    it.line = "";
    it.texts = "k\xC3\xA9";
    it.lengths[0] = (CurdmesaPair){1, 1};
    it.lengths[1] = (CurdmesaPair){1, 0};
    refuses("tags that cut a character", &it.call, CURDMESA_NOT_UTF8);
    it.pairs = 1;
    refuses("tags that are left", &it.call, CURDMESA_INVALID_ARGUMENT);
    it.call.nanos = 1000000000;
    refuses("no moment", &it.call, CURDMESA_NO_MOMENT);
}

void test_making(void) {
    test_envelopes_made();
    test_appended();
    test_json_texts();
    test_events_made();
}
