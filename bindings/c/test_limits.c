/* Tests of rate limits, by the rules of Sentry's page on rate limiting, and of the measure. */
#include "test.h"

#include <stdlib.h>
#include <string.h>

#define NOW 1595256674

static uint64_t held[CURDMESA_LIMITS];

static int32_t update(const char *header) {
    uint8_t *text = block(header, strlen(header));
    int32_t status = curdmesa_limits_update(held, CURDMESA_LIMITS, text, strlen(header), NOW, 0);
    free(text);
    return status;
}

static int32_t retry_after(const char *value) {
    uint8_t *text = block(value, strlen(value));
    int32_t status = curdmesa_limits_retry_after(held, CURDMESA_LIMITS, text, strlen(value), NOW, 0);
    free(text);
    return status;
}

static void expect_category(const char *what, uint32_t category, uint64_t due) {
    uint64_t end = 99;
    expect(what, curdmesa_limits_category_end(held, CURDMESA_LIMITS, category, &end), CURDMESA_OK);
    expect(what, (long long)end, (long long)due);
}

/* Until when an item type is limited, by its word. */
static void expect_item(const char *word, uint64_t due) {
    uint64_t end = 99;
    uint8_t *text = block(word, strlen(word));
    expect(word, curdmesa_limits_item_end(held, CURDMESA_LIMITS, text, strlen(word), &end),
           CURDMESA_OK);
    expect(word, (long long)end, (long long)due);
    free(text);
}

/* A header that limits the category of errors alone, or all. */
static void limits_errors(const char *header, uint64_t seconds) {
    memset(held, 0, sizeof held);
    expect(header, update(header), CURDMESA_OK);
    expect_category(header, CURDMESA_CATEGORY_ERROR, seconds ? NOW + seconds : 0);
    expect_category(header, CURDMESA_CATEGORY_SESSION, 0);
}

static void limits_all(const char *header, uint64_t seconds) {
    memset(held, 0, sizeof held);
    expect(header, update(header), CURDMESA_OK);
    for (uint32_t i = 0; i < CURDMESA_CATEGORIES; i++)
        expect_category(header, i, seconds ? NOW + seconds : 0);
    expect_item("profile", seconds ? NOW + seconds : 0);
}

static void test_headers(void) {
    memset(held, 0, sizeof held);
    expect("the page's example",
           update("60:transaction:key, 2700:default;error;security:organization"), CURDMESA_OK);
    expect_category("transactions", CURDMESA_CATEGORY_TRANSACTION, NOW + 60);
    expect_category("errors", CURDMESA_CATEGORY_ERROR, NOW + 2700);
    expect_category("spans", CURDMESA_CATEGORY_SPAN, 0);
    expect_item("event", NOW + 2700);
    expect_item("transaction", NOW + 60);
    expect_item("profile", 0);
    /* Of two ends the later one counts, whichever comes first. */
    expect("later", update("61:transaction, 5:error"), CURDMESA_OK);
    expect_category("transactions", CURDMESA_CATEGORY_TRANSACTION, NOW + 61);
    expect_category("errors", CURDMESA_CATEGORY_ERROR, NOW + 2700);
    limits_errors("10:error,30:error,20:error", 30);
    limits_errors("10.2:error", 11);
    limits_errors(" 10 : error ; unheard_of : key : quota : more ,, ", 10);
    limits_errors("x:error", 60);
    limits_errors(":error", 60);
    limits_errors("-5:error", 60);
    limits_errors("2700:metric_bucket:organization:quota_exceeded:custom", 0);
    limits_errors("", 0);
    limits_errors(" , ", 0);
    limits_all("60::organization", 60);
    limits_all("60", 60);
    limits_all(":", 60);
    limits_all("60: :key", 60);
}

static void test_items_of_two_categories(void) {
    memset(held, 0, sizeof held);
    expect("bytes", update("5:log_byte, 7:log_item, 9:trace_metric_byte, 3:session"), CURDMESA_OK);
    expect_item("log", NOW + 7);
    expect_item("trace_metric", NOW + 9);
    expect_item("session", NOW + 3);
    expect_item("sessions", NOW + 3);
    expect_item("client_report", 0);
    expect("the rest", update("1:attachment,2:monitor,3:feedback,4:replay"), CURDMESA_OK);
    expect_item("attachment", NOW + 1);
    expect_item("check_in", NOW + 2);
    expect_item("user_report", NOW + 3);
    expect_item("replay_recording", NOW + 4);
    expect_item("replay_video", NOW + 4);
}

/* The values of RFC 9110, 10.2.3, and others. */
static void test_retry_after(void) {
    memset(held, 0, sizeof held);
    expect("a date", retry_after("Fri, 31 Dec 1999 23:59:59 GMT"), CURDMESA_OK);
    expect_category("a date", CURDMESA_CATEGORY_ERROR, 946684799);
    expect("seconds", retry_after("120"), CURDMESA_OK);
    expect_category("seconds", CURDMESA_CATEGORY_REPLAY, NOW + 120);
    expect("an earlier end", retry_after(""), CURDMESA_OK);
    expect_item("", NOW + 120);
    memset(held, 0, sizeof held);
    expect("unreadable", retry_after("tomorrow"), CURDMESA_OK);
    expect_item("client_report", NOW + 60);
}

static void test_refused_limits(void) {
    uint64_t end = 99, zero[CURDMESA_LIMITS] = {0};
    const uint8_t *text = (const uint8_t *)"60:error";
    memset(held, 0, sizeof held);
    expect("UTF-8", update("60:error\xff"), CURDMESA_NOT_UTF8);
    expect("UTF-8", retry_after("\xff"), CURDMESA_NOT_UTF8);
    expect("moment", curdmesa_limits_update(held, CURDMESA_LIMITS, text, 8, 253402300800, 0),
           CURDMESA_NO_MOMENT);
    expect("moment", curdmesa_limits_retry_after(held, CURDMESA_LIMITS, text, 8, 1, 1000000000),
           CURDMESA_NO_MOMENT);
    expect("length", curdmesa_limits_update(held, CURDMESA_LIMITS - 1, text, 8, NOW, 0),
           CURDMESA_INVALID_ARGUMENT);
    expect("length", curdmesa_limits_retry_after(held, 0, text, 8, NOW, 0),
           CURDMESA_INVALID_ARGUMENT);
    expect("unchanged", memcmp(held, zero, sizeof held), 0);
    expect("category", curdmesa_limits_category_end(held, CURDMESA_LIMITS, 12, &end),
           CURDMESA_INVALID_ARGUMENT);
    expect("length", curdmesa_limits_category_end(held, 12, 0, &end), CURDMESA_INVALID_ARGUMENT);
    expect("word", curdmesa_limits_item_end(held, CURDMESA_LIMITS, (const uint8_t *)"\xff", 1, &end),
           CURDMESA_NOT_UTF8);
    expect("length", curdmesa_limits_item_end(held, 12, text, 8, &end), CURDMESA_INVALID_ARGUMENT);
    expect("unchanged", (long long)end, 99);
    /* The part of a second that has begun counts as a whole one, at most the last of all. */
    expect("ceiling", curdmesa_limits_update(held, CURDMESA_LIMITS, text, 8, 100, 1), CURDMESA_OK);
    expect_category("ceiling", CURDMESA_CATEGORY_ERROR, 161);
    expect("the last", curdmesa_limits_update(held, CURDMESA_LIMITS, text, 8, 253402300799, 1),
           CURDMESA_OK);
    expect_category("the last", CURDMESA_CATEGORY_ERROR, 253402300799);
}

static void test_measure(void) {
    static const char text[] = "{}\n{\"type\":\"event\"}\n{}\n{\"type\":\"profile\"}\n\n"
                               "{\"type\":\"attachment\",\"length\":5}\nhello\n"
                               "{\"type\":\"attachment\"}\nab\n{\"type\":\"flat\"}\nabc";
    uint64_t items[CURDMESA_MEASURES], sizes[CURDMESA_MEASURES], longest = 99;
    uint8_t *bytes = block(text, sizeof text - 1);
    memset(items, 0xA5, sizeof items);
    memset(sizes, 0xA5, sizeof sizes);
    expect("a short table",
           curdmesa_envelope_measure(bytes, sizeof text - 1, items, CURDMESA_MEASURES, sizes, 11,
                                     &longest),
           CURDMESA_INVALID_ARGUMENT);
    expect("cut short",
           curdmesa_envelope_measure(bytes, 50, items, CURDMESA_MEASURES, sizes, CURDMESA_MEASURES,
                                     &longest),
           CURDMESA_INVALID_ITEM_HEADER);
    expect("untouched", is_untouched((const uint8_t *)items, 0, sizeof items), 1);
    expect("untouched", is_untouched((const uint8_t *)sizes, 0, sizeof sizes), 1);
    expect("untouched", (long long)longest, 99);
    expect("measured",
           curdmesa_envelope_measure(bytes, sizeof text - 1, items, CURDMESA_MEASURES, sizes,
                                     CURDMESA_MEASURES, &longest),
           CURDMESA_OK);
    for (int kind = 0; kind < CURDMESA_MEASURES; kind++) {
        int is_event = kind == CURDMESA_ITEM_EVENT, is_attached = kind == CURDMESA_ITEM_ATTACHMENT;
        int is_unknown = kind == CURDMESA_ITEMS;
        expect("items", (long long)items[kind], is_event + 2 * is_attached + 2 * is_unknown);
        expect("sizes", (long long)sizes[kind], 2 * is_event + 7 * is_attached + 3 * is_unknown);
    }
    expect("longest", (long long)longest, 5);
    free(bytes);
}

void test_limits(void) {
    test_headers();
    test_items_of_two_categories();
    test_retry_after();
    test_refused_limits();
    test_measure();
}
