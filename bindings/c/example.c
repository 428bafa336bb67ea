/*
 * Reads an envelope from a file, lists its items on standard error, and prints its normal form.
 *
 *   ./example FILE
 *
 * Exit status: 0 if the normal form was printed, 1 if the bytes are no envelope or memory is
 * lacking, 2 if the file can't be read or the output not be written.
 */
#include "curdmesa.h"

#include <stdio.h>
#include <stdlib.h>
#include <time.h>

static const char *const ITEM_TYPES[CURDMESA_ITEMS] = {
    "event",       "session",          "sessions", "transaction",  "attachment",   "check_in",
    "user_report", "replay_recording", "log",      "trace_metric", "client_report"};

/* Reads a whole file. A buffer is never null, not even that of an empty file. */
static uint8_t *read_file(const char *path, size_t *len) {
    FILE *file = fopen(path, "rb");
    if (file == NULL)
        return NULL;
    size_t room = 4096, used = 0;
    uint8_t *bytes = malloc(room);
    while (bytes != NULL) {
        used += fread(bytes + used, 1, room - used, file);
        if (used < room)
            break;
        uint8_t *more = room <= SIZE_MAX / 4 ? realloc(bytes, room * 2) : NULL;
        if (more == NULL)
            free(bytes);
        bytes = more;
        room *= 2;
    }
    if (bytes != NULL && ferror(file)) {
        free(bytes);
        bytes = NULL;
    }
    fclose(file);
    *len = used;
    return bytes;
}

static int32_t list_items(const uint8_t *bytes, size_t len) {
    uint64_t offset = 0;
    CurdmesaFrame frame = {0, 0, 0, 0, 0};
    int32_t status;
    while ((status = curdmesa_frames_next(bytes, len, &offset, &frame)) == CURDMESA_OK)
        fprintf(stderr, "%s: %llu bytes at %llu\n", ITEM_TYPES[frame.kind],
                (unsigned long long)frame.payload_length, (unsigned long long)frame.payload_offset);
    return status == CURDMESA_NOTHING_LEFT ? CURDMESA_OK : status;
}

/* Asks for the length of the normal form first, and then for its text. */
static int32_t print_normal_form(const uint8_t *bytes, size_t len, uint64_t now, uint64_t seed) {
    uint64_t needed = 0;
    uint8_t none = 0;
    int32_t status = curdmesa_envelope_normalize(bytes, len, now, 0, seed, &none, 0, &needed);
    if (status != CURDMESA_NO_ROOM)
        return status;
    uint8_t *text = calloc((size_t)needed, 1);
    if (text == NULL)
        return CURDMESA_OUT_OF_MEMORY;
    status = curdmesa_envelope_normalize(bytes, len, now, 0, seed, text, (size_t)needed, &needed);
    if (status == CURDMESA_OK && fwrite(text, 1, (size_t)needed, stdout) != needed)
        status = -1;
    free(text);
    return status;
}

/* A seed that no other call has: the system's random numbers, or `now` where it has none. */
static uint64_t random_seed(uint64_t now) {
    uint64_t seed = now;
    FILE *random = fopen("/dev/urandom", "rb");
    if (random != NULL) {
        if (fread(&seed, sizeof seed, 1, random) != 1)
            seed = now;
        fclose(random);
    }
    return seed;
}

int main(int argc, char **argv) {
    if (argc != 2) {
        fprintf(stderr, "usage: example FILE\n");
        return 2;
    }
    size_t len = 0;
    uint8_t *bytes = read_file(argv[1], &len);
    if (bytes == NULL) {
        fprintf(stderr, "example: can't read %s\n", argv[1]);
        return 2;
    }
    uint64_t now = (uint64_t)time(NULL);
    int32_t status = list_items(bytes, len);
    if (status == CURDMESA_OK)
        status = print_normal_form(bytes, len, now, random_seed(now));
    free(bytes);
    if (status != CURDMESA_OK)
        fprintf(stderr, "example: status %d\n", (int)status);
    if (status == -1 || fflush(stdout) != 0)
        return 2;
    return status == CURDMESA_OK ? 0 : 1;
}
