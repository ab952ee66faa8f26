#include "check.h"

#include <stdio.h>
#include <string.h>

static int passed, failed;
static const char *tried;
static int met[REI2_NO_SUCH + 1];

/* Counts a check. If it failed, prints where it is and what it was about, and returns 1. */
static int fails(int good, struct place place) {
    if (good) {
        passed++;
        return 0;
    }
    failed++;
    printf("%s:%d: %s", place.file, place.line, place.text);
    if (tried != NULL) {
        printf(" [%s]", tried);
    }
    return 1;
}

void check(int good, struct place place) {
    if (fails(good, place)) {
        printf("\n");
    }
}

void check_same(const void *got, const void *wanted, size_t size, struct place place) {
    const uint8_t *a = got, *b = wanted;
    size_t at = 0;
    while (at < size && a[at] == b[at]) {
        at++;
    }
    if (fails(at == size, place)) {
        printf(": byte %d of %d is %d and not %d\n", (int)at, (int)size, a[at], b[at]);
    }
}

void check_said(struct said got, struct said wanted, struct place place) {
    if (got.refusal <= REI2_NO_SUCH) {
        met[got.refusal] = 1;
    }
    int same = got.refusal == wanted.refusal && got.offset == wanted.offset && got.spoiled == wanted.spoiled;
    if (fails(same, place)) {
        printf(": says %u at %u with byte %u", got.refusal, got.offset, got.spoiled);
        printf(" and not %u at %u with byte %u\n", wanted.refusal, wanted.offset, wanted.spoiled);
    }
}

struct said said(struct said s) { return s; }
struct said said_by_desk(rei2_desk_answer a) { return (struct said){a.refusal, a.offset, a.spoiled}; }
struct said said_captured(rei2_captured_answer a) { return (struct said){a.refusal, 0, 0}; }
struct said said_request(rei2_request_answer a) { return (struct said){a.refusal, a.offset, a.spoiled}; }
struct said said_reply(rei2_reply_answer a) { return (struct said){a.refusal, a.offset, a.spoiled}; }
struct said said_dynamic(rei2_dynamic_answer a) { return (struct said){a.refusal, a.offset, a.spoiled}; }
struct said said_written(rei2_written_answer a) { return (struct said){a.refusal, a.offset, 0}; }
struct said said_listed(rei2_listed_answer a) { return (struct said){a.refusal, 0, 0}; }
struct said said_looked(rei2_looked_answer a) { return (struct said){a.refusal, 0, 0}; }
struct said said_running(rei2_running_answer a) { return (struct said){a.refusal, 0, 0}; }

void trying(const char *what) {
    tried = what;
}

int was_said(uint32_t refusal) {
    return refusal <= REI2_NO_SUCH && met[refusal];
}

int verdict(void) {
    printf("c: %d passed, %d failed\n", passed, failed);
    return passed == 0 || failed != 0;
}
