/* The names of refusals. */
#include <string.h>

#include "check.h"
#include "made.h"
#include "tests.h"

/* The names by their numbers. Any number after NO SUCH has the last name. */
static const char *const names[] = {
    "DONE", "KIND", "LENGTH", "END", "ADDRESS", "FIELD", "RECORD", "ROOM", "TIME", "DESK",
    "NO ANSWER DUE", "IN USE", "NO SEAT", "STRAY", "ENDED", "OUT OF PLACE", "FULL", "NO SUCH", "UNKNOWN",
};
enum { NAMES = sizeof names / sizeof names[0] };

enum { OUT = 2 * REI2_NAME_SIZE };
static uint8_t out[OUT], wanted[OUT];

static void clear_out(void) {
    fill(out, OUT, 5);
    memcpy(wanted, out, OUT);
}

/* With this much room the name is written with its zero byte, and no byte after them changes. */
static void is_named(uint32_t refusal, const char *name, size_t room) {
    clear_out();
    rei2_written_answer answer = rei2_refusal_name(refusal, out, room);
    SAYS(answer, REI2_DONE, 0);
    CHECK(answer.size == strlen(name));
    memcpy(wanted, name, strlen(name) + 1);
    SAME(out, wanted, OUT);
}

/* With this much room it is refused, and nothing changes. */
static void has_no_room(uint32_t refusal, size_t room) {
    clear_out();
    rei2_written_answer answer = rei2_refusal_name(refusal, out, room);
    SAYS(answer, REI2_ROOM, 0);
    CHECK(answer.size == 0);
    SAME(out, wanted, OUT);
}

static void names_of(uint32_t refusal, const char *name) {
    trying(name);
    is_named(refusal, name, OUT);
    is_named(refusal, name, REI2_NAME_SIZE);
    is_named(refusal, name, strlen(name) + 1);
    has_no_room(refusal, strlen(name));
    has_no_room(refusal, 0);
    SAYS(rei2_refusal_name(refusal, NULL, 0), REI2_ROOM, 0);
    trying(NULL);
}

/* The longest name fills an output of REI2_NAME_SIZE bytes. */
static void longest_name(void) {
    size_t longest = 0;
    for (size_t i = 0; i < NAMES; i++) {
        longest = strlen(names[i]) > longest ? strlen(names[i]) : longest;
    }
    CHECK(longest + 1 == REI2_NAME_SIZE);
}

void test_names(void) {
    for (uint32_t refusal = 0; refusal < NAMES; refusal++) {
        names_of(refusal, names[refusal]);
    }
    CHECK(REI2_NO_SUCH + 2 == NAMES);
    names_of(256, "UNKNOWN");
    names_of(UINT32_MAX, "UNKNOWN");
    longest_name();
}
