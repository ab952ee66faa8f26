/* Calls each exported function of librei2.a. Without an argument it runs the checks. With the argument capture or list
   it writes its example of that, for tests/c/run to compare. */
#include <string.h>
#include <unistd.h>

#include "check.h"
#include "example.h"
#include "tests.h"

static int write_out(const uint8_t *bytes, size_t size) {
    return write(1, bytes, size) != (ssize_t)size;
}

static void every_refusal_was_met(void) {
    for (uint32_t refusal = REI2_DONE; refusal <= REI2_NO_SUCH; refusal++) {
        CHECK(was_said(refusal));
    }
}

static int run_all(void) {
    test_frames();
    test_fields();
    test_times();
    test_desk();
    test_spoiled();
    test_tally();
    test_capture();
    test_names();
    test_limits();
    every_refusal_was_met();
    return verdict();
}

int main(int words, char **word) {
    if (words == 2 && strcmp(word[1], "capture") == 0) {
        return write_out(example_capture, EXAMPLE_CAPTURE);
    }
    if (words == 2 && strcmp(word[1], "list") == 0) {
        return write_out(example_list, EXAMPLE_LIST);
    }
    return run_all();
}
