/* Running time. */
#include "check.h"
#include "tests.h"

enum { LAST = 863999999 };

static void runs(rei2_running_of of, int64_t ticks) {
    rei2_running_answer answer = rei2_running_time(of);
    SAYS(answer, REI2_DONE, 0);
    CHECK(answer.ticks == ticks);
}

static void is_no_time(rei2_running_of of) {
    rei2_running_answer answer = rei2_running_time(of);
    SAYS(answer, REI2_TIME, 0);
    CHECK(answer.ticks == 0);
}

static void both_signs(void) {
    runs((rei2_running_of){1, 0, 0, 0, 0, 0}, 0);
    runs((rei2_running_of){1, 300, 100, 0, 0, 50}, 150);
    runs((rei2_running_of){1, 300, 100, 1, 0, 50}, 250);
    runs((rei2_running_of){1, 100, 300, 0, 0, 0}, -200);
    runs((rei2_running_of){1, 0, 0, 1, 2, 3}, 1728000003);
    runs((rei2_running_of){1, 0, 0, 1, 0, 0}, 0);
}

static void the_ends(void) {
    runs((rei2_running_of){1, 0, LAST, 0, 9, LAST}, -9503999998);
    runs((rei2_running_of){UINT32_MAX, LAST, 0, 1, 9, LAST}, 9503999998);
    runs((rei2_running_of){0, 5, 0, 0, 1, 7}, -864000002);
}

static void out_of_range(void) {
    is_no_time((rei2_running_of){1, LAST + 1, 0, 0, 0, 0});
    is_no_time((rei2_running_of){1, 0, LAST + 1, 0, 0, 0});
    is_no_time((rei2_running_of){0, 0, 1, 0, 0, 0});
    is_no_time((rei2_running_of){1, 0, 0, 2, 0, 0});
    is_no_time((rei2_running_of){1, 0, 0, 0, 10, 0});
    is_no_time((rei2_running_of){1, 0, 0, 0, 0, LAST + 1});
    is_no_time((rei2_running_of){UINT32_MAX, UINT32_MAX, UINT32_MAX, UINT32_MAX, UINT32_MAX, UINT32_MAX});
}

void test_times(void) {
    both_signs();
    the_ends();
    out_of_range();
}
