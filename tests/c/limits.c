/* What a host must lend: the library returns the numbers of the header. Where an address is in what is lent. */
#include "check.h"
#include "tests.h"

/* The address is the first part of a seat and of each record. A seat has no padding after it. */
static void address_comes_first(void) {
    CHECK(sizeof(rei2_seat) == 20 && sizeof((rei2_seat){0}.address) == 4);
    CHECK(offsetof(rei2_seat, address) == 0 && offsetof(rei2_seat, requester) == 4 && offsetof(rei2_seat, ended) == 16);
    CHECK(offsetof(rei2_static_request, address) == 0 && offsetof(rei2_static_request, requester) == 1);
    CHECK(offsetof(rei2_reply_record, head.address) == 0 && offsetof(rei2_reply_record, head.program) == 1);
    CHECK(offsetof(rei2_dynamic_request, address) == 0 && offsetof(rei2_dynamic_request, requester) == 1);
}

/* There is a row for each letter and a column for each status. */
static void orders_have_the_tallys_lengths(void) {
    CHECK(sizeof REI2_LETTER_ORDER == REI2_LETTERS + 1);
    CHECK(sizeof REI2_STATUS_ORDER == REI2_STATUSES + 1);
    CHECK(sizeof(uint32_t[REI2_LETTERS][REI2_STATUSES]) == 396);
}

void test_limits(void) {
    address_comes_first();
    orders_have_the_tallys_lengths();
    rei2_limits_answer limits = rei2_limits();
    CHECK(limits.seats == REI2_SEATS);
    CHECK(limits.cells == REI2_CELLS * REI2_CELL_SIZE);
    CHECK(limits.marks == REI2_CELLS);
    CHECK(limits.cell_size == REI2_CELL_SIZE);
    CHECK(limits.letters == REI2_LETTERS);
    CHECK(limits.statuses == REI2_STATUSES);
    CHECK(limits.most_input == REI2_MOST_INPUT);
    CHECK(limits.longest_list == REI2_LONGEST_LIST);
    CHECK(rei2_capacity(limits.cells, limits.marks) == REI2_CELLS);
}
