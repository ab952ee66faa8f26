/* Openings and replies on a good desk: what they answer, in which order they refuse, and what they change. */
#include <string.h>

#include "made.h"
#include "table.h"
#include "tests.h"

static struct table now;

/* ---- openings */

static void an_opening_takes_the_lowest_seat(void) {
    table_emptied(&now);
    now.desk.bits = 5;
    now.memory.seats[0] = (rei2_seat){' ', '1', 1, 0, 0};
    now.memory.seats[2] = (rei2_seat){' ', '1', 2, 0, 0};
    rei2_desk_answer answer = table_opens(&now, 'Z', "042");
    SAYS(answer, REI2_DONE, 0);
    CHECK(answer.seat == 1 && answer.desk.bits == 7 && answer.desk.count == 0);
    now.was.seats[1] = (rei2_seat){' ', 'Z', 42, 0, 0};
    KEPT(&now);
}

/* A request whose byte at `at` is `byte`. */
static rei2_desk_answer opens_with(size_t at, char byte) {
    uint8_t frame[REI2_REQUEST_SIZE];
    make_request(frame, '1', "007");
    frame[at] = (uint8_t)byte;
    return table_open(&now, frame, sizeof frame);
}

static void openings_are_refused_in_order(void) {
    table_laid(&now);
    REFUSED(&now, opens_with(0, REI2_REPLY_LEAD), REI2_KIND, 0);
    REFUSED(&now, table_open(&now, (const uint8_t *)"\021R", 2), REI2_LENGTH, 0);
    REFUSED(&now, opens_with(23, '\n'), REI2_END, 0);
    REFUSED(&now, opens_with(1, 'r'), REI2_ADDRESS, 0);
    REFUSED(&now, opens_with(2, '-'), REI2_ADDRESS, 0);
    REFUSED_FIELD(&now, opens_with(22, 'C'), 22, 22);
    REFUSED_FIELD(&now, opens_with(18, '-'), 16, 18);
    REFUSED(&now, opens_with(12, 'q'), REI2_NO_ANSWER_DUE, 0);
    REFUSED(&now, opens_with(12, 'P'), REI2_IN_USE, 0);
    REFUSED(&now, table_opens(&now, 'a', "999"), REI2_IN_USE, 0);
}

static void sixteen_seats_and_no_more(void) {
    static const char letters[] = "0123456789ABYZaz";
    table_emptied(&now);
    for (uint32_t i = 0; i < REI2_SEATS; i++) {
        rei2_desk_answer answer = table_opens(&now, letters[i], "500");
        SAYS(answer, REI2_DONE, 0);
        CHECK(answer.seat == i);
        CHECK(rei2_seats_in_use(answer.desk) == i + 1);
        now.was.seats[i] = (rei2_seat){' ', (uint8_t)letters[i], 500, 0, 0};
        KEPT(&now);
    }
    CHECK(now.desk.bits == 0xffff);
    REFUSED(&now, table_opens(&now, 'k', "500"), REI2_NO_SEAT, 0);
    REFUSED(&now, table_opens(&now, 'z', "500"), REI2_IN_USE, 0);
}

/* ---- replies */

static void a_reply_goes_to_the_next_cell(void) {
    table_laid(&now);
    rei2_desk_answer answer = table_takes(&now, 'E', 'A', "00012");
    SAYS(answer, REI2_DONE, 0);
    CHECK(answer.seat == 1 && answer.desk.bits == 15 && answer.desk.count == 5);
    now.was.seats[1] = (rei2_seat){' ', 'A', 12, 2, 1};
    memcpy(now.was.cells + 4 * REI2_CELL_SIZE, now.memory.input, REI2_CELL_SIZE);
    now.was.marks[4] = 1;
    CHECK(*number_of(&now.was, 'P', 'E') == 1);
    *number_of(&now.was, 'P', 'E') = 2;
    KEPT(&now);
}

/* A reply to seat 1 whose byte at `at` is `byte`. */
static rei2_desk_answer replies_with(size_t at, char byte) {
    uint8_t frame[REI2_REPLY_SIZE];
    make_reply(frame, 'R', 'A', "00012");
    frame[at] = (uint8_t)byte;
    return table_reply(&now, frame, sizeof frame);
}

static void replies_are_refused_in_order(void) {
    table_laid(&now);
    REFUSED(&now, replies_with(0, REI2_DYNAMIC_LEAD), REI2_KIND, 0);
    REFUSED(&now, table_reply(&now, (const uint8_t *)"\022R", 2), REI2_LENGTH, 0);
    REFUSED(&now, replies_with(50, '\n'), REI2_END, 0);
    REFUSED(&now, replies_with(2, 'A'), REI2_ADDRESS, 0);
    REFUSED_FIELD(&now, replies_with(29, 'L'), 29, 29);
    REFUSED_FIELD(&now, replies_with(16, '-'), 12, 16);
    REFUSED(&now, replies_with(2, '0'), REI2_STRAY, 0);
    REFUSED(&now, replies_with(6, 'B'), REI2_STRAY, 0);
    REFUSED(&now, replies_with(7, '1'), REI2_STRAY, 0);
    REFUSED(&now, table_takes(&now, 'R', '1', "00007"), REI2_ENDED, 0);
    REFUSED(&now, table_takes(&now, 'Z', '1', "00007"), REI2_ENDED, 0);
    REFUSED(&now, table_takes(&now, 'Z', 'a', "00999"), REI2_ENDED, 0);
    REFUSED(&now, table_takes(&now, 'Z', 'A', "00012"), REI2_OUT_OF_PLACE, 0);
}

static void a_full_desk_refuses_last(void) {
    table_laid(&now);
    SAYS(table_takes(&now, 'R', 'A', "00012"), REI2_DONE, 0);
    SAYS(table_takes(&now, 'R', 'z', "00000"), REI2_DONE, 0);
    REFUSED(&now, table_takes(&now, 'R', 'A', "00012"), REI2_FULL, 0);
    REFUSED(&now, table_takes(&now, 'Z', 'A', "00012"), REI2_OUT_OF_PLACE, 0);
    REFUSED(&now, table_takes(&now, 'R', '1', "00007"), REI2_ENDED, 0);
    REFUSED(&now, table_takes(&now, 'R', '9', "00007"), REI2_STRAY, 0);
    REFUSED_FIELD(&now, replies_with(21, 'x'), 20, 21);
    SAYS(table_opens(&now, 'c', "001"), REI2_DONE, 0);
}

/* A desk with one seat open, which is lent one cell and one mark more than it can hold. */
enum { MORE = REI2_CELLS + 1 };
static rei2_seat seats[REI2_SEATS];
static uint8_t cells[MORE * REI2_CELL_SIZE];
static uint32_t marks[MORE];
static uint32_t tally[REI2_LETTERS][REI2_STATUSES];

static rei2_desk one_seat(void) {
    uint8_t frame[REI2_REQUEST_SIZE];
    make_request(frame, '1', "007");
    rei2_desk desk = rei2_reset(seats, REI2_SEATS, (rei2_desk){1, 1}, tally).desk;
    return rei2_open(seats, REI2_SEATS, desk, cells, sizeof cells, marks, MORE, tally, frame, sizeof frame).desk;
}

static rei2_desk_answer one_more(rei2_desk desk) {
    uint8_t frame[REI2_REPLY_SIZE];
    make_reply(frame, 'R', '1', "00007");
    return rei2_reply(seats, REI2_SEATS, desk, cells, sizeof cells, marks, MORE, tally, frame, sizeof frame);
}

static void no_more_than_256_cells(void) {
    rei2_desk desk = one_seat();
    for (uint32_t i = 0; i < REI2_CELLS; i++) {
        rei2_desk_answer answer = one_more(desk);
        SAYS(answer, REI2_DONE, 0);
        desk = answer.desk;
    }
    SAYS(one_more(desk), REI2_FULL, 0);
    CHECK(desk.count == REI2_CELLS && seats[0].held == REI2_CELLS && seats[0].ended == 0);
    CHECK(rei2_look(tally, 'P', 'R').held == REI2_CELLS);
    CHECK(cells[REI2_CELLS * REI2_CELL_SIZE] == 0);
    CHECK(rei2_next_held(desk, cells, sizeof cells, marks, MORE, 0, 255).cell == 255);
    CHECK(rei2_next_held(desk, cells, sizeof cells, marks, MORE, 0, 256).found == 0);
    memcpy(cells + REI2_CELLS * REI2_CELL_SIZE, cells, REI2_CELL_SIZE);
    seats[0].held = MORE;
    tally[place_in(REI2_LETTER_ORDER, 'P')][0] = MORE;
    desk.count = MORE;
    SAYS(one_more(desk), REI2_DESK, 0);
}

/* ---- several stopwatches */

/* One requester and one number at three addresses: three seats, and each address can be used once. */
static void open_at_three_addresses(void) {
    static const char addresses[] = " 09";
    table_emptied(&now);
    for (uint32_t i = 0; i < 3; i++) {
        rei2_desk_answer answer = table_opens_at(&now, addresses[i], '1', "007");
        SAYS(answer, REI2_DONE, 0);
        CHECK(answer.seat == i);
        now.was.seats[i] = (rei2_seat){(uint8_t)addresses[i], '1', 7, 0, 0};
        KEPT(&now);
        REFUSED(&now, table_opens_at(&now, addresses[i], '1', "007"), REI2_IN_USE, 0);
    }
}

/* A reply goes to the seat with its address, into the first free cell. */
static void goes_to(uint32_t seat, char address, char status) {
    uint32_t cell = now.desk.count;
    rei2_desk_answer answer = table_takes_at(&now, address, status, '1', "00007");
    SAYS(answer, REI2_DONE, 0);
    CHECK(answer.seat == seat && answer.desk.count == cell + 1);
    now.was.seats[seat].held++;
    now.was.seats[seat].ended = status != 'R';
    memcpy(now.was.cells + cell * REI2_CELL_SIZE, now.memory.input, REI2_CELL_SIZE);
    now.was.marks[cell] = seat;
    ++*number_of(&now.was, 'P', status);
    KEPT(&now);
}

/* What one stopwatch sends does not end the request to another, nor put a Z out of place there. */
static void replies_go_by_their_address(void) {
    open_at_three_addresses();
    goes_to(2, '9', 'R');
    goes_to(0, ' ', 'R');
    REFUSED(&now, table_takes_at(&now, '3', 'R', '1', "00007"), REI2_STRAY, 0);
    REFUSED(&now, table_takes_at(&now, '-', 'R', '1', "00007"), REI2_ADDRESS, 0);
    goes_to(2, '9', 'E');
    REFUSED(&now, table_takes_at(&now, '9', 'R', '1', "00007"), REI2_ENDED, 0);
    REFUSED(&now, table_takes_at(&now, ' ', 'Z', '1', "00007"), REI2_OUT_OF_PLACE, 0);
    goes_to(1, '0', 'Z');
    goes_to(0, ' ', 'E');
}

/* A stopwatch that was not asked: a reply is a stray although another one was asked the same. */
static void an_address_that_was_not_asked(void) {
    table_emptied(&now);
    SAYS(table_opens_at(&now, '0', '1', "007"), REI2_DONE, 0);
    REFUSED(&now, table_takes_at(&now, ' ', 'R', '1', "00007"), REI2_STRAY, 0);
    REFUSED(&now, table_takes_at(&now, '1', 'R', '1', "00007"), REI2_STRAY, 0);
    goes_to(0, '0', 'R');
}

/* A row is eighty numbers in a line, five for each seat. A reset makes all of them 0. */
enum { NUMBERS = 5 };

static void a_row_has_no_padding(void) {
    uint32_t row[REI2_SEATS][NUMBERS];
    CHECK(sizeof row == sizeof(rei2_seat[REI2_SEATS]));
    table_emptied(&now);
    SAYS(table_opens_at(&now, '4', 'b', "321"), REI2_DONE, 0);
    SAYS(table_opens_at(&now, ' ', 'b', "321"), REI2_DONE, 0);
    SAYS(table_takes_at(&now, ' ', 'E', 'b', "00321"), REI2_DONE, 0);
    memcpy(row, now.memory.seats, sizeof row);
    SAME(row[0], ((const uint32_t[NUMBERS]){52, 'b', 321, 0, 0}), sizeof row[0]);
    SAME(row[1], ((const uint32_t[NUMBERS]){32, 'b', 321, 1, 1}), sizeof row[1]);
    SAME(row[2], ((const uint32_t[NUMBERS]){0}), sizeof row[2]);
    SAYS(table_reset(&now), REI2_DONE, 0);
    memset(now.was.seats, 0, sizeof row);
    memset(now.was.tally, 0, sizeof now.was.tally);
    KEPT(&now);
}

/* ---- numbers of a desk */

static void seats_in_use_are_all_ones(void) {
    CHECK(rei2_seats_in_use((rei2_desk){0, 7}) == 0);
    CHECK(rei2_seats_in_use((rei2_desk){0x8001, 0}) == 2);
    CHECK(rei2_seats_in_use((rei2_desk){~(uint64_t)0, 0}) == 64);
}

static void capacity_is_the_least(void) {
    CHECK(rei2_capacity(0, 0) == 0);
    CHECK(rei2_capacity(50, 9) == 0);
    CHECK(rei2_capacity(51, 9) == 1);
    CHECK(rei2_capacity(5 * 51, 4) == 4);
    CHECK(rei2_capacity(REI2_CELLS * REI2_CELL_SIZE - 1, 300) == 255);
    CHECK(rei2_capacity(SIZE_MAX, SIZE_MAX) == REI2_CELLS);
}

/* ---- reading records back */

static rei2_cell_answer held(uint32_t seat, size_t from) {
    return rei2_next_held(now.desk, now.memory.cells, now.cells_len, now.memory.marks, now.marks_len, seat, from);
}

/* The cells of a seat are these, and then there are no more. */
static void holds(uint32_t seat, const size_t *cells, size_t count) {
    size_t from = 0;
    for (size_t i = 0; i < count; i++) {
        rei2_cell_answer answer = held(seat, from);
        CHECK(answer.found == 1 && answer.cell == cells[i]);
        from = answer.cell + 1;
    }
    CHECK(held(seat, from).found == 0 && held(seat, from).cell == 0);
}

static void records_are_read_back(void) {
    table_laid(&now);
    holds(0, (const size_t[]){0, 3}, 2);
    holds(1, (const size_t[]){1}, 1);
    holds(2, NULL, 0);
    holds(3, (const size_t[]){2}, 1);
    CHECK(held(0, 1).cell == 3 && held(0, 3).cell == 3);
    CHECK(held(0, SIZE_MAX).found == 0);
    CHECK(held(now.memory.marks[4], 4).found == 0);
    CHECK(now.memory.cells[3 * REI2_CELL_SIZE + 5] == 'E');
}

/* Any state is taken, and nothing is read that is not lent. */
static void any_state_is_read_back(void) {
    table_laid(&now);
    now.desk.count = UINT32_MAX;
    now.marks_len = 3;
    holds(0, (const size_t[]){0}, 1);
    now.cells_len = 2 * REI2_CELL_SIZE;
    holds(3, NULL, 0);
}

/* ---- null pointers with the count 0. The tally is never null. */

static void nothing_lent(void) {
    uint8_t frame[REI2_REPLY_SIZE];
    rei2_desk desk = rei2_reset(seats, REI2_SEATS, (rei2_desk){9, 9}, tally).desk;
    SAYS(rei2_reset(NULL, 0, desk, tally), REI2_DESK, 0);
    SAYS(rei2_open(NULL, 0, desk, NULL, 0, NULL, 0, tally, NULL, 0), REI2_DESK, 0);
    SAYS(rei2_reply(NULL, 0, desk, NULL, 0, NULL, 0, tally, NULL, 0), REI2_DESK, 0);
    SAYS(rei2_capture(NULL, 0, desk, NULL, 0, NULL, 0, tally, NULL, 0), REI2_DESK, 0);
    SAYS(rei2_open(seats, REI2_SEATS, desk, NULL, 0, NULL, 0, tally, NULL, 0), REI2_KIND, 0);
    SAYS(rei2_reply(seats, REI2_SEATS, desk, NULL, 0, NULL, 0, tally, NULL, 0), REI2_KIND, 0);
    SAYS(rei2_capture(seats, REI2_SEATS, desk, NULL, 0, NULL, 0, tally, NULL, 0), REI2_DONE, 0);
    make_request(frame, '1', "007");
    rei2_desk_answer answer = rei2_open(seats, REI2_SEATS, desk, NULL, 0, NULL, 0, tally, frame, REI2_REQUEST_SIZE);
    SAYS(answer, REI2_DONE, 0);
    make_reply(frame, 'R', '1', "00007");
    SAYS(rei2_reply(seats, REI2_SEATS, answer.desk, NULL, 0, NULL, 0, tally, frame, sizeof frame), REI2_FULL, 0);
    CHECK(rei2_next_held(answer.desk, NULL, 0, NULL, 0, 0, 0).found == 0);
}

void test_desk(void) {
    an_opening_takes_the_lowest_seat();
    openings_are_refused_in_order();
    sixteen_seats_and_no_more();
    a_reply_goes_to_the_next_cell();
    replies_are_refused_in_order();
    a_full_desk_refuses_last();
    no_more_than_256_cells();
    replies_go_by_their_address();
    an_address_that_was_not_asked();
    a_row_has_no_padding();
    seats_in_use_are_all_ones();
    capacity_is_the_least();
    records_are_read_back();
    any_state_is_read_back();
    nothing_lent();
}
