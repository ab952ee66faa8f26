/* Captures: the finder, and the example taken frame by frame, at once, and as a list. */
#include <string.h>

#include "check.h"
#include "example.h"
#include "made.h"
#include "tests.h"

enum { GUARD = 32, ROW = REI2_SEATS * sizeof(rei2_seat), CELLS = REI2_CELLS * REI2_CELL_SIZE };

/* All that is lent, with guard bytes before, between and after. */
struct lent {
    uint8_t before[GUARD];
    rei2_seat seats[REI2_SEATS];
    uint8_t behind_seats[GUARD];
    uint8_t cells[CELLS];
    uint8_t behind_cells[GUARD];
    uint32_t marks[REI2_CELLS];
    uint8_t behind_marks[GUARD];
    uint32_t tally[REI2_LETTERS][REI2_STATUSES];
    uint8_t behind_tally[GUARD];
    uint8_t out[REI2_LONGEST_LIST];
    uint8_t behind[GUARD];
};

/* What is lent, and what it must hold after a call. */
static struct lent lent, wanted;

static void fill_lent(void) {
    fill(&lent, sizeof lent, 3);
    memcpy(&wanted, &lent, sizeof lent);
}

static rei2_desk empty_desk(void) {
    fill_lent();
    rei2_desk_answer answer = rei2_reset(lent.seats, REI2_SEATS, (rei2_desk){77, 77}, lent.tally);
    SAYS(answer, REI2_DONE, 0);
    memset(wanted.seats, 0, ROW);
    memset(wanted.tally, 0, sizeof wanted.tally);
    return answer.desk;
}

/* One record more with the letter and the status of a reply. */
static void want_counted(const uint8_t *reply) {
    wanted.tally[place_in(REI2_LETTER_ORDER, reply[29])][place_in(REI2_STATUS_ORDER, reply[5])]++;
}

static void is_as_wanted(void) {
    SAME(&lent, &wanted, sizeof lent);
}

/* ---- the example */

/* The three replies that the desk takes are next to each other in the example, from byte 48 on. */
static void want_example_cells(void) {
    memcpy(wanted.cells, example_capture + 48, 3 * REI2_CELL_SIZE);
    wanted.marks[0] = 0;
    wanted.marks[1] = 1;
    wanted.marks[2] = 0;
}

static void want_example(void) {
    wanted.seats[0] = (rei2_seat){' ', '1', 7, 2, 1};
    wanted.seats[1] = (rei2_seat){' ', 'A', 12, 1, 1};
    want_example_cells();
    memset(wanted.tally, 0, sizeof wanted.tally);
    for (size_t i = 0; i < 3; i++) {
        want_counted(wanted.cells + i * REI2_CELL_SIZE);
    }
}

/* A frame of the example, the answer to it, and the first two seats after it. */
struct step {
    size_t start;
    size_t end;
    uint32_t refusal;
    uint32_t seat;
    rei2_seat seats[2];
};

static const struct step steps[] = {
    {0, 24, REI2_DONE, 0, {{' ', '1', 7, 0, 0}, {0, 0, 0, 0, 0}}},
    {24, 48, REI2_DONE, 1, {{' ', '1', 7, 0, 0}, {' ', 'A', 12, 0, 0}}},
    {48, 99, REI2_DONE, 0, {{' ', '1', 7, 1, 0}, {' ', 'A', 12, 0, 0}}},
    {99, 150, REI2_DONE, 1, {{' ', '1', 7, 1, 0}, {' ', 'A', 12, 1, 1}}},
    {150, 201, REI2_DONE, 0, {{' ', '1', 7, 2, 1}, {' ', 'A', 12, 1, 1}}},
    {201, 252, REI2_ENDED, 0, {{' ', '1', 7, 2, 1}, {' ', 'A', 12, 1, 1}}},
};
enum { STEPS = sizeof steps / sizeof steps[0] };

static rei2_desk_answer met(rei2_desk desk, const uint8_t *frame, size_t size) {
    if (frame[0] == REI2_REQUEST_LEAD) {
        return rei2_open(lent.seats, REI2_SEATS, desk, lent.cells, CELLS, lent.marks, REI2_CELLS, lent.tally, frame,
                         size);
    }
    return rei2_reply(lent.seats, REI2_SEATS, desk, lent.cells, CELLS, lent.marks, REI2_CELLS, lent.tally, frame, size);
}

/* What a step changes: the seats, and for a reply that is taken also a cell, its mark and a number of the tally. */
static void want_step(const struct step *step, uint32_t count) {
    memcpy(wanted.seats, step->seats, sizeof step->seats);
    if (example_capture[step->start] == REI2_REPLY_LEAD && step->refusal == REI2_DONE) {
        memcpy(wanted.cells + count * REI2_CELL_SIZE, example_capture + step->start, REI2_CELL_SIZE);
        wanted.marks[count] = step->seat;
        want_counted(example_capture + step->start);
    }
}

static void example_by_frames(void) {
    rei2_desk desk = empty_desk();
    size_t at = 0;
    for (size_t i = 0; i < STEPS; i++) {
        rei2_frame_answer found = rei2_next_frame(example_capture, EXAMPLE_CAPTURE, at);
        CHECK(found.kind == REI2_WHOLE && found.start == steps[i].start && found.end == steps[i].end);
        CHECK(found.next == found.end);
        rei2_desk_answer answer = met(desk, example_capture + found.start, found.end - found.start);
        SAYS(answer, steps[i].refusal, 0);
        CHECK(answer.seat == steps[i].seat);
        want_step(&steps[i], desk.count);
        is_as_wanted();
        desk = answer.desk;
        at = found.next;
    }
    rei2_frame_answer last = rei2_next_frame(example_capture, EXAMPLE_CAPTURE, at);
    CHECK(last.kind == REI2_NOTHING && last.next == EXAMPLE_CAPTURE);
    CHECK(desk.bits == 3 && desk.count == 3);
    want_example();
    is_as_wanted();
}

static rei2_captured_answer captured(rei2_desk desk, const uint8_t *capture, size_t size) {
    return rei2_capture(lent.seats, REI2_SEATS, desk, lent.cells, CELLS, lent.marks, REI2_CELLS, lent.tally, capture,
                        size);
}

static int counts_are(rei2_counts c, size_t opened, size_t collected, size_t dynamic, size_t refused) {
    return c.opened == opened && c.collected == collected && c.dynamic == dynamic && c.refused == refused;
}

static void example_at_once(void) {
    rei2_captured_answer answer = captured(empty_desk(), example_capture, EXAMPLE_CAPTURE);
    SAYS(answer, REI2_DONE, 0);
    CHECK(answer.desk.bits == 3 && answer.desk.count == 3);
    CHECK(counts_are(answer.counts, 2, 3, 0, 1));
    want_example();
    is_as_wanted();
}

/* In two parts: the second call gets the state that the first returned. */
static void example_in_parts(void) {
    rei2_captured_answer first = captured(empty_desk(), example_capture, 99);
    CHECK(counts_are(first.counts, 2, 1, 0, 0));
    rei2_captured_answer last = captured(first.desk, example_capture + 99, EXAMPLE_CAPTURE - 99);
    SAYS(last, REI2_DONE, 0);
    CHECK(counts_are(last.counts, 0, 2, 0, 1));
    CHECK(last.desk.bits == 3 && last.desk.count == 3);
    want_example();
    is_as_wanted();
}

/* Cut and damaged frames, a dynamic request, and bytes between frames. */
static void every_count(void) {
    static uint8_t capture[256];
    uint8_t *at = capture;
    *at++ = '\r';
    make_request(at, '1', "007");
    at += REI2_REQUEST_SIZE;
    memcpy(at, "\n\n\021R 2", 6);
    at += 6;
    make_dynamic(at);
    at += REI2_DYNAMIC_SIZE;
    memcpy(at, "\023\r\022\r\021R\r\021", 8);
    at += 8;
    rei2_captured_answer answer = captured(empty_desk(), capture, (size_t)(at - capture));
    SAYS(answer, REI2_DONE, 0);
    CHECK(counts_are(answer.counts, 1, 0, 1, 5));
    wanted.seats[0] = (rei2_seat){' ', '1', 7, 0, 0};
    is_as_wanted();
}

/* ---- two stopwatches, asked the same by one requester */

/* Both requests, a reply from each, a reply from a third address, and a dynamic request. */
static const struct part {
    char address;
    uint8_t lead;
    char status;
} parts[] = {
    {' ', REI2_REQUEST_LEAD, 0}, {'3', REI2_REQUEST_LEAD, 0}, {'3', REI2_REPLY_LEAD, 'R'},
    {' ', REI2_REPLY_LEAD, 'E'}, {'0', REI2_REPLY_LEAD, 'R'}, {'3', REI2_DYNAMIC_LEAD, 0},
};
enum { PARTS = sizeof parts / sizeof parts[0] };

static size_t make_part(uint8_t *to, const struct part *part) {
    size_t size = REI2_DYNAMIC_SIZE;
    if (part->lead == REI2_REQUEST_LEAD) {
        make_request(to, '1', "007");
        size = REI2_REQUEST_SIZE;
    } else if (part->lead == REI2_REPLY_LEAD) {
        make_reply(to, part->status, '1', "00007");
        size = REI2_REPLY_SIZE;
    } else {
        make_dynamic(to);
    }
    to[2] = (uint8_t)part->address;
    return size;
}

static uint8_t two[PARTS * REI2_REPLY_SIZE];
static size_t two_size;

static void make_two(void) {
    two_size = 0;
    for (size_t i = 0; i < PARTS; i++) {
        two_size += make_part(two + two_size, &parts[i]);
    }
}

/* The two replies that are taken are next to each other, after the requests. */
static void want_two_cells(void) {
    memcpy(wanted.cells, two + 2 * REI2_REQUEST_SIZE, 2 * REI2_CELL_SIZE);
    wanted.marks[0] = 1;
    wanted.marks[1] = 0;
}

static void two_stopwatches(void) {
    make_two();
    rei2_captured_answer answer = captured(empty_desk(), two, two_size);
    SAYS(answer, REI2_DONE, 0);
    CHECK(answer.desk.bits == 3 && answer.desk.count == 2);
    CHECK(counts_are(answer.counts, 2, 2, 1, 1));
    wanted.seats[0] = (rei2_seat){' ', '1', 7, 1, 1};
    wanted.seats[1] = (rei2_seat){'3', '1', 7, 1, 0};
    want_two_cells();
    want_counted(wanted.cells);
    want_counted(wanted.cells + REI2_CELL_SIZE);
    is_as_wanted();
}

/* ---- the list */

static rei2_listed_answer list(const uint8_t *capture, size_t size, size_t room) {
    return rei2_list(capture, size, lent.cells, CELLS, lent.marks, REI2_CELLS, lent.out, room);
}

static void is_listed(rei2_listed_answer answer, const void *text, size_t size) {
    SAYS(answer, REI2_DONE, 0);
    CHECK(answer.size == size);
    memcpy(wanted.out, text, size);
    is_as_wanted();
}

static void lists_nothing(rei2_listed_answer answer) {
    SAYS(answer, REI2_ROOM, 0);
    CHECK(answer.size == 0);
    is_as_wanted();
}

static void example_list_is_stored(void) {
    fill_lent();
    lists_nothing(list(example_capture, EXAMPLE_CAPTURE, EXAMPLE_LIST - 1));
    lists_nothing(list(example_capture, EXAMPLE_CAPTURE, 0));
    want_example_cells();
    is_listed(list(example_capture, EXAMPLE_CAPTURE, EXAMPLE_LIST), example_list, EXAMPLE_LIST);
    is_listed(list(example_capture, EXAMPLE_CAPTURE, REI2_LONGEST_LIST), example_list, EXAMPLE_LIST);
    rei2_listed_answer answer = rei2_list(example_capture, EXAMPLE_CAPTURE, lent.cells, CELLS, lent.marks, REI2_CELLS,
                                          NULL, 0);
    lists_nothing(answer);
}

/* The first line of every list. */
enum { HEADING = 67 };

/* With one cell only the first reply is taken, and the others are refused. */
static void example_in_one_cell(void) {
    static const char one[] = "0\t1\t-\t007\t00015\t000\t002\t000\t000\tP\t0000000000\t00000000\tR\nend\t2\t1\t0\t3\n";
    fill_lent();
    memcpy(wanted.cells, example_capture + 48, REI2_CELL_SIZE);
    wanted.marks[0] = 0;
    memcpy(wanted.out, example_list, HEADING);
    memcpy(wanted.out + HEADING, one, sizeof one - 1);
    rei2_listed_answer answer = rei2_list(example_capture, EXAMPLE_CAPTURE, lent.cells, 2 * REI2_CELL_SIZE - 1,
                                          lent.marks, REI2_CELLS, lent.out, REI2_LONGEST_LIST);
    SAYS(answer, REI2_DONE, 0);
    CHECK(answer.size == HEADING + sizeof one - 1);
    is_as_wanted();
}

/* A space is shown as a minus sign, another address as it is. */
static void two_stopwatches_listed(void) {
    static const char rows[] = "0\t1\t-\t007\t00015\t000\t002\t000\t000\tP\t0000000000\t00000000\tE\n"
                               "1\t1\t3\t007\t00015\t000\t002\t000\t000\tP\t0000000000\t00000000\tR\n"
                               "end\t2\t2\t1\t1\n";
    static uint8_t text[HEADING + sizeof rows - 1];
    memcpy(text, example_list, HEADING);
    memcpy(text + HEADING, rows, sizeof rows - 1);
    fill_lent();
    make_two();
    want_two_cells();
    is_listed(list(two, two_size, REI2_LONGEST_LIST), text, sizeof text);
}

/* A capture of the most bytes is listed. With one byte more the list is the line "input too long". */
static void long_input(void) {
    static uint8_t noise[REI2_MOST_INPUT + 1], nothing[HEADING + 12];
    memcpy(nothing, example_list, HEADING);
    memcpy(nothing + HEADING, "end\t0\t0\t0\t0\n", 12);
    fill_lent();
    is_listed(list(noise, REI2_MOST_INPUT, REI2_LONGEST_LIST), nothing, sizeof nothing);
    is_listed(list(NULL, 0, REI2_LONGEST_LIST), nothing, sizeof nothing);
    fill_lent();
    memcpy(noise, example_capture, EXAMPLE_CAPTURE);
    lists_nothing(list(noise, REI2_MOST_INPUT + 1, 14));
    is_listed(list(noise, REI2_MOST_INPUT + 1, 15), "input too long\n", 15);
}

/* ---- the finder */

static void finds(const char *capture, size_t size, size_t at, rei2_frame_answer wants) {
    rei2_frame_answer got = rei2_next_frame((const uint8_t *)capture, size, at);
    CHECK(got.kind == wants.kind && got.start == wants.start && got.end == wants.end && got.next == wants.next);
}

/* Nothing is left: next is the length of the capture, wherever the search began. */
static void finds_nothing(const char *capture, size_t size, size_t at) {
    finds(capture, size, at, (rei2_frame_answer){REI2_NOTHING, 0, 0, size});
}

static void finder(void) {
    static const char capture[] = "ab\rc\021xy\r\022z\023\r\r\021";
    enum { SIZE = sizeof capture - 1 };
    finds_nothing(NULL, 0, 0);
    finds_nothing(NULL, 0, SIZE_MAX);
    finds_nothing(capture, 4, 0);
    finds_nothing(capture, 4, 3);
    finds_nothing(capture, 0, 0);
    finds(capture, 5, 0, (rei2_frame_answer){REI2_CUT, 4, 5, 5});
    finds(capture, 7, 0, (rei2_frame_answer){REI2_CUT, 4, 7, 7});
    finds(capture, SIZE, 0, (rei2_frame_answer){REI2_WHOLE, 4, 8, 8});
    finds(capture, SIZE, 4, (rei2_frame_answer){REI2_WHOLE, 4, 8, 8});
    finds(capture, SIZE, 5, (rei2_frame_answer){REI2_CUT, 8, 10, 10});
    finds(capture, SIZE, 10, (rei2_frame_answer){REI2_WHOLE, 10, 12, 12});
    finds(capture, SIZE, 12, (rei2_frame_answer){REI2_CUT, 13, 14, 14});
    finds_nothing(capture, SIZE, SIZE);
    finds_nothing(capture, SIZE, SIZE + 1);
    finds_nothing(capture, SIZE, SIZE_MAX);
}

/* A loop that goes on with next finds all frames and ends at the capture's length. */
static void finder_in_a_loop(void) {
    size_t frames = 0, at = 0;
    while (at < EXAMPLE_CAPTURE && frames <= STEPS) {
        rei2_frame_answer found = rei2_next_frame(example_capture, EXAMPLE_CAPTURE, at);
        CHECK(found.next > at);
        frames += found.kind != REI2_NOTHING;
        at = found.next;
    }
    CHECK(frames == STEPS && at == EXAMPLE_CAPTURE);
}

void test_capture(void) {
    finder();
    finder_in_a_loop();
    example_by_frames();
    example_at_once();
    example_in_parts();
    every_count();
    two_stopwatches();
    example_list_is_stored();
    example_in_one_cell();
    two_stopwatches_listed();
    long_input();
}
