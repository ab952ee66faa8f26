/* The tally: what a look at it answers, and what each call does to it. spoiled.c has the tallies that make no desk. */
#include <string.h>

#include "made.h"
#include "table.h"
#include "tests.h"

static struct table now;

/* ---- looks */

/* A look must answer with the number in its place, or be refused if letter or status has no place. */
static int is_right(uint32_t tally[REI2_LETTERS][REI2_STATUSES], uint8_t letter, uint8_t status) {
    rei2_looked_answer answer = rei2_look(tally, letter, status);
    size_t row = place_in(REI2_LETTER_ORDER, letter), column = place_in(REI2_STATUS_ORDER, status);
    if (row == REI2_LETTERS || column == REI2_STATUSES) {
        return answer.refusal == REI2_NO_SUCH && answer.held == 0;
    }
    return answer.refusal == REI2_DONE && answer.held == tally[row][column];
}

/* Every letter with every status; a check for each letter. No look changes a byte. */
static void every_look(const char *what, uint32_t tally[REI2_LETTERS][REI2_STATUSES]) {
    uint32_t before[REI2_LETTERS][REI2_STATUSES];
    memcpy(before, tally, sizeof before);
    trying(what);
    for (int letter = 0; letter < 256; letter++) {
        int right = 1;
        for (int status = 0; status < 256; status++) {
            right &= is_right(tally, (uint8_t)letter, (uint8_t)status);
        }
        CHECK(right);
    }
    SAME(tally, before, sizeof before);
    trying(NULL);
}

static void looks_at_every_tally(void) {
    table_of_garbage(&now);
    every_look("garbage", now.memory.tally);
    memset(now.memory.tally, 0xff, sizeof now.memory.tally);
    every_look("the greatest numbers", now.memory.tally);
    table_emptied(&now);
    every_look("an empty desk", now.memory.tally);
    table_laid(&now);
    every_look("a desk with records", now.memory.tally);
}

/* The numbers of the laid desk, and what is not in the tally. */
static void a_look_is_a_number_or_refused(void) {
    table_laid(&now);
    rei2_looked_answer answer = rei2_look(now.memory.tally, 'P', 'R');
    SAYS(answer, REI2_DONE, 0);
    CHECK(answer.held == 2);
    CHECK(rei2_look(now.memory.tally, 'P', 'E').held == 1);
    CHECK(rei2_look(now.memory.tally, 'P', 'Z').held == 1);
    CHECK(rei2_look(now.memory.tally, 'p', 'R').held == 0);
    SAYS(rei2_look(now.memory.tally, 'L', 'R'), REI2_NO_SUCH, 0);
    SAYS(rei2_look(now.memory.tally, 'P', 'P'), REI2_NO_SUCH, 0);
    SAYS(rei2_look(now.memory.tally, 'R', 'P'), REI2_NO_SUCH, 0);
    SAYS(rei2_look(now.memory.tally, 0, 0), REI2_NO_SUCH, 0);
}

/* Nothing is tested but letter and status: a tally of no desk is looked at too. */
static void a_look_does_not_test_the_desk(void) {
    table_laid(&now);
    *number_of(&now.memory, 'X', 'Z') = UINT32_MAX;
    REFUSED(&now, table_opens(&now, 'b', "001"), REI2_DESK, 0);
    rei2_looked_answer answer = rei2_look(now.memory.tally, 'X', 'Z');
    SAYS(answer, REI2_DONE, 0);
    CHECK(answer.held == UINT32_MAX);
}

/* ---- what the calls do */

/* A reply to 1 007 with this letter and this status. */
static void make_counted(uint8_t *frame, char letter, char status) {
    make_reply(frame, status, '1', "00007");
    put_letter(frame, letter);
}

/* On an empty desk that was asked once, a reply adds one to its own number and to no other. */
static void is_counted(char letter, char status) {
    uint8_t frame[REI2_REPLY_SIZE];
    make_counted(frame, letter, status);
    table_emptied(&now);
    CHECK(table_opens(&now, '1', "007").refusal == REI2_DONE);
    rei2_desk_answer answer = table_reply(&now, frame, sizeof frame);
    SAYS(answer, REI2_DONE, 0);
    now.was.seats[0].held = 1;
    now.was.seats[0].ended = status != 'R';
    memcpy(now.was.cells, frame, sizeof frame);
    now.was.marks[0] = 0;
    *number_of(&now.was, letter, status) = 1;
    KEPT(&now);
    CHECK(rei2_look(now.memory.tally, (uint8_t)letter, (uint8_t)status).held == 1);
    now.desk = answer.desk;
    SAYS(table_opens(&now, 'b', "001"), REI2_DONE, 0);
}

static void each_reply_is_counted(void) {
    for (const char *letter = REI2_LETTER_ORDER; *letter != 0; letter++) {
        for (const char *status = REI2_STATUS_ORDER; *status != 0; status++) {
            const char what[] = {*letter, ' ', *status, 0};
            trying(what);
            is_counted(*letter, *status);
            trying(NULL);
        }
    }
}

/* The reset makes it right, whatever it held. Without sixteen seats it is refused and changes nothing. */
static void a_reset_clears_it(void) {
    table_of_garbage(&now);
    memset(now.memory.tally, 0xff, sizeof now.memory.tally);
    now.seats_len = REI2_SEATS - 1;
    REFUSED(&now, table_reset(&now), REI2_DESK, 0);
    now.seats_len = REI2_SEATS;
    now.desk = table_reset(&now).desk;
    for (size_t row = 0; row < REI2_LETTERS; row++) {
        SAME(now.memory.tally[row], ((const uint32_t[REI2_STATUSES]){0}), sizeof now.memory.tally[row]);
    }
    SAYS(table_opens(&now, '1', "007"), REI2_DONE, 0);
}

/* A reply that is refused is not counted, whatever it is refused for. */
static void refused_replies_are_not_counted(void) {
    uint8_t frame[REI2_REPLY_SIZE];
    table_laid(&now);
    make_counted(frame, 'K', 'R');
    REFUSED(&now, table_reply(&now, frame, sizeof frame), REI2_ENDED, 0);
    frame[6] = 'B';
    REFUSED(&now, table_reply(&now, frame, sizeof frame), REI2_STRAY, 0);
    frame[29] = 'L';
    REFUSED_FIELD(&now, table_reply(&now, frame, sizeof frame), 29, 29);
    CHECK(rei2_look(now.memory.tally, 'K', 'R').held == 0);
}

/* ---- two hosts */

static struct table other;

/* Each host's calls change its own tally. With the tally of the other there is no desk. */
static void tallies_are_independent(void) {
    table_laid(&now);
    table_emptied(&other);
    CHECK(table_opens(&other, '1', "007").refusal == REI2_DONE);
    CHECK(table_takes(&other, 'R', '1', "00007").refusal == REI2_DONE);
    CHECK(table_takes(&now, 'R', 'A', "00012").refusal == REI2_DONE);
    CHECK(table_takes(&other, 'E', '1', "00007").refusal == REI2_DONE);
    CHECK(*number_of(&now.memory, 'P', 'R') == 3 && *number_of(&now.memory, 'P', 'E') == 1);
    CHECK(*number_of(&other.memory, 'P', 'R') == 1 && *number_of(&other.memory, 'P', 'E') == 1);
    memcpy(now.memory.tally, other.memory.tally, sizeof now.memory.tally);
    REFUSED(&now, table_opens(&now, 'b', "001"), REI2_DESK, 0);
    CHECK(table_reset(&now).refusal == REI2_DONE);
    CHECK(*number_of(&other.memory, 'P', 'R') == 1);
    SAYS(table_opens(&other, 'b', "001"), REI2_DONE, 0);
}

/* ---- a capture */

/* A round is a frame for each seat. The first round has the requests. */
enum { ROUNDS = 26, FRAMES = ROUNDS * REI2_SEATS };

/* A desk with all its memory. */
struct full {
    rei2_desk desk;
    rei2_seat seats[REI2_SEATS];
    uint8_t cells[REI2_CELLS * REI2_CELL_SIZE];
    uint32_t marks[REI2_CELLS];
    uint32_t tally[REI2_LETTERS][REI2_STATUSES];
};
static struct full single, whole;
static uint8_t frames[FRAMES * REI2_REPLY_SIZE];
static size_t frames_size;

/* Two seats get only Z, and four an E from round 5 on. Their later replies are refused, and the last ones of the other
   seats do not fit. */
static char status_of(size_t seat, size_t round) {
    return seat >= 14 ? 'Z' : seat >= 10 && round >= 5 ? 'E' : 'R';
}

static size_t make_frame(uint8_t *to, size_t i) {
    static const char requesters[] = "0123456789ABCDEF";
    size_t seat = i % REI2_SEATS, round = i / REI2_SEATS;
    if (round == 0) {
        make_request(to, requesters[seat], "007");
        return REI2_REQUEST_SIZE;
    }
    make_reply(to, status_of(seat, round), requesters[seat], "00007");
    put_letter(to, REI2_LETTER_ORDER[7 * i % REI2_LETTERS]);
    return REI2_REPLY_SIZE;
}

static void empty_full(struct full *full) {
    fill(full, sizeof *full, 4);
    full->desk = rei2_reset(full->seats, REI2_SEATS, full->desk, full->tally).desk;
}

/* A call for each frame. */
static rei2_desk_answer give(struct full *f, const uint8_t *frame, size_t size) {
    if (frame[0] == REI2_REQUEST_LEAD) {
        return rei2_open(f->seats, REI2_SEATS, f->desk, f->cells, sizeof f->cells, f->marks, REI2_CELLS, f->tally,
                         frame, size);
    }
    return rei2_reply(f->seats, REI2_SEATS, f->desk, f->cells, sizeof f->cells, f->marks, REI2_CELLS, f->tally, frame,
                      size);
}

/* Makes the capture and gives each of its frames to the desk. */
static void give_all(struct full *full) {
    frames_size = 0;
    for (size_t i = 0; i < FRAMES; i++) {
        uint8_t *frame = frames + frames_size;
        size_t size = make_frame(frame, i);
        frames_size += size;
        full->desk = give(full, frame, size).desk;
    }
}

/* The numbers of the tally are the counts over the held cells. */
static void agrees(struct full *full) {
    static uint32_t counted[REI2_LETTERS][REI2_STATUSES];
    memset(counted, 0, sizeof counted);
    for (size_t i = 0; i < full->desk.count; i++) {
        const uint8_t *cell = full->cells + i * REI2_CELL_SIZE;
        counted[place_in(REI2_LETTER_ORDER, cell[29])][place_in(REI2_STATUS_ORDER, cell[5])]++;
    }
    SAME(full->tally, counted, sizeof counted);
}

static void a_capture_counts_as_single_calls_do(void) {
    empty_full(&single);
    give_all(&single);
    empty_full(&whole);
    rei2_captured_answer answer = rei2_capture(whole.seats, REI2_SEATS, whole.desk, whole.cells, sizeof whole.cells,
                                               whole.marks, REI2_CELLS, whole.tally, frames, frames_size);
    SAYS(answer, REI2_DONE, 0);
    CHECK(answer.counts.opened == REI2_SEATS && answer.counts.collected == REI2_CELLS);
    whole.desk = answer.desk;
    CHECK(same_desk(whole.desk, single.desk));
    SAME(whole.tally, single.tally, sizeof whole.tally);
    SAME(whole.cells, single.cells, sizeof whole.cells);
    agrees(&whole);
    agrees(&single);
    every_look("a full desk", whole.tally);
}

void test_tally(void) {
    looks_at_every_tally();
    a_look_is_a_number_or_refused();
    a_look_does_not_test_the_desk();
    each_reply_is_counted();
    a_reset_clears_it();
    refused_replies_are_not_counted();
    tallies_are_independent();
    a_capture_counts_as_single_calls_do();
}
