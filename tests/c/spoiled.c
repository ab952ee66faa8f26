/* States and memory that make no desk: each call that tests it is refused with DESK, and no lent byte changes. */
#include <string.h>

#include "made.h"
#include "table.h"
#include "tests.h"

/* ---- each function spoils one thing of the desk that table_laid makes */

static rei2_seat *seat(struct table *t, int i) { return &t->memory.seats[i]; }
static uint8_t *cell(struct table *t, int i) { return &t->memory.cells[i * REI2_CELL_SIZE]; }

static void bit_16(struct table *t) { t->desk.bits |= (uint64_t)1 << 16; }
static void bit_63(struct table *t) { t->desk.bits |= (uint64_t)1 << 63; }

static void address_none(struct table *t) { seat(t, 2)->address = 0; }
static void address_31(struct table *t) { seat(t, 2)->address = 31; }
static void address_33(struct table *t) { seat(t, 2)->address = 33; }
static void address_minus(struct table *t) { seat(t, 2)->address = '-'; }
static void address_47(struct table *t) { seat(t, 2)->address = 47; }
static void address_58(struct table *t) { seat(t, 2)->address = 58; }
static void address_wide(struct table *t) { seat(t, 2)->address = ' ' + 256; }
static void requester_none(struct table *t) { seat(t, 2)->requester = 0; }
static void requester_between(struct table *t) { seat(t, 2)->requester = '['; }
static void requester_wide(struct table *t) { seat(t, 2)->requester = 'z' + 256; }
static void number_1000(struct table *t) { seat(t, 2)->number = 1000; }
static void bit_of_unused(struct table *t) { t->desk.bits |= 16; }

static void key_shared(struct table *t) {
    seat(t, 2)->requester = 'A';
    seat(t, 2)->number = 12;
}
static void key_shared_by_empty(struct table *t) {
    t->desk.bits |= 16;
    *seat(t, 4) = *seat(t, 2);
}

static void unused_address(struct table *t) { seat(t, 4)->address = ' '; }
static void unused_requester(struct table *t) { seat(t, 4)->requester = '5'; }
static void unused_number(struct table *t) { seat(t, 4)->number = 1; }
static void unused_held(struct table *t) { seat(t, 15)->held = 1; }
static void unused_ended(struct table *t) { seat(t, 15)->ended = 1; }
static void bit_lost(struct table *t) { t->desk.bits &= ~(uint64_t)4; }

static void marks_too_few(struct table *t) { t->marks_len = 3; }
static void cells_too_few(struct table *t) { t->cells_len = 4 * REI2_CELL_SIZE - 1; }
static void count_over_capacity(struct table *t) { t->desk.count = TABLE_CELLS + 1; }
static void count_most(struct table *t) { t->desk.count = UINT32_MAX; }

static void mark_of_unused(struct table *t) { t->memory.marks[1] = 4; }
static void mark_16(struct table *t) { t->memory.marks[1] = 16; }
static void mark_wide(struct table *t) { t->memory.marks[1] = 1 + 65536; }

static void cell_without_lead(struct table *t) { cell(t, 1)[0] = REI2_REQUEST_LEAD; }
static void cell_without_end(struct table *t) { cell(t, 1)[50] = '\n'; }
static void cell_without_address(struct table *t) { cell(t, 1)[2] = '-'; }
static void cell_address(struct table *t) { cell(t, 1)[2] = '0'; }
static void seat_address(struct table *t) { seat(t, 1)->address = '0'; }
static void cell_field(struct table *t) { cell(t, 1)[17] = '2'; }
static void cell_requester(struct table *t) { cell(t, 1)[6] = 'B'; }
static void cell_number(struct table *t) { cell(t, 1)[7] = '1'; }
static void cells_swapped(struct table *t) {
    t->memory.marks[0] = 1;
    t->memory.marks[1] = 0;
}

static void held_more(struct table *t) { seat(t, 1)->held++; }
static void held_less(struct table *t) { seat(t, 1)->held--; }
static void held_of_nothing(struct table *t) { seat(t, 2)->held = 1; }
static void count_less(struct table *t) { t->desk.count--; }

static void e_before_the_end(struct table *t) { cell(t, 0)[5] = 'E'; }
static void z_before_the_end(struct table *t) { cell(t, 0)[5] = 'Z'; }
static void z_behind_a_record(struct table *t) { cell(t, 3)[5] = 'Z'; }

static void ended_lost(struct table *t) { seat(t, 0)->ended = 0; }
static void ended_lost_of_z(struct table *t) { seat(t, 3)->ended = 0; }
static void ended_too_early(struct table *t) { seat(t, 1)->ended = 1; }
static void ended_of_nothing(struct table *t) { seat(t, 2)->ended = 1; }
static void ended_2(struct table *t) { seat(t, 0)->ended = 2; }

/* The tally of the desk has two R, one E and one Z, all with the letter P. */
static void tally_cleared(struct table *t) { memset(t->memory.tally, 0, sizeof t->memory.tally); }
static void tally_other_status(struct table *t) {
    --*number_of(&t->memory, 'P', 'R');
    ++*number_of(&t->memory, 'P', 'E');
}
static void tally_other_letter(struct table *t) {
    --*number_of(&t->memory, 'P', 'E');
    ++*number_of(&t->memory, 'p', 'E');
}
static void tally_wide(struct table *t) { *number_of(&t->memory, 'P', 'R') += (uint32_t)1 << 16; }
static void letter_in_the_cell(struct table *t) { cell(t, 1)[29] = 'Q'; }
static void status_in_the_cell(struct table *t) {
    cell(t, 1)[5] = 'E';
    seat(t, 1)->ended = 1;
}

struct spoil {
    const char *what;
    void (*done)(struct table *);
};

static const struct spoil spoils[] = {
    {"bit 16 is set", bit_16},
    {"bit 63 is set", bit_63},
    {"an address of 0", address_none},
    {"an address below the space", address_31},
    {"an address above the space", address_33},
    {"the address that a list shows for a space", address_minus},
    {"an address below the digits", address_47},
    {"an address above the digits", address_58},
    {"an address above 255", address_wide},
    {"a requester of 0", requester_none},
    {"a requester between Z and a", requester_between},
    {"a requester above 255", requester_wide},
    {"the number 1000", number_1000},
    {"the bit of a seat without a key", bit_of_unused},
    {"two seats with one key", key_shared},
    {"two empty seats with one key", key_shared_by_empty},
    {"an unused seat with a space for its address", unused_address},
    {"an unused seat with a requester", unused_requester},
    {"an unused seat with a number", unused_number},
    {"an unused seat with records", unused_held},
    {"an unused seat that is ended", unused_ended},
    {"a seat without its bit", bit_lost},
    {"fewer marks than held cells", marks_too_few},
    {"a byte too few for the held cells", cells_too_few},
    {"a count above the capacity", count_over_capacity},
    {"the greatest count", count_most},
    {"a mark that names an unused seat", mark_of_unused},
    {"a mark of 16", mark_16},
    {"a mark that is a seat's but for its high bits", mark_wide},
    {"a cell with another lead byte", cell_without_lead},
    {"a cell without its CR", cell_without_end},
    {"a cell whose address is none", cell_without_address},
    {"a cell with another address", cell_address},
    {"a seat with another address than its cell", seat_address},
    {"a cell with a wrong field", cell_field},
    {"a cell with another requester", cell_requester},
    {"a cell with another number", cell_number},
    {"marks that name each other's seat", cells_swapped},
    {"a record held too many", held_more},
    {"a record held too few", held_less},
    {"a record held at a seat without any", held_of_nothing},
    {"a count one too small", count_less},
    {"an E before the end", e_before_the_end},
    {"a Z before the end", z_before_the_end},
    {"a Z behind a record", z_behind_a_record},
    {"an E that did not end its seat", ended_lost},
    {"a Z that did not end its seat", ended_lost_of_z},
    {"a seat that ended with an R", ended_too_early},
    {"a seat that ended without a record", ended_of_nothing},
    {"an ended of 2", ended_2},
    {"a tally of nothing", tally_cleared},
    {"a record counted with another status", tally_other_status},
    {"a record counted with another letter", tally_other_letter},
    {"a number that is right but for its high bits", tally_wide},
    {"a letter that was changed in a cell and not in the tally", letter_in_the_cell},
    {"a status that was changed in cell and seat and not in the tally", status_in_the_cell},
};

/* ---- the calls on it */

static struct table now;

static void captures_nothing(rei2_captured_answer answer) {
    SAYS(answer, REI2_DESK, 0);
    CHECK(same_desk(answer.desk, now.desk));
    CHECK(answer.counts.opened == 0 && answer.counts.collected == 0);
    CHECK(answer.counts.dynamic == 0 && answer.counts.refused == 0);
    KEPT(&now);
}

/* Frames, one after the other, that the desk would take if it were not spoiled. */
static uint8_t frames[REI2_REQUEST_SIZE + REI2_REPLY_SIZE];

static void make_frames(void) {
    make_request(frames, 'b', "001");
    make_reply(frames + REI2_REQUEST_SIZE, 'R', 'A', "00012");
}

/* Opening, reply and capture are refused, with good frames and with none: DESK is tried first. */
static void refuses_all(void) {
    REFUSED(&now, table_open(&now, frames, REI2_REQUEST_SIZE), REI2_DESK, 0);
    REFUSED(&now, table_open(&now, frames, 0), REI2_DESK, 0);
    REFUSED(&now, table_reply(&now, frames + REI2_REQUEST_SIZE, REI2_REPLY_SIZE), REI2_DESK, 0);
    REFUSED(&now, table_reply(&now, frames, 0), REI2_DESK, 0);
    captures_nothing(table_capture(&now, frames, sizeof frames));
    captures_nothing(table_capture(&now, frames, 0));
}

/* The reset takes any state. Seats and tally are all 0 after it, and nothing else changes. */
static void is_reset(void) {
    rei2_desk_answer answer = table_reset(&now);
    SAYS(answer, REI2_DONE, 0);
    CHECK(answer.desk.bits == 0 && answer.desk.count == 0 && answer.seat == 0);
    memset(now.was.seats, 0, REI2_SEATS * sizeof(rei2_seat));
    memset(now.was.tally, 0, sizeof now.was.tally);
    KEPT(&now);
}

/* The desk is good before it is spoiled. */
static void laid_is_a_desk(void) {
    table_laid(&now);
    SAYS(table_open(&now, frames, REI2_REQUEST_SIZE), REI2_DONE, 0);
    table_laid(&now);
    SAYS(table_reply(&now, frames + REI2_REQUEST_SIZE, REI2_REPLY_SIZE), REI2_DONE, 0);
    table_laid(&now);
    rei2_captured_answer answer = table_capture(&now, frames, sizeof frames);
    SAYS(answer, REI2_DONE, 0);
    CHECK(answer.counts.opened == 1 && answer.counts.collected == 1 && answer.counts.refused == 0);
}

/* Keys that differ in the address alone make a desk. */
static void one_key_at_two_addresses(void) {
    table_laid(&now);
    *seat(&now, 2) = (rei2_seat){'0', 'A', 12, 0, 0};
    SAYS(table_reply(&now, frames + REI2_REQUEST_SIZE, REI2_REPLY_SIZE), REI2_DONE, 0);
}

static void each_clause(void) {
    for (size_t i = 0; i < sizeof spoils / sizeof spoils[0]; i++) {
        trying(spoils[i].what);
        table_laid(&now);
        spoils[i].done(&now);
        refuses_all();
        is_reset();
    }
    trying(NULL);
}

/* The laid desk with this much more at one number of the tally. */
static void is_no_desk_with(size_t letter, size_t status, uint32_t more) {
    table_laid(&now);
    now.memory.tally[letter][status] += more;
    refuses_all();
    is_reset();
}

/* Each number of the tally counts: one more or one less makes no desk. */
static void each_number_of_the_tally(void) {
    for (size_t letter = 0; letter < REI2_LETTERS; letter++) {
        for (size_t status = 0; status < REI2_STATUSES; status++) {
            const char what[] = {REI2_LETTER_ORDER[letter], ' ', REI2_STATUS_ORDER[status], 0};
            trying(what);
            is_no_desk_with(letter, status, 1);
            is_no_desk_with(letter, status, UINT32_MAX);
            trying(NULL);
        }
    }
}

/* Other records with their tally make a desk. */
static void another_letter_on_both_sides(void) {
    table_laid(&now);
    letter_in_the_cell(&now);
    --*number_of(&now.memory, 'P', 'R');
    ++*number_of(&now.memory, 'Q', 'R');
    SAYS(table_reply(&now, frames + REI2_REQUEST_SIZE, REI2_REPLY_SIZE), REI2_DONE, 0);
}

static void garbage(void) {
    trying("garbage");
    table_of_garbage(&now);
    refuses_all();
    is_reset();
    trying(NULL);
}

/* Rows that do not have sixteen seats: the reset is refused too. */
static void other_rows(void) {
    static const size_t lengths[] = {0, 1, 15, 17};
    static const char *const names[] = {"a row of 0", "a row of 1", "a row of 15", "a row of 17"};
    for (size_t i = 0; i < sizeof lengths / sizeof lengths[0]; i++) {
        trying(names[i]);
        table_laid(&now);
        now.seats_len = lengths[i];
        refuses_all();
        REFUSED(&now, table_reset(&now), REI2_DESK, 0);
    }
    trying(NULL);
}

void test_spoiled(void) {
    make_frames();
    laid_is_a_desk();
    one_key_at_two_addresses();
    each_clause();
    each_number_of_the_tally();
    another_letter_on_both_sides();
    garbage();
    other_rows();
}
