#include "table.h"

#include <string.h>

#include "made.h"

void table_of_garbage(struct table *table) {
    fill(&table->memory, sizeof table->memory, 1);
    table->desk = (rei2_desk){0x0123456789abcdefu, 0x76543210u};
    table->seats_len = REI2_SEATS;
    table->cells_len = TABLE_BYTES;
    table->marks_len = TABLE_CELLS;
}

void table_emptied(struct table *table) {
    table_of_garbage(table);
    table->desk = table_reset(table).desk;
}

void table_laid(struct table *table) {
    table_emptied(table);
    CHECK(table_opens(table, '1', "007").seat == 0);
    CHECK(table_opens(table, 'A', "012").seat == 1);
    CHECK(table_opens(table, 'z', "000").seat == 2);
    CHECK(table_opens(table, 'a', "999").seat == 3);
    CHECK(table_takes(table, 'R', '1', "00007").seat == 0);
    CHECK(table_takes(table, 'R', 'A', "00012").seat == 1);
    CHECK(table_takes(table, 'Z', 'a', "00999").seat == 3);
    CHECK(table_takes(table, 'E', '1', "00007").seat == 0);
    CHECK(table->desk.bits == 15 && table->desk.count == 4);
}

/* The input of the next call, and the memory before it. */
static void put(struct table *table, const uint8_t *input, size_t size) {
    memcpy(table->memory.input, input, size);
    memcpy(&table->was, &table->memory, sizeof table->was);
}

rei2_desk_answer table_reset(struct table *table) {
    memcpy(&table->was, &table->memory, sizeof table->was);
    return rei2_reset(table->memory.seats, table->seats_len, table->desk, table->memory.tally);
}

rei2_desk_answer table_open(struct table *table, const uint8_t *frame, size_t size) {
    struct memory *m = &table->memory;
    put(table, frame, size);
    return rei2_open(m->seats, table->seats_len, table->desk, m->cells, table->cells_len, m->marks, table->marks_len,
                     m->tally, m->input, size);
}

rei2_desk_answer table_reply(struct table *table, const uint8_t *frame, size_t size) {
    struct memory *m = &table->memory;
    put(table, frame, size);
    return rei2_reply(m->seats, table->seats_len, table->desk, m->cells, table->cells_len, m->marks, table->marks_len,
                      m->tally, m->input, size);
}

rei2_captured_answer table_capture(struct table *table, const uint8_t *capture, size_t size) {
    struct memory *m = &table->memory;
    put(table, capture, size);
    return rei2_capture(m->seats, table->seats_len, table->desk, m->cells, table->cells_len, m->marks,
                        table->marks_len, m->tally, m->input, size);
}

/* If the call was done, goes on with the state that it returned. */
static rei2_desk_answer kept(struct table *table, rei2_desk_answer answer) {
    if (answer.refusal == REI2_DONE) {
        table->desk = answer.desk;
    }
    return answer;
}

rei2_desk_answer table_opens(struct table *table, char requester, const char *number) {
    return table_opens_at(table, ' ', requester, number);
}

rei2_desk_answer table_opens_at(struct table *table, char address, char requester, const char *number) {
    uint8_t frame[REI2_REQUEST_SIZE];
    make_request(frame, requester, number);
    frame[2] = (uint8_t)address;
    rei2_desk_answer answer = table_open(table, frame, sizeof frame);
    return kept(table, answer);
}

rei2_desk_answer table_takes(struct table *table, char status, char requester, const char *number) {
    return table_takes_at(table, ' ', status, requester, number);
}

rei2_desk_answer table_takes_at(struct table *table, char address, char status, char requester, const char *number) {
    uint8_t frame[REI2_REPLY_SIZE];
    make_reply(frame, status, requester, number);
    frame[2] = (uint8_t)address;
    rei2_desk_answer answer = table_reply(table, frame, sizeof frame);
    return kept(table, answer);
}

uint32_t *number_of(struct memory *memory, char letter, char status) {
    size_t row = place_in(REI2_LETTER_ORDER, (uint8_t)letter);
    size_t column = place_in(REI2_STATUS_ORDER, (uint8_t)status);
    return &memory->tally[row][column];
}

int same_desk(rei2_desk a, rei2_desk b) {
    return a.bits == b.bits && a.count == b.count;
}

void table_refused(struct table *table, rei2_desk_answer answer, struct said wanted, struct place place) {
    check_said(SAID(answer), wanted, place);
    check(same_desk(answer.desk, table->desk) && answer.seat == 0, place);
    check_same(&table->memory, &table->was, sizeof table->was, place);
}
