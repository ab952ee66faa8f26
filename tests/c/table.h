/* A desk with all that it is lent, and guard bytes before, between and after, which no call may change. */
#ifndef TABLE_H
#define TABLE_H

#include "check.h"

/* What is lent: six cells and a part of one more, six marks, and room for a capture. */
enum { TABLE_CELLS = 6, TABLE_BYTES = TABLE_CELLS * REI2_CELL_SIZE + 7, TABLE_INPUT = 512, GUARD = 32 };

struct memory {
    uint8_t before[GUARD];
    rei2_seat seats[REI2_SEATS + 1];
    uint8_t behind_seats[GUARD];
    uint8_t cells[TABLE_BYTES];
    uint8_t behind_cells[GUARD];
    uint32_t marks[TABLE_CELLS];
    uint8_t behind_marks[GUARD];
    uint32_t tally[REI2_LETTERS][REI2_STATUSES];
    uint8_t behind_tally[GUARD];
    uint8_t input[TABLE_INPUT];
    uint8_t behind[GUARD];
};

/* The state; how many seats, bytes of cells and marks are lent; the memory, now and before the last call. */
struct table {
    rei2_desk desk;
    size_t seats_len;
    size_t cells_len;
    size_t marks_len;
    struct memory memory;
    struct memory was;
};

/* A table with nothing but garbage in it, and all of the memory lent. */
void table_of_garbage(struct table *table);

/* An empty desk with garbage in cells and marks. Its tally is all 0. */
void table_emptied(struct table *table);

/* A desk with four seats, each with a space for its address: 1 007 holds R and E, A 012 holds R, z 000 nothing, a 999 a
   Z. Two cells are free. */
void table_laid(struct table *table);

/* The calls. First a frame or a capture is copied to memory.input, and then all of memory is copied to was. */
rei2_desk_answer table_reset(struct table *table);
rei2_desk_answer table_open(struct table *table, const uint8_t *frame, size_t size);
rei2_desk_answer table_reply(struct table *table, const uint8_t *frame, size_t size);
rei2_captured_answer table_capture(struct table *table, const uint8_t *capture, size_t size);

/* Opens a good request or takes a good reply, with a space or another address. If that was done, the table has the
   state that was returned. */
rei2_desk_answer table_opens(struct table *table, char requester, const char *number);
rei2_desk_answer table_opens_at(struct table *table, char address, char requester, const char *number);
rei2_desk_answer table_takes(struct table *table, char status, char requester, const char *number);
rei2_desk_answer table_takes_at(struct table *table, char address, char status, char requester, const char *number);

/* The number of the tally for a letter and a status. */
uint32_t *number_of(struct memory *memory, char letter, char status);

/* The memory is the same as was. A test that expects a change makes it in was first. */
#define KEPT(table) SAME(&(table)->memory, &(table)->was, sizeof(struct memory))

/* Are two states the same? */
int same_desk(rei2_desk a, rei2_desk b);

/* The call was refused, returned the state that it was given, named no seat and changed no byte. The first has this
   refusal and offset, the second is FIELD with this offset and this spoiled byte. */
#define REFUSED(table, answer, refusal, offset) \
    table_refused(table, answer, (struct said){refusal, offset, 0}, HERE(#answer))
#define REFUSED_FIELD(table, answer, offset, spoiled) \
    table_refused(table, answer, WRONG_FIELD(offset, spoiled), HERE(#answer))
void table_refused(struct table *table, rei2_desk_answer answer, struct said wanted, struct place place);

#endif
