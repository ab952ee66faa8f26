/* rei2.h: the REI2 desk for programs in C, C++ and other languages that call C. For x86-64 Linux, C11 or C++11.

   MEMORY. The host owns all memory and lends it for the length of one call. The library keeps no pointer after a call.
   It has no variables of its own, allocates nothing, and does no input or output. Between two calls the host keeps
   everything that a desk knows: the state, which is passed and returned by value, and the seats, cells, marks and
   tally.

   SLICES. A slice is two arguments: a pointer, and how many elements it points to. The second is named like the first,
   with _len after it. The elements of cells, frames, captures and outputs are bytes. A pointer is aligned for its
   elements. It may be null only if the count is 0. If it is not const, the call may change the elements.

   TALLY. The tally says how many records are held, for each of the 33 letters of a static reply and each of the three
   statuses. It belongs to the host and is lent beside cells and marks: a pointer to REI2_LETTERS rows of REI2_STATUSES
   numbers, without a count, aligned and never null. Row i is for letter i of REI2_LETTER_ORDER, and column j is for
   status j of REI2_STATUS_ORDER, both counted from 0. rei2_reset makes the tally right, whatever it held, and the other
   calls keep it right. A tally that does not agree with the held cells makes no desk (DESK), so the host never writes
   to it. rei2_open and rei2_look only read it. They have no const there, because C11 has no conversion from an array of
   arrays to one of const elements.

   OVERLAP. A slice that a call may change overlaps nothing else that the call is lent, and neither does the tally. The
   likely mistake is a frame that lies in the cells: copy it out first. The library cannot notice an overlap, a wrong
   count or a bad pointer, and promises nothing then.

   THREADS. Two calls that are lent the same memory must not run at once, unless both only read it. Calls on different
   memory may run at once, because the library has no state.

   ANSWERS. A refusal of 0 (REI2_DONE) says that the call was done. Any other number says why it was refused: see enum
   rei2_refusal. A refused call returns the state that it was given and changes no lent byte. Its offset is 0 unless the
   refusal is REI2_FIELD or REI2_RECORD, its spoiled is 0 unless the refusal is REI2_FIELD, and the rest of its answer
   is 0. If the call was done, offset and spoiled are 0. rei2_refusal_name has the names. Structs have padding, so
   compare them field by field. A seat has none.

   SPOILED BYTES. REI2_FIELD has two offsets, both counted from the first byte of the frame. offset is where the first
   wrong field begins. spoiled is where the first byte of that field is that cannot be at its place: no good frame of
   this kind, with the same fields before this one, has that byte there. If each byte of the field can be at its place,
   but not all of them together, spoiled is the same as offset. For example, if a reply with a time of day has
   2461000000 there, spoiled is 32, because minutes never begin with 6. With 2400000000 it is 30, where the time begins:
   each digit can be at its place, but there is no hour 24. docs/host.md says what can be at which place.

   REQUESTS AND REPLIES. The desk takes a reply only if its request was opened. So give every request that you send to
   rei2_open too. The stopwatch sends a line feed after the CR of each reply. It is not part of the frame.

   ADDRESSES. Several stopwatches can share a line. Byte 2 of each frame is the address of one of them: a space or a
   digit. Records and seats hold it by its code: 32 for a space, 48 to 57 for the digits 0 to 9. A space is not the same
   address as the digit 0. A seat that is not in use holds the number 0 instead. A host with one stopwatch, which has a
   space there, always sees 32.

   NAMES. After "Refused with" the names of refusals are without REI2_.

   EXAMPLES. The comment of each call ends with an example, a line that you can paste into a host. The examples use the
   names below, which the host declares. docs/host.md says how to build a host. A whole one is examples/watch/watch.c.

   static rei2_desk desk;                                 // the state of a desk
   static rei2_seat seats[REI2_SEATS];                    // what the host lends to it
   static uint8_t cells[REI2_CELLS * REI2_CELL_SIZE];
   static uint32_t marks[REI2_CELLS];
   static uint32_t tally[REI2_LETTERS][REI2_STATUSES];
   static rei2_desk_answer a;                             // the answer of the last call on the desk
   static rei2_captured_answer c;                         // the answer for a capture
   static const uint8_t *frame, *in;                      // a frame; a capture
   static size_t size, at;                                // its size in bytes; the index where a search begins
   static uint8_t out[REI2_LONGEST_LIST];                 // for a frame or a list that is written
   static uint8_t own_cells[REI2_CELLS * REI2_CELL_SIZE]; // for a list: not those of a desk
   static uint32_t own_marks[REI2_CELLS];
   static uint8_t name[REI2_NAME_SIZE];

   Records to be written, their parts in the order of the structs below. The reply answers the request. To give a frame
   that was written to the desk: frame = out; size = wrote.size;

   static rei2_static_request request = {' ', 'A', 12, 41, '1', 255, 1, 0, 'S'};
   static rei2_reply_record reply = {{' ', 'S', 'O', 'E', 'A', 12, 41, 0, 1, 15, 255, '1'},
                                     {REI2_NET, 0, 0, 0, 0, 725400}, {0}, {0}, {' ', ' '}};
   static rei2_dynamic_request dynamic = {' ', '1', 'A', 41, 255, 1, 42, 255, 1, 0, 36000000, 0, 100, 'S'}; */
#ifndef REI2_H
#define REI2_H

#include <stddef.h>
#include <stdint.h>

/* ---- constants */

enum rei2_limit {
    REI2_SEATS = 16,           /* seats of a desk; seats_len must be this number */
    REI2_CELLS = 256,          /* the most cells that a desk uses; cells_len counts bytes, not cells */
    REI2_CELL_SIZE = 51,       /* bytes of a cell */
    REI2_LETTERS = 33,         /* rows of the tally, one for each letter of a static reply */
    REI2_STATUSES = 3,         /* numbers in a row of the tally, one for each status */
    REI2_REQUEST_SIZE = 24,    /* bytes of a static request */
    REI2_REPLY_SIZE = 51,      /* bytes of a static reply */
    REI2_DYNAMIC_SIZE = 46,    /* bytes of a dynamic request */
    REI2_REQUEST_LEAD = 17,    /* the first byte of a static request, DC1 */
    REI2_REPLY_LEAD = 18,      /* the first byte of a static reply, DC2 */
    REI2_DYNAMIC_LEAD = 19,    /* the first byte of a dynamic request, DC3 */
    REI2_MOST_INPUT = 32768,   /* the most bytes of a capture that is listed */
    REI2_LONGEST_LIST = 14687, /* bytes that every list fits in */
    REI2_NAME_SIZE = 14        /* bytes that the name of every refusal fits in, with its zero byte */
};

/* The letters of the tally's rows and the statuses of its columns, in their order. */
#define REI2_LETTER_ORDER "0123456789AQPaSsTKRGHhIiJjpkugWwX"
#define REI2_STATUS_ORDER "REZ"

/* Why a call was refused. */
enum rei2_refusal {
    REI2_DONE = 0,           /* it was not refused */
    REI2_KIND = 1,           /* the frame is empty, or its first byte is not the one that the call takes */
    REI2_LENGTH = 2,         /* the frame does not have the length of its kind */
    REI2_END = 3,            /* the last byte is not CR */
    REI2_ADDRESS = 4,        /* byte 1 is not R, or byte 2 is neither a space nor 0 to 9 */
    REI2_FIELD = 5,          /* a field is wrong; offset: where the first one begins; spoiled: where it is spoiled */
    REI2_RECORD = 6,         /* a part of the record is wrong; offset: where the first wrong part would be written */
    REI2_ROOM = 7,           /* the output is too short */
    REI2_TIME = 8,           /* a number of the running time is out of range */
    REI2_DESK = 9,           /* state, seats, cells, marks and tally do not make a desk */
    REI2_NO_ANSWER_DUE = 10, /* a request with the information q, which asks for no answer */
    REI2_IN_USE = 11,        /* a seat has this address, requester and number already, ended or not */
    REI2_NO_SEAT = 12,       /* all seats are in use */
    REI2_STRAY = 13,         /* no seat has the reply's address, requester and number */
    REI2_ENDED = 14,         /* that seat has had its E or Z */
    REI2_OUT_OF_PLACE = 15,  /* a Z for a seat that holds records */
    REI2_FULL = 16,          /* no cell is free */
    REI2_NO_SUCH = 17        /* no static reply has this letter, or none has this status */
};

/* What the time and the date of a reply are. */
enum rei2_timing {
    REI2_RAW = 0,   /* bytes that are not interpreted */
    REI2_CLOCK = 1, /* a time of day and a day */
    REI2_NET = 2    /* one signed number of ticks */
};

/* What was found in a capture. */
enum rei2_found {
    REI2_NOTHING = 0, /* no frame begins there or later */
    REI2_WHOLE = 1,   /* a frame that ends with its CR */
    REI2_CUT = 2      /* a frame without its CR: the next frame begins first, or the capture ends */
};

/* ---- structs. In an answer, refusal is a number of enum rei2_refusal, offset is where the wrong field begins, and
   spoiled is the offset of the spoiled byte in it. A tick is a ten-thousandth of a second; a day has 864000000 ticks. A
   uint8_t is a byte as it is in the frame: a letter is its ASCII code. */

/* The state of a desk: a bit for each seat in use, bit 0 for seat 0, and how many cells are held. {0, 0} is the state
   of an empty desk. */
typedef struct rei2_desk {
    uint64_t bits;
    uint32_t count;
} rei2_desk;

/* A seat. address, requester and number are the key of its request; address and requester are held by their codes. held
   is how many records it holds. ended is 0 until it takes an E or a Z, and 1 after that. A seat that is not in use is
   all 0, so its address is 0. */
typedef struct rei2_seat {
    uint32_t address;
    uint32_t requester;
    uint32_t number;
    uint32_t held;
    uint32_t ended;
} rei2_seat;

/* The answer of a call on a desk: the state after it, and the seat that was opened or that took the reply. */
typedef struct rei2_desk_answer {
    rei2_desk desk;
    uint32_t refusal;
    uint32_t offset;
    uint32_t spoiled;
    uint32_t seat;
} rei2_desk_answer;

/* What became of the frames of a capture: how many requests were opened, replies collected, dynamic requests found, and
   frames refused. A cut frame is refused. The four add up to the lead bytes in the capture. */
typedef struct rei2_counts {
    size_t opened;
    size_t collected;
    size_t dynamic;
    size_t refused;
} rei2_counts;

/* The answer for a whole capture: the state after it, and the counts. */
typedef struct rei2_captured_answer {
    rei2_desk desk;
    uint32_t refusal;
    rei2_counts counts;
} rei2_captured_answer;

/* A static request. Each part has the offset of its field, which FIELD and RECORD report, and the values that are good.
   A wrong address is never FIELD: a frame is then refused with ADDRESS, a record with RECORD and the offset 2. What the
   letters mean is in the stopwatch's protocol, section 4.2.1. */
typedef struct rei2_static_request {
    uint8_t address;     /*  2: space, 0 to 9 */
    uint8_t requester;   /*  3: 0 to 9, A to Z, a to z */
    uint32_t number;     /*  4: 0 to 999 */
    uint32_t bib;        /*  7: 0 to 59999 */
    uint8_t information; /* 12: 0 to 9 A Q P a S s T K L t R * G H h I i J j p k u g W w X l b c d q */
    uint32_t channel;    /* 13: the logical channel, 0 to 240, 248, 249, 251, 255 */
    uint32_t run;        /* 16: 0 to 250 */
    uint32_t group;      /* 19: 0 to 199 */
    uint8_t output;      /* 22: S A B T */
} rei2_static_request;

/* A static request that was read. */
typedef struct rei2_request_answer {
    uint32_t refusal;
    uint32_t offset;
    uint32_t spoiled;
    rei2_static_request request;
} rei2_request_answer;

/* Time and date of a reply. kind is a number of enum rei2_timing. REI2_CLOCK uses ticks (since midnight), day, month
   and year. REI2_NET uses net, in ticks: -10000 is one second below zero, which the frame shows as 00:00:01.0000 and
   -0000000. REI2_RAW uses none of them. What the kind does not use is 0. */
typedef struct rei2_timing_numbers {
    uint32_t kind;
    uint32_t ticks;
    uint32_t day;
    uint32_t month;
    uint32_t year;
    int64_t net;
} rei2_timing_numbers;

/* The parts of a static reply that come before its time, with offsets and good values as in a static request. What the
   letters mean is in the stopwatch's protocol, section 4.1.3. */
typedef struct rei2_reply_head {
    uint8_t address;     /*  2: space, 0 to 9 */
    uint8_t program;     /*  3: 20h to 7Eh, not interpreted */
    uint8_t mode;        /*  4: 20h to 7Eh, not interpreted */
    uint8_t status;      /*  5: R one of several, E the last, Z not available */
    uint8_t requester;   /*  6: 0 to 9, A to Z, a to z */
    uint32_t number;     /*  7: 0 to 99999 */
    uint32_t bib;        /* 12: 0 to 59999 */
    uint32_t group;      /* 17: 0 to 199 */
    uint32_t run;        /* 20: 1 to 250; with status Z also 0 */
    uint32_t physical;   /* 23: the physical channel, 0 to 999 */
    uint32_t channel;    /* 26: the logical channel, 0 to 240, 245, 248, 249, 250, 255 */
    uint8_t information; /* 29: a letter of a static request, but not L t * l b c d q */
} rei2_reply_head;

/* A static reply. raw_time and raw_date are the bytes of time and date if the timing is REI2_RAW, and otherwise 0. */
typedef struct rei2_reply_record {
    rei2_reply_head head;
    rei2_timing_numbers timing;
    uint8_t raw_time[10];
    uint8_t raw_date[8];
    uint8_t spare[2];
} rei2_reply_record;

/* A static reply that was read. */
typedef struct rei2_reply_answer {
    uint32_t refusal;
    uint32_t offset;
    uint32_t spoiled;
    rei2_reply_record reply;
} rei2_reply_answer;

/* A dynamic request, with offsets and good values as in a static request. sign, time and days are the parts of Taux.
   Minus zero keeps its sign. What the letters mean is in the stopwatch's protocol, section 4.2.2. */
typedef struct rei2_dynamic_request {
    uint8_t address;       /*  2: space, 0 to 9 */
    uint8_t requester;     /*  3: 0 to 9, A to Z, a to z */
    uint8_t order;         /*  4: A B a b T t */
    uint32_t bib;          /*  5: 0 to 60000 */
    uint32_t channel;      /* 10: 0 to 240, 250, 255 */
    uint32_t run;          /* 13: 0 to 250 */
    uint32_t stop_bib;     /* 16: 1 to 60000 */
    uint32_t stop_channel; /* 21: 0 to 240, 250, 255 */
    uint32_t stop_run;     /* 24: 0 to 250 */
    uint32_t sign;         /* 27: 0 plus, 1 minus */
    uint32_t time;         /* 28: ticks, 0 to 863999999 */
    uint32_t days;         /* 38: 0 to 9 */
    uint32_t period;       /* 39: hundredths of a second, 1 to 99999; also 0 unless the order is A or B */
    uint8_t output;        /* 44: S A B T */
} rei2_dynamic_request;

/* A dynamic request that was read. */
typedef struct rei2_dynamic_answer {
    uint32_t refusal;
    uint32_t offset;
    uint32_t spoiled;
    rei2_dynamic_request request;
} rei2_dynamic_answer;

/* A frame or a name that was written: size is how many bytes it has. */
typedef struct rei2_written_answer {
    uint32_t refusal;
    uint32_t offset;
    size_t size;
} rei2_written_answer;

/* A frame that was found. kind is a number of enum rei2_found. start is the index of its first byte, end the index
   after its last byte, and next where to look for the next frame. With REI2_NOTHING start and end are 0, and next is
   the length of the capture. */
typedef struct rei2_frame_answer {
    uint32_t kind;
    size_t start;
    size_t end;
    size_t next;
} rei2_frame_answer;

/* A held cell. If there is one, found is 1 and cell is its index; its bytes begin at cells[cell * REI2_CELL_SIZE].
   Otherwise both are 0. */
typedef struct rei2_cell_answer {
    uint32_t found;
    size_t cell;
} rei2_cell_answer;

/* A look at the tally: held is how many records are held. */
typedef struct rei2_looked_answer {
    uint32_t refusal;
    uint32_t held;
} rei2_looked_answer;

/* What a running time is computed from. tnow and tev are times of day in ticks. sign (0 plus, 1 minus), days and time
   (in ticks) are the parts of Taux. */
typedef struct rei2_running_of {
    uint32_t bib;
    uint32_t tnow;
    uint32_t tev;
    uint32_t sign;
    uint32_t days;
    uint32_t time;
} rei2_running_of;

/* A running time in ticks. */
typedef struct rei2_running_answer {
    uint32_t refusal;
    int64_t ticks;
} rei2_running_answer;

/* A list that was written: size is how many bytes it has. */
typedef struct rei2_listed_answer {
    uint32_t refusal;
    size_t size;
} rei2_listed_answer;

/* What a host must lend. seats: how many seats a desk has. cells: the bytes of all cells of the largest desk. marks:
   how many marks it has. With less memory a desk is smaller. cell_size: the bytes of a cell. letters: the rows of the
   tally. statuses: the numbers in a row. most_input: the most bytes of a capture that is listed. longest_list: the
   bytes that every list fits in. */
typedef struct rei2_limits_answer {
    size_t seats;
    size_t cells;
    size_t marks;
    size_t cell_size;
    size_t letters;
    size_t statuses;
    size_t most_input;
    size_t longest_list;
} rei2_limits_answer;

/* ---- the layout that the library uses. A compiler with another layout stops here. */

#ifdef __cplusplus
#define REI2_IS(fact, text) static_assert(fact, text)
#else
#define REI2_IS(fact, text) _Static_assert(fact, text)
#endif
#define REI2_SIZE(type, bytes) REI2_IS(sizeof(type) == (bytes), #type " has another size")
#define REI2_OFFSET(type, field, bytes) REI2_IS(offsetof(type, field) == (bytes), #type "." #field " is elsewhere")

REI2_SIZE(rei2_desk, 16);
REI2_OFFSET(rei2_desk, bits, 0);
REI2_OFFSET(rei2_desk, count, 8);

REI2_SIZE(rei2_seat, 20);
REI2_OFFSET(rei2_seat, address, 0);
REI2_OFFSET(rei2_seat, requester, 4);
REI2_OFFSET(rei2_seat, number, 8);
REI2_OFFSET(rei2_seat, held, 12);
REI2_OFFSET(rei2_seat, ended, 16);

REI2_SIZE(rei2_desk_answer, 32);
REI2_OFFSET(rei2_desk_answer, desk, 0);
REI2_OFFSET(rei2_desk_answer, refusal, 16);
REI2_OFFSET(rei2_desk_answer, offset, 20);
REI2_OFFSET(rei2_desk_answer, spoiled, 24);
REI2_OFFSET(rei2_desk_answer, seat, 28);

REI2_SIZE(rei2_counts, 32);
REI2_OFFSET(rei2_counts, opened, 0);
REI2_OFFSET(rei2_counts, collected, 8);
REI2_OFFSET(rei2_counts, dynamic, 16);
REI2_OFFSET(rei2_counts, refused, 24);

REI2_SIZE(rei2_captured_answer, 56);
REI2_OFFSET(rei2_captured_answer, desk, 0);
REI2_OFFSET(rei2_captured_answer, refusal, 16);
REI2_OFFSET(rei2_captured_answer, counts, 24);

REI2_SIZE(rei2_static_request, 32);
REI2_OFFSET(rei2_static_request, address, 0);
REI2_OFFSET(rei2_static_request, requester, 1);
REI2_OFFSET(rei2_static_request, number, 4);
REI2_OFFSET(rei2_static_request, bib, 8);
REI2_OFFSET(rei2_static_request, information, 12);
REI2_OFFSET(rei2_static_request, channel, 16);
REI2_OFFSET(rei2_static_request, run, 20);
REI2_OFFSET(rei2_static_request, group, 24);
REI2_OFFSET(rei2_static_request, output, 28);

REI2_SIZE(rei2_request_answer, 44);
REI2_OFFSET(rei2_request_answer, refusal, 0);
REI2_OFFSET(rei2_request_answer, offset, 4);
REI2_OFFSET(rei2_request_answer, spoiled, 8);
REI2_OFFSET(rei2_request_answer, request, 12);

REI2_SIZE(rei2_timing_numbers, 32);
REI2_OFFSET(rei2_timing_numbers, kind, 0);
REI2_OFFSET(rei2_timing_numbers, ticks, 4);
REI2_OFFSET(rei2_timing_numbers, day, 8);
REI2_OFFSET(rei2_timing_numbers, month, 12);
REI2_OFFSET(rei2_timing_numbers, year, 16);
REI2_OFFSET(rei2_timing_numbers, net, 24);

REI2_SIZE(rei2_reply_head, 36);
REI2_OFFSET(rei2_reply_head, address, 0);
REI2_OFFSET(rei2_reply_head, program, 1);
REI2_OFFSET(rei2_reply_head, mode, 2);
REI2_OFFSET(rei2_reply_head, status, 3);
REI2_OFFSET(rei2_reply_head, requester, 4);
REI2_OFFSET(rei2_reply_head, number, 8);
REI2_OFFSET(rei2_reply_head, bib, 12);
REI2_OFFSET(rei2_reply_head, group, 16);
REI2_OFFSET(rei2_reply_head, run, 20);
REI2_OFFSET(rei2_reply_head, physical, 24);
REI2_OFFSET(rei2_reply_head, channel, 28);
REI2_OFFSET(rei2_reply_head, information, 32);

REI2_SIZE(rei2_reply_record, 96);
REI2_OFFSET(rei2_reply_record, head, 0);
REI2_OFFSET(rei2_reply_record, timing, 40);
REI2_OFFSET(rei2_reply_record, raw_time, 72);
REI2_OFFSET(rei2_reply_record, raw_date, 82);
REI2_OFFSET(rei2_reply_record, spare, 90);

REI2_SIZE(rei2_reply_answer, 112);
REI2_OFFSET(rei2_reply_answer, refusal, 0);
REI2_OFFSET(rei2_reply_answer, offset, 4);
REI2_OFFSET(rei2_reply_answer, spoiled, 8);
REI2_OFFSET(rei2_reply_answer, reply, 16);

REI2_SIZE(rei2_dynamic_request, 48);
REI2_OFFSET(rei2_dynamic_request, address, 0);
REI2_OFFSET(rei2_dynamic_request, requester, 1);
REI2_OFFSET(rei2_dynamic_request, order, 2);
REI2_OFFSET(rei2_dynamic_request, bib, 4);
REI2_OFFSET(rei2_dynamic_request, channel, 8);
REI2_OFFSET(rei2_dynamic_request, run, 12);
REI2_OFFSET(rei2_dynamic_request, stop_bib, 16);
REI2_OFFSET(rei2_dynamic_request, stop_channel, 20);
REI2_OFFSET(rei2_dynamic_request, stop_run, 24);
REI2_OFFSET(rei2_dynamic_request, sign, 28);
REI2_OFFSET(rei2_dynamic_request, time, 32);
REI2_OFFSET(rei2_dynamic_request, days, 36);
REI2_OFFSET(rei2_dynamic_request, period, 40);
REI2_OFFSET(rei2_dynamic_request, output, 44);

REI2_SIZE(rei2_dynamic_answer, 60);
REI2_OFFSET(rei2_dynamic_answer, refusal, 0);
REI2_OFFSET(rei2_dynamic_answer, offset, 4);
REI2_OFFSET(rei2_dynamic_answer, spoiled, 8);
REI2_OFFSET(rei2_dynamic_answer, request, 12);

REI2_SIZE(rei2_written_answer, 16);
REI2_OFFSET(rei2_written_answer, refusal, 0);
REI2_OFFSET(rei2_written_answer, offset, 4);
REI2_OFFSET(rei2_written_answer, size, 8);

REI2_SIZE(rei2_frame_answer, 32);
REI2_OFFSET(rei2_frame_answer, kind, 0);
REI2_OFFSET(rei2_frame_answer, start, 8);
REI2_OFFSET(rei2_frame_answer, end, 16);
REI2_OFFSET(rei2_frame_answer, next, 24);

REI2_SIZE(rei2_cell_answer, 16);
REI2_OFFSET(rei2_cell_answer, found, 0);
REI2_OFFSET(rei2_cell_answer, cell, 8);

REI2_SIZE(rei2_looked_answer, 8);
REI2_OFFSET(rei2_looked_answer, refusal, 0);
REI2_OFFSET(rei2_looked_answer, held, 4);

REI2_SIZE(rei2_running_of, 24);
REI2_OFFSET(rei2_running_of, bib, 0);
REI2_OFFSET(rei2_running_of, tnow, 4);
REI2_OFFSET(rei2_running_of, tev, 8);
REI2_OFFSET(rei2_running_of, sign, 12);
REI2_OFFSET(rei2_running_of, days, 16);
REI2_OFFSET(rei2_running_of, time, 20);

REI2_SIZE(rei2_running_answer, 16);
REI2_OFFSET(rei2_running_answer, refusal, 0);
REI2_OFFSET(rei2_running_answer, ticks, 8);

REI2_SIZE(rei2_listed_answer, 16);
REI2_OFFSET(rei2_listed_answer, refusal, 0);
REI2_OFFSET(rei2_listed_answer, size, 8);

REI2_SIZE(rei2_limits_answer, 64);
REI2_OFFSET(rei2_limits_answer, seats, 0);
REI2_OFFSET(rei2_limits_answer, cells, 8);
REI2_OFFSET(rei2_limits_answer, marks, 16);
REI2_OFFSET(rei2_limits_answer, cell_size, 24);
REI2_OFFSET(rei2_limits_answer, letters, 32);
REI2_OFFSET(rei2_limits_answer, statuses, 40);
REI2_OFFSET(rei2_limits_answer, most_input, 48);
REI2_OFFSET(rei2_limits_answer, longest_list, 56);

#undef REI2_IS
#undef REI2_SIZE
#undef REI2_OFFSET

#ifdef __cplusplus
extern "C" {
#endif

/* ---- limits and names */

/* Returns what a host must lend. The same numbers are in the constants REI2_SEATS, REI2_CELLS * REI2_CELL_SIZE,
   REI2_CELLS, REI2_CELL_SIZE, REI2_LETTERS, REI2_STATUSES, REI2_MOST_INPUT and REI2_LONGEST_LIST, for arrays. Call this
   to learn how much memory to allocate, or to check that the library is the one that the header was made for. Never
   refused.
   Cost: a few steps.
   Example:
   rei2_limits_answer limits = rei2_limits(); */
rei2_limits_answer rei2_limits(void);

/* Writes the name of a refusal to out, in ASCII capitals with a zero byte after it, so that it can be printed with %s.
   The name of 0 is DONE. The names of 1 to 17 are KIND to NO SUCH, with spaces as in NO ANSWER DUE. Any other number
   has the name UNKNOWN. An output of REI2_NAME_SIZE bytes is always long enough.
   Refused with: ROOM.
   Done: the name and its zero byte are the first bytes of out, and no other byte of out changes. size does not count
   the zero byte.
   Cost: one pass over the name.
   Example:
   rei2_written_answer named = rei2_refusal_name(a.refusal, name, sizeof name); */
rei2_written_answer rei2_refusal_name(uint32_t refusal, uint8_t *out, size_t out_len);

/* ---- the desk. seats is a row of REI2_SEATS seats; another length is refused. cells are REI2_CELL_SIZE bytes each,
   one after the other. marks has a number for each cell: the seat that the cell belongs to. The first desk.count cells
   and marks are held. The others are free and may have anything in them. tally has a number for each letter and each
   status: how many of the held cells are replies with them.

   Seats and cells are freed only by rei2_reset. There is no call yet that closes a single request. A request that has
   ended keeps its seat and its cells until the next reset. So between two resets a desk takes at most sixteen requests
   and at most 256 replies, or fewer replies if fewer cells or marks are lent.

   rei2_open, rei2_reply and rei2_capture first test whether state, seats, cells, marks and tally make a desk. For that
   they compare the keys of the seats, read each held cell once, and compare what they counted with the tally. So the
   more cells are held, the more a call costs.

   After each call go on with the state in its answer. The three calls refuse an older state with DESK. */

/* Empties a desk, whatever its state, seats and tally were. This also makes the first desk.
   Refused with: DESK, only if the row does not have REI2_SEATS seats.
   Done: the seats and the tally are all 0, and so is the state in the answer. All seats and cells are free. Cells and
   marks need no clearing.
   Cost: one pass over the seats and the tally.
   Example:
   desk = rei2_reset(seats, REI2_SEATS, desk, tally).desk; */
rei2_desk_answer rei2_reset(rei2_seat *seats, size_t seats_len, rei2_desk desk,
                            uint32_t tally[REI2_LETTERS][REI2_STATUSES]);

/* Opens the static request in frame. It gets the lowest seat that is not in use.
   Refused with, in this order: DESK; KIND, LENGTH, END, ADDRESS, FIELD; NO_ANSWER_DUE, IN_USE, NO_SEAT.
   Done: the seat in the answer has the request's key, holds no record and is not ended, and its bit is set. No other
   seat changes. The tally never changes.
   Cost: a test of the desk.
   Example:
   a = rei2_open(seats, REI2_SEATS, desk, cells, sizeof cells, marks, REI2_CELLS, tally, frame, size); desk = a.desk;
*/
rei2_desk_answer rei2_open(rei2_seat *seats, size_t seats_len, rei2_desk desk, const uint8_t *cells, size_t cells_len,
                           const uint32_t *marks, size_t marks_len, uint32_t tally[REI2_LETTERS][REI2_STATUSES],
                           const uint8_t *frame, size_t frame_len);

/* Gives the static reply in frame to the seat that has its key.
   Refused with, in this order: DESK; KIND, LENGTH, END, ADDRESS, FIELD; STRAY, ENDED, OUT_OF_PLACE, FULL.
   Done: the frame is in the first free cell, and that cell's mark is the seat. The seat holds one record more, and it
   is ended if the status is E or Z. The count of the state is one more, and so is the tally's number for the reply's
   letter and status. No other seat, byte, mark or number changes.
   Cost: a test of the desk.
   Example:
   a = rei2_reply(seats, REI2_SEATS, desk, cells, sizeof cells, marks, REI2_CELLS, tally, frame, size); desk = a.desk;
*/
rei2_desk_answer rei2_reply(rei2_seat *seats, size_t seats_len, rei2_desk desk, uint8_t *cells, size_t cells_len,
                            uint32_t *marks, size_t marks_len, uint32_t tally[REI2_LETTERS][REI2_STATUSES],
                            const uint8_t *frame, size_t frame_len);

/* Takes all frames of a capture one after the other, as rei2_next_frame finds them. A static request is opened, a
   static reply goes to its seat, and a well formed dynamic request is counted. A frame that its call would refuse is
   counted as refused, and so is a cut frame. So a capture that comes in pieces must be cut after whole frames: a frame
   that is torn between two pieces is lost. rei2_next_frame says how to notice one.
   Refused with: DESK.
   Done: seats, cells, marks and tally are as they would be after a call for each frame.
   Cost: one test of the desk and one reading of each frame. A call for each frame would cost a test each.
   Example:
   c = rei2_capture(seats, REI2_SEATS, desk, cells, sizeof cells, marks, REI2_CELLS, tally, in, size); desk = c.desk; */
rei2_captured_answer rei2_capture(rei2_seat *seats, size_t seats_len, rei2_desk desk, uint8_t *cells, size_t cells_len,
                                  uint32_t *marks, size_t marks_len, uint32_t tally[REI2_LETTERS][REI2_STATUSES],
                                  const uint8_t *capture, size_t capture_len);

/* Looks up in the tally how many records are held with a letter and a status. The letter is one of REI2_LETTER_ORDER,
   the status one of REI2_STATUS_ORDER, both by their ASCII codes. It does not test the desk and does not look at cells:
   it returns what the tally holds. On a desk that is how many of the held cells are replies with this letter and this
   status. The tally never changes.
   Refused with: NO_SUCH, only if the letter is not one of the 33 or the status is not R, E or Z. A letter that only a
   static request can have, such as L, is not one of the 33.
   Done: held is the number.
   Cost: a few steps.
   Example:
   uint32_t not_started = rei2_look(tally, 'P', 'R').held + rei2_look(tally, 'P', 'E').held; */
rei2_looked_answer rei2_look(uint32_t tally[REI2_LETTERS][REI2_STATUSES], uint8_t letter, uint8_t status);

/* Returns how many seats are in use, ended ones too: how many bits of desk.bits are set. Never refused.
   Cost: a few steps.
   Example:
   uint32_t in_use = rei2_seats_in_use(desk); */
uint32_t rei2_seats_in_use(rei2_desk desk);

/* Returns how many cells a desk can hold if it is lent this many bytes of cells and this many marks: the least of
   REI2_CELLS, the whole cells and the marks. cells counts bytes, not cells. Never refused.
   Cost: a few steps.
   Example:
   size_t most = rei2_capacity(sizeof cells, REI2_CELLS); */
size_t rei2_capacity(size_t cells, size_t marks);

/* Finds the first held cell that belongs to the seat. The search begins at cell number from. To read all records of a
   seat in the order in which they came, begin with 0 and go on with the number after the cell found, until none is
   found. Takes any state and memory and is never refused. It does not test the desk: with an older state it misses
   records, or finds those from before a reset.
   Cost: a look at each mark that it passes.
   Example:
   rei2_cell_answer held = rei2_next_held(desk, cells, sizeof cells, marks, REI2_CELLS, a.seat, at); */
rei2_cell_answer rei2_next_held(rei2_desk desk, const uint8_t *cells, size_t cells_len, const uint32_t *marks,
                                size_t marks_len, uint32_t seat, size_t from);

/* ---- frames. A reader turns the bytes of a frame into a record. A writer turns a record into the bytes of a frame. A
   record that was read, written again, makes the same bytes. docs/RULES.md says what each field may hold. */

/* Reads a static request: REI2_REQUEST_SIZE bytes, the first one REI2_REQUEST_LEAD. Takes any bytes.
   Refused with, in this order: KIND, LENGTH, END, ADDRESS, FIELD.
   Done: request has the values of all fields.
   Cost: one pass over the frame.
   Example:
   rei2_request_answer asked = rei2_read_request(frame, size); */
rei2_request_answer rei2_read_request(const uint8_t *frame, size_t frame_len);

/* Writes a static request to out.
   Refused with, in this order: RECORD, ROOM.
   Done: the first REI2_REQUEST_SIZE bytes of out are the frame, and no other byte of out changes. size is
   REI2_REQUEST_SIZE.
   Cost: one pass over the frame.
   Example:
   rei2_written_answer sent = rei2_write_request(request, out, sizeof out); */
rei2_written_answer rei2_write_request(rei2_static_request record, uint8_t *out, size_t out_len);

/* Reads a static reply: REI2_REPLY_SIZE bytes, the first one REI2_REPLY_LEAD. Takes any bytes.
   Refused with, in this order: KIND, LENGTH, END, ADDRESS, FIELD.
   Done: reply has the values of all fields. Its timing.kind says what time and date are.
   Cost: one pass over the frame.
   Example:
   rei2_reply_answer got = rei2_read_reply(frame, size); */
rei2_reply_answer rei2_read_reply(const uint8_t *frame, size_t frame_len);

/* Writes a static reply to out.

   Status and information letter say which timing a reply has. With status Z it is REI2_RAW. Otherwise it is REI2_CLOCK
   with one of the letters 0 K S s a, REI2_NET with one of 1 2 3, and REI2_RAW with any other letter. Parts of the
   record that its timing does not use must be 0.

   Refused with, in this order: RECORD, ROOM. The parts of the head are checked first. After them RECORD has the first
   of these offsets that applies:
   30 timing.kind is above 2 or is not the timing asked for; ticks is above 863999999; a byte of raw_time is not one of
      20h to 7Eh
   40 day, month and year are no day of 2000 to 2099; net is below -8639999999999999 or above 8639999999999999; a byte
      of raw_date is not one of 20h to 7Eh
   48 a byte of spare is not one of 20h to 7Eh
   50 a part that the timing does not use is not 0: ticks, day, month or year with REI2_NET or REI2_RAW, net with
      REI2_CLOCK or REI2_RAW, a byte of raw_time or raw_date with REI2_CLOCK or REI2_NET

   Done: the first REI2_REPLY_SIZE bytes of out are the frame, and no other byte of out changes. size is
   REI2_REPLY_SIZE.
   Cost: one pass over the frame.
   Example:
   rei2_written_answer wrote = rei2_write_reply(reply, out, sizeof out); */
rei2_written_answer rei2_write_reply(rei2_reply_record record, uint8_t *out, size_t out_len);

/* Reads a dynamic request: REI2_DYNAMIC_SIZE bytes, the first one REI2_DYNAMIC_LEAD. Takes any bytes.
   Refused with, in this order: KIND, LENGTH, END, ADDRESS, FIELD.
   Done: request has the values of all fields.
   Cost: one pass over the frame.
   Example:
   rei2_dynamic_answer ordered = rei2_read_dynamic(frame, size); */
rei2_dynamic_answer rei2_read_dynamic(const uint8_t *frame, size_t frame_len);

/* Writes a dynamic request to out.
   Refused with, in this order: RECORD, ROOM.
   Done: the first REI2_DYNAMIC_SIZE bytes of out are the frame, and no other byte of out changes. size is
   REI2_DYNAMIC_SIZE.
   Cost: one pass over the frame.
   Example:
   rei2_written_answer order = rei2_write_dynamic(dynamic, out, sizeof out); */
rei2_written_answer rei2_write_dynamic(rei2_dynamic_request record, uint8_t *out, size_t out_len);

/* ---- captures */

/* Finds the first frame whose first byte is at the index at or after it. A frame begins with a lead byte and runs to
   its CR. Bytes between frames are skipped. To find all frames, begin with 0 and go on with the answer's next, until
   the answer is REI2_NOTHING. Then nothing is left, and next is the length of the capture, even if at is greater. Takes
   any index and is never refused.
   If a line is read in pieces, a frame may be torn: the kind is REI2_CUT and next is the length of the piece. Keep the
   bytes from start on, and put them before the next piece.
   Cost: a look at each byte up to the end of the frame that it finds.
   Example:
   rei2_frame_answer found = rei2_next_frame(in, size, at); */
rei2_frame_answer rei2_next_frame(const uint8_t *capture, size_t capture_len, size_t at);

/* Writes the list of a capture to out: a heading, the records of each seat in order, and an end line with the counts.
   The column addr has the address of a record, with - for a space. For a capture of more than REI2_MOST_INPUT bytes it
   writes the text "input too long" and LF, and nothing else. An output of REI2_LONGEST_LIST bytes is always long
   enough.
   Refused with: ROOM.
   Done: the list is the first bytes of out, and no other byte of out changes. Cells and marks are used as those of an
   empty desk: they are overwritten from the first one on, one for each reply collected. Do not lend those of a desk. If
   the capture was too long they do not change.
   Cost: one reading of each frame, 32 readings of each held mark, and one pass over the list. It keeps a copy of 256
   cells and marks on the stack, 14,080 bytes, and a tally of its own, 396 bytes.
   Example:
   rei2_listed_answer l = rei2_list(in, size, own_cells, sizeof own_cells, own_marks, REI2_CELLS, out, sizeof out); */
rei2_listed_answer rei2_list(const uint8_t *capture, size_t capture_len, uint8_t *cells, size_t cells_len,
                             uint32_t *marks, size_t marks_len, uint8_t *out, size_t out_len);

/* ---- running time */

/* Returns Tnow - Tev - Taux in ticks, with its sign.
   Refused with: TIME, if tnow, tev or time is above 863999999, sign is above 1, days is above 9, or the bib is 0 and
   tev is not 0.
   Cost: a few steps.
   Example:
   rei2_running_of of = {41, 363000000, 360000000, 0, 0, 0}; rei2_running_answer running = rei2_running_time(of); */
rei2_running_answer rei2_running_time(rei2_running_of of);

#ifdef __cplusplus
}
#endif

#endif
