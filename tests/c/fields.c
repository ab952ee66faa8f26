/* Wrong fields: which field the readers and the desk name, and which byte of it is spoiled. */
#include <string.h>

#include "made.h"
#include "table.h"
#include "tests.h"

static struct table now;

/* ---- the kinds of frame */

/* What can be at each place of a frame. A digit: the digits from 0 to it. Y: only 2. A plus sign: a plus or a minus. A
   tilde: 20h to 7Eh. A point: a field of one byte, whose offset is that of its spoiled byte. A space: no field. */
#define REPLY_HEAD "   " "~" "~" "." "." "99999" "59999" "199" "299" "999" "299" "."
static const char request_places[] = "   " "." "999" "59999" "." "299" "299" "199" "." " ";
static const char clock_places[] = REPLY_HEAD "2959599999" "3919Y099" "~~" " ";
static const char net_places[] = REPLY_HEAD "2959599999" "+9999999" "~~" " ";
static const char raw_places[] = REPLY_HEAD "~~~~~~~~~~" "~~~~~~~~" "~~" " ";
static const char dynamic_places[] =
    "   " "." "." "69999" "299" "299" "69999" "299" "299" "." "2959599999" "." "99999" "." " ";

static int can_be(char place, uint8_t byte) {
    switch (place) {
    case '.':
        return 1;
    case '~':
        return byte >= 0x20 && byte <= 0x7e;
    case '+':
        return byte == '+' || byte == '-';
    case 'Y':
        return byte == '2';
    default:
        return byte >= '0' && byte <= (uint8_t)place;
    }
}

/* The places of a reply, by its status and its information letter. */
static const char *reply_places(const uint8_t *frame) {
    switch (frame[5] == 'Z' ? 'Z' : frame[29]) {
    case '0':
    case 'K':
    case 'S':
    case 's':
    case 'a':
        return clock_places;
    case '1':
    case '2':
    case '3':
        return net_places;
    default:
        return raw_places;
    }
}

static const char *places_of(const uint8_t *frame) {
    return frame[0] == REI2_REQUEST_LEAD ? request_places
           : frame[0] == REI2_REPLY_LEAD ? reply_places(frame)
                                         : dynamic_places;
}

static const uint8_t *fields_of(const uint8_t *frame) {
    return frame[0] == REI2_REQUEST_LEAD ? request_fields
           : frame[0] == REI2_REPLY_LEAD ? reply_fields
                                         : dynamic_fields;
}

static size_t size_of(const uint8_t *frame) {
    return strlen(places_of(frame));
}

/* The spoiled byte of the field at this offset, if that is the first wrong one. */
static uint32_t spoiled_in(const uint8_t *frame, uint32_t offset) {
    const char *places = places_of(frame);
    for (uint32_t at = offset; places[at] != ' ' && field_of(fields_of(frame), at) == offset; at++) {
        if (!can_be(places[at], frame[at])) {
            return at;
        }
    }
    return offset;
}

/* ---- what is said of a frame */

static struct said said_of(const uint8_t *frame) {
    if (frame[0] == REI2_REQUEST_LEAD) {
        return SAID(rei2_read_request(frame, REI2_REQUEST_SIZE));
    }
    if (frame[0] == REI2_REPLY_LEAD) {
        return SAID(rei2_read_reply(frame, REI2_REPLY_SIZE));
    }
    return SAID(rei2_read_dynamic(frame, REI2_DYNAMIC_SIZE));
}

/* The desk refuses a request or a reply as the reader does. */
static void is_handed_on(const uint8_t *frame, struct said wanted) {
    if (frame[0] == REI2_REQUEST_LEAD) {
        table_refused(&now, table_open(&now, frame, REI2_REQUEST_SIZE), wanted, HERE("an opening"));
    } else if (frame[0] == REI2_REPLY_LEAD) {
        table_refused(&now, table_reply(&now, frame, REI2_REPLY_SIZE), wanted, HERE("a reply"));
    }
}

/* ---- examples: a good frame, bytes that are put at a place of it, and where it is wrong then */

enum base { REQUEST, CLOCK, NET, MINUS_TICK, RAW, NOT_AVAILABLE, DYNAMIC, BASES };

static const char *const names[BASES] = {"request", "clock", "net", "minus one tick", "raw", "not available", "dynamic"};

static const char *const bases[BASES] = {
    "\021R " "A" "012" "00041" "P" "000" "002" "000" "S" "\r",
    "\022R " "S" "O" "R" "A" "00012" "00041" "000" "001" "015" "255" "S" "0959597500" "12052024" "  " "\r",
    "\022R " "S" "O" "R" "A" "00012" "00041" "000" "001" "015" "255" "1" "0001125400" "-0000001" "  " "\r",
    "\022R " "S" "O" "R" "A" "00012" "00041" "000" "001" "015" "255" "2" "0000000001" "-0000000" "  " "\r",
    "\022R " "S" "O" "R" "A" "00012" "00041" "000" "001" "015" "255" "P" "0000000000" "00000000" "  " "\r",
    "\022R " "S" "O" "Z" "A" "00012" "00041" "000" "000" "015" "255" "S" "not there " "        " "  " "\r",
    "\023R " "1" "A" "00041" "255" "001" "60000" "250" "005" "1" "0102030405" "9" "99999" "S" "\r",
};

struct example {
    enum base base;
    uint32_t at;
    const char *bytes;
    uint32_t offset;
    uint32_t spoiled;
};

static const struct example examples[] = {
    /* letters: a field of one byte */
    {REQUEST, 3, "[", 3, 3},
    {REQUEST, 12, "U", 12, 12},
    {REQUEST, 22, "C", 22, 22},
    {CLOCK, 3, "\037", 3, 3},
    {CLOCK, 4, "\177", 4, 4},
    {CLOCK, 5, "S", 5, 5},
    {CLOCK, 29, "L", 29, 29},
    {DYNAMIC, 4, "C", 4, 4},
    {DYNAMIC, 27, "2", 27, 27},
    {DYNAMIC, 38, ":", 38, 38},
    {DYNAMIC, 44, "s", 44, 44},
    /* numbers: each digit can be there, but not together; the first byte is spoiled; a later one is */
    {REQUEST, 16, "251", 16, 16},
    {REQUEST, 16, "299", 16, 16},
    {REQUEST, 16, "999", 16, 16},
    {REQUEST, 16, "1-3", 16, 17},
    {REQUEST, 16, "13 ", 16, 18},
    {REQUEST, 16, "3-3", 16, 16},
    {REQUEST, 4, "9 9", 4, 5},
    {REQUEST, 7, "60000", 7, 7},
    {REQUEST, 7, "5999:", 7, 11},
    {REQUEST, 13, "299", 13, 13},
    {REQUEST, 13, "25/", 13, 15},
    {REQUEST, 19, "200", 19, 19},
    {REQUEST, 19, "1a0", 19, 20},
    {CLOCK, 7, "9999+", 7, 11},
    {CLOCK, 7, ":000+", 7, 7},
    {CLOCK, 12, "60000", 12, 12},
    {CLOCK, 12, "5 000", 12, 13},
    {CLOCK, 17, "200", 17, 17},
    {CLOCK, 17, "19.", 17, 19},
    {CLOCK, 20, "000", 20, 20},
    {CLOCK, 20, "299", 20, 20},
    {NOT_AVAILABLE, 20, "251", 20, 20},
    {NOT_AVAILABLE, 20, "00 ", 20, 22},
    {CLOCK, 23, "99A", 23, 25},
    {CLOCK, 23, ":9A", 23, 23},
    {CLOCK, 26, "299", 26, 26},
    {CLOCK, 26, "2:1", 26, 27},
    {DYNAMIC, 5, "69999", 5, 5},
    {DYNAMIC, 5, "6000O", 5, 9},
    {DYNAMIC, 10, "299", 10, 10},
    {DYNAMIC, 13, "299", 13, 13},
    {DYNAMIC, 13, "2 1", 13, 14},
    {DYNAMIC, 16, "00000", 16, 16},
    {DYNAMIC, 16, "69999", 16, 16},
    {DYNAMIC, 16, "6999 ", 16, 20},
    {DYNAMIC, 21, "299", 21, 21},
    {DYNAMIC, 21, "30 ", 21, 21},
    {DYNAMIC, 24, "299", 24, 24},
    {DYNAMIC, 24, "25~", 24, 26},
    {DYNAMIC, 39, "00000", 39, 39},
    {DYNAMIC, 39, "000 0", 39, 42},
    {DYNAMIC, 39, ":00 0", 39, 39},
    /* times: hour 24 does not hide what comes after it */
    {CLOCK, 30, "2461000000", 30, 32},
    {CLOCK, 30, "2400000000", 30, 30},
    {CLOCK, 30, "3461000000", 30, 30},
    {CLOCK, 30, "0000600000", 30, 34},
    {CLOCK, 30, "2959599999", 30, 30},
    {CLOCK, 30, "295959999 ", 30, 39},
    {NET, 30, "2461000000", 30, 32},
    {NET, 30, "2400000000", 30, 30},
    {DYNAMIC, 28, "2461000000", 28, 30},
    {DYNAMIC, 28, "2400000000", 28, 28},
    {DYNAMIC, 28, "00000000,0", 28, 36},
    /* dates */
    {CLOCK, 40, "00000000", 40, 44},
    {CLOCK, 40, "31042024", 40, 40},
    {CLOCK, 40, "29022023", 40, 40},
    {CLOCK, 40, "00002000", 40, 40},
    {CLOCK, 40, "39192099", 40, 40},
    {CLOCK, 40, "31202024", 40, 42},
    {CLOCK, 40, "31042100", 40, 45},
    {CLOCK, 40, "3104202-", 40, 47},
    {NET, 30, "0000000000" "-0000000", 40, 40},
    {MINUS_TICK, 39, "0", 40, 40},
    {NET, 40, ",0000001", 40, 40},
    {NET, 40, "00000000", 40, 40},
    {NET, 40, "-000 000", 40, 44},
    {NET, 40, "+999999 ", 40, 47},
    /* raw bytes */
    {RAW, 30, "24610000\177\177", 30, 38},
    {RAW, 40, "\200\177000000", 40, 40},
    {NOT_AVAILABLE, 30, "         \t", 30, 39},
    {NOT_AVAILABLE, 40, "31042\0370\037", 40, 45},
    {CLOCK, 48, " \177", 48, 49},
    {CLOCK, 48, "\177 ", 48, 48},
    {RAW, 48, "~\200", 48, 49},
    /* only the first wrong field counts, even if a later one has a spoiled byte and the first has none */
    {REQUEST, 16, "251" "2:0" "C", 16, 16},
    {CLOCK, 20, "000" "99A", 20, 20},
    {CLOCK, 30, "2400000000" "00000000" "\177 ", 30, 30},
    {NET, 30, "0000000000" "-0000000" " \177", 40, 40},
    {DYNAMIC, 39, "00000" "s", 39, 39},
};

static void each_example(void) {
    uint8_t frame[REI2_REPLY_SIZE + 1];
    for (size_t i = 0; i < sizeof examples / sizeof examples[0]; i++) {
        const struct example *e = &examples[i];
        trying(e->bytes);
        memcpy(frame, bases[e->base], strlen(bases[e->base]));
        memcpy(frame + e->at, e->bytes, strlen(e->bytes));
        SAYS_FIELD(said_of(frame), e->offset, e->spoiled);
        is_handed_on(frame, WRONG_FIELD(e->offset, e->spoiled));
    }
    trying(NULL);
}

static void bases_are_good(void) {
    for (size_t i = 0; i < BASES; i++) {
        trying(names[i]);
        CHECK(strlen(bases[i]) == size_of((const uint8_t *)bases[i]));
        SAYS(said_of((const uint8_t *)bases[i]), REI2_DONE, 0);
    }
    trying(NULL);
}

/* ---- every byte at every place */

/* A good frame with one byte of a field changed. A byte that cannot be there is the spoiled one. With any other byte
   the frame is good, or this field or a later one is wrong: a letter says what a later field must be. */
static void changed(const uint8_t *frame, size_t at) {
    uint32_t field = field_of(fields_of(frame), at);
    struct said got = said_of(frame);
    if (!can_be(places_of(frame)[at], frame[at])) {
        SAYS_FIELD(got, field, (uint32_t)at);
    } else if (got.refusal != REI2_DONE) {
        CHECK(got.offset >= field);
        SAYS_FIELD(got, got.offset, spoiled_in(frame, got.offset));
    } else {
        SAYS(got, REI2_DONE, 0);
    }
}

static void every_byte(void) {
    uint8_t frame[REI2_REPLY_SIZE + 1];
    for (size_t i = 0; i < BASES; i++) {
        trying(names[i]);
        memcpy(frame, bases[i], strlen(bases[i]));
        for (size_t at = 3; at < strlen(bases[i]) - 1; at++) {
            for (int byte = 0; byte < 256; byte++) {
                frame[at] = (uint8_t)byte;
                changed(frame, at);
            }
            frame[at] = (uint8_t)bases[i][at];
        }
    }
    trying(NULL);
}

/* ---- many bytes of a field */

/* Fills a field with digits and, here and there, with bytes that may not be there. */
static void scatter(uint8_t *frame, uint32_t offset, uint32_t seed) {
    static const char digits[] = "0123456789";
    static const char others[] = " +-/:Aa~\177\200";
    uint8_t dice[2 * REI2_REPLY_SIZE];
    fill(dice, sizeof dice, seed);
    for (size_t at = offset; places_of(frame)[at] != ' ' && field_of(fields_of(frame), at) == offset; at++) {
        const char *from = dice[2 * at] < 32 ? others : digits;
        frame[at] = (uint8_t)from[dice[2 * at + 1] % 10];
    }
}

/* If such a frame is refused, its field or a later one is wrong, and the desk says the same. */
static void scattered(const char *base, uint32_t offset, uint32_t seed) {
    uint8_t frame[REI2_REPLY_SIZE + 1];
    memcpy(frame, base, strlen(base));
    scatter(frame, offset, seed);
    struct said got = said_of(frame);
    if (got.refusal != REI2_DONE) {
        CHECK(got.offset >= offset);
        SAYS_FIELD(got, got.offset, spoiled_in(frame, got.offset));
        is_handed_on(frame, got);
    }
}

static void every_field(void) {
    enum { TIMES = 200 };
    for (size_t i = 0; i < BASES; i++) {
        trying(names[i]);
        for (const uint8_t *field = fields_of((const uint8_t *)bases[i]); *field != 0; field++) {
            for (uint32_t seed = 0; seed < TIMES; seed++) {
                scattered(bases[i], *field, seed + 1000 * *field);
            }
        }
    }
    trying(NULL);
}

void test_fields(void) {
    table_laid(&now);
    bases_are_good();
    each_example();
    every_byte();
    every_field();
}
