/* The three kinds of frame, read and written. */
#include <string.h>

#include "check.h"
#include "made.h"
#include "tests.h"

/* ---- what the readers have in common */

/* What a reading answers, the address in its record, and whether the record is all zero, as it is if the frame was
   refused. */
struct reading {
    struct said said;
    uint8_t address;
    int empty;
};

static int zero_request(rei2_static_request r) {
    int bytes = r.address == 0 && r.requester == 0 && r.information == 0 && r.output == 0;
    return bytes && r.number == 0 && r.bib == 0 && r.channel == 0 && r.run == 0 && r.group == 0;
}

static int zero_timing(rei2_timing_numbers t) {
    return t.kind == 0 && t.ticks == 0 && t.day == 0 && t.month == 0 && t.year == 0 && t.net == 0;
}

static int zero_head(rei2_reply_head h) {
    int letters = h.status == 0 && h.requester == 0 && h.information == 0;
    int bytes = h.address == 0 && h.program == 0 && h.mode == 0 && letters;
    int numbers = h.number == 0 && h.bib == 0 && h.group == 0 && h.run == 0 && h.physical == 0 && h.channel == 0;
    return bytes && numbers;
}

static int zero_reply(rei2_reply_record r) {
    static const uint8_t zero[10];
    int raw = !memcmp(r.raw_time, zero, 10) && !memcmp(r.raw_date, zero, 8) && !memcmp(r.spare, zero, 2);
    return zero_head(r.head) && raw && zero_timing(r.timing);
}

static int zero_dynamic(rei2_dynamic_request r) {
    int bytes = r.address == 0 && r.requester == 0 && r.order == 0 && r.output == 0;
    int place = r.bib == 0 && r.channel == 0 && r.run == 0;
    int stop = r.stop_bib == 0 && r.stop_channel == 0 && r.stop_run == 0;
    int taux = r.sign == 0 && r.time == 0 && r.days == 0;
    return bytes && place && stop && taux && r.period == 0;
}

static struct reading read_request(const uint8_t *frame, size_t size) {
    rei2_request_answer a = rei2_read_request(frame, size);
    return (struct reading){SAID(a), a.request.address, zero_request(a.request)};
}

static struct reading read_reply(const uint8_t *frame, size_t size) {
    rei2_reply_answer a = rei2_read_reply(frame, size);
    return (struct reading){SAID(a), a.reply.head.address, zero_reply(a.reply)};
}

static struct reading read_dynamic(const uint8_t *frame, size_t size) {
    rei2_dynamic_answer a = rei2_read_dynamic(frame, size);
    return (struct reading){SAID(a), a.request.address, zero_dynamic(a.request)};
}

/* Each reads a good frame and writes its record with another address. */
static rei2_written_answer readdress_request(const uint8_t *frame, uint8_t address, uint8_t *to, size_t room) {
    rei2_static_request r = rei2_read_request(frame, REI2_REQUEST_SIZE).request;
    r.address = address;
    return rei2_write_request(r, to, room);
}

static rei2_written_answer readdress_reply(const uint8_t *frame, uint8_t address, uint8_t *to, size_t room) {
    rei2_reply_record r = rei2_read_reply(frame, REI2_REPLY_SIZE).reply;
    r.head.address = address;
    return rei2_write_reply(r, to, room);
}

static rei2_written_answer readdress_dynamic(const uint8_t *frame, uint8_t address, uint8_t *to, size_t room) {
    rei2_dynamic_request r = rei2_read_dynamic(frame, REI2_DYNAMIC_SIZE).request;
    r.address = address;
    return rei2_write_dynamic(r, to, room);
}

/* A kind: its reader, its writer with another address, its size, its fields, and a good frame. */
struct kind {
    const char *name;
    struct reading (*read)(const uint8_t *, size_t);
    rei2_written_answer (*readdress)(const uint8_t *, uint8_t, uint8_t *, size_t);
    size_t size;
    const uint8_t *fields;
    uint8_t frame[REI2_REPLY_SIZE];
};

static struct kind kinds[] = {
    {"request", read_request, readdress_request, REI2_REQUEST_SIZE, request_fields, {0}},
    {"reply", read_reply, readdress_reply, REI2_REPLY_SIZE, reply_fields, {0}},
    {"dynamic", read_dynamic, readdress_dynamic, REI2_DYNAMIC_SIZE, dynamic_fields, {0}},
};
enum { KINDS = sizeof kinds / sizeof kinds[0] };

static void make_kinds(void) {
    make_request(kinds[0].frame, '1', "007");
    make_reply(kinds[1].frame, 'R', '1', "00007");
    make_dynamic(kinds[2].frame);
}

static void is_refused(struct reading r, uint32_t refusal) {
    SAYS(r.said, refusal, 0);
    CHECK(r.empty);
}

static void has_wrong_field(struct reading r, uint32_t offset, uint32_t spoiled) {
    SAYS_FIELD(r.said, offset, spoiled);
    CHECK(r.empty);
}

/* Empty, too short, too long, and good. */
static void lengths(const struct kind *kind) {
    uint8_t longer[REI2_REPLY_SIZE + 1] = {0};
    memcpy(longer, kind->frame, kind->size);
    is_refused(kind->read(NULL, 0), REI2_KIND);
    is_refused(kind->read(longer, 0), REI2_KIND);
    is_refused(kind->read(longer, 1), REI2_LENGTH);
    is_refused(kind->read(longer, kind->size - 1), REI2_LENGTH);
    is_refused(kind->read(longer, kind->size + 1), REI2_LENGTH);
    struct reading good = kind->read(longer, kind->size);
    SAYS(good.said, REI2_DONE, 0);
    CHECK(!good.empty);
}

/* A byte that no field takes, at every place. */
static void damage(const struct kind *kind) {
    uint8_t frame[REI2_REPLY_SIZE];
    for (size_t at = 0; at < kind->size; at++) {
        memcpy(frame, kind->frame, sizeof frame);
        frame[at] = 0x80;
        struct reading r = kind->read(frame, kind->size);
        if (at == 0) {
            is_refused(r, REI2_KIND);
        } else if (at == kind->size - 1) {
            is_refused(r, REI2_END);
        } else if (at < 3) {
            is_refused(r, REI2_ADDRESS);
        } else {
            has_wrong_field(r, field_of(kind->fields, at), (uint32_t)at);
        }
    }
}

/* Frames of the other kinds. */
static void other_kinds(const struct kind *kind) {
    for (size_t i = 0; i < KINDS; i++) {
        struct reading r = kind->read(kinds[i].frame, kinds[i].size);
        if (kind != &kinds[i]) {
            is_refused(r, REI2_KIND);
        }
    }
}

/* The first fault is reported: the end before the address, the address before a field, a field before a later one. */
static void in_order(const struct kind *kind) {
    uint8_t frame[REI2_REPLY_SIZE];
    memcpy(frame, kind->frame, sizeof frame);
    frame[kind->size - 2] = 0x80;
    frame[3] = 0x80;
    has_wrong_field(kind->read(frame, kind->size), 3, 3);
    frame[2] = '-';
    is_refused(kind->read(frame, kind->size), REI2_ADDRESS);
    frame[1] = 'S';
    is_refused(kind->read(frame, kind->size), REI2_ADDRESS);
    frame[kind->size - 1] = '\n';
    is_refused(kind->read(frame, kind->size), REI2_END);
    is_refused(kind->read(frame, kind->size - 1), REI2_LENGTH);
}

static void reading(void) {
    for (size_t i = 0; i < KINDS; i++) {
        trying(kinds[i].name);
        lengths(&kinds[i]);
        damage(&kinds[i]);
        other_kinds(&kinds[i]);
        in_order(&kinds[i]);
    }
    trying(NULL);
}

/* ---- what the writers have in common: an output with bytes after the frame */

enum { OUT = 64 };
static uint8_t out[OUT], out_was[OUT];

static void clear_out(void) {
    fill(out, OUT, 7);
    memcpy(out_was, out, OUT);
}

/* The frame was written, and no byte after it changed. */
static void wrote(rei2_written_answer answer, const uint8_t *frame, size_t size) {
    SAYS(answer, REI2_DONE, 0);
    CHECK(answer.size == size);
    memcpy(out_was, frame, size);
    SAME(out, out_was, OUT);
    clear_out();
}

/* The record was refused, and no byte of the output changed. */
static void wrote_not(rei2_written_answer answer, uint32_t refusal, uint32_t offset) {
    SAYS(answer, refusal, offset);
    CHECK(answer.size == 0);
    SAME(out, out_was, OUT);
    clear_out();
}

/* ---- addresses */

/* A space or a digit: the frame is read, and its record is written as the same frame. */
static void takes_address(const struct kind *kind, const uint8_t *frame) {
    struct reading r = kind->read(frame, kind->size);
    SAYS(r.said, REI2_DONE, 0);
    CHECK(r.address == frame[2]);
    wrote(kind->readdress(kind->frame, frame[2], out, OUT), frame, kind->size);
    wrote_not(kind->readdress(kind->frame, frame[2], out, kind->size - 1), REI2_ROOM, 0);
}

/* Any other byte: neither read nor written. */
static void takes_no_address(const struct kind *kind, const uint8_t *frame) {
    is_refused(kind->read(frame, kind->size), REI2_ADDRESS);
    wrote_not(kind->readdress(kind->frame, frame[2], out, OUT), REI2_RECORD, 2);
    wrote_not(kind->readdress(kind->frame, frame[2], NULL, 0), REI2_RECORD, 2);
}

/* Every byte as the address. Those beside the good ones are 31, 33, 47 and 58; a list shows 45 for a space. */
static void addresses(const struct kind *kind) {
    uint8_t frame[REI2_REPLY_SIZE];
    memcpy(frame, kind->frame, sizeof frame);
    for (int byte = 0; byte < 256; byte++) {
        frame[2] = (uint8_t)byte;
        if (byte == 32 || (byte >= 48 && byte <= 57)) {
            takes_address(kind, frame);
        } else {
            takes_no_address(kind, frame);
        }
    }
}

static void all_addresses(void) {
    for (size_t i = 0; i < KINDS; i++) {
        trying(kinds[i].name);
        addresses(&kinds[i]);
    }
    trying(NULL);
}

/* ---- the static request */

static void request_record(void) {
    rei2_static_request r = rei2_read_request(kinds[0].frame, REI2_REQUEST_SIZE).request;
    CHECK(r.address == ' ' && r.requester == '1' && r.number == 7 && r.bib == 0 && r.information == 'P');
    CHECK(r.channel == 0 && r.run == 2 && r.group == 0 && r.output == 'S');
}

static void request_written(void) {
    const uint8_t *frame = (const uint8_t *)"\021R9z99959999*255250199T\r";
    rei2_static_request r = rei2_read_request(frame, REI2_REQUEST_SIZE).request;
    wrote(rei2_write_request(r, out, OUT), frame, REI2_REQUEST_SIZE);
    wrote(rei2_write_request(r, out, REI2_REQUEST_SIZE), frame, REI2_REQUEST_SIZE);
    wrote_not(rei2_write_request(r, out, REI2_REQUEST_SIZE - 1), REI2_ROOM, 0);
    wrote_not(rei2_write_request(r, NULL, 0), REI2_ROOM, 0);
}

/* The parts are made wrong from the last to the first. The first wrong part is reported, and RECORD before ROOM. */
static void request_parts(void) {
    rei2_static_request r = rei2_read_request(kinds[0].frame, REI2_REQUEST_SIZE).request;
    r.output = 'C';
    wrote_not(rei2_write_request(r, out, OUT), REI2_RECORD, 22);
    r.group = 200;
    wrote_not(rei2_write_request(r, out, OUT), REI2_RECORD, 19);
    r.run = 251;
    wrote_not(rei2_write_request(r, out, OUT), REI2_RECORD, 16);
    r.channel = 250;
    wrote_not(rei2_write_request(r, out, OUT), REI2_RECORD, 13);
    r.information = 'U';
    wrote_not(rei2_write_request(r, out, OUT), REI2_RECORD, 12);
    r.bib = 60000;
    wrote_not(rei2_write_request(r, out, OUT), REI2_RECORD, 7);
    r.number = 1000;
    wrote_not(rei2_write_request(r, out, OUT), REI2_RECORD, 4);
    r.requester = '[';
    wrote_not(rei2_write_request(r, out, OUT), REI2_RECORD, 3);
    r.address = 0;
    wrote_not(rei2_write_request(r, out, OUT), REI2_RECORD, 2);
    wrote_not(rei2_write_request(r, NULL, 0), REI2_RECORD, 2);
}

/* ---- the static reply */

static const uint8_t clock_frame[] =
    "\022R " "S" "O" "E" "A" "00012" "00041" "000" "001" "015" "255" "0" "2359599999" "29022024" "ab" "\r";
static const uint8_t net_frame[] =
    "\022R " "S" "O" "E" "A" "00012" "00041" "000" "001" "015" "255" "1" "2359590000" "-0000001" "  " "\r";
static const uint8_t raw_frame[] =
    "\022R7" " " "~" "Z" "A" "99999" "59999" "199" "000" "999" "250" "0" "any bytes " "at all !" "~ " "\r";

static rei2_reply_record reply_in(const uint8_t *frame) {
    rei2_reply_answer answer = rei2_read_reply(frame, REI2_REPLY_SIZE);
    SAYS(answer, REI2_DONE, 0);
    return answer.reply;
}

static int no_raw(rei2_reply_record r) {
    static const uint8_t zero[10];
    return !memcmp(r.raw_time, zero, 10) && !memcmp(r.raw_date, zero, 8);
}

static int timing_is(rei2_timing_numbers t, rei2_timing_numbers w) {
    return t.kind == w.kind && t.ticks == w.ticks && t.day == w.day && t.month == w.month && t.year == w.year &&
           t.net == w.net;
}

static void reply_records(void) {
    rei2_reply_record r = reply_in(clock_frame);
    rei2_reply_head h = r.head;
    CHECK(h.address == ' ' && h.program == 'S' && h.mode == 'O' && h.status == 'E' && h.requester == 'A');
    CHECK(h.number == 12 && h.bib == 41 && h.group == 0 && h.run == 1);
    CHECK(h.physical == 15 && h.channel == 255 && h.information == '0');
    CHECK(timing_is(r.timing, (rei2_timing_numbers){REI2_CLOCK, 863999999, 29, 2, 2024, 0}));
    CHECK(no_raw(r) && r.spare[0] == 'a' && r.spare[1] == 'b');
    r = reply_in(net_frame);
    CHECK(timing_is(r.timing, (rei2_timing_numbers){REI2_NET, 0, 0, 0, 0, -1727990000}) && no_raw(r));
    r = reply_in(raw_frame);
    h = r.head;
    CHECK(h.address == '7' && h.program == ' ' && h.mode == '~' && h.number == 99999 && h.bib == 59999);
    CHECK(h.group == 199 && h.run == 0 && h.physical == 999 && h.channel == 250);
    CHECK(timing_is(r.timing, (rei2_timing_numbers){REI2_RAW, 0, 0, 0, 0, 0}));
    SAME(r.raw_time, raw_frame + 30, 10);
    SAME(r.raw_date, raw_frame + 40, 8);
    SAME(r.spare, raw_frame + 48, 2);
}

static void reply_written(void) {
    const uint8_t *const frames[] = {clock_frame, net_frame, raw_frame};
    for (size_t i = 0; i < 3; i++) {
        rei2_reply_record r = reply_in(frames[i]);
        wrote(rei2_write_reply(r, out, OUT), frames[i], REI2_REPLY_SIZE);
        wrote(rei2_write_reply(r, out, REI2_REPLY_SIZE), frames[i], REI2_REPLY_SIZE);
        wrote_not(rei2_write_reply(r, out, REI2_REPLY_SIZE - 1), REI2_ROOM, 0);
        wrote_not(rei2_write_reply(r, NULL, 0), REI2_ROOM, 0);
    }
}

static void reply_refused(rei2_reply_record r, uint32_t offset) {
    wrote_not(rei2_write_reply(r, out, OUT), REI2_RECORD, offset);
}

/* The parts before the time are made wrong from the last to the first, whatever is wrong after them. */
static void spoil_head(rei2_reply_record r) {
    r.head.information = 'L';
    reply_refused(r, 29);
    r.head.channel = 251;
    reply_refused(r, 26);
    r.head.physical = 1000;
    reply_refused(r, 23);
    r.head.run = r.head.status == 'Z' ? 251 : 0;
    reply_refused(r, 20);
    r.head.group = 200;
    reply_refused(r, 17);
    r.head.bib = 60000;
    reply_refused(r, 12);
    r.head.number = 100000;
    reply_refused(r, 7);
    r.head.requester = '_';
    reply_refused(r, 6);
    r.head.status = 'r';
    reply_refused(r, 5);
    r.head.mode = 127;
    reply_refused(r, 4);
    r.head.program = 31;
    reply_refused(r, 3);
    r.head.address = '/';
    reply_refused(r, 2);
}

static void reply_parts(void) {
    spoil_head(reply_in(clock_frame));
}

/* A wrong time, a wrong date and raw bytes that are not used, from the last to the first. */
static void reply_clock(void) {
    rei2_reply_record r = reply_in(clock_frame);
    r.raw_date[7] = 1;
    reply_refused(r, 50);
    r.raw_date[7] = 0;
    r.raw_time[0] = ' ';
    reply_refused(r, 50);
    r.spare[1] = 0;
    reply_refused(r, 48);
    r.timing.year = 2023;
    reply_refused(r, 40);
    r.timing.ticks = 864000000;
    reply_refused(r, 30);
}

static void reply_net(void) {
    rei2_reply_record r = reply_in(net_frame);
    r.raw_time[9] = '0';
    reply_refused(r, 50);
    r.spare[0] = 200;
    reply_refused(r, 48);
    static const int64_t too_far[] = {8640000000000000, -8640000000000000, INT64_MAX, INT64_MIN};
    for (size_t i = 0; i < sizeof too_far / sizeof *too_far; i++) {
        r.timing.net = too_far[i];
        reply_refused(r, 40);
    }
}

/* The minus covers days and time together. */
static void reply_signs(void) {
    static const struct {
        const char *shown;
        int64_t net;
    } signs[] = {
        {"0000000000+0000000", 0},
        {"0000000001+0000000", 1},
        {"0000000001-0000000", -1},
        {"0000010000-0000000", -10000},
        {"2359599999-0000000", -863999999},
        {"0000000000-0000001", -864000000},
        {"0000000001-0000001", -864000001},
        {"0000000000-9999999", -8639999136000000},
        {"2359599999+9999999", 8639999999999999},
        {"2359599999-9999999", -8639999999999999},
    };
    uint8_t frame[REI2_REPLY_SIZE];
    memcpy(frame, net_frame, sizeof frame);
    for (size_t i = 0; i < sizeof signs / sizeof *signs; i++) {
        memcpy(frame + 30, signs[i].shown, 18);
        rei2_reply_record r = reply_in(frame);
        CHECK(r.timing.kind == REI2_NET && r.timing.net == signs[i].net);
        wrote(rei2_write_reply(r, out, OUT), frame, REI2_REPLY_SIZE);
    }
    memcpy(frame + 30, "0000000000-0000000", 18);
    rei2_reply_answer zero = rei2_read_reply(frame, sizeof frame);
    SAYS_FIELD(zero, 40, 40);
    frame[5] = 'Z';
    CHECK(reply_in(frame).timing.kind == REI2_RAW);
}

static void reply_raw(void) {
    rei2_reply_record r = reply_in(raw_frame);
    r.spare[1] = '\r';
    reply_refused(r, 48);
    r.raw_date[0] = 0;
    reply_refused(r, 40);
    r.raw_time[9] = 127;
    reply_refused(r, 30);
}

/* A timing of another kind, and a code above 2, whatever the numbers of the timing are. */
static void reply_timing(void) {
    const struct {
        const uint8_t *frame;
        uint32_t kind;
    } good[] = {{raw_frame, REI2_RAW}, {clock_frame, REI2_CLOCK}, {net_frame, REI2_NET}};
    for (size_t i = 0; i < 3; i++) {
        rei2_reply_record r = reply_in(good[i].frame);
        for (uint32_t kind = 0; kind < 5; kind++) {
            r.timing.kind = kind;
            if (kind != good[i].kind) {
                reply_refused(r, 30);
            }
        }
        r.timing.kind = UINT32_MAX;
        reply_refused(r, 30);
        r.timing = (rei2_timing_numbers){3, 0, 0, 0, 0, 0};
        reply_refused(r, 30);
        r.timing = (rei2_timing_numbers){UINT32_MAX, 1, 1, 1, 2024, 1};
        reply_refused(r, 30);
        r.head.bib = 60000;
        reply_refused(r, 12);
    }
}

/* The numbers of a timing. with_number sets one of them, which the timing of its record does not use. */
enum number { TICKS, DAY, MONTH, YEAR, NET, NUMBERS };

static rei2_reply_record with_number(rei2_reply_record r, int number) {
    switch (number) {
    case TICKS:
        r.timing.ticks = 1;
        break;
    case DAY:
        r.timing.day = UINT32_MAX;
        break;
    case MONTH:
        r.timing.month = 2;
        break;
    case YEAR:
        r.timing.year = 2024;
        break;
    default:
        r.timing.net = -1;
    }
    return r;
}

/* The other parts are made wrong from the last to the first. Each is reported before the number that is not used. */
static void parts_first(rei2_reply_record r) {
    r.spare[0] = 0;
    reply_refused(r, 48);
    if (r.timing.kind == REI2_CLOCK) {
        r.timing.day = 32;
    } else if (r.timing.kind == REI2_NET) {
        r.timing.net = INT64_MIN;
    } else {
        r.raw_date[7] = 0;
    }
    reply_refused(r, 40);
    if (r.timing.kind == REI2_CLOCK) {
        r.timing.ticks = 864000000;
    } else if (r.timing.kind == REI2_NET) {
        r.timing.kind = REI2_CLOCK;
    } else {
        r.raw_time[0] = 0;
    }
    reply_refused(r, 30);
    spoil_head(r);
}

/* A number that the timing does not use is wrong at the offset of the CR, after every other part, for any output. */
static void reply_left_over(void) {
    const uint8_t *const frames[] = {clock_frame, net_frame, raw_frame};
    for (size_t i = 0; i < 3; i++) {
        rei2_reply_record good = reply_in(frames[i]);
        for (int number = 0; number < NUMBERS; number++) {
            int used = good.timing.kind == REI2_CLOCK ? number != NET : good.timing.kind == REI2_NET && number == NET;
            if (!used) {
                rei2_reply_record r = with_number(good, number);
                reply_refused(r, 50);
                wrote_not(rei2_write_reply(r, NULL, 0), REI2_RECORD, 50);
                parts_first(r);
                r.raw_time[3] = r.timing.kind == REI2_RAW ? ' ' : 1;
                reply_refused(r, 50);
            }
        }
    }
    rei2_reply_record r = reply_in(clock_frame);
    r.timing.net = INT64_MIN;
    reply_refused(r, 50);
}

/* ---- the dynamic request */

static void dynamic_record(void) {
    rei2_dynamic_request r = rei2_read_dynamic(kinds[2].frame, REI2_DYNAMIC_SIZE).request;
    CHECK(r.address == ' ' && r.requester == '1' && r.order == 'A');
    CHECK(r.bib == 41 && r.channel == 255 && r.run == 1);
    CHECK(r.stop_bib == 60000 && r.stop_channel == 250 && r.stop_run == 5);
    CHECK(r.sign == 1 && r.time == 37230405 && r.days == 9 && r.period == 99999 && r.output == 'S');
}

static void dynamic_written(void) {
    rei2_dynamic_request r = rei2_read_dynamic(kinds[2].frame, REI2_DYNAMIC_SIZE).request;
    wrote(rei2_write_dynamic(r, out, OUT), kinds[2].frame, REI2_DYNAMIC_SIZE);
    wrote(rei2_write_dynamic(r, out, REI2_DYNAMIC_SIZE), kinds[2].frame, REI2_DYNAMIC_SIZE);
    wrote_not(rei2_write_dynamic(r, out, REI2_DYNAMIC_SIZE - 1), REI2_ROOM, 0);
    wrote_not(rei2_write_dynamic(r, NULL, 0), REI2_ROOM, 0);
    r.time = 0;
    r.days = 0;
    SAYS(rei2_write_dynamic(r, out, OUT), REI2_DONE, 0);
    SAME(out + 27, "100000000000", 12);
    CHECK(rei2_read_dynamic(out, REI2_DYNAMIC_SIZE).request.sign == 1);
    clear_out();
}

static void dynamic_refused(rei2_dynamic_request r, uint32_t offset) {
    wrote_not(rei2_write_dynamic(r, out, OUT), REI2_RECORD, offset);
}

static void dynamic_parts(void) {
    rei2_dynamic_request r = rei2_read_dynamic(kinds[2].frame, REI2_DYNAMIC_SIZE).request;
    r.output = 's';
    dynamic_refused(r, 44);
    r.period = 0;
    dynamic_refused(r, 39);
    r.days = 10;
    dynamic_refused(r, 38);
    r.time = 864000000;
    dynamic_refused(r, 28);
    r.sign = 2;
    dynamic_refused(r, 27);
    r.stop_run = 251;
    dynamic_refused(r, 24);
    r.stop_channel = 251;
    dynamic_refused(r, 21);
    r.stop_bib = 0;
    dynamic_refused(r, 16);
    r.run = 251;
    dynamic_refused(r, 13);
    r.channel = 248;
    dynamic_refused(r, 10);
    r.bib = 60001;
    dynamic_refused(r, 5);
    r.order = 'C';
    dynamic_refused(r, 4);
    r.requester = 0;
    dynamic_refused(r, 3);
    r.address = ':';
    dynamic_refused(r, 2);
}

void test_frames(void) {
    make_kinds();
    reading();
    clear_out();
    all_addresses();
    request_record();
    request_written();
    request_parts();
    reply_records();
    reply_written();
    reply_parts();
    reply_clock();
    reply_net();
    reply_signs();
    reply_raw();
    reply_timing();
    reply_left_over();
    dynamic_record();
    dynamic_written();
    dynamic_parts();
}
