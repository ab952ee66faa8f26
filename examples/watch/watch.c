/* watch [FILE]: reads the bytes of the serial line as they come, from a file, a device or standard input. It prints for
   each frame what became of it, after each reply that was taken how many have not started, and at the end the records
   that each request got. All memory is static; nothing is allocated. */
#include <errno.h>
#include <fcntl.h>
#include <poll.h>
#include <string.h>
#include <unistd.h>

#include "rei2.h"

/* The most bytes read at a time, and the most that are kept while a frame is not whole. Every good frame fits. */
enum { PIECE = 64, BUFFER = 128 };

/* The exit status. FAILED: the input cannot be read, the output cannot be written, or the library does not fit. */
enum { DONE = 0, FAILED = 1, MISUSED = 2 };

static const char usage[] = "usage: watch [FILE]: prints what becomes of each frame of FILE or of standard input\n";

/* What the desk knows: its state, and the memory that it is lent for each call. */
static rei2_desk desk;
static rei2_seat seats[REI2_SEATS];
static uint8_t cells[REI2_CELLS * REI2_CELL_SIZE];
static uint32_t marks[REI2_CELLS];
static uint32_t tally[REI2_LETTERS][REI2_STATUSES];

static rei2_counts counts;

/* Bytes that were read and are not done with, and how many bytes of the stream came before them. The desk is lent a
   frame where it lies in this buffer, which does not overlap the cells. */
static uint8_t buffer[BUFFER];
static size_t have, passed;

/* ---- input and output */

/* May a reading or a writing that failed be tried again? Yes if a signal interrupted it. Yes also if the file was
   opened with O_NONBLOCK and is not ready; then this waits until it is. In neither case is a live line at its end. */
static int may_try_again(int file, short event) {
    struct pollfd awaited = {file, event, 0};
    if (errno == EINTR) {
        return 1;
    }
    return errno == EAGAIN && (poll(&awaited, 1, -1) >= 0 || errno == EINTR);
}

/* As read(2): how many bytes were read, 0 at the end of the input, less on an error. */
static ssize_t read_some(int file, uint8_t *to, size_t size) {
    ssize_t got;
    do {
        got = read(file, to, size);
    } while (got < 0 && may_try_again(file, POLLIN));
    return got;
}

/* Was all of it written? */
static int write_all(int file, const char *text, size_t size) {
    while (size > 0) {
        ssize_t wrote = write(file, text, size);
        if (wrote > 0) {
            text += wrote;
            size -= (size_t)wrote;
        } else if (wrote == 0 || !may_try_again(file, POLLOUT)) {
            return 0;
        }
    }
    return 1;
}

/* Prints a line to standard error: the name of a file, what is wrong with it, and the system's reason. */
static int failed(const char *name, const char *what) {
    const char *const parts[] = {"watch: ", name, what, strerror(errno), "\n"};
    for (size_t i = 0; i < sizeof parts / sizeof parts[0]; i++) {
        write_all(2, parts[i], strlen(parts[i]));
    }
    return FAILED;
}

/* A line of output, made part by part. It is written when it ends, so that it appears at once. */
static char line[160];
static size_t used;

/* 1 once a line could not be written. */
static int unwritten;

static void put_byte(uint32_t byte) {
    if (used < sizeof line) {
        line[used++] = (char)byte;
    }
}

static void put(const char *text) {
    while (*text != 0) {
        put_byte((uint8_t)*text++);
    }
}

static void put_bytes(const uint8_t *bytes, size_t size) {
    for (size_t i = 0; i < size; i++) {
        put_byte(bytes[i]);
    }
}

/* In decimal, with leading zeros up to a width. */
static void put_number(size_t number, int width) {
    if (number >= 10 || width > 1) {
        put_number(number / 10, width - 1);
    }
    put_byte('0' + (uint32_t)(number % 10));
}

/* A byte as two hex digits and an h. */
static void put_hex(uint8_t byte) {
    static const char digits[] = "0123456789ABCDEF";
    put_byte((uint8_t)digits[byte >> 4]);
    put_byte((uint8_t)digits[byte & 15]);
    put("h");
}

/* The word at and an address, a space as a minus sign, as a list shows it. */
static void put_address(uint32_t address) {
    put(" at ");
    put_byte(address == ' ' ? '-' : address);
}

/* The key of a request or of a reply. */
static void put_key(uint32_t address, uint32_t requester, uint32_t number) {
    put_byte(requester);
    put(" ");
    put_number(number, 3);
    put_address(address);
}

static void end_line(void) {
    put_byte('\n');
    if (!unwritten && !write_all(1, line, used)) {
        unwritten = 1;
        failed("the output", " cannot be written: ");
    }
    used = 0;
}

/* ---- frames */

/* What a frame is, by its first byte. */
static const char *kind_of(const uint8_t *frame) {
    return frame[0] == REI2_REQUEST_LEAD ? "request" : frame[0] == REI2_REPLY_LEAD ? "reply" : "dynamic request";
}

/* Where a field is wrong: where it begins, its spoiled byte, and what is there. */
static void put_field(const uint8_t *frame, uint32_t offset, uint32_t spoiled) {
    put(" at ");
    put_number(offset, 1);
    put(", byte ");
    put_number(spoiled, 1);
    put(" is ");
    put_hex(frame[spoiled]);
}

/* Prints why a frame was refused: the refusal's number and name, and with FIELD where. */
static void refused(uint32_t refusal, const uint8_t *frame, uint32_t offset, uint32_t spoiled) {
    uint8_t name[REI2_NAME_SIZE];
    rei2_refusal_name(refusal, name, sizeof name);
    counts.refused++;
    put(" refused, ");
    put_number(refusal, 1);
    put(" ");
    put((const char *)name);
    if (refusal == REI2_FIELD) {
        put_field(frame, offset, spoiled);
    }
}

/* Goes on with the state that a call on a frame returned, and prints its answer. */
static void answered(rei2_desk_answer answer, const uint8_t *frame, const char *done, size_t *count) {
    desk = answer.desk;
    if (answer.refusal != REI2_DONE) {
        refused(answer.refusal, frame, answer.offset, answer.spoiled);
        return;
    }
    ++*count;
    put(done);
    put_number(answer.seat, 1);
}

static void dynamic(const uint8_t *frame, size_t size) {
    rei2_dynamic_answer answer = rei2_read_dynamic(frame, size);
    if (answer.refusal != REI2_DONE) {
        refused(answer.refusal, frame, answer.offset, answer.spoiled);
        return;
    }
    counts.dynamic++;
    put(" from ");
    put_byte(answer.request.requester);
    put_address(answer.request.address);
}

/* A reply goes to the desk. If it is a stray, its key says which request is missing. */
static void reply(const uint8_t *frame, size_t size) {
    rei2_desk_answer answer =
        rei2_reply(seats, REI2_SEATS, desk, cells, sizeof cells, marks, REI2_CELLS, tally, frame, size);
    answered(answer, frame, " taken by seat ", &counts.collected);
    if (answer.refusal == REI2_STRAY) {
        rei2_reply_head head = rei2_read_reply(frame, size).reply.head;
        put(": ");
        put_key(head.address, head.requester, head.number);
    }
}

/* A whole frame goes to the call for its first byte. */
static void whole(const uint8_t *frame, size_t size) {
    if (frame[0] == REI2_REQUEST_LEAD) {
        answered(rei2_open(seats, REI2_SEATS, desk, cells, sizeof cells, marks, REI2_CELLS, tally, frame, size), frame,
                 " opened at seat ", &counts.opened);
    } else if (frame[0] == REI2_REPLY_LEAD) {
        reply(frame, size);
    } else {
        dynamic(frame, size);
    }
}

static void cut(size_t size) {
    counts.refused++;
    put(" refused, cut after ");
    put_number(size, 1);
    put(" bytes");
}

/* Prints the figure that a speaker asks for, how many have not started: the records that are held with the letter P. A
   Z does not count, since it says that there is nothing to report. */
static void print_not_started(void) {
    put("  ");
    put_number(rei2_look(tally, 'P', 'R').held + rei2_look(tally, 'P', 'E').held, 1);
    put(" not started");
    end_line();
}

/* Prints the line of a frame in the buffer: its place in the stream, its kind, and what became of it. Only a reply that
   was taken adds to the count of the desk. */
static void take(rei2_frame_answer found) {
    const uint8_t *frame = buffer + found.start;
    size_t size = found.end - found.start;
    uint32_t count = desk.count;
    put_number(passed + found.start, 1);
    put(" ");
    put(kind_of(frame));
    if (found.kind == REI2_WHOLE) {
        whole(frame, size);
    } else {
        cut(size);
    }
    end_line();
    if (desk.count != count) {
        print_not_started();
    }
}

/* Forgets the first bytes of the buffer. */
static void drop(size_t count) {
    memmove(buffer, buffer + count, have - count);
    have -= count;
    passed += count;
}

/* Is a frame without its CR cut for good? It is if another frame begins after it, if the input is at its end, or if it
   fills the whole buffer. Otherwise the rest of it may still come. */
static int is_over(rei2_frame_answer found, int at_end) {
    return found.next < have || at_end || found.end - found.start == BUFFER;
}

/* Takes the frames in the buffer. A last one that is not over is kept. */
static void take_frames(int at_end) {
    rei2_frame_answer found = rei2_next_frame(buffer, have, 0);
    while (found.kind != REI2_NOTHING) {
        if (found.kind == REI2_CUT && !is_over(found, at_end)) {
            drop(found.start);
            return;
        }
        take(found);
        found = rei2_next_frame(buffer, have, found.next);
    }
    drop(have);
}

/* Reads to the end of the input, to an error, or until the output cannot be written. The buffer is never full before a
   reading, because take_frames drops what fills it. Returns 0 at the end of the input, and errno on an error. */
static int watch(int file) {
    ssize_t got;
    int error;
    do {
        size_t room = BUFFER - have;
        got = read_some(file, buffer + have, room < PIECE ? room : PIECE);
        error = got < 0 ? errno : 0;
        have += got > 0 ? (size_t)got : 0;
        take_frames(got <= 0);
    } while (got > 0 && !unwritten);
    return error;
}

/* ---- records */

/* Ticks as HH:MM:SS.dddd. A net time may have more than two digits of hours. */
static void put_time(uint64_t ticks) {
    put_number(ticks / 36000000, 2);
    put(":");
    put_number(ticks / 600000 % 60, 2);
    put(":");
    put_number(ticks / 10000 % 60, 2);
    put(".");
    put_number(ticks % 10000, 4);
}

/* The day of a clock timing, as YYYY-MM-DD. */
static void put_date(const rei2_timing_numbers *timing) {
    put_number(timing->year, 4);
    put("-");
    put_number(timing->month, 2);
    put("-");
    put_number(timing->day, 2);
}

/* The time of a reply, as the kind of its timing asks. A raw time is not interpreted: its bytes are printed. */
static void put_timing(const rei2_reply_record *reply) {
    const rei2_timing_numbers *timing = &reply->timing;
    if (timing->kind == REI2_CLOCK) {
        put_time(timing->ticks);
        put(" ");
        put_date(timing);
    } else if (timing->kind == REI2_NET) {
        put(timing->net < 0 ? "-" : "");
        put_time((uint64_t)(timing->net < 0 ? -timing->net : timing->net));
    } else {
        put_bytes(reply->raw_time, sizeof reply->raw_time);
    }
}

static void print_record(const rei2_reply_record *reply) {
    put("  bib ");
    put_number(reply->head.bib, 1);
    put(" ");
    put_byte(reply->head.information);
    put(" ");
    put_timing(reply);
    end_line();
}

/* The records of a seat, in the order in which they came. A held cell has a reply that the desk took, so reading it is
   never refused. */
static void print_records(uint32_t seat) {
    rei2_cell_answer held = rei2_next_held(desk, cells, sizeof cells, marks, REI2_CELLS, seat, 0);
    while (held.found) {
        rei2_reply_answer answer = rei2_read_reply(cells + held.cell * REI2_CELL_SIZE, REI2_CELL_SIZE);
        print_record(&answer.reply);
        held = rei2_next_held(desk, cells, sizeof cells, marks, REI2_CELLS, seat, held.cell + 1);
    }
}

/* ---- the end */

static void print_seat(uint32_t i) {
    put("seat ");
    put_number(i, 1);
    put(": ");
    put_key(seats[i].address, seats[i].requester, seats[i].number);
    put(" holds ");
    put_number(seats[i].held, 1);
    put(seats[i].ended ? ", ended" : ", not ended");
    end_line();
}

static void put_count(const char *before, size_t count, const char *after) {
    put(before);
    put_number(count, 1);
    put(after);
}

/* The seats in use with their records, and the counts. */
static void print_end(void) {
    for (uint32_t i = 0; i < REI2_SEATS; i++) {
        if (desk.bits >> i & 1) {
            print_seat(i);
            print_records(i);
        }
    }
    put_count("", counts.opened, " opened");
    put_count(", ", counts.collected, " collected");
    put_count(", ", counts.dynamic, " dynamic");
    put_count(", ", counts.refused, " refused");
    end_line();
}

/* The arrays are as long as the header says. The library says what it needs. */
static int library_fits(void) {
    rei2_limits_answer limits = rei2_limits();
    return limits.seats == REI2_SEATS && limits.cells == sizeof cells && limits.marks == REI2_CELLS &&
           limits.letters == REI2_LETTERS && limits.statuses == REI2_STATUSES;
}

/* Watches an open file. If nothing at all could be read, no counts are printed: they would look like those of an empty
   input. */
static int watch_file(int file, const char *name) {
    desk = rei2_reset(seats, REI2_SEATS, desk, tally).desk;
    int error = watch(file);
    if (error == 0 || passed > 0) {
        print_end();
    }
    if (error != 0) {
        errno = error;
        return failed(name, " cannot be read: ");
    }
    return unwritten ? FAILED : DONE;
}

int main(int words, char **word) {
    if (words > 2) {
        write_all(2, usage, sizeof usage - 1);
        return MISUSED;
    }
    if (words == 2 && strcmp(word[1], "--help") == 0) {
        return write_all(1, usage, sizeof usage - 1) ? DONE : FAILED;
    }
    if (!library_fits()) {
        static const char text[] = "watch: the library is not the one that its header was made for\n";
        write_all(2, text, sizeof text - 1);
        return FAILED;
    }
    if (words < 2) {
        return watch_file(0, "standard input");
    }
    int file = open(word[1], O_RDONLY | O_NOCTTY);
    return file < 0 ? failed(word[1], " cannot be opened: ") : watch_file(file, word[1]);
}
