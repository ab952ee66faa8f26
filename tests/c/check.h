/* Checks that are counted. A check that fails prints a line with its file and line number, and the test goes on. */
#ifndef CHECK_H
#define CHECK_H

#include "rei2.h"

/* Where a check is, and what it is about. */
struct place {
    const char *file;
    int line;
    const char *text;
};
#define HERE(text) ((struct place){__FILE__, __LINE__, text})

/* A fact holds. */
#define CHECK(fact) check((fact) ? 1 : 0, HERE(#fact))

/* Two runs of bytes are the same. */
#define SAME(got, wanted, size) check_same(got, wanted, size, HERE(#got))

/* An answer has this refusal and this offset, and no spoiled byte, as with every refusal but FIELD. The refusal is
   noted for was_said. */
#define SAYS(answer, refusal, offset) check_said(SAID(answer), (struct said){refusal, offset, 0}, HERE(#answer))

/* An answer has the refusal FIELD with this offset and this spoiled byte. */
#define SAYS_FIELD(answer, offset, spoiled) check_said(SAID(answer), WRONG_FIELD(offset, spoiled), HERE(#answer))
#define WRONG_FIELD(offset, spoiled) ((struct said){REI2_FIELD, offset, spoiled})

/* Refusal, offset and spoiled byte of an answer. An offset that the answer does not have is 0. */
struct said {
    uint32_t refusal;
    uint32_t offset;
    uint32_t spoiled;
};
#define SAID(answer)                         \
    _Generic((answer),                       \
        struct said: said,                   \
        rei2_desk_answer: said_by_desk,      \
        rei2_captured_answer: said_captured, \
        rei2_request_answer: said_request,   \
        rei2_reply_answer: said_reply,       \
        rei2_dynamic_answer: said_dynamic,   \
        rei2_written_answer: said_written,   \
        rei2_listed_answer: said_listed,     \
        rei2_looked_answer: said_looked,     \
        rei2_running_answer: said_running)(answer)

struct said said(struct said s);
struct said said_by_desk(rei2_desk_answer a);
struct said said_captured(rei2_captured_answer a);
struct said said_request(rei2_request_answer a);
struct said said_reply(rei2_reply_answer a);
struct said said_dynamic(rei2_dynamic_answer a);
struct said said_written(rei2_written_answer a);
struct said said_listed(rei2_listed_answer a);
struct said said_looked(rei2_looked_answer a);
struct said said_running(rei2_running_answer a);

void check(int good, struct place place);
void check_same(const void *got, const void *wanted, size_t size, struct place place);
void check_said(struct said got, struct said wanted, struct place place);

/* Sets what is being tried, for the lines of checks in a loop; null for nothing. */
void trying(const char *what);

/* Has a call answered with this refusal? */
int was_said(uint32_t refusal);

/* Prints the counts. Returns the exit status: 0 if checks ran and none failed, and otherwise 1. */
int verdict(void);

#endif
