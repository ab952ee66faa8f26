/* The parts of the test, a file each. */
#ifndef TESTS_H
#define TESTS_H

void test_frames(void);
void test_fields(void);
void test_times(void);
void test_desk(void);
void test_spoiled(void);
void test_tally(void);
void test_capture(void);
void test_names(void);
void test_limits(void);

#endif
