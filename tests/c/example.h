/* The example of a capture and its list. tests/c/run compares both with samples/example.capture and
   crates/rei2list/stdout. */
#ifndef EXAMPLE_H
#define EXAMPLE_H

#include "rei2.h"

enum { EXAMPLE_CAPTURE = 252, EXAMPLE_LIST = 247 };

extern const uint8_t example_capture[EXAMPLE_CAPTURE + 1];
extern const uint8_t example_list[EXAMPLE_LIST + 1];

#endif
