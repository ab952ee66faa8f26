/* What the C test needs of stdio.h. */
#ifndef STD_STDIO_H
#define STD_STDIO_H
int printf(const char *form, ...);
#endif
