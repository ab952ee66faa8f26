/* What the C test and the example need of string.h. */
#ifndef STD_STRING_H
#define STD_STRING_H
#include <stddef.h>
int memcmp(const void *a, const void *b, size_t size);
void *memcpy(void *to, const void *from, size_t size);
void *memmove(void *to, const void *from, size_t size);
void *memset(void *at, int byte, size_t size);
int strcmp(const char *a, const char *b);
char *strerror(int number);
size_t strlen(const char *text);
#endif
