/* What the C test and the example need of unistd.h. */
#ifndef STD_UNISTD_H
#define STD_UNISTD_H
#include <stddef.h>
typedef long ssize_t;
ssize_t read(int file, void *to, size_t size);
ssize_t write(int file, const void *from, size_t size);
#endif
