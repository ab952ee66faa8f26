/* What the example needs of fcntl.h. */
#ifndef STD_FCNTL_H
#define STD_FCNTL_H
#define O_RDONLY 0
#define O_NOCTTY 0400
int open(const char *path, int flags, ...);
#endif
