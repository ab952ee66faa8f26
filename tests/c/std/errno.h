/* What the example needs of errno.h. */
#ifndef STD_ERRNO_H
#define STD_ERRNO_H
#define EINTR 4
#define EAGAIN 11
int *__errno_location(void);
#define errno (*__errno_location())
#endif
