/* What the example needs of poll.h. */
#ifndef STD_POLL_H
#define STD_POLL_H
#define POLLIN 1
#define POLLOUT 4
struct pollfd {
    int fd;
    short events;
    short revents;
};
int poll(struct pollfd *files, unsigned long count, int milliseconds);
#endif
