// poll answers for the files 0 to 2, which never keep anyone waiting. Where none of them is asked for there is nothing to wait for but a
// time: the answer is 0 then, and where it would wait for ever the run ends with the reason.
#ifndef PREDATOR_POLL_H
#define PREDATOR_POLL_H

#ifdef __cplusplus
extern "C" {
#endif

#define POLLIN 1
#define POLLPRI 2
#define POLLOUT 4
#define POLLERR 8
#define POLLHUP 16
#define POLLNVAL 32
#define POLLRDNORM 64
#define POLLRDBAND 128
#define POLLWRNORM 256
#define POLLWRBAND 512

typedef unsigned long nfds_t;

struct pollfd {
    int fd;
    short events, revents;
};

int poll(struct pollfd *files, nfds_t count, int time);

#ifdef __cplusplus
}
#endif

#endif
