// The files 0 to 2, and that there are no others.
#include <errno.h>
#include <fcntl.h>
#include <poll.h>
#include <stdarg.h>
#include <string.h>
#include <sys/ioctl.h>
#include <sys/stat.h>
#include <unistd.h>
#include "../predator.h"

static int refused(int error)
{
    errno = error;
    return -1;
}

static int is_open(int file)
{
    return file >= 0 && file <= 2;
}

// There is nothing to read.
ssize_t read(int file, void *bytes, size_t count)
{
    (void)bytes, (void)count;
    return file == 0 ? 0 : refused(EBADF);
}

int close(int file)
{
    return is_open(file) ? 0 : refused(EBADF);
}

off_t lseek(int file, off_t offset, int whence)
{
    (void)offset, (void)whence;
    return refused(is_open(file) ? ESPIPE : EBADF);
}

int isatty(int file)
{
    refused(is_open(file) ? ENOTTY : EBADF);
    return 0;
}

int fsync(int file)
{
    return close(file);
}

int fdatasync(int file)
{
    return close(file);
}

int fstat(int file, struct stat *status)
{
    if (!is_open(file))
        return refused(EBADF);
    memset(status, 0, sizeof *status);
    status->st_mode = S_IFCHR | (file == 0 ? S_IRUSR : S_IWUSR);
    status->st_nlink = 1;
    return 0;
}

int fcntl(int file, int command, ...)
{
    if (!is_open(file))
        return refused(EBADF);
    if (command == F_GETFL)
        return file == 0 ? O_RDONLY : O_WRONLY;
    return command == F_GETFD || command == F_SETFD || command == F_SETFL ? 0 : refused(EINVAL);
}

int ioctl(int file, unsigned long request, ...)
{
    (void)request;
    return refused(is_open(file) ? ENOTTY : EBADF);
}

// A file that is there is ready for what it can do at all.
int poll(struct pollfd *files, nfds_t count, int time)
{
    int ready = 0;
    for (nfds_t i = 0; i < count; i++) {
        struct pollfd *it = &files[i];
        short can = it->fd == 0 ? POLLIN | POLLRDNORM : POLLOUT | POLLWRNORM;
        it->revents = it->fd < 0 ? 0 : is_open(it->fd) ? it->events & can : POLLNVAL;
        ready += it->revents != 0;
    }
    if (ready == 0 && time > 0)
        usleep((useconds_t)time * 1000);
    if (ready == 0 && time < 0) {
        static const char text[] = "poll: no file becomes ready: wait for another thread, or for a time\n";
        predator_write(2, text, sizeof text - 1);
        predator_exit_group(134);
    }
    return ready;
}
