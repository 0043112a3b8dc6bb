/* Loaded into a program before its own libraries, this has every third read, write, wait and accept fail as if a signal had interrupted it. The first one
   makes the file that INTERRUPTED names. */
#define _GNU_SOURCE
#include <errno.h>
#include <fcntl.h>
#include <poll.h>
#include <stdlib.h>
#include <sys/epoll.h>
#include <sys/socket.h>
#include <sys/syscall.h>
#include <sys/uio.h>
#include <unistd.h>

/* Returns whether this call is to fail, and makes the mark the first time. */
static int fails(void)
{
    static unsigned calls;
    unsigned number = __atomic_add_fetch(&calls, 1, __ATOMIC_RELAXED);
    if (number % 3 != 0)
        return 0;
    if (number == 3) {
        const char *mark = getenv("INTERRUPTED");
        int file = mark ? open(mark, O_CREAT | O_WRONLY, 0600) : -1;
        if (file >= 0)
            close(file);
    }
    errno = EINTR;
    return 1;
}

ssize_t read(int file, void *bytes, size_t room)
{
    return fails() ? -1 : syscall(SYS_read, file, bytes, room);
}

ssize_t write(int file, const void *bytes, size_t count)
{
    return fails() ? -1 : syscall(SYS_write, file, bytes, count);
}

ssize_t writev(int file, const struct iovec *texts, int count)
{
    return fails() ? -1 : syscall(SYS_writev, file, texts, count);
}

ssize_t recv(int file, void *bytes, size_t room, int flags)
{
    return fails() ? -1 : syscall(SYS_recvfrom, file, bytes, room, flags, NULL, NULL);
}

ssize_t send(int file, const void *bytes, size_t count, int flags)
{
    return fails() ? -1 : syscall(SYS_sendto, file, bytes, count, flags, NULL, 0);
}

ssize_t sendmsg(int file, const struct msghdr *message, int flags)
{
    return fails() ? -1 : syscall(SYS_sendmsg, file, message, flags);
}

int poll(struct pollfd *asked, nfds_t count, int limit)
{
    return fails() ? -1 : syscall(SYS_poll, asked, count, limit);
}

int epoll_wait(int file, struct epoll_event *events, int room, int limit)
{
    return fails() ? -1 : syscall(SYS_epoll_wait, file, events, room, limit);
}

int accept4(int file, struct sockaddr *address, socklen_t *length, int flags)
{
    return fails() ? -1 : syscall(SYS_accept4, file, address, length, flags);
}
