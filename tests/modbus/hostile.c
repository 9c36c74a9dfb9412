/* The system's calls as they may also answer: interrupted, not ready, or with a part of what was asked for. The linker puts them
 * before the system's own (--wrap), so that the server meets each of these answers many times, in an order that is fixed. */
#define _POSIX_C_SOURCE 200809L

#include <errno.h>
#include <poll.h>
#include <stdint.h>
#include <sys/socket.h>

int __real_poll(struct pollfd *watched, nfds_t count, int timeout);
int __real_accept(int listening, struct sockaddr *address, socklen_t *length);
ssize_t __real_recv(int connection, void *bytes, size_t length, int flags);
ssize_t __real_send(int connection, const void *bytes, size_t length, int flags);

int __wrap_poll(struct pollfd *watched, nfds_t count, int timeout);
int __wrap_accept(int listening, struct sockaddr *address, socklen_t *length);
ssize_t __wrap_recv(int connection, void *bytes, size_t length, int flags);
ssize_t __wrap_send(int connection, const void *bytes, size_t length, int flags);

/* A number below a limit; the high bits of a linear congruential generator. */
static uint32_t chance(uint32_t limit)
{
    static uint64_t state = 1;
    state = state * UINT64_C(6364136223846793005) + UINT64_C(1442695040888963407);
    return (uint32_t)(state >> 33) % limit;
}

static int fails(void)
{
    static const int errors[] = {EINTR, EAGAIN, 0, 0, 0, 0};
    errno = errors[chance(sizeof errors / sizeof errors[0])];
    return errno != 0;
}

static size_t part(size_t length) { return length > 1 && chance(2) == 0 ? 1 + chance((uint32_t)length - 1) : length; }

int __wrap_poll(struct pollfd *watched, nfds_t count, int timeout)
{
    if (chance(4) > 0)
        return __real_poll(watched, count, timeout);
    errno = EINTR;
    return -1;
}

int __wrap_accept(int listening, struct sockaddr *address, socklen_t *length)
{
    return fails() ? -1 : __real_accept(listening, address, length);
}

ssize_t __wrap_recv(int connection, void *bytes, size_t length, int flags)
{
    return fails() ? -1 : __real_recv(connection, bytes, part(length), flags);
}

ssize_t __wrap_send(int connection, const void *bytes, size_t length, int flags)
{
    return fails() ? -1 : __real_send(connection, bytes, part(length), flags);
}
