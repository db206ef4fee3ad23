/* Loaded before the C library, it makes one call of a program fail: see tools/fail_each.
 *
 * FAIL_KIND   alloc (malloc, realloc), read (read, recv, recvfrom), write (write, send, sendto) or poll
 * FAIL_AT     which call of that kind, from 1 on; with 0 none fails
 * FAIL_HOW    fail: no memory, EIO or ECONNRESET; one: a byte alone is moved; again: EINTR
 * FAIL_COUNT  a file that gets the number of calls of that kind when the program ends */
#define _GNU_SOURCE
#include <dlfcn.h>
#include <errno.h>
#include <fcntl.h>
#include <poll.h>
#include <stdatomic.h>
#include <stdio.h>
#include <stdlib.h>
#include <string.h>
#include <sys/socket.h>
#include <sys/syscall.h>
#include <unistd.h>

extern void *__libc_malloc(size_t);
extern void *__libc_realloc(void *, size_t);
static const char *kind = "", *how = "fail";
static long at;
static atomic_long calls;

__attribute__((constructor)) static void begin(void) {
    if (getenv("FAIL_KIND")) kind = getenv("FAIL_KIND");
    if (getenv("FAIL_HOW")) how = getenv("FAIL_HOW");
    if (getenv("FAIL_AT")) at = atol(getenv("FAIL_AT"));
}

__attribute__((destructor)) static void end(void) {
    char text[32];
    int file = getenv("FAIL_COUNT") ? open(getenv("FAIL_COUNT"), O_WRONLY | O_CREAT | O_TRUNC, 0600) : -1;
    if (file >= 0) {
        int length = snprintf(text, sizeof text, "%ld\n", atomic_load(&calls));
        syscall(SYS_write, file, text, length);
        close(file);
    }
}

static int is_next(const char *of) { return *kind && !strcmp(kind, of) && atomic_fetch_add(&calls, 1) + 1 == at; }

void *malloc(size_t size) { return is_next("alloc") ? (errno = ENOMEM, NULL) : __libc_malloc(size); }
void *realloc(void *old, size_t size) { return is_next("alloc") ? (errno = ENOMEM, NULL) : __libc_realloc(old, size); }

/* How many bytes the call may move; -1 where it has failed. A datagram is moved whole. */
static ssize_t moved(const char *of, size_t size, int fault, int whole) {
    if (!is_next(of)) return (ssize_t)size;
    if (!strcmp(how, "one")) return whole ? (ssize_t)size : size > 0;
    errno = strcmp(how, "again") ? fault : EINTR;
    return -1;
}

#define REAL(name) ((__typeof__(&name))dlsym(RTLD_NEXT, #name))
#define MOVES(of, fault, whole, name, parameters, ...) \
    ssize_t name parameters { ssize_t most = moved(of, size, fault, whole); return most < 0 ? -1 : REAL(name)(__VA_ARGS__); }
MOVES("read", EIO, 0, read, (int fd, void *to, size_t size), fd, to, most)
MOVES("read", ECONNRESET, 0, recv, (int fd, void *to, size_t size, int flags), fd, to, most, flags)
MOVES("read", ECONNRESET, 1, recvfrom, (int fd, void *to, size_t size, int flags, struct sockaddr *peer, socklen_t *length), fd, to, most, flags, peer, length)
MOVES("write", EIO, 0, write, (int fd, const void *from, size_t size), fd, from, most)
ssize_t __write(int fd, const void *from, size_t size) { return write(fd, from, size); }
MOVES("write", ECONNRESET, 0, send, (int fd, const void *from, size_t size, int flags), fd, from, most, flags)
MOVES("write", ECONNRESET, 1, sendto, (int fd, const void *from, size_t size, int flags, const struct sockaddr *peer, socklen_t length), fd, from, most, flags, peer, length)
int poll(struct pollfd *sockets, nfds_t count, int wait) { return moved("poll", 2, ENOMEM, 1) < 0 ? -1 : REAL(poll)(sockets, count, wait); }
