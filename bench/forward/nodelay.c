/* A library to be loaded before a server (LD_PRELOAD): connections that it accepts send at once, as TCP_NODELAY has it. unbound doesn't set that. So where a client has several queries open on
   one connection, each second response waits until the client's system acknowledges the first, which takes 40 ms. */
#define _GNU_SOURCE
#include <dlfcn.h>
#include <netinet/in.h>
#include <netinet/tcp.h>
#include <sys/socket.h>

static int prompt(int connection) {
    int one = 1;
    if (connection >= 0) setsockopt(connection, IPPROTO_TCP, TCP_NODELAY, &one, sizeof one);
    return connection;
}

int accept(int listener, struct sockaddr *peer, socklen_t *bytes) {
    int (*real)(int, struct sockaddr *, socklen_t *) = dlsym(RTLD_NEXT, "accept");
    return prompt(real(listener, peer, bytes));
}

int accept4(int listener, struct sockaddr *peer, socklen_t *bytes, int flags) {
    int (*real)(int, struct sockaddr *, socklen_t *, int) = dlsym(RTLD_NEXT, "accept4");
    return prompt(real(listener, peer, bytes, flags));
}
