/* Clients of a DNS server on this machine, each with one request open: how long their requests take.

   usage: clients udp|tcp PORT CLIENTS REQUESTS WARM QUERY

   Each of the clients has a socket of its own and sends the query, a message in hexadecimal digits, REQUESTS times under ids of its own, each time
   after the reply before. The first WARM of each aren't timed; the clock starts once all clients have their replies to these. It writes
   `replies N authentic N truncated N failed N nanoseconds N` of those that are timed: how many came, how many of them have AD, TC and a code other
   than 0, and the time. The status is 1 where a reply isn't one to the request, or none comes for five seconds. */
#include <arpa/inet.h>
#include <errno.h>
#include <netinet/tcp.h>
#include <stdio.h>
#include <stdlib.h>
#include <string.h>
#include <sys/epoll.h>
#include <sys/socket.h>
#include <time.h>
#include <unistd.h>

#define MOST_CLIENTS 256
#define MOST_BYTES 65537
#define WAIT_MS 5000

struct client {
    int socket;
    unsigned sent, answered;
    unsigned short id;
    size_t held;              /* bytes of a frame so far */
    unsigned char *frame;
};

static struct client clients[MOST_CLIENTS];
static unsigned char query[2 + 512];
static size_t query_bytes;
static int is_tcp;
static unsigned long authentic, truncated, failed;

static void stop(const char *why) {
    fprintf(stderr, "clients: %s\n", why);
    exit(1);
}

static unsigned number(const char *word, unsigned most) {
    char *end;
    unsigned long value = strtoul(word, &end, 10);
    if (*end || !*word || value > most) stop("a number isn't one");
    return value;
}

static void read_query(const char *digits) {
    size_t length = strlen(digits);
    if (length % 2 || length < 24 || length / 2 > sizeof query - 2) stop("the query isn't one");
    for (query_bytes = 0; query_bytes < length / 2; query_bytes++) {
        unsigned value;
        if (sscanf(digits + 2 * query_bytes, "%2x", &value) != 1) stop("the query isn't one");
        query[2 + query_bytes] = value;
    }
    query[0] = query_bytes >> 8;
    query[1] = query_bytes & 255;
}

static void open_client(struct client *client, unsigned port) {
    struct sockaddr_in to = {.sin_family = AF_INET, .sin_port = htons(port), .sin_addr = {htonl(INADDR_LOOPBACK)}};
    int one = 1;
    client->socket = socket(AF_INET, is_tcp ? SOCK_STREAM : SOCK_DGRAM, 0);
    if (client->socket < 0 || connect(client->socket, (struct sockaddr *)&to, sizeof to)) stop("can't connect");
    if (is_tcp) setsockopt(client->socket, IPPROTO_TCP, TCP_NODELAY, &one, sizeof one);
    client->frame = malloc(MOST_BYTES);
    if (!client->frame) stop("out of memory");
}

static void send_next(struct client *client) {
    unsigned char *from = is_tcp ? query : query + 2;
    size_t bytes = query_bytes + (is_tcp ? 2 : 0);
    client->id = client->sent++ * 31 + client->socket;
    query[2] = client->id >> 8;
    query[3] = client->id & 255;
    if (send(client->socket, from, bytes, MSG_NOSIGNAL) != (ssize_t)bytes) stop("can't send");
}

/* Whether a whole reply has come; it is looked at. */
static int take_reply(struct client *client, int is_timed) {
    unsigned char *message = client->frame + (is_tcp ? 2 : 0);
    ssize_t got = recv(client->socket, client->frame + client->held, MOST_BYTES - client->held, 0);
    if (got <= 0) stop(got ? strerror(errno) : "the server has closed");
    client->held += got;
    if (is_tcp && (client->held < 2 || client->held < 2u + (client->frame[0] << 8 | client->frame[1]))) return 0;
    if (client->held < (is_tcp ? 14 : 12)) stop("a reply is shorter than a header");
    if ((message[0] << 8 | message[1]) != client->id || !(message[2] & 0x80)) stop("a reply is to another request");
    if (is_timed) {
        authentic += (message[3] & 0x20) != 0;
        truncated += (message[2] & 0x02) != 0;
        failed += (message[3] & 0x0f) != 0;
    }
    client->held = 0;
    client->answered++;
    return 1;
}

/* Each client sends until it has so many replies in all. */
static void run_until(int poll, unsigned count, unsigned wanted, int is_timed) {
    struct epoll_event events[MOST_CLIENTS];
    unsigned open = 0;
    for (unsigned i = 0; i < count; i++)
        if (clients[i].answered < wanted) {
            send_next(&clients[i]);
            open++;
        }
    while (open) {
        int ready = epoll_wait(poll, events, MOST_CLIENTS, WAIT_MS);
        if (ready <= 0) stop("no reply came in time");
        for (int i = 0; i < ready; i++) {
            struct client *client = events[i].data.ptr;
            if (!take_reply(client, is_timed)) continue;
            if (client->answered < wanted) send_next(client);
            else open--;
        }
    }
}

int main(int words, char **word) {
    struct timespec from, to;
    if (words != 7 || (strcmp(word[1], "udp") && strcmp(word[1], "tcp"))) stop("usage: clients udp|tcp PORT CLIENTS REQUESTS WARM QUERY");
    is_tcp = !strcmp(word[1], "tcp");
    unsigned port = number(word[2], 65535), count = number(word[3], MOST_CLIENTS);
    unsigned requests = number(word[4], 1u << 30), warm = number(word[5], requests);
    read_query(word[6]);
    int poll = epoll_create1(0);
    for (unsigned i = 0; i < count; i++) {
        struct epoll_event event = {.events = EPOLLIN, .data = {.ptr = &clients[i]}};
        open_client(&clients[i], port);
        if (epoll_ctl(poll, EPOLL_CTL_ADD, clients[i].socket, &event)) stop("can't wait");
    }
    run_until(poll, count, warm, 0);
    clock_gettime(CLOCK_MONOTONIC, &from);
    run_until(poll, count, requests, 1);
    clock_gettime(CLOCK_MONOTONIC, &to);
    printf("replies %lu authentic %lu truncated %lu failed %lu nanoseconds %lld\n", (unsigned long)count * (requests - warm), authentic, truncated,
           failed, (to.tv_sec - from.tv_sec) * 1000000000LL + to.tv_nsec - from.tv_nsec);
    return 0;
}
