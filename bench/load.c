// A cheap HTTP client and, to say what it can do at most, a server that answers each request with one fixed reply.
//
//   load run PORT SECONDS CONNECTIONS LIMIT FILE   sends the requests of FILE, one at a time on each connection
//   load answer PORT BYTES                         answers each request of PORT with a body of so many bytes, until it is killed
//
// FILE holds one request. Its first run of '#' is filled with a number that rises with each request (as many digits as
// there are '#'), and its first run of '@' with the connection's number, so that its length stays. A connection that has
// had LIMIT replies is closed and opened anew. Printed: replies, those of 200, seconds, connections that were opened, and
// the median, 99th percentile and longest time of a reply in microseconds, and the microseconds of all gaps of more than 10 ms
// in which no reply came on any connection.
#define _GNU_SOURCE
#include <arpa/inet.h>
#include <errno.h>
#include <fcntl.h>
#include <netinet/tcp.h>
#include <stdint.h>
#include <stdio.h>
#include <stdlib.h>
#include <string.h>
#include <sys/epoll.h>
#include <sys/socket.h>
#include <time.h>
#include <unistd.h>

enum { ROOM = 1 << 20, SLOTS = 1 << 20 };

struct link {
    int socket, number;
    long replies;
    size_t held, sent, size;
    uint64_t began;
    char *in, *out;
};

static char request[ROOM];
static size_t request_size;
static long counter, opened, total, good, limit;
static uint32_t times[SLOTS];
static uint64_t last, silent;
static int port, events;

static void fail(const char *what) {
    perror(what);
    exit(1);
}

static uint64_t now(void) {
    struct timespec time;
    clock_gettime(CLOCK_MONOTONIC, &time);
    return (uint64_t)time.tv_sec * 1000000 + time.tv_nsec / 1000;
}

static struct sockaddr_in address(void) {
    struct sockaddr_in at = {.sin_family = AF_INET, .sin_port = htons(port), .sin_addr.s_addr = htonl(INADDR_LOOPBACK)};
    return at;
}

// Fills a run of a mark with the last digits of a number.
static void fill(char *text, size_t size, char mark, long number) {
    char *from = memchr(text, mark, size);
    if (!from) return;
    char *end = from;
    while (end < text + size && *end == mark) end++;
    while (end > from) {
        *--end = '0' + number % 10;
        number /= 10;
    }
}

static void watch(struct link *one, int change, uint32_t what) {
    struct epoll_event event = {.events = what, .data.ptr = one};
    if (epoll_ctl(events, change, one->socket, &event)) fail("epoll_ctl");
}

static void send_rest(struct link *one) {
    while (one->sent < one->size) {
        ssize_t sent = send(one->socket, one->out + one->sent, one->size - one->sent, MSG_NOSIGNAL);
        if (sent < 0 && errno == EAGAIN) {
            watch(one, EPOLL_CTL_MOD, EPOLLIN | EPOLLOUT);
            return;
        }
        if (sent < 0) fail("send");
        one->sent += sent;
    }
}

static void ask(struct link *one) {
    memcpy(one->out, request, request_size);
    fill(one->out, request_size, '#', ++counter);
    fill(one->out, request_size, '@', one->number);
    one->held = one->sent = 0;
    one->size = request_size;
    one->began = now();
    send_rest(one);
}

static void open_link(struct link *one) {
    struct sockaddr_in at = address();
    int on = 1;
    one->socket = socket(AF_INET, SOCK_STREAM, 0);
    if (connect(one->socket, (struct sockaddr *)&at, sizeof at)) fail("connect");
    setsockopt(one->socket, IPPROTO_TCP, TCP_NODELAY, &on, sizeof on);
    fcntl(one->socket, F_SETFL, O_NONBLOCK);
    one->replies = 0;
    opened++;
    watch(one, EPOLL_CTL_ADD, EPOLLIN);
    ask(one);
}

// The size of the first message that is held, its body included; 0 where it isn't whole.
static size_t message_size(const char *held, size_t size) {
    const char *end = memmem(held, size, "\r\n\r\n", 4);
    if (!end) return 0;
    size_t head = end + 4 - held, body = 0;
    for (const char *line = held; line < end; line = (const char *)memchr(line, '\n', end + 2 - line) + 1)
        if (!strncasecmp(line, "content-length:", 15)) body = strtoul(line + 15, NULL, 10);
    return size >= head + body ? head + body : 0;
}

static void take_reply(struct link *one, uint64_t end) {
    uint64_t came = now(), took = came - one->began;
    if (last && came - last > 10000) silent += came - last;
    last = came;
    total++;
    good += !strncmp(one->in + 9, "200", 3);
    times[took < SLOTS ? took : SLOTS - 1]++;
    if (++one->replies == limit) {
        close(one->socket);
        if (now() < end) open_link(one);
    } else if (now() < end) {
        ask(one);
    }
}

static void read_more(struct link *one, uint64_t end) {
    ssize_t got = recv(one->socket, one->in + one->held, ROOM - one->held, 0);
    if (got < 0 && errno == EAGAIN) return;
    if (got <= 0) fail("a connection ended within a reply");
    one->held += got;
    if (message_size(one->in, one->held)) take_reply(one, end);
}

static long percentile(double part) {
    long left = total * part;
    for (long slot = 0; slot < SLOTS; slot++)
        if ((left -= times[slot]) < 0) return slot;
    return SLOTS - 1;
}

static int run(double seconds, int connections) {
    struct link *links = calloc(connections, sizeof *links);
    struct epoll_event found[64];
    uint64_t began = now(), end = began + seconds * 1000000;
    for (int number = 0; number < connections; number++) {
        links[number] = (struct link){.number = number, .in = malloc(ROOM), .out = malloc(ROOM)};
        open_link(&links[number]);
    }
    while (now() < end) {
        int count = epoll_wait(events, found, 64, 100);
        for (int at = 0; at < count; at++) {
            struct link *one = found[at].data.ptr;
            if (found[at].events & EPOLLOUT) {
                watch(one, EPOLL_CTL_MOD, EPOLLIN);
                send_rest(one);
            }
            if (found[at].events & (EPOLLIN | EPOLLHUP)) read_more(one, end);
        }
    }
    long slowest = SLOTS - 1;
    while (slowest > 0 && !times[slowest]) slowest--;
    printf("%ld %ld %.3f %ld %ld %ld %ld %lu\n", total, good, (now() - began) / 1e6, opened, percentile(0.5), percentile(0.99), slowest, silent);
    return 0;
}

static void accept_link(int listener) {
    struct link *one = calloc(1, sizeof *one);
    int on = 1;
    one->socket = accept(listener, NULL, NULL);
    one->in = malloc(ROOM);
    setsockopt(one->socket, IPPROTO_TCP, TCP_NODELAY, &on, sizeof on);
    watch(one, EPOLL_CTL_ADD, EPOLLIN);
}

static void answer_more(struct link *one, const char *reply, size_t size) {
    ssize_t got = recv(one->socket, one->in + one->held, ROOM - one->held, 0);
    if (got <= 0) {
        close(one->socket);
        free(one->in);
        free(one);
        return;
    }
    one->held += got;
    for (size_t whole; (whole = message_size(one->in, one->held));) {
        memmove(one->in, one->in + whole, one->held -= whole);
        if (send(one->socket, reply, size, MSG_NOSIGNAL) < 0) return;
    }
}

static int answer(size_t body) {
    struct sockaddr_in at = address();
    struct epoll_event found[64];
    int listener = socket(AF_INET, SOCK_STREAM, 0), on = 1;
    setsockopt(listener, SOL_SOCKET, SO_REUSEADDR, &on, sizeof on);
    if (bind(listener, (struct sockaddr *)&at, sizeof at) || listen(listener, 128)) fail("bind");
    struct link own = {.socket = listener};
    watch(&own, EPOLL_CTL_ADD, EPOLLIN);
    char *reply = malloc(body + 200);
    size_t size = sprintf(reply, "HTTP/1.1 200 OK\r\nContent-Type: application/json\r\nCatalogue-Place: 1\r\nContent-Length: %zu\r\n\r\n", body);
    memset(reply + size, 'x', body);
    for (;;) {
        int count = epoll_wait(events, found, 64, -1);
        for (int at_event = 0; at_event < count; at_event++) {
            if (found[at_event].data.ptr == &own) accept_link(listener);
            else answer_more(found[at_event].data.ptr, reply, size + body);
        }
    }
}

int main(int count, char **words) {
    if (count < 4) return 2;
    events = epoll_create1(0);
    port = atoi(words[2]);
    if (!strcmp(words[1], "answer")) return answer(strtoul(words[3], NULL, 10));
    if (count < 7) return 2;
    limit = atol(words[5]);
    FILE *file = fopen(words[6], "rb");
    if (!file) fail(words[6]);
    request_size = fread(request, 1, ROOM, file);
    return run(atof(words[3]), atoi(words[4]));
}
