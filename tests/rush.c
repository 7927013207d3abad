// Publishers and subscribers of a served cluster, as fast as one thread can have them (tests/burst compiles and runs it).
//
// rush PORT NODES PUBLISHERS FLIGHT SUBSCRIBERS SECONDS LIMIT
//
// Client K of either kind is at port PORT + K modulo NODES. Each publisher keeps FLIGHT acknowledged publications under way for SECONDS; each
// says its publisher's number and its own. Then all that is on its way may take LIMIT seconds. Prints a line: how many publications were sent
// and acknowledged in what time; and for each subscriber how many events it had, whether it was closed, and how many came out of order.
// Ends with status 2 if a client could not join.
#define _GNU_SOURCE
#include <arpa/inet.h>
#include <errno.h>
#include <fcntl.h>
#include <netinet/tcp.h>
#include <stdint.h>
#include <stdio.h>
#include <stdlib.h>
#include <string.h>
#include <sys/epoll.h>
#include <sys/socket.h>
#include <time.h>
#include <unistd.h>

enum { MOST = 256, IN = 1 << 18, OUT = 1 << 18 };

static const char GREETING[] = "\x7f\xf1\0";
static const char HELLO[] = "[1,\"realm1\",{\"roles\":{\"publisher\":{},\"subscriber\":{}}}]";
static const char SUBSCRIBE[] = "[32,1,{},\"test.rush\"]";
static const char PAD[] = "xxxxxxxxxxxxxxxxxxxxxxxxxxxxxxxx";

struct client {
    int stream, number, is_subscriber, is_closed;
    // What came of a frame that is not whole, and what is to be written.
    size_t came, due;
    char in[IN], out[OUT];
    // A publisher's publications; a subscriber's events, and the next one due of each publisher.
    uint64_t sent, done, events, wrong, next[MOST];
};

static struct client *clients[2 * MOST];

static double now(void) {
    struct timespec time;
    clock_gettime(CLOCK_MONOTONIC, &time);
    return time.tv_sec + time.tv_nsec / 1e9;
}

static void fail(const char *what) {
    fprintf(stderr, "rush: %s: %s\n", what, strerror(errno));
    exit(2);
}

static void put_frame(struct client *client, const char *text, size_t octets) {
    if (client->due + 4 + octets > OUT) fail("too much waits for a client's stream");
    char *to = client->out + client->due;
    to[0] = 0, to[1] = octets >> 16, to[2] = octets >> 8, to[3] = octets;
    memcpy(to + 4, text, octets);
    client->due += 4 + octets;
}

// Writes what is due, as far as the stream takes it.
static void flush(struct client *client) {
    if (client->due == 0 || client->is_closed) return;
    ssize_t count = write(client->stream, client->out, client->due);
    if (count < 0) {
        client->is_closed = errno != EAGAIN && errno != EINTR;
        return;
    }
    memmove(client->out, client->out + count, client->due - count);
    client->due -= count;
}

static void hear(struct client *client, size_t octets, char *to) {
    while (octets > 0) {
        ssize_t count = read(client->stream, to, octets);
        if (count <= 0) fail("a client cannot join");
        octets -= count, to += count;
    }
}

// Reads one frame, whose message has to begin so.
static void hear_message(struct client *client, const char *begin) {
    unsigned char head[4];
    hear(client, 4, (char *)head);
    size_t octets = head[1] << 16 | head[2] << 8 | head[3];
    if (octets > IN) fail("a long frame");
    hear(client, octets, client->in);
    if (head[0] != 0 || strncmp(client->in, begin, strlen(begin)) != 0) fail("an answer is not due");
}

static struct client *join(int port, int number, int is_subscriber) {
    struct client *client = calloc(1, sizeof *client);
    struct sockaddr_in at = {.sin_family = AF_INET, .sin_port = htons(port), .sin_addr = {htonl(INADDR_LOOPBACK)}};
    int one = 1;
    char answer[4];
    if (!client) fail("memory");
    client->number = number, client->is_subscriber = is_subscriber;
    client->stream = socket(AF_INET, SOCK_STREAM, 0);
    if (connect(client->stream, (struct sockaddr *)&at, sizeof at) != 0) fail("connect");
    setsockopt(client->stream, IPPROTO_TCP, TCP_NODELAY, &one, sizeof one);
    if (write(client->stream, GREETING, 4) != 4) fail("a handshake");
    hear(client, 4, answer);
    if (memcmp(answer, "\x7f\xb1\0", 4) != 0) fail("a handshake is answered otherwise");
    put_frame(client, HELLO, strlen(HELLO));
    flush(client);
    hear_message(client, "[2,");
    if (is_subscriber) {
        put_frame(client, SUBSCRIBE, strlen(SUBSCRIBE));
        flush(client);
        hear_message(client, "[33,1,");
    }
    fcntl(client->stream, F_SETFL, O_NONBLOCK);
    return client;
}

static void publish(struct client *client) {
    char text[160];
    uint64_t at = client->sent++;
    put_frame(client, text, sprintf(text, "[16,%llu,{\"acknowledge\":true},\"test.rush\",[%d,%llu,\"%s\"]]",
        (unsigned long long)at + 1, client->number, (unsigned long long)at, PAD));
}

// Takes a message: an event for a subscriber, and for a publisher the acknowledgement of its next publication, which it follows by another.
static void take(struct client *client, char *text, size_t octets, int is_open) {
    if (client->is_subscriber) {
        char *args = memmem(text, octets, ",{},[", 5), *end;
        if (strncmp(text, "[36,", 4) != 0 || !args) fail("a message is no event");
        uint64_t publisher = strtoull(args + 5, &end, 10), number = strtoull(end + 1, NULL, 10);
        if (publisher >= MOST) fail("an event of nobody");
        client->wrong += number != client->next[publisher];
        client->next[publisher] = number + 1;
        client->events++;
        return;
    }
    if (strncmp(text, "[17,", 4) != 0 || strtoull(text + 4, NULL, 10) != client->done + 1) fail("no acknowledgement in order");
    client->done++;
    if (is_open) publish(client);
}

// Takes what came.
static void take_all(struct client *client, int is_open) {
    ssize_t count = read(client->stream, client->in + client->came, IN - client->came);
    if (count <= 0) {
        client->is_closed = client->is_closed || count == 0 || (errno != EAGAIN && errno != EINTR);
        return;
    }
    size_t at = 0;
    client->came += count;
    while (client->came - at >= 4) {
        unsigned char *head = (unsigned char *)client->in + at;
        size_t octets = head[1] << 16 | head[2] << 8 | head[3];
        if (client->came - at < 4 + octets) break;
        if (head[0] == 0) take(client, client->in + at + 4, octets, is_open);
        at += 4 + octets;
    }
    memmove(client->in, client->in + at, client->came - at);
    client->came -= at;
    flush(client);
}

int main(int count, char **words) {
    if (count != 8) return 2;
    int port = atoi(words[1]), nodes = atoi(words[2]), publishers = atoi(words[3]), flight = atoi(words[4]), subscribers = atoi(words[5]);
    double seconds = atof(words[6]), limit = atof(words[7]);
    if (publishers > MOST || subscribers > MOST || nodes < 1) return 2;
    int all = subscribers + publishers, poll = epoll_create1(0);
    for (int at = 0; at < all; at++) {
        int is_subscriber = at < subscribers, number = is_subscriber ? at : at - subscribers;
        clients[at] = join(port + number % nodes, number, is_subscriber);
        struct epoll_event wanted = {.events = EPOLLIN, .data = {.ptr = clients[at]}};
        if (epoll_ctl(poll, EPOLL_CTL_ADD, clients[at]->stream, &wanted) != 0) fail("epoll_ctl");
    }
    double begin = now(), end = begin + seconds, time = begin;
    for (int at = subscribers; at < all; at++) {
        for (int under_way = 0; under_way < flight; under_way++) publish(clients[at]);
        flush(clients[at]);
    }
    uint64_t sent = 0, done = 0, acknowledged = 0, is_measured = 0, has_all = 0;
    double took = 0;
    while (time < end + limit && !has_all) {
        struct epoll_event ready[64];
        int events = epoll_wait(poll, ready, 64, 10);
        for (int at = 0; at < events; at++) {
            struct client *client = ready[at].data.ptr;
            take_all(client, time < end);
            if (client->is_closed) epoll_ctl(poll, EPOLL_CTL_DEL, client->stream, NULL);
        }
        time = now();
        sent = done = 0, has_all = time >= end;
        for (int at = 0; at < all; at++) {
            struct client *client = clients[at];
            flush(client);
            sent += client->sent, done += client->done;
        }
        if (time >= end && !is_measured) is_measured = 1, acknowledged = done, took = time - begin;
        for (int at = 0; at < all; at++) has_all = has_all && (at < subscribers ? clients[at]->is_closed || clients[at]->events >= sent : done == sent);
    }
    printf("{\"sent\": %llu, \"done\": %llu, \"rate\": %.0f, \"subscribers\": [", (unsigned long long)sent, (unsigned long long)done, acknowledged / took);
    for (int at = 0; at < subscribers; at++) {
        printf("%s{\"events\": %llu, \"closed\": %s, \"wrong\": %llu}", at ? ", " : "", (unsigned long long)clients[at]->events,
            clients[at]->is_closed ? "true" : "false", (unsigned long long)clients[at]->wrong);
    }
    printf("]}\n");
    return 0;
}
