/* A client and a bare loop to measure HTTP by; bench/run compiles it.

   http turns PORT < REQUESTS     sends each request when the reply to the one before is there, all over one connection
   http burst PORT < REQUESTS     sends all requests at once and then reads the replies
       prints the seconds, the longest wait for a reply in milliseconds, and how many replies weren't 200
   http loop PORT BYTES           accepts one connection, reads requests without a body, and writes a reply of so many bytes to each

   REQUESTS are a length in decimal digits, a line feed and so many bytes, each. */
#define _GNU_SOURCE
#include <arpa/inet.h>
#include <errno.h>
#include <netinet/in.h>
#include <netinet/tcp.h>
#include <signal.h>
#include <stdio.h>
#include <stdlib.h>
#include <string.h>
#include <sys/socket.h>
#include <time.h>
#include <unistd.h>

static void fail(const char *what) {
    perror(what);
    exit(1);
}

static double now(void) {
    struct timespec at;
    clock_gettime(CLOCK_MONOTONIC, &at);
    return at.tv_sec + at.tv_nsec / 1e9;
}

static struct sockaddr_in at_port(const char *port) {
    struct sockaddr_in at = {.sin_family = AF_INET, .sin_port = htons(atoi(port)), .sin_addr.s_addr = htonl(INADDR_LOOPBACK)};
    return at;
}

static void at_once(int link) {
    int yes = 1;
    setsockopt(link, IPPROTO_TCP, TCP_NODELAY, &yes, sizeof yes);
}

/* tries for twenty seconds, until something listens */
static int connected(const char *port) {
    struct sockaddr_in at = at_port(port);
    for (int tries = 0; tries < 2000; tries++) {
        int link = socket(AF_INET, SOCK_STREAM, 0);
        if (link < 0) fail("socket");
        if (!connect(link, (struct sockaddr *)&at, sizeof at)) {
            at_once(link);
            return link;
        }
        close(link);
        usleep(10000);
    }
    fail("connect");
    return -1;
}

static void send_all(int link, const char *from, size_t count) {
    while (count > 0) {
        ssize_t sent = send(link, from, count, MSG_NOSIGNAL);
        if (sent <= 0) fail("send");
        from += sent;
        count -= sent;
    }
}

/* what came and isn't taken yet */
static char came[1 << 20];
static size_t filled;

/* takes one reply, and says whether its status is 200 */
static int reply(int link) {
    for (;;) {
        char *end = memmem(came, filled, "\r\n\r\n", 4);
        if (end) {
            char *field = memmem(came, end - came, "\nContent-Length: ", 17);
            size_t whole = end + 4 - came + (field ? strtoul(field + 17, 0, 10) : 0);
            if (filled >= whole) {
                int good = !memcmp(came, "HTTP/1.1 200", 12);
                memmove(came, came + whole, filled - whole);
                filled -= whole;
                return good;
            }
        }
        if (filled == sizeof came) fail("a reply is too long");
        ssize_t got = read(link, came + filled, sizeof came - filled);
        if (got <= 0) fail("read");
        filled += got;
    }
}

static char *text;
static size_t size;

static void read_requests(void) {
    size_t room = 1 << 20, got;
    text = malloc(room);
    while ((got = fread(text + size, 1, room - size, stdin)) > 0) {
        size += got;
        if (size == room) text = realloc(text, room *= 2);
    }
}

/* the request at a place, and the place behind it */
static char *request(size_t *place, size_t *count) {
    char *rest;
    *count = strtoul(text + *place, &rest, 10);
    *place = rest + 1 - text + *count;
    return rest + 1;
}

static void client(const char *port, int burst) {
    read_requests();
    int link = connected(port);
    double began = now(), slowest = 0, before = began;
    size_t others = 0, place = 0, count, all = 0;
    if (burst) {
        char *joined = malloc(size);
        size_t length = 0;
        while (place < size) {
            char *one = request(&place, &count);
            memcpy(joined + length, one, count);
            length += count;
            all++;
        }
        began = before = now();
        send_all(link, joined, length);
    }
    place = 0;
    for (size_t number = 0; burst ? number < all : place < size; number++) {
        if (!burst) {
            char *one = request(&place, &count);
            send_all(link, one, count);
        }
        others += !reply(link);
        double after = now();
        if (after - before > slowest) slowest = after - before;
        before = after;
    }
    printf("%.6f %.3f %zu\n", before - began, slowest * 1000, others);
}

static void loop(const char *port, size_t bytes) {
    struct sockaddr_in at = at_port(port);
    int yes = 1, door = socket(AF_INET, SOCK_STREAM, 0);
    setsockopt(door, SOL_SOCKET, SO_REUSEADDR, &yes, sizeof yes);
    if (bind(door, (struct sockaddr *)&at, sizeof at) || listen(door, 1)) fail("listen");
    int link = accept(door, 0, 0);
    if (link < 0) fail("accept");
    at_once(link);
    char *fixed = malloc(bytes + 1000), head[200];
    int length = 0;
    for (int tries = 0; tries < 3; tries++)
        length = sprintf(head, "HTTP/1.1 200 OK\r\nContent-Type: application/json\r\nContent-Length: %zu\r\n\r\n", bytes - length);
    memcpy(fixed, head, length);
    memset(fixed + length, 'x', bytes - length);
    for (;;) {
        ssize_t got = read(link, came + filled, sizeof came - filled);
        if (got <= 0) return;
        filled += got;
        char *end;
        while ((end = memmem(came, filled, "\r\n\r\n", 4))) {
            size_t whole = end + 4 - came;
            memmove(came, came + whole, filled - whole);
            filled -= whole;
            send_all(link, fixed, bytes);
        }
    }
}

int main(int count, char **words) {
    if (count == 3 && !strcmp(words[1], "turns")) client(words[2], 0);
    else if (count == 3 && !strcmp(words[1], "burst")) client(words[2], 1);
    else if (count == 4 && !strcmp(words[1], "loop")) loop(words[2], strtoul(words[3], 0, 10));
    else return 2;
    return 0;
}
