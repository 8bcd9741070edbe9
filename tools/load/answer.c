/* Answers each request of HTTP on the connections of a port of this machine, and does nothing else: what it
   reaches is what the system and the client allow. Each reply has a job's number, which counts the requests, and
   as many octets as printd's to the Get-Printer-Attributes of a load.

       answer PORT */
#define _GNU_SOURCE
#include <arpa/inet.h>
#include <netinet/tcp.h>
#include <stdio.h>
#include <stdlib.h>
#include <string.h>
#include <sys/epoll.h>
#include <sys/socket.h>
#include <unistd.h>

enum { CONNECTIONS = 1024, HEAD = 8192, PIECE = 65536, BODY = 501 };

/* What a connection has sent of its request: its head, and how many octets are still to come behind the head. */
struct request {
    char head[HEAD];
    size_t length;
    long left;
};

static struct request requests[CONNECTIONS];
static char piece[PIECE];
static char reply[256 + BODY];
static size_t reply_length;
static unsigned job;

/* Where the job's number stands in the reply. */
static char *number;

static void stop(const char *what) {
    perror(what);
    exit(1);
}

/* The reply: successful, with the job's number, and zeros behind its end tag. */
static void write_reply(void) {
    static const char front[] = "\x01\x01\0\0\0\0\0\1\x02\x21\0\6job-id\0\4";
    int head = sprintf(reply, "HTTP/1.1 200 OK\r\nContent-Type: application/ipp\r\nContent-Length: %d\r\n\r\n", BODY);
    memcpy(reply + head, front, sizeof front - 1);
    number = reply + head + sizeof front - 1;
    number[4] = 3;
    reply_length = head + BODY;
}

static void answer(int connection) {
    job++;
    for (int place = 0; place < 4; place++) number[place] = (char)(job >> (24 - 8 * place));
    if (send(connection, reply, reply_length, MSG_NOSIGNAL) != (ssize_t)reply_length) stop("send");
}

/* Adds octets of a head. Returns how many of them belong to it, once it is whole; else 0. */
static size_t add_to_head(struct request *request, const char *octets, size_t count) {
    size_t before = request->length, room = HEAD - 1 - before;
    size_t taken = count < room ? count : room;
    memcpy(request->head + before, octets, taken);
    request->length += taken;
    request->head[request->length] = 0;
    char *end = strstr(request->head, "\r\n\r\n"), *length = strcasestr(request->head, "\r\nContent-Length:");
    if (!end) return 0;
    request->left = length ? atol(length + 17) : 0;
    request->length = 0;
    return end + 4 - request->head - before;
}

/* Takes what came on a connection, and answers each request that is whole. */
static void take(int connection, size_t count) {
    struct request *request = &requests[connection];
    size_t at = 0;
    while (at < count) {
        if (request->left < 0) {
            size_t taken = add_to_head(request, piece + at, count - at);
            if (!taken) return;
            at += taken;
        }
        long body = request->left < (long)(count - at) ? request->left : (long)(count - at);
        request->left -= body;
        at += body;
        if (request->left) return;
        answer(connection);
        request->left = -1;
    }
}

/* Reads a connection until nothing is there. */
static void serve(int connection) {
    ssize_t count;
    do {
        count = recv(connection, piece, PIECE, MSG_DONTWAIT);
        if (count > 0) take(connection, count);
        if (count == 0) close(connection);
    } while (count == PIECE);
}

static void accept_one(int door, int poll) {
    int one = 1, connection = accept(door, NULL, NULL);
    if (connection < 0 || connection >= CONNECTIONS) stop("accept");
    setsockopt(connection, IPPROTO_TCP, TCP_NODELAY, &one, sizeof one);
    requests[connection] = (struct request){.left = -1};
    struct epoll_event event = {.events = EPOLLIN | EPOLLET, .data.fd = connection};
    if (epoll_ctl(poll, EPOLL_CTL_ADD, connection, &event)) stop("epoll_ctl");
}

int main(int count, char **words) {
    struct sockaddr_in address = {.sin_family = AF_INET, .sin_addr.s_addr = htonl(INADDR_LOOPBACK)};
    address.sin_port = htons(count > 1 ? atoi(words[1]) : 0);
    int one = 1, door = socket(AF_INET, SOCK_STREAM, 0), poll = epoll_create1(0);
    setsockopt(door, SOL_SOCKET, SO_REUSEADDR, &one, sizeof one);
    if (bind(door, (struct sockaddr *)&address, sizeof address) || listen(door, 128)) stop("listen");
    struct epoll_event event = {.events = EPOLLIN, .data.fd = door}, events[64];
    if (epoll_ctl(poll, EPOLL_CTL_ADD, door, &event)) stop("epoll_ctl");
    write_reply();
    for (;;) {
        int ready = epoll_wait(poll, events, 64, -1);
        for (int place = 0; place < ready; place++) {
            if (events[place].data.fd == door)
                accept_one(door, poll);
            else
                serve(events[place].data.fd);
        }
    }
}
