/*
 * The echo: what a round trip costs a server that does nothing. One thread and epoll, as the gateway, and its framing.
 *
 *     echo PORT        127.0.0.1; PORT 0 is any free port, and the first line on standard output says which
 *
 * It knows nothing of SMB but one place: a request has the length of its reply in the two bytes of MID, which other servers
 * send back and do not look at. The reply is the request, cut or filled up to that length. It ends by SIGTERM, or by itself
 * after half an hour.
 */
#define _DEFAULT_SOURCE
#include <arpa/inet.h>
#include <netinet/in.h>
#include <netinet/tcp.h>
#include <stdbool.h>
#include <stdint.h>
#include <stdio.h>
#include <stdlib.h>
#include <string.h>
#include <sys/epoll.h>
#include <sys/socket.h>
#include <unistd.h>

#define CLIENTS 16
#define ROOM 16384
#define SESSION_HEADER 4
#define SHORTEST 32 /* an SMB header */
#define LONGEST 8192
#define AT_MID 30
#define ENDS_AFTER 1800 /* seconds */

struct client {
    int socket;    /* -1: the place is free */
    size_t length; /* bytes that have come and are not answered */
    uint8_t bytes[ROOM];
};

static struct client clients[CLIENTS];
static int waiter, listener;

static _Noreturn void give_up(const char *what)
{
    fprintf(stderr, "echo: %s\n", what);
    exit(2);
}

static void listen_at(const char *port)
{
    struct sockaddr_in at = {.sin_family = AF_INET, .sin_port = htons((uint16_t)atoi(port))};
    socklen_t length = sizeof at;
    listener = socket(AF_INET, SOCK_STREAM, 0);
    at.sin_addr.s_addr = htonl(INADDR_LOOPBACK);
    if (listener < 0 || bind(listener, (struct sockaddr *)&at, sizeof at) != 0 || listen(listener, CLIENTS) != 0
        || getsockname(listener, (struct sockaddr *)&at, &length) != 0)
        give_up("the port cannot be listened on");
    printf("echo: 127.0.0.1 port %u\n", (unsigned)ntohs(at.sin_port));
    fflush(stdout);
}

/* An event has the place of its client, or CLIENTS if a new one asks. */
static void wait_for(int descriptor, size_t place)
{
    struct epoll_event event = {.events = EPOLLIN, .data.u64 = place};
    if (epoll_ctl(waiter, EPOLL_CTL_ADD, descriptor, &event) != 0)
        give_up("epoll failed");
}

static void accept_one(void)
{
    int yes = 1, socket = accept(listener, NULL, NULL);
    size_t place = 0;
    while (place < CLIENTS && clients[place].socket >= 0)
        place++;
    if (socket < 0 || place == CLIENTS)
        give_up("a client could not be taken");
    setsockopt(socket, IPPROTO_TCP, TCP_NODELAY, &yes, sizeof yes);
    clients[place].socket = socket;
    clients[place].length = 0;
    wait_for(socket, place);
}

/* Answers the first message if it is whole. The bytes that it had, 0 if it is not; -1: no such message can be answered. */
static ssize_t answer(struct client *client)
{
    static uint8_t reply[SESSION_HEADER + UINT16_MAX];
    if (client->length < SESSION_HEADER)
        return 0;
    size_t length = (size_t)client->bytes[2] << 8 | client->bytes[3];
    if (length < SHORTEST || length > LONGEST)
        return -1;
    if (client->length < SESSION_HEADER + length)
        return 0;
    const uint8_t *mid = client->bytes + SESSION_HEADER + AT_MID;
    size_t wanted = (size_t)mid[1] << 8 | mid[0];
    memcpy(reply, client->bytes, SESSION_HEADER + (wanted < length ? wanted : length));
    reply[2] = mid[1];
    reply[3] = mid[0];
    if (send(client->socket, reply, SESSION_HEADER + wanted, MSG_NOSIGNAL) != (ssize_t)(SESSION_HEADER + wanted))
        return -1;
    return (ssize_t)(SESSION_HEADER + length);
}

static void serve(struct client *client)
{
    ssize_t answered = 1, got = recv(client->socket, client->bytes + client->length, ROOM - client->length, 0);
    client->length += got > 0 ? (size_t)got : 0;
    while (got > 0 && answered > 0) {
        answered = answer(client);
        if (answered > 0) {
            client->length -= (size_t)answered;
            memmove(client->bytes, client->bytes + answered, client->length);
        }
    }
    if (got <= 0 || answered < 0) {
        close(client->socket);
        client->socket = -1;
    }
}

/* New clients are met last, so that no event is taken for one of the client before. */
static void loop(void)
{
    struct epoll_event came[CLIENTS + 1];
    int count = 0;
    while (count >= 0) {
        bool asked = false;
        for (int next = 0; next < count; next++) {
            if (came[next].data.u64 == CLIENTS)
                asked = true;
            else
                serve(&clients[came[next].data.u64]);
        }
        if (asked)
            accept_one();
        count = epoll_wait(waiter, came, CLIENTS + 1, -1);
    }
}

int main(int count, char **words)
{
    if (count != 2)
        give_up("usage: echo PORT");
    alarm(ENDS_AFTER);
    for (size_t place = 0; place < CLIENTS; place++)
        clients[place].socket = -1;
    listen_at(words[1]);
    waiter = epoll_create1(0);
    wait_for(listener, CLIENTS);
    loop();
    give_up("epoll failed");
}
