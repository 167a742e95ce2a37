/*
 * A gateway: serves the files of a directory over SMB1 on TCP.
 *
 *     gateway [--listen ADDRESS] [--share NAME] [--wait SECONDS] [--idle SECONDS] [--show] [--guard] PORT DIRECTORY
 *
 * DIRECTORY has up to 16 files of at most 4,096 bytes, with names of at most 12. They are the share NAME ("files" if it is not
 * given), which any client that speaks NT LM 0.12 can use as a guest, to read and write. PORT 0 is any free port; the first
 * line on standard output says which. ADDRESS is 127.0.0.1 if it is not given. There is no login: whoever can reach the
 * address can write the files.
 *
 * The host serves NEGOTIATE, SESSION_SETUP_ANDX, TREE_CONNECT_ANDX, NT_CREATE_ANDX, ECHO and some queries; all else is the
 * library's. A file that was written is saved when its last open goes. Standard error has a line for each connection that
 * comes or goes, and for each lock conflict with the lock that is in the way.
 *
 * SIGUSR1 prints the tables. SIGTERM and SIGINT end it: connections are closed and the files saved. --wait is for how long a
 * client may take to log in, to end a message that it has begun, and to read its replies: 20 seconds if it is not given. --idle is for
 * how long it may send nothing: 900. --show prints each exchange in words. --guard hands each message over from the end of a page
 * that no page follows, for tests.
 *
 * Exit status: 0 if it was ended by a signal; 2 if it could not go on.
 */
#define _DEFAULT_SOURCE
#include "connection.h"
#include "files.h"
#include "log.h"
#include "print.h"

#include <arpa/inet.h>
#include <errno.h>
#include <fcntl.h>
#include <netinet/in.h>
#include <netinet/tcp.h>
#include <signal.h>
#include <stdio.h>
#include <stdlib.h>
#include <string.h>
#include <sys/epoll.h>
#include <sys/socket.h>
#include <sys/timerfd.h>
#include <unistd.h>

#define TICK 500000000 /* nanoseconds after which the clients' times are looked at */

/* What an event is of: the place of a connection, or one of these. */
enum { LISTENER = CONNECTIONS, SIGNALS, TIMER, SOURCES };

/* Signals are written to a pipe, so that they are met in the loop and nowhere else. */
static int signal_pipe[2];

/* Waits for all of them at once: with many clients that are silent a message costs no more than with one. */
static int waiter;

/* Comes every tick, so that no turn has to set a time of its own. */
static int timer;

static struct host host;
static struct connection connections[CONNECTIONS];

static void on_signal(int number)
{
    int before = errno;
    uint8_t byte = (uint8_t)number;
    if (write(signal_pipe[1], &byte, 1) < 0) {
        /* The pipe is full of signals that are not met yet: one more tells nothing new. */
    }
    errno = before;
}

static void catch_signals(void)
{
    struct sigaction action = {.sa_handler = on_signal};
    if (pipe(signal_pipe) != 0 || fcntl(signal_pipe[0], F_SETFL, O_NONBLOCK) != 0
        || fcntl(signal_pipe[1], F_SETFL, O_NONBLOCK) != 0)
        give_up("no pipe");
    sigaction(SIGTERM, &action, NULL);
    sigaction(SIGINT, &action, NULL);
    sigaction(SIGUSR1, &action, NULL);
    signal(SIGPIPE, SIG_IGN);
}

/* Has the waiter wait for events of a source, or for others than before. */
static bool wait_for(int how, int descriptor, size_t source, uint32_t events)
{
    struct epoll_event event = {.events = events, .data.u64 = source};
    return epoll_ctl(waiter, how, descriptor, &event) == 0;
}

static void prepare_waiter(int listener)
{
    struct itimerspec tick = {.it_interval.tv_nsec = TICK, .it_value.tv_nsec = TICK};
    waiter = epoll_create1(0);
    timer = timerfd_create(CLOCK_MONOTONIC, TFD_NONBLOCK);
    if (waiter < 0 || timer < 0 || timerfd_settime(timer, 0, &tick, NULL) != 0
        || !wait_for(EPOLL_CTL_ADD, listener, LISTENER, EPOLLIN) || !wait_for(EPOLL_CTL_ADD, timer, TIMER, EPOLLIN)
        || !wait_for(EPOLL_CTL_ADD, signal_pipe[0], SIGNALS, EPOLLIN))
        give_up("no epoll");
}

/* Monotonic: a clock that is set must not end connections. */
static time_t seconds(void)
{
    struct timespec now;
    clock_gettime(CLOCK_MONOTONIC, &now);
    return now.tv_sec + 1;
}

static int listen_at(const char *address, unsigned port)
{
    struct sockaddr_in at = {.sin_family = AF_INET, .sin_port = htons((uint16_t)port)};
    socklen_t length = sizeof at;
    int yes = 1, listener = socket(AF_INET, SOCK_STREAM | SOCK_NONBLOCK, 0);
    if (inet_pton(AF_INET, address, &at.sin_addr) != 1)
        give_up("--listen needs an IPv4 address");
    if (listener < 0 || setsockopt(listener, SOL_SOCKET, SO_REUSEADDR, &yes, sizeof yes) != 0
        || bind(listener, (struct sockaddr *)&at, sizeof at) != 0 || listen(listener, CONNECTIONS) != 0
        || getsockname(listener, (struct sockaddr *)&at, &length) != 0)
        give_up("the port cannot be listened on");
    printf("gateway: %zu files on %s port %u, share %s\n", host.file_count, address, (unsigned)ntohs(at.sin_port), host.share);
    fflush(stdout);
    return listener;
}

/* A place for a connection; if none is free that of the client without a session that has been silent longest. */
static struct connection *free_place(time_t now)
{
    struct connection *longest = NULL;
    for (size_t place = 0; place < CONNECTIONS; place++) {
        struct connection *connection = &connections[place];
        if (!connection->used)
            return connection;
        if (!connection->logged_in && (longest == NULL || connection->heard < longest->heard))
            longest = connection;
    }
    if (longest == NULL || longest->heard == now)
        return NULL;
    close_connection(&host, longest, "closed: its place is needed");
    return longest;
}

/* The next number that no connection has. */
static uint32_t next_number(void)
{
    static uint32_t number;
    bool again = true;
    while (again) {
        number = number == UINT32_MAX ? 1 : number + 1;
        again = false;
        for (size_t place = 0; place < CONNECTIONS; place++)
            again = again || (connections[place].used && connections[place].number == number);
    }
    return number;
}

static void accept_one(int listener, time_t now)
{
    struct sockaddr_in from;
    socklen_t length = sizeof from;
    char address[INET_ADDRSTRLEN] = "", peer[64];
    int yes = 1, socket = accept(listener, (struct sockaddr *)&from, &length);
    if (socket < 0)
        return;
    struct connection *place = free_place(now);
    if (place == NULL || !wait_for(EPOLL_CTL_ADD, socket, (size_t)(place - connections), EPOLLIN)) {
        close(socket);
        return;
    }
    inet_ntop(AF_INET, &from.sin_addr, address, sizeof address);
    snprintf(peer, sizeof peer, "%s:%u", address, (unsigned)ntohs(from.sin_port));
    fcntl(socket, F_SETFL, O_NONBLOCK);
    setsockopt(socket, IPPROTO_TCP, TCP_NODELAY, &yes, sizeof yes);
    open_connection(place, socket, next_number(), peer, now);
    place->waited = EPOLLIN;
}

/* Meets the signals that have come. False: the host is to end. */
static bool meet_signals(void)
{
    uint8_t byte;
    bool go_on = true;
    while (read(signal_pipe[0], &byte, 1) == 1) {
        if (byte == SIGUSR1)
            print_tables(&host, connections, CONNECTIONS);
        else
            go_on = false;
    }
    return go_on;
}

static void look_at_times(time_t now)
{
    for (size_t place = 0; place < CONNECTIONS; place++) {
        const char *why = connections[place].used ? time_is_up(&connections[place], &host, now) : NULL;
        if (why != NULL)
            close_connection(&host, &connections[place], why);
    }
    save_files(&host);
}

static void meet_tick(time_t now)
{
    uint64_t ticks;
    if (read(timer, &ticks, sizeof ticks) == sizeof ticks)
        look_at_times(now);
}

static void serve_place(size_t place, uint32_t events, time_t now)
{
    struct connection *connection = &connections[place];
    if (!connection->used)
        return; /* closed for another in this turn */
    serve_connection(&host, connection, (events & (EPOLLIN | EPOLLHUP | EPOLLERR)) != 0, now);
    uint32_t wanted = connection->used ? wanted_events(connection) : connection->waited;
    if (wanted != connection->waited && !wait_for(EPOLL_CTL_MOD, connection->socket, place, wanted))
        give_up("epoll failed");
    connection->waited = wanted;
}

/* A turn for each connection that has something: one piece is taken of each, so none keeps the others waiting. */
static void serve_connections(const struct epoll_event *came, int count, time_t now)
{
    for (int next = 0; next < count; next++)
        if (came[next].data.u64 < CONNECTIONS)
            serve_place(came[next].data.u64, came[next].events, now);
}

static bool has_come(const struct epoll_event *came, int count, uint64_t source)
{
    for (int next = 0; next < count; next++)
        if (came[next].data.u64 == source)
            return true;
    return false;
}

/* A place is given to a new connection only when all events are met: none is taken for one of the connection before. */
static void loop(int listener)
{
    static struct epoll_event came[SOURCES];
    bool go_on = true;
    while (go_on) {
        int count = epoll_wait(waiter, came, SOURCES, -1);
        if (count < 0 && errno != EINTR)
            give_up("epoll failed");
        time_t now = seconds();
        serve_connections(came, count, now);
        if (has_come(came, count, SIGNALS))
            go_on = meet_signals();
        if (has_come(came, count, LISTENER))
            accept_one(listener, now);
        if (has_come(came, count, TIMER))
            meet_tick(now);
    }
}

/* All connections are closed, so no file has an open and every change is saved, at once even where it failed before. */
static void end(int listener)
{
    close(listener);
    for (size_t place = 0; place < CONNECTIONS; place++)
        if (connections[place].used)
            close_connection(&host, &connections[place], "closed: the gateway ends");
    host.save_again = 0;
    save_files(&host);
    if (host.save_again != 0)
        give_up("a file was not saved");
    printf("gateway: ended\n");
}

static const char *value(int count, char **words, int place)
{
    if (place + 1 >= count)
        give_up("an option lacks its value");
    return words[place + 1];
}

/* A number in decimal within bounds. */
static unsigned long number_of(const char *word, unsigned long smallest, unsigned long largest)
{
    char *end;
    errno = 0;
    unsigned long number = strtoul(word, &end, 10);
    if (errno != 0 || *word < '0' || *word > '9' || *end != 0 || number < smallest || number > largest)
        give_up("a number is wrong");
    return number;
}

int main(int count, char **words)
{
    const char *address = "127.0.0.1";
    int next = 1;
    host.share = "files";
    host.connections = connections;
    host.wait = 20;
    host.idle = 900;
    for (; next < count && words[next][0] == '-'; next++) {
        if (strcmp(words[next], "--listen") == 0)
            address = value(count, words, next++);
        else if (strcmp(words[next], "--share") == 0)
            host.share = value(count, words, next++);
        else if (strcmp(words[next], "--wait") == 0)
            host.wait = (time_t)number_of(value(count, words, next++), 1, 86400);
        else if (strcmp(words[next], "--idle") == 0)
            host.idle = (time_t)number_of(value(count, words, next++), 1, 86400);
        else if (strcmp(words[next], "--show") == 0)
            host.show = true;
        else if (strcmp(words[next], "--guard") == 0)
            host.guard = true;
        else
            give_up("no such option");
    }
    if (count - next != 2)
        give_up("usage: gateway [--listen ADDRESS] [--share NAME] [--wait SECONDS] [--idle SECONDS] [--show] [--guard] PORT DIRECTORY");
    prepare_host(&host);
    load_directory(&host, words[next + 1]);
    catch_signals();
    int listener = listen_at(address, (unsigned)number_of(words[next], 0, 65535));
    prepare_waiter(listener);
    loop(listener);
    end(listener);
    return 0;
}
