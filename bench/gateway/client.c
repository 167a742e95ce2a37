/*
 * Measures round trips of requests to up to three servers, in turn, and prints a table: a line for each request and for each
 * kind of locks held.
 *
 *     client ROUNDS TIMES GATEWAY ECHO [SMBD]       ports of 127.0.0.1
 *
 * A round is a request so many times to each server, each sent when the reply to the one before is there; its number is the
 * mean time of a round trip. The table has the median of the rounds and their quartiles. A ratio is the median of the ratios of
 * each round: the processor's clock may change from round to round. The same requests go to all, but for the numbers that a
 * server gave.
 */
#define _DEFAULT_SOURCE
#include "smb.h"

#include <errno.h>
#include <stdio.h>
#include <stdlib.h>
#include <time.h>
#include <unistd.h>

#define MOST_ROUNDS 2001
#define MOST_TIMES 10000
#define READ_COUNT 64
#define SMB_HEADER 32
#define OTHERS 15        /* beside the one who asks: the gateway has 16 sessions */
#define TABLE_LOCKS 128  /* all that the gateway has room for */

enum { GATEWAY, ECHO, SMBD, SERVERS };
static const char *const server_names[SERVERS] = {"gateway", "echo", "smbd"};

enum { READ, LOCKING, LOCKING_READ, KINDS };
static const char *const kind_names[KINDS] = {"READ, 64 bytes", "LOCKING", "LOCKING + READ"};

/* Which locks are held while it is measured, and by whom. */
struct scene {
    const char *name;
    bool held, shared, by_others;
};

static const struct scene scenes[] = {
    {"none", false, false, false},
    {"shared, the client's own", true, true, false},
    {"exclusive, the client's own", true, false, false},
    {"shared, of 15 other connections", true, true, true},
    {"exclusive, of 15 other connections", true, false, true},
};

/* What is sent again and again are some requests in a row, so that each time is like the one before. */
#define MOST_STEPS 3

struct step {
    struct message message;
    bool counted;        /* a release behind what is measured is not */
    size_t reply_length; /* of the last reply */
};

struct server {
    unsigned port; /* 0: it is not there */
    struct link link;
    struct link others[OTHERS];
    struct step steps[MOST_STEPS];
    size_t step_count;
    double rounds[MOST_ROUNDS];
};

static struct server servers[SERVERS];
static size_t rounds, times;

static double now(void)
{
    struct timespec time;
    clock_gettime(CLOCK_MONOTONIC, &time);
    return (double)time.tv_sec * 1e6 + (double)time.tv_nsec / 1e3;
}

static struct message *next_step(struct server *server, bool counted)
{
    struct step *step = &server->steps[server->step_count++];
    step->counted = counted;
    return &step->message;
}

/*
 * What is taken and released lies in front of the locks that are held, and is shared where they are; what is read lies in front
 * of it. smbd ends a chain behind a LOCKING and says Status 0, so it is asked for a lock and a read by two requests, whose times
 * are added.
 */
static void make_steps(int number, const struct scene *scene, int kind)
{
    struct server *server = &servers[number];
    const struct link *link = &server->link;
    struct range taken = {.offset = READ_COUNT, .length = 8, .shared = scene->shared}, released = taken;
    released.release = true;
    server->step_count = 0;
    if (kind == LOCKING_READ && number != SMBD)
        make_locking_read(link, next_step(server, true), taken, 0, READ_COUNT);
    else if (kind != READ)
        make_locking(link, next_step(server, true), taken);
    if (kind == READ || (kind == LOCKING_READ && number == SMBD))
        make_read(link, next_step(server, true), 0, READ_COUNT);
    if (kind != READ)
        make_locking(link, next_step(server, kind == LOCKING), released);
}

/* Locks of eight bytes, none next to another; those of other connections are spread over them. */
static void hold_locks(struct server *server, const struct scene *scene, int kind)
{
    int count = kind == READ ? TABLE_LOCKS : TABLE_LOCKS - 1;
    for (int lock = 0; scene->held && lock < count; lock++) {
        struct link *holder = scene->by_others ? &server->others[lock % OTHERS] : &server->link;
        struct range range = {.offset = 1024 + 16 * (uint32_t)lock, .length = 8, .shared = scene->shared};
        struct message made;
        make_locking(holder, &made, range);
        exchange(holder, &made);
    }
}

/* The echo knows of no files, but it has as many connections as the others. */
static void begin_link(int number, struct link *link)
{
    connect_link(link, servers[number].port);
    if (number != ECHO)
        open_link(link);
}

static void end_link(int number, struct link *link)
{
    if (number != ECHO)
        close_file(link);
    close(link->socket);
}

static void begin_server(int number, const struct scene *scene, int kind)
{
    struct server *server = &servers[number];
    begin_link(number, &server->link);
    for (int other = 0; scene->by_others && other < OTHERS; other++)
        begin_link(number, &server->others[other]);
    if (number != ECHO)
        hold_locks(server, scene, kind);
    make_steps(number, scene, kind);
}

/* The files are closed first, so that no lock is left for the next to meet, whenever the server sees the connections go. */
static void end_server(int number, const struct scene *scene)
{
    for (int other = 0; scene->by_others && other < OTHERS; other++)
        end_link(number, &servers[number].others[other]);
    end_link(number, &servers[number].link);
}

static void send_step(struct server *server, struct step *step)
{
    exchange(&server->link, &step->message);
    step->reply_length = server->link.reply_length;
}

/* The gateway's replies say how long the echo's have to be. */
static void learn_lengths(void)
{
    struct server *gateway = &servers[GATEWAY];
    for (size_t place = 0; place < gateway->step_count; place++) {
        send_step(gateway, &gateway->steps[place]);
        set_mid(&servers[ECHO].steps[place].message, gateway->steps[place].reply_length);
    }
}

/* The mean of a round trip; for a LOCKING that of the one that takes and the one that releases. */
static double round_of(struct server *server, int kind)
{
    double total = 0;
    for (size_t time = 0; time < times; time++)
        for (size_t place = 0; place < server->step_count; place++) {
            double start = now();
            send_step(server, &server->steps[place]);
            total += server->steps[place].counted ? now() - start : 0;
        }
    return total / (double)(kind == LOCKING ? 2 * times : times);
}

/* The replies are as long as they must be: the echo's as the gateway's, smbd's with the bytes that were to be read. */
static void judge_lengths(int kind)
{
    const struct server *gateway = &servers[GATEWAY], *echo = &servers[ECHO], *smbd = &servers[SMBD];
    size_t read_place = kind == LOCKING_READ ? 1 : 0;
    for (size_t place = 0; place < gateway->step_count; place++)
        if (echo->steps[place].reply_length != gateway->steps[place].reply_length)
            give_up("the echo's replies have another length than the gateway's");
    if (kind != LOCKING && gateway->steps[0].reply_length < SMB_HEADER + READ_COUNT)
        give_up("the gateway's reply lacks what was read");
    if (kind != LOCKING && smbd->port != 0 && smbd->steps[read_place].reply_length < SMB_HEADER + READ_COUNT)
        give_up("smbd's reply lacks what was read");
}

/* The first round is not counted. Each begins with another server. */
static void measure(int kind)
{
    for (size_t round = 0; round <= rounds; round++)
        for (size_t turn = 0; turn < SERVERS; turn++) {
            struct server *server = &servers[(round + turn) % SERVERS];
            if (server->port != 0)
                server->rounds[round == 0 ? 0 : round - 1] = round_of(server, kind);
        }
    judge_lengths(kind);
}

static int by_size(const void *one, const void *other)
{
    double first = *(const double *)one, second = *(const double *)other;
    return (first > second) - (first < second);
}

/* Lower quartile, median and upper quartile. */
struct spread {
    double low, middle, high;
};

static struct spread spread_of(const double *numbers)
{
    static double sorted[MOST_ROUNDS];
    for (size_t round = 0; round < rounds; round++)
        sorted[round] = numbers[round];
    qsort(sorted, rounds, sizeof sorted[0], by_size);
    return (struct spread){sorted[rounds / 4], sorted[rounds / 2], sorted[rounds - 1 - rounds / 4]};
}

static void print_time(int number)
{
    struct spread spread = spread_of(servers[number].rounds);
    printf(" %.1f (%.1f to %.1f) |", spread.middle, spread.low, spread.high);
}

static void print_ratio(int to)
{
    static double ratios[MOST_ROUNDS];
    for (size_t round = 0; round < rounds; round++)
        ratios[round] = servers[GATEWAY].rounds[round] / servers[to].rounds[round];
    struct spread spread = spread_of(ratios);
    printf(" %.2f (%.2f to %.2f) |", spread.middle, spread.low, spread.high);
}

static void print_head(void)
{
    printf("| request | locks held |");
    for (int number = 0; number < SERVERS; number++)
        if (servers[number].port != 0)
            printf(" %s (µs) |", server_names[number]);
    printf(" gateway / echo |%s\n|---|---|", servers[SMBD].port != 0 ? " gateway / smbd |" : "");
    for (int number = 0; number < SERVERS; number++)
        if (servers[number].port != 0)
            printf("--:|");
    printf("--:|%s\n", servers[SMBD].port != 0 ? "--:|" : "");
}

static void print_line(const struct scene *scene, int kind)
{
    printf("| %s | %s |", kind_names[kind], scene->name);
    for (int number = 0; number < SERVERS; number++)
        if (servers[number].port != 0)
            print_time(number);
    print_ratio(ECHO);
    if (servers[SMBD].port != 0)
        print_ratio(SMBD);
    printf("\n");
    fflush(stdout);
}

static void measure_line(const struct scene *scene, int kind)
{
    for (int number = 0; number < SERVERS; number++)
        if (servers[number].port != 0)
            begin_server(number, scene, kind);
    learn_lengths();
    measure(kind);
    for (int number = 0; number < SERVERS; number++)
        if (servers[number].port != 0)
            end_server(number, scene);
    print_line(scene, kind);
}

/* A number in decimal within bounds. */
static size_t number_of(const char *word, size_t largest)
{
    char *end;
    errno = 0;
    unsigned long number = strtoul(word, &end, 10);
    if (errno != 0 || *word < '0' || *word > '9' || *end != 0 || number == 0 || number > largest)
        give_up("a number is wrong");
    return number;
}

int main(int count, char **words)
{
    if (count != 5 && count != 6)
        give_up("usage: client ROUNDS TIMES GATEWAY ECHO [SMBD]");
    rounds = number_of(words[1], MOST_ROUNDS);
    times = number_of(words[2], MOST_TIMES);
    for (int number = 0; number < count - 3; number++)
        servers[number].port = (unsigned)number_of(words[3 + number], 65535);
    print_head();
    for (size_t scene = 0; scene < sizeof scenes / sizeof scenes[0]; scene++)
        for (int kind = 0; kind < KINDS; kind++)
            measure_line(&scenes[scene], kind);
    return 0;
}
