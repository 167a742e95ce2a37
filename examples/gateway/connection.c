#define _DEFAULT_SOURCE
#include "connection.h"
#include "files.h"
#include "log.h"
#include "serve.h"
#include "show.h"

#include <errno.h>
#include <stdio.h>
#include <string.h>
#include <sys/epoll.h>
#include <sys/socket.h>
#include <unistd.h>

/* The buffers of a place for a connection are lent once and used for all that have it. */
static void lend_buffers(struct connection *connection)
{
    if (connection->reader != NULL)
        return;
    connection->reader = lend(sizeof *connection->reader);
    connection->buffer = lend(GATEWAY_STREAM_BUFFER);
    connection->piece = lend(PIECE);
    connection->out = lend(OUT_ROOM);
}

void open_connection(struct connection *connection, int socket, uint32_t number, const char *peer, time_t now)
{
    lend_buffers(connection);
    *connection = (struct connection){
        .used = true,
        .socket = socket,
        .number = number,
        .reader = connection->reader,
        .buffer = connection->buffer,
        .piece = connection->piece,
        .out = connection->out,
        .heard = now,
    };
    snprintf(connection->peer, sizeof connection->peer, "%s", peer);
    gateway_stream_reset(connection->reader);
    log_connection(connection, "connected");
}

void close_connection(struct host *host, struct connection *connection, const char *why)
{
    log_connection(connection, why);
    require_done(gateway_drop_connection(host->tables, connection->number), "gateway_drop_connection");
    close(connection->socket);
    connection->used = false;
    after_message(host);
}

static size_t waiting(const struct connection *connection)
{
    return connection->out_end - connection->out_next;
}

/* A message is taken only if any reply to it has room: a client that reads no replies is served no further. */
static bool has_room(const struct connection *connection)
{
    return OUT_ROOM - waiting(connection) >= REPLIES_ROOM;
}

uint32_t wanted_events(const struct connection *connection)
{
    bool read = !connection->ended && connection->piece_next == connection->piece_end && has_room(connection);
    return (read ? EPOLLIN : 0u) | (waiting(connection) > 0 ? EPOLLOUT : 0u);
}

void send_message(struct host *host, struct connection *connection, const uint8_t *message, size_t length)
{
    size_t written = 0;
    if (OUT_ROOM - connection->out_end < GATEWAY_STREAM_ROOM) {
        memmove(connection->out, connection->out + connection->out_next, waiting(connection));
        connection->out_end -= connection->out_next;
        connection->out_next = 0;
    }
    require_done(gateway_stream_write(message, length, host->framed, GATEWAY_STREAM_ROOM, &written), "gateway_stream_write");
    memcpy(connection->out + connection->out_end, host->framed, written);
    connection->out_end += written;
}

/* Sends what the socket takes without waiting. */
static void flush(struct connection *connection, time_t now)
{
    if (waiting(connection) == 0)
        return;
    ssize_t sent = send(connection->socket, connection->out + connection->out_next, waiting(connection),
                        MSG_NOSIGNAL | MSG_DONTWAIT);
    if (sent > 0) {
        connection->out_next += (size_t)sent;
        connection->stuck = 0;
    } else if (sent < 0 && errno != EAGAIN && errno != EWOULDBLOCK && errno != EINTR) {
        connection->out_next = connection->out_end;
        connection->ended = true;
    }
    if (waiting(connection) == 0)
        connection->out_next = connection->out_end = 0;
    else if (connection->stuck == 0)
        connection->stuck = now;
}

/*
 * A message where it stands. With --guard it is handed over from the end of its own lent memory, so that a byte read
 * behind it would end the host.
 */
static bool take(struct host *host, struct connection *connection, const uint8_t *message, size_t length)
{
    static uint8_t *guarded;
    if (!host->guard)
        return serve_message(host, connection, message, length);
    if (guarded == NULL)
        guarded = lend(LONGEST_MESSAGE);
    return serve_message(host, connection, memcpy(guarded + LONGEST_MESSAGE - length, message, length), length);
}

/* Hands the reader what is left of the piece, up to one message, and the message on. False: the connection must be closed. */
static bool step(struct host *host, struct connection *connection, time_t now)
{
    struct gateway_stream_step step;
    const uint8_t *piece = connection->piece + connection->piece_next;
    uint8_t number = gateway_stream_read(connection->reader, connection->buffer, piece,
                                         connection->piece_end - connection->piece_next, &step);
    if (number == GATEWAY_STREAM_NO_SUCH_STATE)
        give_up("a reader's state was damaged");
    if (number != GATEWAY_DONE) {
        log_connection(connection, stream_number_in_words(number));
        return false;
    }
    connection->piece_next += step.taken;
    if (step.event == GATEWAY_STREAM_WANTED)
        return true;
    connection->heard = now;
    connection->begun = 0;
    return take(host, connection, step.event == GATEWAY_STREAM_IN_PIECE ? piece + step.at : connection->buffer, step.length);
}

/* Takes messages out of the piece as long as there are any, and room for the replies. */
static void take_messages(struct host *host, struct connection *connection, time_t now)
{
    while (connection->piece_next < connection->piece_end && has_room(connection) && !connection->ended)
        if (!step(host, connection, now))
            connection->ended = true;
    bool open = connection->reader->begun != 0 || connection->reader->length != 0;
    if (!open)
        connection->begun = 0;
    else if (connection->begun == 0)
        connection->begun = now;
}

static void receive(struct connection *connection)
{
    ssize_t length = recv(connection->socket, connection->piece, PIECE, MSG_DONTWAIT);
    connection->piece_next = connection->piece_end = 0;
    if (length > 0)
        connection->piece_end = (size_t)length;
    else if (length == 0 || (errno != EAGAIN && errno != EWOULDBLOCK && errno != EINTR))
        connection->ended = true;
}

/* A piece has at most 8,192 bytes and each turn takes a message of it or ends: the turns are bounded. */
void serve_connection(struct host *host, struct connection *connection, bool readable, time_t now)
{
    if (readable && connection->piece_next == connection->piece_end && !connection->ended)
        receive(connection);
    size_t before;
    do {
        before = connection->piece_next;
        take_messages(host, connection, now);
        flush(connection, now);
    } while (connection->piece_next > before && connection->piece_next < connection->piece_end);
    if (connection->ended && waiting(connection) == 0)
        close_connection(host, connection, "closed");
}

const char *time_is_up(const struct connection *connection, const struct host *host, time_t now)
{
    bool unread = connection->stuck != 0 && now - connection->stuck >= host->wait;
    if (unread || (connection->ended && now - connection->heard >= host->wait))
        return "closed: does not read its replies";
    if (connection->begun != 0 && now - connection->begun >= host->wait)
        return "closed: a message was begun and not ended";
    if (!connection->logged_in && now - connection->heard >= host->wait)
        return "closed: no login";
    if (now - connection->heard >= host->idle)
        return "closed: idle";
    return NULL;
}

static bool has_open(const struct gateway_tables *tables, const struct connection *connection)
{
    for (size_t place = 0; place < tables->open_count; place++)
        if (connection_of(tables, tables->opens[place].fid) == connection->number)
            return true;
    return false;
}

bool close_silent(struct host *host, const struct connection *asker)
{
    struct connection *longest = NULL;
    for (size_t place = 0; place < CONNECTIONS; place++) {
        struct connection *each = &host->connections[place];
        if (each->used && each != asker && each->logged_in && asker->heard - each->heard >= host->wait
            && !has_open(host->tables, each) && (longest == NULL || each->heard < longest->heard))
            longest = each;
    }
    if (longest != NULL)
        close_connection(host, longest, "closed: silent, and its session is needed");
    return longest != NULL;
}
