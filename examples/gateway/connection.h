/* One client's connection: its stream in both directions, and what the host remembers of it. */
#ifndef CONNECTION_H
#define CONNECTION_H

#include "host.h"

#define CONNECTIONS 128    /* served at the same time */
#define PIECE 8192         /* bytes taken from a socket at a time */
#define OUT_ROOM 65536     /* bytes of replies that may wait for a client that does not read them */
#define PATTERN_BYTES 64
#define SEARCHES 4         /* listings that a client may have open at a time */

/* A listing that is not at its end. */
struct search {
    bool used;
    uint16_t uid, tid;
    size_t next; /* the place from which it goes on */
    char pattern[PATTERN_BYTES];
};

struct connection {
    bool used;
    int socket;
    uint32_t number; /* the connection's number for the library and the log; never that of another one in use */
    char peer[64];
    struct gateway_stream *reader; /* lent to the library, with its buffer */
    uint8_t *buffer;
    uint8_t *piece;                /* what came and is not taken yet stands from piece_next to piece_end */
    size_t piece_next, piece_end;
    uint8_t *out;                  /* replies that wait stand from out_next to out_end */
    size_t out_next, out_end;
    bool ended;                    /* the client sends no more, or is to be sent no more: closed when the replies are out */
    bool negotiated;
    bool logged_in;                /* it has, or had, a session */
    time_t heard;                  /* when its last whole message came, or it connected */
    time_t begun;                  /* when the first byte of a message came that is not whole; 0 if none */
    time_t stuck;                  /* since when no byte of its replies could be sent; 0 if they can */
    uint32_t waited;               /* the events that the loop waits for */
    struct search searches[SEARCHES];
};

/* Takes over an accepted socket. */
void open_connection(struct connection *connection, int socket, uint32_t number, const char *peer, time_t now);

/* What a connection has to wait for: events for epoll. */
uint32_t wanted_events(const struct connection *connection);

/* Reads what has come if there is room for it, answers the messages in it, and sends what can be sent. */
void serve_connection(struct host *host, struct connection *connection, bool readable, time_t now);

/* Ends it: the library's records of it go, then the socket. */
void close_connection(struct host *host, struct connection *connection, const char *why);

/* Why it has to be closed now; NULL if it need not. */
const char *time_is_up(const struct connection *connection, const struct host *host, time_t now);

/*
 * All sessions are in use and one more is asked for: closes the client that has been silent longest, of those that have nothing open
 * and have been silent for as long as the host waits. False: there is none.
 */
bool close_silent(struct host *host, const struct connection *asker);

/* Puts a message behind its header to the replies that wait. There must be GATEWAY_STREAM_ROOM bytes of room. */
void send_message(struct host *host, struct connection *connection, const uint8_t *message, size_t length);

#endif
