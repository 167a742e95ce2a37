/* A client of SMB1: one connection, the requests that are measured and those that lead to them. */
#ifndef SMB_H
#define SMB_H

#include <stdbool.h>
#include <stddef.h>
#include <stdint.h>

#define SHARE "files"
#define FILE_NAME "\\REVOKED.LST"
#define LONGEST_REQUEST 512
#define LONGEST_REPLY 65536

/* A request behind its session header, as it is sent. */
struct message {
    size_t length;
    size_t bytes_at; /* where ByteCount of the block that is written stands */
    uint8_t bytes[LONGEST_REQUEST];
};

/* A connection, and the numbers that the server gave it. */
struct link {
    int socket;
    uint16_t uid, tid, fid;
    size_t reply_length; /* of the last reply, without its session header */
    uint8_t reply[LONGEST_REPLY];
};

/* What a server gave that is no good ends the program: nothing refused is measured. */
_Noreturn void give_up(const char *what);

/* Connects to a port of 127.0.0.1. */
void connect_link(struct link *link, unsigned port);

/* As a guest: a session, a tree on the share, and the file opened to read and write. */
void open_link(struct link *link);

/* Closes the file, which releases its locks, and says so only when the server has done it. */
void close_file(struct link *link);

/* Sends a request and takes the reply, whose Status must be 0. */
void exchange(struct link *link, const struct message *message);

/* The requests. Of a locking request: which range, whether it is released or taken, whether it is shared. */
struct range {
    uint32_t offset, length;
    bool release, shared;
};

void make_read(const struct link *link, struct message *made, uint32_t offset, unsigned count);
void make_locking(const struct link *link, struct message *made, struct range range);
void make_locking_read(const struct link *link, struct message *made, struct range range, uint32_t offset, unsigned count);

/* MID is free for the client: here it has the length of the reply, by which the echo answers. */
void set_mid(struct message *message, size_t reply_length);

#endif
