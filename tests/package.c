/*
 * A host for tests/package, in words that C89 and C++98 have: it serves the list of examples/host.c to terminal 1, reads one message
 * of its stream from standard input and writes the reply, in the same framing, to standard output.
 *
 * Exit status: 0 if the message was answered; 1 if not; 2 if the header is not the library's.
 */
#include <gateway.h>

#include <stdio.h>

#define LIST 0
#define CONNECTION 5
#define PROCESS 7
#define READ_WRITE 1 /* a right */
#define BOTH 2       /* an access */

static const uint8_t list[] = "Certificates revoked by the office, one to a line, as of this morning: "
                              "0017 0042 0311 0768 0901 1024 1183 1399 1777 2048";

static struct gateway_tables tables;
static uint8_t memory[GATEWAY_MEMORY];
static struct gateway_stream reader;
static uint8_t buffer[GATEWAY_STREAM_BUFFER];
static uint8_t piece[GATEWAY_STREAM_HEADER + GATEWAY_STREAM_BUFFER];
static uint8_t room[GATEWAY_ROOM];
static uint8_t framed[GATEWAY_STREAM_ROOM];

/* Whether the list, the terminal and its open stand in the tables. */
static int started(void)
{
    uint16_t uid, tid, fid;
    gateway_empty(&tables);
    return gateway_load_file(&tables, LIST, list, sizeof list - 1, memory, sizeof memory) == GATEWAY_DONE &&
           gateway_add_session(&tables, CONNECTION, &uid) == GATEWAY_DONE &&
           gateway_add_tree(&tables, uid, READ_WRITE, &tid) == GATEWAY_DONE &&
           gateway_add_open(&tables, uid, tid, PROCESS, LIST, BOTH, &fid) == GATEWAY_DONE;
}

/* Whether the piece was one message, and its reply is in `framed`, of that length. */
static int answered(size_t piece_length, size_t *framed_length)
{
    struct gateway_stream_step step;
    struct gateway_holder holder;
    size_t reply_length;
    gateway_stream_reset(&reader);
    return gateway_stream_read(&reader, buffer, piece, piece_length, &step) == GATEWAY_DONE &&
           step.event == GATEWAY_STREAM_IN_PIECE && step.taken == piece_length &&
           gateway_take_message(&tables, CONNECTION, piece + step.at, (size_t)step.length, memory, sizeof memory, room,
                                sizeof room, &reply_length, &holder) == GATEWAY_DONE &&
           gateway_stream_write(room, reply_length, framed, sizeof framed, framed_length) == GATEWAY_DONE;
}

int main(void)
{
    size_t length;
    if (gateway_words() != GATEWAY_WORDS)
        return 2;
    if (!started() || !answered(fread(piece, 1, sizeof piece, stdin), &length))
        return 1;
    return fwrite(framed, 1, length, stdout) == length ? 0 : 1;
}
