/* What becomes of a message: which commands are the host's, which the library's, and chains that have both. */
#ifndef SERVE_H
#define SERVE_H

#include "connection.h"
#include "message.h"

#define MOST_ECHOES 2                                             /* replies that one ECHO may ask for */
#define REPLIES_ROOM ((MOST_ECHOES + 1) * GATEWAY_STREAM_ROOM) /* room for all replies to one message */

/* A message as far as it is carried out. A command in front of a chain may have given it a UID, a TID or a FID. */
struct request {
    struct host *host;
    struct connection *connection;
    const uint8_t *message;
    size_t length;
    uint16_t uid, tid;
    uint16_t opened;    /* the FID that NT_CREATE_ANDX gave; JUST_OPENED if there is none */
    struct block block; /* of the command that is carried out */
};

/* Carries out a message and sends the reply. False: the connection must be closed. */
bool serve_message(struct host *host, struct connection *connection, const uint8_t *message, size_t length);

/* To be called when anything may have removed records: own trees of sessions that are gone go too, files are saved. */
void after_message(struct host *host);

/* The status of a refusal in the form that the request asks for. */
uint32_t refused(const struct request *request, const struct status *status);

/* 0 if the request's UID is a session of its connection; otherwise the status. */
uint32_t judge_session(const struct request *request);

/* 0 if besides its TID is a tree with files of that UID; otherwise the status. */
uint32_t judge_tree(const struct request *request);

/* The open of a FID with the request's UID and TID; NULL if there is none. */
const struct gateway_open *find_open(const struct request *request, unsigned fid);

/*
 * Sends the library a message of one block as if the client had sent it, with the request's connection, UID, TID and process,
 * and answers the status of the reply. The words and bytes are those given.
 */
uint32_t ask_library(struct request *request, uint8_t command, const uint8_t *words, size_t word_count, const uint8_t *bytes,
                     size_t byte_count);

/* The commands that the host serves: each puts its block to the reply and answers 0, or a status. */
uint32_t negotiate(struct request *request, struct reply *reply);
uint32_t session_setup(struct request *request, struct reply *reply);
uint32_t tree_connect(struct request *request, struct reply *reply);
uint32_t tree_disconnect(struct request *request, struct reply *reply);
uint32_t close_own(struct request *request, struct reply *reply);
uint32_t nt_create(struct request *request, struct reply *reply);
uint32_t query_information(struct request *request, struct reply *reply);
uint32_t query_information2(struct request *request, struct reply *reply);
uint32_t query_information_disk(struct request *request, struct reply *reply);
uint32_t check_directory(struct request *request, struct reply *reply);
uint32_t transaction(struct request *request, struct reply *reply);
uint32_t transaction2(struct request *request, struct reply *reply);
uint32_t find_close2(struct request *request, struct reply *reply);

#endif
