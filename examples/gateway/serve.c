#include "serve.h"
#include "exchange.h"
#include "files.h"
#include "log.h"
#include "own.h"
#include "split.h"

#include <string.h>

struct own_command {
    uint8_t number;
    uint32_t (*carry_out)(struct request *request, struct reply *reply);
};

/* The commands that the host serves. Every other goes to the library, which answers 2/22 to those that it does not serve. */
static const struct own_command own_commands[] = {
    {CMD_QUERY_INFORMATION, query_information},
    {CMD_CHECK_DIRECTORY, check_directory},
    {CMD_QUERY_INFORMATION2, query_information2},
    {CMD_TRANSACTION, transaction},
    {CMD_TRANSACTION2, transaction2},
    {CMD_FIND_CLOSE2, find_close2},
    {CMD_NEGOTIATE, negotiate},
    {CMD_SESSION_SETUP_ANDX, session_setup},
    {CMD_TREE_CONNECT_ANDX, tree_connect},
    {CMD_QUERY_INFORMATION_DISK, query_information_disk},
    {CMD_NT_CREATE_ANDX, nt_create},
};

static const struct own_command own_tree_disconnect = {CMD_TREE_DISCONNECT, tree_disconnect};
static const struct own_command own_close = {CMD_CLOSE, close_own};

static const struct own_command *find_own(uint8_t number)
{
    for (size_t place = 0; place < sizeof own_commands / sizeof own_commands[0]; place++)
        if (own_commands[place].number == number)
            return &own_commands[place];
    return NULL;
}

/* A CLOSE of one of the host's own FIDs. The message has at least 35 bytes, which is what a CLOSE's FID needs. */
static bool is_own_close(const struct request *request)
{
    const uint8_t *block = request->message + HEADER;
    return block[0] == 3 && find_own_open(request, get16(block + 1)) != NULL;
}

/* TREE_DISCONNECT and CLOSE are the host's if their number is one of the host's own, which the library does not know. */
static const struct own_command *own_command_of(const struct request *request, uint8_t number)
{
    if (number == CMD_TREE_DISCONNECT && find_own_tree(request) != NULL)
        return &own_tree_disconnect;
    if (number == CMD_CLOSE && is_own_close(request))
        return &own_close;
    return find_own(number);
}

uint32_t refused(const struct request *request, const struct status *status)
{
    return status_for(request->message, status);
}

uint32_t judge_session(const struct request *request)
{
    const struct gateway_tables *tables = request->host->tables;
    for (size_t place = 0; place < tables->session_count; place++)
        if (tables->sessions[place].uid == request->uid && tables->sessions[place].connection == request->connection->number)
            return 0;
    return refused(request, &BAD_UID);
}

/* A TID serves the UID that connected it and no other, as in document 01: "no tree of that TID and UID". */
uint32_t judge_tree(const struct request *request)
{
    const struct gateway_tables *tables = request->host->tables;
    uint32_t status = judge_session(request);
    for (size_t place = 0; status == 0 && place < tables->tree_count; place++)
        if (tables->trees[place].tid == request->tid && tables->trees[place].uid == request->uid)
            return 0;
    return status != 0 ? status : refused(request, &BAD_TID);
}

const struct gateway_open *find_open(const struct request *request, unsigned fid)
{
    const struct gateway_tables *tables = request->host->tables;
    for (size_t place = 0; place < tables->open_count; place++) {
        const struct gateway_open *open = &tables->opens[place];
        if (open->fid == fid && open->uid == request->uid && open->tid == request->tid)
            return open;
    }
    return NULL;
}

/* Hands a message to the library. False: it was dropped. The reply is in the host's room. */
static bool take_message(struct request *request, const uint8_t *message, size_t length, size_t *reply_length)
{
    struct host *host = request->host;
    struct gateway_holder holder;
    uint8_t number = gateway_take_message(host->tables, request->connection->number, message, length, host->memory,
                                          GATEWAY_MEMORY, host->room, GATEWAY_ROOM, reply_length, &holder);
    if (number == GATEWAY_DROPPED)
        return false;
    require_done(number, "gateway_take_message");
    if (holder.held == 1)
        log_refused_lock(host, request->connection, host->room, *reply_length, &holder);
    return true;
}

uint32_t ask_library(struct request *request, uint8_t command, const uint8_t *words, size_t word_count, const uint8_t *bytes,
                     size_t byte_count)
{
    uint8_t *message = request->host->message;
    size_t end = HEADER + 1 + 2 * word_count, reply_length = 0;
    memcpy(message, request->message, HEADER);
    message[AT_COMMAND] = command;
    set16(message + AT_UID, request->uid);
    set16(message + AT_TID, request->tid);
    message[HEADER] = (uint8_t)word_count;
    memcpy(message + HEADER + 1, words, 2 * word_count);
    set16(message + end, (unsigned)byte_count);
    memcpy(message + end + 2, bytes, byte_count);
    if (!take_message(request, message, end + 2 + byte_count, &reply_length))
        give_up("the library dropped the host's own message");
    return get32(request->host->room + AT_STATUS);
}

void after_message(struct host *host)
{
    remove_own(host);
    save_files(host);
}

/* A chain's rest that is the library's: it goes there as a message of its own, and its reply's blocks behind the host's. */
static void serve_rest(struct request *request, const struct block *rest, struct reply *reply)
{
    size_t reply_length = 0;
    make_rest(request, rest, request->host->message);
    if (!take_message(request, request->host->message, request->length, &reply_length))
        give_up("the library dropped the rest of a chain");
    join_reply(reply, rest->command, request->host->room, reply_length);
}

/* Carries out one of the host's commands. False: it was refused, and the chain ends. */
static bool serve_own(struct request *request, const struct own_command *own, struct reply *reply)
{
    size_t block = reply->length;
    uint32_t status = own->carry_out(request, reply);
    if (status == 0 && reply->full)
        status = refused(request, &NO_RESOURCES);
    if (status != 0)
        refuse(reply, block, status);
    return status == 0;
}

/*
 * A message whose first command is the host's. It is judged as far as the host's commands go before any is carried out, as
 * document 01 has it for the library's; each block lies behind the one before, so the loop ends.
 */
static void serve_chain(struct request *request, struct reply *reply)
{
    struct block next;
    bool more = read_block(request->message, request->length, HEADER, request->message[AT_COMMAND], &next)
                && judge_chain(request->message, request->length, &next);
    if (!more) {
        refuse(reply, HEADER, refused(request, &INVALID_SMB));
        return;
    }
    while (more) {
        const struct own_command *own = own_command_of(request, next.command);
        request->block = next;
        if (own == NULL) {
            serve_rest(request, &next, reply);
            return;
        }
        size_t block = reply->length;
        more = serve_own(request, own, reply) && next_block(request->message, request->length, &request->block, &next);
        if (more)
            link_block(reply, block, next.command);
    }
}

/* ECHO: its bytes come back as often as it asks, each time with another number. The clients that serve here ask once. */
static bool serve_echo(struct request *request)
{
    struct host *host = request->host;
    struct reply reply;
    bool good = read_block(request->message, request->length, HEADER, CMD_ECHO, &request->block);
    good = good && request->block.word_count == 1;
    unsigned count = good ? get16(request->block.words) : 1;
    for (unsigned turn = 1; turn <= count && turn <= MOST_ECHOES; turn++) {
        begin_reply(&reply, host->reply, GATEWAY_ROOM, request->message);
        if (good) {
            begin_block(&reply, 1);
            put16(&reply, turn);
            begin_bytes(&reply);
            put_bytes(&reply, request->block.bytes, request->block.byte_count);
            end_block(&reply);
        } else {
            refuse(&reply, HEADER, refused(request, &INVALID_SMB));
        }
        send_message(host, request->connection, reply.room, reply.length);
    }
    return true;
}

/* The library drops what is no request, and the client is hung up on: one that waits for a reply would wait for ever. */
static bool serve_library(struct request *request)
{
    struct host *host = request->host;
    size_t reply_length = 0;
    if (!take_message(request, request->message, request->length, &reply_length)) {
        log_connection(request->connection, "sent what is no request");
        return false;
    }
    show_exchange(request, host->room, reply_length);
    send_message(host, request->connection, host->room, reply_length);
    return true;
}

static bool serve_host(struct request *request)
{
    struct reply reply;
    begin_reply(&reply, request->host->reply, GATEWAY_ROOM, request->message);
    serve_chain(request, &reply);
    show_exchange(request, reply.room, reply.length);
    send_message(request->host, request->connection, reply.room, reply.length);
    return true;
}

/* Row 1 of document 01's table: whether the library would drop the message. */
static bool is_request(const uint8_t *message, size_t length)
{
    static const uint8_t protocol[] = {0xFF, 'S', 'M', 'B'};
    return length >= SHORTEST_MESSAGE && length <= LONGEST_MESSAGE && memcmp(message, protocol, sizeof protocol) == 0
           && (message[AT_FLAGS] & FLAGS_REPLY) == 0;
}

bool serve_message(struct host *host, struct connection *connection, const uint8_t *message, size_t length)
{
    struct request request = {
        .host = host, .connection = connection, .message = message, .length = length, .opened = JUST_OPENED};
    bool good;
    if (!is_request(message, length))
        return serve_library(&request);
    request.uid = (uint16_t)get16(message + AT_UID);
    request.tid = (uint16_t)get16(message + AT_TID);
    if (message[AT_COMMAND] == CMD_NT_CANCEL)
        return true; /* nothing ever waits here, and a cancel has no reply ([MS-CIFS]) */
    if (message[AT_COMMAND] == CMD_ECHO)
        good = serve_echo(&request);
    else if (own_command_of(&request, message[AT_COMMAND]) != NULL)
        good = serve_host(&request);
    else
        good = serve_library(&request);
    after_message(host);
    return good;
}
