/* SESSION_SETUP_ANDX: whoever asks is a guest. */
#include "serve.h"

/* So that one client cannot use up the library's 16 sessions. */
#define SESSIONS_OF_ONE 4

#define GUEST 0x0001
#define NT_WORDS 13  /* the request of NT LM 0.12 */
#define OLD_WORDS 10 /* the request of the dialects before, which some clients of NT LM 0.12 send */

/* The passwords, whose lengths the words have, lie inside the bytes. What they are is not looked at. */
static bool passwords_fit(const struct block *block)
{
    size_t passwords = get16(block->words + 14);
    if (block->word_count == NT_WORDS)
        passwords += get16(block->words + 16);
    return passwords <= block->byte_count;
}

static size_t sessions_of(const struct request *request)
{
    const struct gateway_tables *tables = request->host->tables;
    size_t count = 0;
    for (size_t place = 0; place < tables->session_count; place++)
        count += tables->sessions[place].connection == request->connection->number;
    return count;
}

uint32_t session_setup(struct request *request, struct reply *reply)
{
    const struct block *block = &request->block;
    if (!request->connection->negotiated || (block->word_count != NT_WORDS && block->word_count != OLD_WORDS)
        || !passwords_fit(block))
        return refused(request, &INVALID_SMB);
    if (sessions_of(request) >= SESSIONS_OF_ONE)
        return refused(request, &TOO_MANY_UIDS);
    uint8_t number = gateway_add_session(request->host->tables, request->connection->number, &request->uid);
    if (number == GATEWAY_FULL && close_silent(request->host, request->connection))
        number = gateway_add_session(request->host->tables, request->connection->number, &request->uid);
    if (number == GATEWAY_FULL)
        return refused(request, &TOO_MANY_UIDS);
    require_done(number, "gateway_add_session");
    request->connection->logged_in = true;
    set16(reply->room + AT_UID, request->uid);
    begin_andx_block(reply, 3);
    put16(reply, GUEST);
    begin_bytes(reply);
    put_string(reply, "Unix");
    put_string(reply, "Hazdumil");
    put_string(reply, "WORKGROUP");
    end_block(reply);
    return 0;
}
