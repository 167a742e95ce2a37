#include "split.h"

#include <string.h>

/*
 * What may follow the host's commands, of all that is served here ([MS-CIFS], the permitted commands of each ANDX). What may
 * follow the library's is the library's to say.
 */
static const uint8_t pairs[][2] = {
    {CMD_SESSION_SETUP_ANDX, CMD_TREE_CONNECT_ANDX},
    {CMD_SESSION_SETUP_ANDX, CMD_OPEN_ANDX},
    {CMD_SESSION_SETUP_ANDX, CMD_QUERY_INFORMATION},
    {CMD_SESSION_SETUP_ANDX, CMD_CHECK_DIRECTORY},
    {CMD_TREE_CONNECT_ANDX, CMD_OPEN_ANDX},
    {CMD_TREE_CONNECT_ANDX, CMD_QUERY_INFORMATION},
    {CMD_TREE_CONNECT_ANDX, CMD_CHECK_DIRECTORY},
    {CMD_NT_CREATE_ANDX, CMD_READ},
    {CMD_NT_CREATE_ANDX, CMD_READ_ANDX},
};

static bool may_follow(uint8_t command, uint8_t next)
{
    for (size_t place = 0; place < sizeof pairs / sizeof pairs[0]; place++)
        if (pairs[place][0] == command && pairs[place][1] == next)
            return true;
    return false;
}

/* Whether a chain goes on behind a block. Fewer than two words have no AndX in them. */
static bool goes_on(const struct block *block)
{
    return is_andx(block->command) && block->word_count >= 2 && block->words[0] != NO_COMMAND;
}

/* As in document 01: the offset is from the header's start and at least the end of the block. */
bool next_block(const uint8_t *message, size_t length, const struct block *block, struct block *next)
{
    if (!goes_on(block))
        return false;
    size_t start = get16(block->words + 2);
    return start >= block->end && may_follow(block->command, block->words[0])
           && read_block(message, length, start, block->words[0], next);
}

bool judge_chain(const uint8_t *message, size_t length, const struct block *first)
{
    struct block block = *first, next;
    while (next_block(message, length, &block, &next))
        block = next;
    /* The last block read ends the chain, or it is the library's, which judges the rest, or what follows it is no good. */
    return !goes_on(&block) || block.command == CMD_OPEN_ANDX || block.command == CMD_READ_ANDX;
}

/* Where the FID stands in the words of the two commands that may follow NT_CREATE_ANDX. */
static uint8_t *fid_of(uint8_t *words, uint8_t command)
{
    return words + (command == CMD_READ_ANDX ? 4 : 0);
}

/*
 * The rest's first block is moved to the place behind the header; all others stay where they are, so that every AndXOffset
 * is as right as it was: by document 01 the bytes between blocks are free. (A WRITE_ANDX would need its DataOffset made less
 * by as much; none follows a command of the host's.) The header has the block's command, and the UID and TID that the commands
 * before it gave. FID 0xFFFF means the file that NT_CREATE_ANDX opened, as CR 6 has it for OPEN_ANDX.
 */
void make_rest(const struct request *request, const struct block *rest, uint8_t *made)
{
    memcpy(made, request->message, request->length);
    memmove(made + HEADER, made + rest->start, rest->end - rest->start);
    made[AT_COMMAND] = rest->command;
    set16(made + AT_UID, request->uid);
    set16(made + AT_TID, request->tid);
    if (request->opened == JUST_OPENED || rest->word_count < 5)
        return;
    uint8_t *fid = fid_of(made + HEADER + 1, rest->command);
    if (get16(fid) == JUST_OPENED)
        set16(fid, request->opened);
}

void link_block(struct reply *reply, size_t block, uint8_t command)
{
    reply->room[block + 1] = command;
    set16(reply->room + block + 3, (unsigned)reply->length);
}

/*
 * The offsets in a reply are from its header's start. The library's blocks stand so much further on: each AndXOffset and the
 * data offset of a READ_ANDX, the seventh word, grow by it.
 */
static void shift_offsets(uint8_t *room, size_t start, size_t shift, uint8_t command)
{
    while (is_andx(command) && room[start] >= 2) {
        uint8_t *words = room + start + 1;
        if (command == CMD_READ_ANDX && room[start] == 12)
            set16(words + 12, get16(words + 12) + (unsigned)shift);
        if (words[0] == NO_COMMAND)
            return;
        command = words[0];
        start = get16(words + 2) + shift;
        set16(words + 2, (unsigned)start);
    }
}

void join_reply(struct reply *reply, uint8_t command, const uint8_t *joined, size_t length)
{
    size_t start = reply->length;
    put_bytes(reply, joined + HEADER, length - HEADER);
    if (reply->full) {
        refuse(reply, start, get32(joined + AT_STATUS));
        return;
    }
    memcpy(reply->room + AT_STATUS, joined + AT_STATUS, 4);
    shift_offsets(reply->room, start, start - HEADER, command);
}
