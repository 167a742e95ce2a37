#include "exchange.h"
#include "query.h"
#include "show.h"

#include <ctype.h>
#include <inttypes.h>
#include <stdio.h>

#define TEXT_SHOWN 64 /* bytes of data that are shown at most */

static const struct {
    uint8_t number;
    const char *name;
} names[] = {
    {CMD_CLOSE, "CLOSE"},
    {CMD_QUERY_INFORMATION, "QUERY_INFORMATION"},
    {CMD_READ, "READ"},
    {CMD_WRITE, "WRITE"},
    {CMD_LOCK_BYTE_RANGE, "LOCK_BYTE_RANGE"},
    {CMD_UNLOCK_BYTE_RANGE, "UNLOCK_BYTE_RANGE"},
    {CMD_CHECK_DIRECTORY, "CHECK_DIRECTORY"},
    {CMD_PROCESS_EXIT, "PROCESS_EXIT"},
    {CMD_QUERY_INFORMATION2, "QUERY_INFORMATION2"},
    {CMD_LOCKING_ANDX, "LOCKING_ANDX"},
    {CMD_TRANSACTION, "TRANSACTION"},
    {CMD_ECHO, "ECHO"},
    {CMD_OPEN_ANDX, "OPEN_ANDX"},
    {CMD_READ_ANDX, "READ_ANDX"},
    {CMD_WRITE_ANDX, "WRITE_ANDX"},
    {CMD_TRANSACTION2, "TRANSACTION2"},
    {CMD_FIND_CLOSE2, "FIND_CLOSE2"},
    {CMD_TREE_DISCONNECT, "TREE_DISCONNECT"},
    {CMD_NEGOTIATE, "NEGOTIATE"},
    {CMD_SESSION_SETUP_ANDX, "SESSION_SETUP_ANDX"},
    {CMD_LOGOFF_ANDX, "LOGOFF_ANDX"},
    {CMD_TREE_CONNECT_ANDX, "TREE_CONNECT_ANDX"},
    {CMD_QUERY_INFORMATION_DISK, "QUERY_INFORMATION_DISK"},
    {CMD_NT_CREATE_ANDX, "NT_CREATE_ANDX"},
    {CMD_NT_CANCEL, "NT_CANCEL"},
};

const char *command_name(uint8_t command)
{
    for (size_t place = 0; place < sizeof names / sizeof names[0]; place++)
        if (names[place].number == command)
            return names[place].name;
    return "a command that is not served";
}

static void put_text(const uint8_t *bytes, size_t length)
{
    for (size_t place = 0; place < length && place < TEXT_SHOWN; place++)
        putchar(isprint(bytes[place]) ? bytes[place] : bytes[place] == '\n' ? ' ' : '.');
    if (length > TEXT_SHOWN)
        printf("..");
}

/* A FID, or what 0xFFFF means in a chain. */
static void put_fid(unsigned fid)
{
    if (fid == JUST_OPENED)
        printf(" of the file just opened");
    else
        printf(" of FID %u", fid);
}

/* The first range of a LOCKING_ANDX in its short form, unlocks before locks. */
static void put_locking(const struct block *block)
{
    unsigned unlocks = get16(block->words + 12), locks = get16(block->words + 14);
    put_fid(get16(block->words + 4));
    printf(": %u to release, %u to take", unlocks, locks);
    if (unlocks + locks > 0 && (block->words[6] & 0x10) == 0 && block->byte_count >= 10 && get32(block->bytes + 6) > 0)
        printf(", bytes %" PRIu32 " to %" PRIu64, get32(block->bytes + 2),
               (uint64_t)get32(block->bytes + 2) + get32(block->bytes + 6) - 1);
}

static void put_name(const struct block *block)
{
    printf(" of \"");
    put_text(block->bytes, string_length(block->bytes, block->byte_count));
    printf("\"");
}

/* What a request's block asks for. */
static void put_asked(const struct block *block)
{
    const uint8_t *words = block->words;
    printf("%s", command_name(block->command));
    if (block->command == CMD_LOCKING_ANDX && block->word_count == 8) {
        put_locking(block);
    } else if (block->command == CMD_READ_ANDX && block->word_count >= 10) {
        put_fid(get16(words + 4));
        printf(": up to %u bytes from %" PRIu32, get16(words + 10), get32(words + 6));
    } else if (block->command == CMD_WRITE_ANDX && block->word_count >= 12) {
        put_fid(get16(words + 4));
        printf(": %u bytes from %" PRIu32, get16(words + 20), get32(words + 6));
    } else if (block->command == CMD_CLOSE && block->word_count == 3) {
        put_fid(get16(words));
    } else if (block->command == CMD_OPEN_ANDX || block->command == CMD_NT_CREATE_ANDX) {
        put_name(block);
    }
}

/* What a reply's block says beside that it is done. */
static void put_given(const struct block *block)
{
    const uint8_t *words = block->words;
    printf("%s", command_name(block->command));
    if (block->word_count == 0 && is_andx(block->command)) {
        printf(" not done");
    } else if (block->command == CMD_READ_ANDX && block->word_count == 12) {
        printf(": %zu bytes, \"", block->byte_count);
        put_text(block->bytes, block->byte_count);
        printf("\"");
    } else if (block->command == CMD_OPEN_ANDX && block->word_count == 15) {
        printf(": FID %u", get16(words + 4));
    } else if (block->command == CMD_NT_CREATE_ANDX && block->word_count == 34) {
        printf(": FID %u", get16(words + 5));
    } else if (block->command == CMD_WRITE_ANDX && block->word_count == 6) {
        printf(": %u bytes", get16(words + 4));
    }
}

/* Each block of a chain, as long as they lie one behind the other. */
static void put_chain(const uint8_t *message, size_t length, void (*put)(const struct block *block))
{
    struct block block;
    uint8_t command = message[AT_COMMAND];
    size_t start = HEADER;
    bool more = true;
    while (more && read_block(message, length, start, command, &block)) {
        if (start != HEADER)
            printf("; then ");
        put(&block);
        more = is_andx(command) && block.word_count >= 2 && block.words[0] != NO_COMMAND && get16(block.words + 2) >= block.end;
        command = more ? block.words[0] : command;
        start = more ? get16(block.words + 2) : start;
    }
}

void show_exchange(const struct request *request, const uint8_t *reply, size_t length)
{
    const char *words = own_status_in_words(reply);
    if (!request->host->show)
        return;
    printf("connection %" PRIu32 ": ", request->connection->number);
    put_chain(request->message, request->length, put_asked);
    printf("\n      answer: %s: ", words != NULL ? words : status_in_words(reply));
    put_chain(reply, length, put_given);
    printf("\n");
    fflush(stdout);
}
