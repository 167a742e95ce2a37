#include "message.h"

#include <string.h>

/* [MS-CIFS] and [MS-ERREF]; those of document 02, CR 7, have its numbers. */
const struct status DONE = {0, 0, 0, "done"};
const struct status INVALID_SMB = {2, 1, 0x00010002, "not a message of its command"};
const struct status BAD_TID = {2, 5, 0x00050002, "no tree of that TID and UID"};
const struct status BAD_SHARE = {2, 6, 0xC00000CC, "no such share"};
const struct status BAD_DEVICE = {2, 7, 0xC00000CB, "the share is of another kind"};
const struct status NO_RESOURCES = {2, 89, 0xC0000205, "no room for it"};
const struct status TOO_MANY_UIDS = {2, 90, 0x005A0002, "no session is free"};
const struct status BAD_UID = {2, 91, 0x005B0002, "no session of that UID on this connection"};
const struct status NOT_SUPPORTED = {2, 65535, 0xC00000BB, "not supported"};
const struct status NO_SUCH_FILE = {1, 2, 0xC000000F, "no such name"};
const struct status NAME_NOT_FOUND = {1, 2, 0xC0000034, "no such name"};
const struct status NOT_A_DIRECTORY = {1, 3, 0xC0000103, "not a directory"};
const struct status TOO_MANY_OPENS = {1, 4, 0xC000011F, "no FID is free"};
const struct status ACCESS_DENIED = {1, 5, 0xC0000022, "access refused"};
const struct status IS_A_DIRECTORY = {1, 5, 0xC00000BA, "a directory"};
const struct status INVALID_HANDLE = {1, 6, 0xC0000008, "no open of that FID, UID and TID"};
const struct status SHARING_VIOLATION = {1, 32, 0xC0000043, "sharing conflict"};
const struct status NAME_COLLISION = {1, 80, 0xC0000035, "the name exists"};
const struct status INVALID_LEVEL = {1, 124, 0xC0000148, "no such information level"};

unsigned get16(const uint8_t *bytes)
{
    return bytes[0] | (unsigned)bytes[1] << 8;
}

uint32_t get32(const uint8_t *bytes)
{
    return get16(bytes) | (uint32_t)get16(bytes + 2) << 16;
}

void set16(uint8_t *bytes, unsigned number)
{
    bytes[0] = (uint8_t)number;
    bytes[1] = (uint8_t)(number >> 8);
}

void set32(uint8_t *bytes, uint32_t number)
{
    set16(bytes, number & 0xFFFF);
    set16(bytes + 2, number >> 16);
}

static uint8_t lower(uint8_t letter)
{
    return letter >= 'A' && letter <= 'Z' ? (uint8_t)(letter + ('a' - 'A')) : letter;
}

bool same_letter(uint8_t one, uint8_t other)
{
    return lower(one) == lower(other);
}

uint32_t process_of(const uint8_t *message)
{
    return (uint32_t)get16(message + AT_PID_HIGH) << 16 | get16(message + AT_PID_LOW);
}

uint32_t status_for(const uint8_t *request, const struct status *status)
{
    if ((get16(request + AT_FLAGS2) & FLAGS2_NT_STATUS) != 0)
        return status->nt;
    return status->class | (uint32_t)status->code << 16;
}

static const struct status *const own_statuses[] = {
    &DONE, &INVALID_SMB, &BAD_TID, &BAD_SHARE, &BAD_DEVICE, &NO_RESOURCES, &TOO_MANY_UIDS, &BAD_UID, &NOT_SUPPORTED,
    &NO_SUCH_FILE, &NAME_NOT_FOUND, &NOT_A_DIRECTORY, &TOO_MANY_OPENS, &ACCESS_DENIED, &IS_A_DIRECTORY, &INVALID_HANDLE,
    &SHARING_VIOLATION, &NAME_COLLISION, &INVALID_LEVEL,
};

const char *own_status_in_words(const uint8_t *reply)
{
    for (size_t place = 0; place < sizeof own_statuses / sizeof own_statuses[0]; place++)
        if (status_for(reply, own_statuses[place]) == get32(reply + AT_STATUS))
            return own_statuses[place]->words;
    return NULL;
}

bool is_andx(uint8_t command)
{
    switch (command) {
    case CMD_LOCKING_ANDX:
    case CMD_OPEN_ANDX:
    case CMD_READ_ANDX:
    case CMD_WRITE_ANDX:
    case CMD_SESSION_SETUP_ANDX:
    case CMD_LOGOFF_ANDX:
    case CMD_TREE_CONNECT_ANDX:
    case CMD_NT_CREATE_ANDX:
        return true;
    }
    return false;
}

bool read_block(const uint8_t *message, size_t length, size_t start, uint8_t command, struct block *block)
{
    if (start >= length)
        return false;
    size_t word_count = message[start];
    size_t bytes = start + 1 + 2 * word_count + 2;
    if (bytes > length)
        return false;
    size_t byte_count = get16(message + bytes - 2);
    if (byte_count > length - bytes)
        return false;
    *block = (struct block){
        .command = command,
        .start = start,
        .end = bytes + byte_count,
        .words = message + start + 1,
        .word_count = word_count,
        .bytes = message + bytes,
        .byte_count = byte_count,
    };
    return true;
}

void put_bytes(struct reply *reply, const void *bytes, size_t length)
{
    if (length > reply->size - reply->length) {
        reply->full = true;
        return;
    }
    memcpy(reply->room + reply->length, bytes, length);
    reply->length += length;
}

void put_zeros(struct reply *reply, size_t length)
{
    if (length > reply->size - reply->length) {
        reply->full = true;
        return;
    }
    memset(reply->room + reply->length, 0, length);
    reply->length += length;
}

void put8(struct reply *reply, unsigned number)
{
    uint8_t byte = (uint8_t)number;
    put_bytes(reply, &byte, 1);
}

void put16(struct reply *reply, unsigned number)
{
    uint8_t bytes[2];
    set16(bytes, number);
    put_bytes(reply, bytes, sizeof bytes);
}

void put32(struct reply *reply, uint32_t number)
{
    uint8_t bytes[4];
    set32(bytes, number);
    put_bytes(reply, bytes, sizeof bytes);
}

void put64(struct reply *reply, uint64_t number)
{
    put32(reply, (uint32_t)number);
    put32(reply, (uint32_t)(number >> 32));
}

void put_string(struct reply *reply, const char *string)
{
    put_bytes(reply, string, strlen(string) + 1);
}

/* Document 01, "Header": what a reply copies; Flags2 keeps 0x0001, and since CR 7 0x4000. */
void begin_reply(struct reply *reply, uint8_t *room, size_t size, const uint8_t *request)
{
    *reply = (struct reply){.room = room, .size = size};
    put_zeros(reply, HEADER);
    memcpy(room, request, AT_STATUS);
    room[AT_FLAGS] = FLAGS_REPLY | (request[AT_FLAGS] & 0x08);
    set16(room + AT_FLAGS2, get16(request + AT_FLAGS2) & (FLAGS2_NT_STATUS | 0x0001));
    memcpy(room + AT_PID_HIGH, request + AT_PID_HIGH, 2);
    memcpy(room + AT_TID, request + AT_TID, HEADER - AT_TID);
}

void begin_block(struct reply *reply, unsigned word_count)
{
    reply->block = reply->length;
    put8(reply, word_count);
}

void begin_andx_block(struct reply *reply, unsigned word_count)
{
    begin_block(reply, word_count);
    put32(reply, NO_COMMAND);
}

void begin_bytes(struct reply *reply)
{
    reply->bytes = reply->length;
    put16(reply, 0);
}

void end_block(struct reply *reply)
{
    if (!reply->full)
        set16(reply->room + reply->bytes, (unsigned)(reply->length - reply->bytes - 2));
}

void end_words(struct reply *reply)
{
    begin_bytes(reply);
    end_block(reply);
}

void refuse(struct reply *reply, size_t block, uint32_t status)
{
    reply->length = block;
    reply->full = false;
    begin_block(reply, 0);
    end_words(reply);
    set32(reply->room + AT_STATUS, status);
}
