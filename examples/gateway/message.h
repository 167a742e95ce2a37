/* SMB messages: the header, the blocks of a request read, the blocks of a reply written. All numbers have their low byte first. */
#ifndef MESSAGE_H
#define MESSAGE_H

#include <stdbool.h>
#include <stddef.h>
#include <stdint.h>

/* The header (source document 002). */
enum {
    AT_COMMAND = 4,
    AT_STATUS = 5,
    AT_FLAGS = 9,
    AT_FLAGS2 = 10,
    AT_PID_HIGH = 12,
    AT_TID = 24,
    AT_PID_LOW = 26,
    AT_UID = 28,
    AT_MID = 30,
    HEADER = 32 /* the first block stands here */
};

#define SHORTEST_MESSAGE 35   /* a header and a block with neither words nor bytes */
#define FLAGS_REPLY 0x80
#define FLAGS2_NT_STATUS 0x4000 /* Status is an NTSTATUS */
#define NO_COMMAND 0xFF       /* an AndXCommand that ends the chain */
#define JUST_OPENED 0xFFFF    /* as a FID: the file that the command before opened */

/* The commands that the host or the library serve. */
enum {
    CMD_CLOSE = 0x04,
    CMD_QUERY_INFORMATION = 0x08,
    CMD_READ = 0x0A,
    CMD_WRITE = 0x0B,
    CMD_LOCK_BYTE_RANGE = 0x0C,
    CMD_UNLOCK_BYTE_RANGE = 0x0D,
    CMD_CHECK_DIRECTORY = 0x10,
    CMD_PROCESS_EXIT = 0x11,
    CMD_QUERY_INFORMATION2 = 0x23,
    CMD_LOCKING_ANDX = 0x24,
    CMD_TRANSACTION = 0x25,
    CMD_ECHO = 0x2B,
    CMD_OPEN_ANDX = 0x2D,
    CMD_READ_ANDX = 0x2E,
    CMD_WRITE_ANDX = 0x2F,
    CMD_TRANSACTION2 = 0x32,
    CMD_FIND_CLOSE2 = 0x34,
    CMD_TREE_DISCONNECT = 0x71,
    CMD_NEGOTIATE = 0x72,
    CMD_SESSION_SETUP_ANDX = 0x73,
    CMD_LOGOFF_ANDX = 0x74,
    CMD_TREE_CONNECT_ANDX = 0x75,
    CMD_QUERY_INFORMATION_DISK = 0x80,
    CMD_NT_CREATE_ANDX = 0xA2,
    CMD_NT_CANCEL = 0xA4
};

/* A status in both of its forms, class and code or an NTSTATUS, and in words. */
struct status {
    uint8_t class;
    uint16_t code;
    uint32_t nt;
    const char *words;
};

extern const struct status DONE, INVALID_SMB, BAD_UID, BAD_TID, BAD_SHARE, BAD_DEVICE, TOO_MANY_UIDS, NO_RESOURCES,
    NOT_SUPPORTED, INVALID_HANDLE, ACCESS_DENIED, NO_SUCH_FILE, NAME_NOT_FOUND, NAME_COLLISION, SHARING_VIOLATION,
    TOO_MANY_OPENS, INVALID_LEVEL, IS_A_DIRECTORY, NOT_A_DIRECTORY;

/* A block of a request: WordCount, the words, ByteCount, the bytes, all inside the message. */
struct block {
    uint8_t command;
    size_t start;
    size_t end;
    const uint8_t *words;
    size_t word_count;
    const uint8_t *bytes;
    size_t byte_count;
};

unsigned get16(const uint8_t *bytes);
uint32_t get32(const uint8_t *bytes);
void set16(uint8_t *bytes, unsigned number);
void set32(uint8_t *bytes, uint32_t number);

/* Whether two bytes are the same, ASCII letters in either case: the rule of CR 6's catalogue. */
bool same_letter(uint8_t one, uint8_t other);

/* PIDHigh * 65,536 + PIDLow (CR 4). */
uint32_t process_of(const uint8_t *message);

/* The four bytes of Status in the form that the request asks for (CR 7). */
uint32_t status_for(const uint8_t *request, const struct status *status);

/* What a reply's Status means if it is one of the host's own; NULL if it is not. */
const char *own_status_in_words(const uint8_t *reply);

/* Whether a command's words begin with AndX. */
bool is_andx(uint8_t command);

/* Reads the block at a place. False: it is not all inside the message. */
bool read_block(const uint8_t *message, size_t length, size_t start, uint8_t command, struct block *block);

/*
 * A reply that grows. What does not fit is left out and `full` is set: a reply that is full must not be sent.
 */
struct reply {
    uint8_t *room;
    size_t size;
    size_t length;
    bool full;
    size_t block; /* where the block that is written starts */
    size_t bytes; /* where its ByteCount stands */
};

/* A header for the request, of Status 0, and nothing behind it. */
void begin_reply(struct reply *reply, uint8_t *room, size_t size, const uint8_t *request);

void put8(struct reply *reply, unsigned number);
void put16(struct reply *reply, unsigned number);
void put32(struct reply *reply, uint32_t number);
void put64(struct reply *reply, uint64_t number);
void put_bytes(struct reply *reply, const void *bytes, size_t length);
void put_zeros(struct reply *reply, size_t length);

/* A string with the zero byte that ends it. */
void put_string(struct reply *reply, const char *string);

/* WordCount; the words follow. */
void begin_block(struct reply *reply, unsigned word_count);

/* WordCount and AndX words behind which nothing follows; the other words follow. */
void begin_andx_block(struct reply *reply, unsigned word_count);

/* ByteCount; the bytes follow. */
void begin_bytes(struct reply *reply);

/* Sets ByteCount by what was put since. */
void end_block(struct reply *reply);

/* A block without bytes behind the words. */
void end_words(struct reply *reply);

/* Takes back what the last block has and puts a refused command's block, with neither words nor bytes. Sets Status. */
void refuse(struct reply *reply, size_t block, uint32_t status);

#endif
