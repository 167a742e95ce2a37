#include "show.h"

#include <ctype.h>
#include <inttypes.h>
#include <stdbool.h>
#include <stdio.h>

#define NT_STATUS 0x4000 /* the bit of Flags2, at 10 of a header, with which Status is an NTSTATUS */
#define FIRST_BLOCK 32 /* the first block stands behind the header */
#define NO_COMMAND 0xFF /* an AndXCommand that ends the chain */
#define CORE_READ 0x0A
#define OPEN_ANDX 0x2D
#define OPENED_WORDS 15 /* words of an OPEN_ANDX's reply */
#define DATA_BLOCK 3 /* bytes before a core READ's data: a mark, and the length in two bytes */
#define DUMP_WIDTH 16

/*
 * A status in both of its forms, as it stands in a header at 5: class, 0 and code, or, with NT_STATUS in Flags2, an NTSTATUS,
 * with its name in [MS-CIFS] and [MS-ERREF]. 1/33 is two of these: a lock refused, then a read or write refused.
 */
struct status {
    unsigned class, code;
    unsigned long nt;
    const char *name;
    const char *words;
};

static const struct status statuses[] = {
    {0, 0, 0x00000000, "STATUS_SUCCESS", "done"},
    {1, 2, 0xC000000F, "STATUS_NO_SUCH_FILE", "no such name"},
    {1, 4, 0xC000011F, "STATUS_TOO_MANY_OPENED_FILES", "all 64 FIDs in use"},
    {1, 5, 0xC0000022, "STATUS_ACCESS_DENIED", "access refused"},
    {1, 6, 0xC0000008, "STATUS_INVALID_HANDLE", "no open of that FID, UID and TID"},
    {1, 8, 0xC0000205, "STATUS_INSUFF_SERVER_RESOURCES", "no lock record free"},
    {1, 12, 0x000C0001, "STATUS_OS2_INVALID_ACCESS", "access or sharing code not served"},
    {1, 32, 0xC0000043, "STATUS_SHARING_VIOLATION", "sharing conflict"},
    {1, 33, 0xC0000055, "STATUS_LOCK_NOT_GRANTED", "lock conflict"},
    {1, 33, 0xC0000054, "STATUS_FILE_LOCK_CONFLICT", "lock conflict"},
    {1, 87, 0xC000000D, "STATUS_INVALID_PARAMETER", "lock range passes 2^64"},
    {1, 158, 0xC000007E, "STATUS_RANGE_NOT_LOCKED", "no such lock to release"},
    {2, 1, 0x00010002, "STATUS_INVALID_SMB", "not a sentence of the grammar"},
    {2, 5, 0x00050002, "STATUS_SMB_BAD_TID", "no tree of that TID and UID"},
    {2, 22, 0x00160002, "STATUS_SMB_BAD_COMMAND", "command not served"},
    {2, 91, 0x005B0002, "STATUS_SMB_BAD_UID", "no session of that UID on this connection"},
    {2, 65535, 0xC00000BB, "STATUS_NOT_SUPPORTED", "lock type or OpenMode not served"},
    {3, 39, 0xC000007F, "STATUS_DISK_FULL", "write would end past 4,096"},
};

static const struct status not_defined = {0, 0, 0, "of no name", "a status that is not defined"};

struct command {
    unsigned number;
    const char *name;
    bool andx; /* whether the words of its reply begin with AndX, which name the next block's command and place */
};

static const struct command commands[] = {
    {0x04, "CLOSE", false},
    {CORE_READ, "READ", false},
    {0x0B, "WRITE", false},
    {0x0C, "LOCK_BYTE_RANGE", false},
    {0x0D, "UNLOCK_BYTE_RANGE", false},
    {0x11, "PROCESS_EXIT", false},
    {0x24, "LOCKING_ANDX", true},
    {OPEN_ANDX, "OPEN_ANDX", true},
    {0x2E, "READ_ANDX", true},
    {0x2F, "WRITE_ANDX", true},
    {0x71, "TREE_DISCONNECT", false},
    {0x74, "LOGOFF_ANDX", true},
};

static const struct command not_served = {0, "a command that is not served", false};

/* An open's access codes, and its sharing codes from GATEWAY_DENY_BOTH on. */
static const char *const accesses[] = {"read", "write", "both"};
static const char *const sharings[] = {"deny both", "deny write", "deny read", "deny none"};

const char *number_in_words(uint8_t number)
{
    switch (number) {
    case GATEWAY_DONE:
        return "done";
    case GATEWAY_DROPPED:
        return "message dropped";
    case GATEWAY_WRONG_ROOM:
        return "reply room or file memory of the wrong size";
    case GATEWAY_NOT_SOUND:
        return "tables not sound";
    case GATEWAY_FULL:
        return "table full";
    case GATEWAY_NO_SUCH:
        return "no such session, tree or open";
    case GATEWAY_OUT_OF_RANGE:
        return "number out of range";
    case GATEWAY_EXCEEDS_RIGHT:
        return "open would exceed its tree's right";
    case GATEWAY_FILE_OPEN:
        return "the file has an open";
    }
    return "a number that is not defined";
}

const char *stream_number_in_words(uint8_t number)
{
    switch (number) {
    case GATEWAY_STREAM_OTHER_TYPE:
        return "a header of another type";
    case GATEWAY_STREAM_RESERVED_FLAGS:
        return "reserved flag bits";
    case GATEWAY_STREAM_KEEP_ALIVE_LENGTH:
        return "a keep-alive with a length";
    case GATEWAY_STREAM_TOO_LONG:
        return "a message of more than 8,192 bytes";
    case GATEWAY_STREAM_NO_SUCH_STATE:
        return "a state that no stream leaves";
    }
    return "a number that is not defined";
}

static const struct command *find_command(unsigned number)
{
    for (size_t place = 0; place < sizeof commands / sizeof commands[0]; place++)
        if (commands[place].number == number)
            return &commands[place];
    return &not_served;
}

/* A code's words, of those that a list has from a first code on. */
static const char *code_in_words(uint64_t code, uint64_t first, const char *const *words, size_t count)
{
    return code >= first && code - first < count ? words[code - first] : "a code that is not defined";
}

static const char *access_in_words(uint64_t access)
{
    return code_in_words(access, 0, accesses, sizeof accesses / sizeof accesses[0]);
}

static const char *sharing_in_words(uint64_t sharing)
{
    return code_in_words(sharing, GATEWAY_DENY_BOTH, sharings, sizeof sharings / sizeof sharings[0]);
}

static unsigned get_word(const uint8_t *bytes)
{
    return bytes[0] | (unsigned)bytes[1] << 8;
}

static unsigned long get_double(const uint8_t *bytes)
{
    return get_word(bytes) | (unsigned long)get_word(bytes + 2) << 16;
}

static bool has_nt_status(const uint8_t *reply)
{
    return (get_word(reply + 10) & NT_STATUS) != 0;
}

static const struct status *find_status(const uint8_t *reply)
{
    for (size_t place = 0; place < sizeof statuses / sizeof statuses[0]; place++) {
        const struct status *status = &statuses[place];
        if (has_nt_status(reply) ? status->nt == get_double(reply + 5)
                                 : status->class == reply[5] && status->code == get_word(reply + 7))
            return status;
    }
    return &not_defined;
}

const char *status_in_words(const uint8_t *reply)
{
    return find_status(reply)->words;
}

/* The status in the form that its reply has. */
static void show_status(const uint8_t *reply)
{
    const struct status *status = find_status(reply);
    if (has_nt_status(reply))
        printf("  status %08lX %s: %s\n", get_double(reply + 5), status->name, status->words);
    else
        printf("  status %u/%u: %s\n", reply[5], get_word(reply + 7), status->words);
}

static void put_hex(const uint8_t *bytes, size_t length)
{
    for (size_t place = 0; place < length; place++)
        printf(" %02X", bytes[place]);
}

static void put_text(const uint8_t *bytes, size_t length)
{
    for (size_t place = 0; place < length; place++)
        putchar(isprint(bytes[place]) ? bytes[place] : '.');
}

static void show_dump(const uint8_t *bytes, size_t length)
{
    for (size_t start = 0; start < length; start += DUMP_WIDTH) {
        size_t width = length - start < DUMP_WIDTH ? length - start : DUMP_WIDTH;
        printf("    %04zx ", start);
        put_hex(bytes + start, width);
        printf("%*s", (int)(3 * (DUMP_WIDTH - width) + 2), "");
        put_text(bytes + start, width);
        putchar('\n');
    }
}

static const char *plural(size_t number)
{
    return number == 1 ? "" : "s";
}

/* The bytes of a block. A core READ's are a data block. */
static void show_bytes(const uint8_t *reply, size_t start, size_t length, unsigned command)
{
    if (command == CORE_READ && length >= DATA_BLOCK) {
        printf("    data block at %zu: mark %u, length %u\n", start, reply[start], get_word(reply + start + 1));
        start += DATA_BLOCK;
        length -= DATA_BLOCK;
    }
    if (length == 0)
        return;
    printf("    data at %zu: \"", start);
    put_text(reply + start, length);
    printf("\"\n");
}

/*
 * The words of an OPEN_ANDX's reply: behind AndX the FID at 4, and the size at 12, the access at 16 and OpenResults at 22, which
 * are all 0 unless the request asked for them.
 */
static void show_opened(const uint8_t *words)
{
    unsigned access = get_word(words + 16), results = get_word(words + 22);
    printf("    FID %u", get_word(words + 4));
    if (results != 0)
        printf(", size %lu, access %u (%s), OpenResults %u", get_double(words + 12), access, access_in_words(access), results);
    putchar('\n');
}

/* Shows a block and answers where the next one stands: 0 if there is none. A block is WordCount, words, ByteCount, bytes. */
static size_t show_block(const uint8_t *reply, size_t length, size_t start, unsigned command)
{
    const struct command *served = find_command(command);
    size_t words = start < length ? reply[start] : 0;
    size_t data = start + 1 + 2 * words + 2;
    size_t bytes = data <= length ? get_word(reply + data - 2) : 0;
    if (data + bytes > length) {
        printf("  block at %zu: passes the end of the reply\n", start);
        return 0;
    }
    printf("  block at %zu: %s (%02X), %zu word%s, %zu byte%s\n", start, served->name, command, words, plural(words), bytes,
           plural(bytes));
    if (words == 0)
        return 0;
    printf("    words");
    put_hex(reply + start + 1, 2 * words);
    putchar('\n');
    if (command == OPEN_ANDX && words == OPENED_WORDS)
        show_opened(reply + start + 1);
    show_bytes(reply, data, bytes, command);
    if (!served->andx)
        return 0;
    size_t next = get_word(reply + start + 3);
    return reply[start + 1] != NO_COMMAND && next > start ? next : 0;
}

/* The first block is the header's command's; each AndX block names the next one. */
static void show_blocks(const uint8_t *reply, size_t length)
{
    unsigned command = reply[4];
    size_t start = FIRST_BLOCK;
    while (start != 0) {
        size_t next = show_block(reply, length, start, command);
        if (next != 0)
            command = reply[start + 1];
        start = next;
    }
}

/* A holder's open stands in the tables that its call left, and so does its session. */
uint64_t connection_of(const struct gateway_tables *tables, uint64_t fid)
{
    uint64_t uid = 0, connection = 0;
    for (size_t place = 0; place < tables->open_count; place++)
        if (tables->opens[place].fid == fid)
            uid = tables->opens[place].uid;
    for (size_t place = 0; place < tables->session_count; place++)
        if (tables->sessions[place].uid == uid)
            connection = tables->sessions[place].connection;
    return connection;
}

bool still_held(const struct gateway_tables *tables, const struct gateway_holder *holder)
{
    for (size_t place = 0; place < tables->lock_count; place++) {
        const struct gateway_lock *lock = &tables->locks[place];
        if (lock->fid == holder->fid && lock->process == holder->process && lock->offset == holder->offset
            && lock->length == holder->length)
            return true;
    }
    return false;
}

/* A line for the plant's log: whose lock is in the way. */
static void put_holder(const struct gateway_tables *tables, const struct gateway_holder *holder)
{
    printf("FID %" PRIu64 " of process %" PRIu64 " on connection %" PRIu64 " %s bytes %" PRIu64 " to %" PRIu64 "\n",
           holder->fid, holder->process, connection_of(tables, holder->fid),
           still_held(tables, holder) ? "holds" : "asked in the same request for", holder->offset,
           holder->offset + (holder->length - 1));
}

static void show_holder(const struct gateway_tables *tables, const struct gateway_holder *holder)
{
    if (holder->held == 0)
        return;
    printf("  ");
    put_holder(tables, holder);
    printf("  place in the list of locks as it then stood: %" PRIu64 "\n", holder->place);
}

static void show_tables(const struct gateway_tables *tables)
{
    printf("  tables: sessions %" PRIu64 ", trees %" PRIu64 ", opens %" PRIu64 ", locks %" PRIu64 ", names %" PRIu64 "\n",
           tables->session_count, tables->tree_count, tables->open_count, tables->lock_count, tables->catalogue.count);
}

/* The opens, each with what it has and what it denies. */
static void show_opens(const struct gateway_tables *tables)
{
    for (size_t place = 0; place < tables->open_count; place++) {
        const struct gateway_open *open = &tables->opens[place];
        printf("    FID %" PRIu64 " of process %" PRIu64 " on connection %" PRIu64 ": file %" PRIu64 ", access %" PRIu64
               " (%s), sharing %" PRIu64 " (%s)\n",
               open->fid, open->process, connection_of(tables, open->fid), open->file, open->access,
               access_in_words(open->access), open->sharing, sharing_in_words(open->sharing));
    }
}

static void show_catalogue(const struct gateway_catalogue *catalogue)
{
    printf("    catalogue:");
    for (size_t place = 0; place < catalogue->count; place++) {
        const struct gateway_name *name = &catalogue->names[place];
        uint8_t text[GATEWAY_NAME_BYTES];
        for (size_t byte = 0; byte < name->length; byte++)
            text[byte] = (uint8_t)name->text[byte];
        printf("%s \"", place == 0 ? "" : ",");
        put_text(text, name->length);
        printf("\" file %" PRIu64, name->file);
    }
    putchar('\n');
}

void show_message(unsigned long place, uint32_t connection, size_t length)
{
    printf("message %lu on connection %" PRIu32 ": %zu bytes\n", place, connection, length);
}

/* What an open has read, and where its file is now. */
static void show_changes(const struct gateway_tables *tables, uint32_t fid)
{
    for (size_t place = 0; place < tables->open_count; place++) {
        const struct gateway_open *open = &tables->opens[place];
        if (open->fid != fid)
            continue;
        printf("file %" PRIu64 " is at change number %" PRIu64 ", ", open->file, tables->files[open->file].changes);
        if (open->read == 0)
            printf("which FID %" PRIu64 " has not read\n", open->fid);
        else
            printf("FID %" PRIu64 " read it at %" PRIu64 "\n", open->fid, open->seen);
    }
}

void show_asked(uint32_t connection, uint32_t fid, uint8_t number, uint16_t unchanged, const struct gateway_tables *tables)
{
    printf("question on connection %" PRIu32 ": has the file of FID %" PRIu32 " changed?\n", connection, fid);
    printf("  returned %u: %s\n", (unsigned)number, number_in_words(number));
    if (number != GATEWAY_DONE)
        return;
    printf("  %s: ", unchanged == 1 ? "unchanged" : "changed");
    show_changes(tables, fid);
}

void show_taken(uint8_t number, const uint8_t *reply, size_t length, const struct gateway_holder *holder,
                const struct gateway_tables *tables)
{
    printf("  returned %u: %s\n", (unsigned)number, number_in_words(number));
    if (number == GATEWAY_DONE && length >= FIRST_BLOCK) {
        show_status(reply);
        show_holder(tables, holder);
        show_blocks(reply, length);
        printf("  reply, %zu bytes:\n", length);
        show_dump(reply, length);
    }
    show_tables(tables);
    /* What an OPEN_ANDX was judged by, and what it left. */
    if (number == GATEWAY_DONE && reply[4] == OPEN_ANDX) {
        show_opens(tables);
        show_catalogue(&tables->catalogue);
    }
}
