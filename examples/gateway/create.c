/* NT_CREATE_ANDX: opens a file of the directory, or the directory itself. No file is made and none removed. */
#include "files.h"
#include "own.h"
#include "query.h"

#define WORDS 24
#define REPLY_WORDS 34

/* DesiredAccess: each of these bits lets its user read, or write, the data. */
#define READS (0x00000001u | 0x00000020u | 0x02000000u | 0x10000000u | 0x20000000u | 0x80000000u)
#define WRITES (0x00000002u | 0x00000004u | 0x02000000u | 0x10000000u | 0x40000000u)

#define OPTION_DIRECTORY 0x00000001u
#define OPTION_NO_DIRECTORY 0x00000040u

/* The library's access codes. */
enum { ACCESS_READ = 0, ACCESS_WRITE = 1, ACCESS_BOTH = 2 };

/* CreateDisposition. */
enum { SUPERSEDE = 0, OPEN = 1, CREATE = 2, OPEN_IF = 3, OVERWRITE = 4, OVERWRITE_IF = 5 };

/* CreateAction of the reply. */
enum { WAS_SUPERSEDED = 0, WAS_OPENED = 1, WAS_OVERWRITTEN = 3 };

/* The words behind AndX, and the name among the bytes. */
struct asked {
    uint32_t desired, disposition, options;
    const uint8_t *name;
    size_t name_length;
};

/* NameLength is taken with or without the zero byte behind the name, as clients send both. */
static bool read_asked(const struct block *block, struct asked *asked)
{
    if (block->word_count != WORDS)
        return false;
    size_t length = get16(block->words + 5);
    if (length > block->byte_count || get32(block->words + 35) > OVERWRITE_IF)
        return false;
    *asked = (struct asked){
        .desired = get32(block->words + 15),
        .disposition = get32(block->words + 35),
        .options = get32(block->words + 39),
        .name = block->bytes,
        .name_length = string_length(block->bytes, length),
    };
    return true;
}

/* A request for neither, for attributes say, gets an open to read. */
static uint32_t access_of(uint32_t desired)
{
    if ((desired & WRITES) == 0)
        return ACCESS_READ;
    return (desired & READS) == 0 ? ACCESS_WRITE : ACCESS_BOTH;
}

/*
 * The library does not test the host's opens (CR 6: "opens by the host deny nothing and are not tested"), so what an
 * OPEN_ANDX has denied to others the host tests itself, by the tables.
 */
static bool is_denied(const struct gateway_tables *tables, size_t file, uint32_t access)
{
    for (size_t place = 0; place < tables->open_count; place++) {
        const struct gateway_open *open = &tables->opens[place];
        bool reading = open->sharing == GATEWAY_DENY_BOTH || open->sharing == GATEWAY_DENY_READ;
        bool writing = open->sharing == GATEWAY_DENY_BOTH || open->sharing == GATEWAY_DENY_WRITE;
        if (open->file == file && ((reading && access != ACCESS_WRITE) || (writing && access != ACCESS_READ)))
            return true;
    }
    return false;
}

static uint32_t judge(struct request *request, const struct asked *asked, size_t *file)
{
    uint32_t status = judge_tree(request);
    if (status != 0)
        return status;
    *file = find_file(request->host, asked->name, asked->name_length);
    bool makes = asked->disposition == CREATE || asked->disposition == OPEN_IF || asked->disposition == OVERWRITE_IF
                 || asked->disposition == SUPERSEDE;
    if (*file == NO_FILE)
        return refused(request, makes ? &ACCESS_DENIED : &NAME_NOT_FOUND);
    if (asked->disposition == CREATE)
        return refused(request, &NAME_COLLISION);
    if ((asked->options & OPTION_DIRECTORY) != 0)
        return refused(request, &NOT_A_DIRECTORY);
    if (is_denied(request->host->tables, *file, access_of(asked->desired)))
        return refused(request, &SHARING_VIOLATION);
    return 0;
}

/* A core WRITE of count 0 at 0, which cuts the file to nothing unless a lock is in its way; then the open goes again. */
static uint32_t cut(struct request *request, unsigned fid)
{
    uint8_t write[10] = {0};
    static const uint8_t nothing[] = {0x01, 0, 0};
    set16(write, fid);
    uint32_t status = ask_library(request, CMD_WRITE, write, 5, nothing, sizeof nothing);
    if (status != 0)
        require_done(gateway_end_open(request->host->tables, fid), "gateway_end_open");
    return status;
}

static uint32_t add_open(struct request *request, size_t file, const struct asked *asked)
{
    bool cuts = asked->disposition != OPEN && asked->disposition != OPEN_IF;
    uint32_t access = access_of(asked->desired);
    if (cuts && access == ACCESS_READ)
        access = ACCESS_BOTH;
    uint8_t number = gateway_add_open(request->host->tables, request->uid, request->tid, process_of(request->message),
                                      (uint32_t)file, access, &request->opened);
    if (number == GATEWAY_FULL)
        return refused(request, &TOO_MANY_OPENS);
    require_done(number, "gateway_add_open");
    return cuts ? cut(request, request->opened) : 0;
}

static unsigned action_of(uint32_t disposition)
{
    if (disposition == SUPERSEDE)
        return WAS_SUPERSEDED;
    return disposition == OVERWRITE || disposition == OVERWRITE_IF ? WAS_OVERWRITTEN : WAS_OPENED;
}

static void put_opened(struct reply *reply, unsigned fid, unsigned action, const struct about *about)
{
    begin_andx_block(reply, REPLY_WORDS);
    put8(reply, 0); /* no oplock */
    put16(reply, fid);
    put32(reply, action);
    for (int times = 0; times < 4; times++)
        put64(reply, file_time(about->written));
    put32(reply, attributes_of(about));
    put64(reply, about->directory ? 0 : GATEWAY_FILE_SIZE);
    put64(reply, about->size);
    put16(reply, 0); /* a file on a disk */
    put16(reply, 0);
    put8(reply, about->directory);
    end_words(reply);
}

/* The directory is opened to be looked at: what can be asked of the open is what it is, and to be closed. */
static uint32_t open_directory(struct request *request, const struct asked *asked, const struct about *about, struct reply *reply)
{
    uint32_t status = judge_tree(request);
    if (status != 0)
        return status;
    if ((asked->options & OPTION_NO_DIRECTORY) != 0)
        return refused(request, &IS_A_DIRECTORY);
    if (asked->disposition != OPEN && asked->disposition != OPEN_IF)
        return refused(request, &NAME_COLLISION);
    if (!add_own_open(request))
        return refused(request, &TOO_MANY_OPENS);
    put_opened(reply, request->opened, WAS_OPENED, about);
    return 0;
}

/* Of an open of the directory; the library closes all others. */
uint32_t close_own(struct request *request, struct reply *reply)
{
    if (request->block.word_count != 3 || request->block.byte_count != 0)
        return refused(request, &INVALID_SMB);
    uint32_t status = judge_tree(request);
    if (status != 0)
        return status;
    find_own_open(request, get16(request->block.words))->used = false;
    begin_block(reply, 0);
    end_words(reply);
    return 0;
}

uint32_t nt_create(struct request *request, struct reply *reply)
{
    struct asked asked;
    struct about about;
    size_t file;
    if (!read_asked(&request->block, &asked))
        return refused(request, &INVALID_SMB);
    if (about_path(request->host, asked.name, asked.name_length, &about) && about.directory)
        return open_directory(request, &asked, &about, reply);
    uint32_t status = judge(request, &asked, &file);
    status = status != 0 ? status : add_open(request, file, &asked);
    if (status != 0)
        return status;
    about = about_file(request->host, file);
    put_opened(reply, request->opened, action_of(asked.disposition), &about);
    return 0;
}
