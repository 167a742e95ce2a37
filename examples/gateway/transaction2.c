#include "transaction2.h"
#include "own.h"

#include <string.h>

#define WORDS 14       /* and those of setup */
#define REPLY_WORDS 10 /* no setup */
#define MOST_DATA 6144
#define MOST_PARAMETERS 16

enum { FIND_FIRST2 = 1, FIND_NEXT2 = 2, QUERY_FS = 3, QUERY_PATH = 5, QUERY_FILE = 7 };

/* Information levels of QUERY_PATH and QUERY_FILE. */
enum { INFO_STANDARD = 1, FILE_BASIC = 0x101, FILE_STANDARD = 0x102, FILE_EA = 0x103, FILE_ALL = 0x107 };

/* Information levels of QUERY_FS. */
enum { FS_ALLOCATION = 1, FS_LABEL = 2, FS_VOLUME = 0x102, FS_SIZE = 0x103, FS_DEVICE = 0x104, FS_ATTRIBUTE = 0x105 };

/* A part of the message by its offset and count. */
static bool is_inside(const struct request *request, size_t offset, size_t count)
{
    return offset >= request->block.start && offset <= request->block.end && count <= request->block.end - offset;
}

/* A transaction in more than one message is not taken: parameters are short here, and there are no data. */
uint32_t read_transaction(struct request *request, size_t setup_count, struct transaction *asked)
{
    const uint8_t *words = request->block.words;
    if (request->block.word_count != WORDS + setup_count || words[26] != setup_count)
        return refused(request, &INVALID_SMB);
    size_t count = get16(words + 18), offset = get16(words + 20);
    if (get16(words) != count || get16(words + 2) != get16(words + 22))
        return refused(request, &NOT_SUPPORTED);
    if ((count > 0 && !is_inside(request, offset, count))
        || (get16(words + 22) > 0 && !is_inside(request, get16(words + 24), get16(words + 22))))
        return refused(request, &INVALID_SMB);
    *asked = (struct transaction){
        .setup = words + 28,
        .parameters = count > 0 ? request->message + offset : request->block.bytes,
        .parameter_count = count,
        .most_parameters = get16(words + 4),
        .most_data = get16(words + 6),
    };
    return 0;
}

static void put_times(struct reply *data, const struct about *about)
{
    for (int times = 0; times < 4; times++)
        put64(data, file_time(about->written));
}

static void put_standard(struct reply *data, const struct about *about)
{
    put64(data, about->directory ? 0 : GATEWAY_FILE_SIZE);
    put64(data, about->size);
    put32(data, 1); /* links */
    put8(data, 0);  /* not to be removed */
    put8(data, about->directory);
}

static void put_basic(struct reply *data, const struct about *about)
{
    put_times(data, about);
    put32(data, attributes_of(about));
    put32(data, 0);
}

static void put_all(struct reply *data, const struct about *about)
{
    put_basic(data, about);
    put_standard(data, about);
    put16(data, 0);
    put32(data, 0);
    put32(data, (uint32_t)strlen(about->name));
    put_bytes(data, about->name, strlen(about->name));
}

static void put_info_standard(struct reply *data, const struct about *about)
{
    for (int times = 0; times < 3; times++)
        put32(data, date_and_time(about->written));
    put32(data, about->size);
    put32(data, about->directory ? 0 : GATEWAY_FILE_SIZE);
    put16(data, attributes_of(about));
}

/* What an information level says of a file. False: no such level here. */
static bool put_level(struct reply *data, unsigned level, const struct about *about)
{
    switch (level) {
    case INFO_STANDARD:
        put_info_standard(data, about);
        return true;
    case FILE_BASIC:
        put_basic(data, about);
        return true;
    case FILE_STANDARD:
        put_standard(data, about);
        return true;
    case FILE_EA:
        put32(data, 0);
        return true;
    case FILE_ALL:
        put_all(data, about);
        return true;
    }
    return false;
}

static uint32_t query(struct request *request, unsigned level, const struct about *about, struct result *result)
{
    put16(&result->parameters, 0); /* EaErrorOffset */
    return put_level(&result->data, level, about) ? 0 : refused(request, &INVALID_LEVEL);
}

/* Parameters: the level, four bytes, the path. */
static uint32_t query_path(struct request *request, const struct transaction *asked, struct result *result)
{
    struct about about;
    if (asked->parameter_count < 6)
        return refused(request, &INVALID_SMB);
    const uint8_t *path = asked->parameters + 6;
    if (!about_path(request->host, path, string_length(path, asked->parameter_count - 6), &about))
        return refused(request, &NAME_NOT_FOUND);
    return query(request, get16(asked->parameters), &about, result);
}

/* Parameters: the FID, the level. */
static uint32_t query_file(struct request *request, const struct transaction *asked, struct result *result)
{
    if (asked->parameter_count < 4)
        return refused(request, &INVALID_SMB);
    unsigned fid = get16(asked->parameters);
    const struct gateway_open *open = find_open(request, fid);
    struct about about = about_directory();
    if (open == NULL && find_own_open(request, fid) == NULL)
        return refused(request, &INVALID_HANDLE);
    if (open != NULL)
        about = about_file(request->host, open->file);
    return query(request, get16(asked->parameters + 2), &about, result);
}

/* The file memory: 128 units of a sector of 512 bytes, none free. */
static void put_size(struct reply *data)
{
    put64(data, GATEWAY_MEMORY / 512);
    put64(data, 0);
    put32(data, 1);
    put32(data, 512);
}

static void put_allocation(struct reply *data)
{
    put32(data, 0); /* file system number */
    put32(data, 1);
    put32(data, GATEWAY_MEMORY / 512);
    put32(data, 0);
    put16(data, 512);
}

static void put_label(struct reply *data, const char *label)
{
    put32(data, 0); /* serial number */
    put8(data, (unsigned)strlen(label));
    put_string(data, label);
}

static void put_volume(struct reply *data, const char *label)
{
    put64(data, 0);
    put32(data, 0);
    put32(data, (uint32_t)strlen(label));
    put16(data, 0);
    put_bytes(data, label, strlen(label));
}

/* Names keep their case and are compared without it. */
static void put_attributes(struct reply *data)
{
    put32(data, 0x00000002);
    put32(data, GATEWAY_NAME_BYTES);
    put32(data, 3);
    put_bytes(data, "FAT", 3);
}

static uint32_t query_fs(struct request *request, const struct transaction *asked, struct result *result)
{
    if (asked->parameter_count < 2)
        return refused(request, &INVALID_SMB);
    switch (get16(asked->parameters)) {
    case FS_ALLOCATION:
        put_allocation(&result->data);
        return 0;
    case FS_LABEL:
        put_label(&result->data, request->host->share);
        return 0;
    case FS_VOLUME:
        put_volume(&result->data, request->host->share);
        return 0;
    case FS_SIZE:
        put_size(&result->data);
        return 0;
    case FS_DEVICE:
        put32(&result->data, 7); /* a disk */
        put32(&result->data, 0);
        return 0;
    case FS_ATTRIBUTE:
        put_attributes(&result->data);
        return 0;
    }
    return refused(request, &INVALID_LEVEL);
}

static uint32_t carry_out(struct request *request, const struct transaction *asked, struct result *result)
{
    switch (get16(asked->setup)) {
    case FIND_FIRST2:
        return find_first2(request, asked, result);
    case FIND_NEXT2:
        return find_next2(request, asked, result);
    case QUERY_FS:
        return query_fs(request, asked, result);
    case QUERY_PATH:
        return query_path(request, asked, result);
    case QUERY_FILE:
        return query_file(request, asked, result);
    }
    return refused(request, &NOT_SUPPORTED);
}

/* Parameters and data each stand at a multiple of four from the header's start. */
static void put_parts(struct reply *reply, const struct result *result)
{
    size_t parameters = (reply->length + 1 + 2 * REPLY_WORDS + 2 + 3) / 4 * 4;
    size_t data = (parameters + result->parameters.length + 3) / 4 * 4;
    begin_block(reply, REPLY_WORDS);
    put16(reply, (unsigned)result->parameters.length);
    put16(reply, (unsigned)result->data.length);
    put16(reply, 0);
    put16(reply, (unsigned)result->parameters.length);
    put16(reply, (unsigned)parameters);
    put16(reply, 0);
    put16(reply, (unsigned)result->data.length);
    put16(reply, (unsigned)data);
    put16(reply, 0);
    put16(reply, 0); /* SetupCount */
    begin_bytes(reply);
    put_zeros(reply, parameters - reply->length);
    put_bytes(reply, result->parameters.room, result->parameters.length);
    put_zeros(reply, data - reply->length);
    put_bytes(reply, result->data.room, result->data.length);
    end_block(reply);
}

bool put_result(struct reply *reply, const struct result *result)
{
    if (result->parameters.full || result->data.full)
        return false;
    put_parts(reply, result);
    return true;
}

static size_t smaller(size_t one, size_t other)
{
    return one < other ? one : other;
}

struct result result_for(const struct transaction *asked)
{
    static uint8_t parameters[MOST_PARAMETERS], data[MOST_DATA];
    return (struct result){
        .parameters = {.room = parameters, .size = smaller(sizeof parameters, asked->most_parameters)},
        .data = {.room = data, .size = smaller(sizeof data, asked->most_data)},
    };
}

uint32_t transaction2(struct request *request, struct reply *reply)
{
    struct transaction asked;
    uint32_t status = read_transaction(request, 1, &asked);
    status = status != 0 ? status : judge_tree(request);
    if (status != 0)
        return status;
    struct result result = result_for(&asked);
    status = carry_out(request, &asked, &result);
    if (status == 0 && !put_result(reply, &result))
        status = refused(request, &NO_RESOURCES);
    return status;
}
