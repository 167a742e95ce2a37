#define _DEFAULT_SOURCE
#include "query.h"
#include "files.h"

#include <string.h>

#define PATH_MARK 0x04 /* before a path in the core commands */
#define BLOCK_SIZE 512

struct about about_file(const struct host *host, size_t file)
{
    return (struct about){.name = host->files[file].name,
                          .size = (uint32_t)host->tables->files[file].size,
                          .written = host->files[file].written};
}

struct about about_directory(void)
{
    return (struct about){.name = "", .directory = true, .written = time(NULL)};
}

bool about_path(const struct host *host, const uint8_t *path, size_t length, struct about *about)
{
    size_t file = find_file(host, path, length);
    if (file != NO_FILE)
        *about = about_file(host, file);
    else if (length == 0 || (length == 1 && path[0] == '\\'))
        *about = about_directory();
    else
        return false;
    return true;
}

uint32_t attributes_of(const struct about *about)
{
    return about->directory ? ATTRIBUTE_DIRECTORY : ATTRIBUTE_ARCHIVE;
}

/* From 1601 to 1970 there are 11,644,473,600 seconds. */
uint64_t file_time(time_t time)
{
    return time < 0 ? 0 : ((uint64_t)time + 11644473600u) * 10000000u;
}

/* From 1980 on, in universal time; what was before is shown as the first of 1980. */
uint32_t date_and_time(time_t time)
{
    struct tm parts;
    if (gmtime_r(&time, &parts) == NULL || parts.tm_year < 80)
        return 1u << 5 | 1u;
    uint32_t date = (uint32_t)(parts.tm_year - 80) << 9 | (uint32_t)(parts.tm_mon + 1) << 5 | (uint32_t)parts.tm_mday;
    uint32_t hour = (uint32_t)parts.tm_hour << 11 | (uint32_t)parts.tm_min << 5 | (uint32_t)parts.tm_sec / 2;
    return hour << 16 | date;
}

size_t string_length(const uint8_t *string, size_t most)
{
    const uint8_t *zero = memchr(string, 0, most);
    return zero == NULL ? most : (size_t)(zero - string);
}

/* The path of a core command: a mark, the path, a zero byte. */
static bool read_path(const struct block *block, const uint8_t **path, size_t *length)
{
    if (block->word_count != 0 || block->byte_count < 2 || block->bytes[0] != PATH_MARK)
        return false;
    *path = block->bytes + 1;
    *length = string_length(*path, block->byte_count - 1);
    return *length < block->byte_count - 1;
}

/* 0 with what there is of the path, or the status. */
static uint32_t judge_path(struct request *request, struct about *about)
{
    const uint8_t *path;
    size_t length;
    if (!read_path(&request->block, &path, &length))
        return refused(request, &INVALID_SMB);
    uint32_t status = judge_tree(request);
    if (status == 0 && !about_path(request->host, path, length, about))
        status = refused(request, &NAME_NOT_FOUND);
    return status;
}

uint32_t query_information(struct request *request, struct reply *reply)
{
    struct about about;
    uint32_t status = judge_path(request, &about);
    if (status != 0)
        return status;
    begin_block(reply, 10);
    put16(reply, attributes_of(&about));
    put32(reply, (uint32_t)about.written);
    put32(reply, about.size);
    put_zeros(reply, 10);
    end_words(reply);
    return 0;
}

uint32_t check_directory(struct request *request, struct reply *reply)
{
    struct about about;
    uint32_t status = judge_path(request, &about);
    if (status != 0)
        return status;
    if (!about.directory)
        return refused(request, &NOT_A_DIRECTORY);
    begin_block(reply, 0);
    end_words(reply);
    return 0;
}

uint32_t query_information2(struct request *request, struct reply *reply)
{
    if (request->block.word_count != 1 || request->block.byte_count != 0)
        return refused(request, &INVALID_SMB);
    uint32_t status = judge_tree(request);
    if (status != 0)
        return status;
    const struct gateway_open *open = find_open(request, get16(request->block.words));
    if (open == NULL)
        return refused(request, &INVALID_HANDLE);
    struct about about = about_file(request->host, open->file);
    begin_block(reply, 11);
    put32(reply, date_and_time(about.written));
    put32(reply, date_and_time(about.written));
    put32(reply, date_and_time(about.written));
    put32(reply, about.size);
    put32(reply, GATEWAY_FILE_SIZE);
    put16(reply, attributes_of(&about));
    end_words(reply);
    return 0;
}

/* The file memory as a disk: 16 files of 4,096 bytes, in units of 512. No file can be added, so nothing is free. */
uint32_t query_information_disk(struct request *request, struct reply *reply)
{
    if (request->block.word_count != 0 || request->block.byte_count != 0)
        return refused(request, &INVALID_SMB);
    uint32_t status = judge_tree(request);
    if (status != 0)
        return status;
    begin_block(reply, 5);
    put16(reply, GATEWAY_MEMORY / BLOCK_SIZE);
    put16(reply, 1);
    put16(reply, BLOCK_SIZE);
    put16(reply, 0);
    put16(reply, 0);
    end_words(reply);
    return 0;
}
