/* What queries say of the files and of the one directory that there is. */
#ifndef QUERY_H
#define QUERY_H

#include "serve.h"

#define ATTRIBUTE_DIRECTORY 0x10
#define ATTRIBUTE_ARCHIVE 0x20
#define ATTRIBUTE_NORMAL 0x80

/* A file or the directory. */
struct about {
    const char *name;
    bool directory;
    uint32_t size;
    time_t written;
};

/* What there is of a file's number. */
struct about about_file(const struct host *host, size_t file);

struct about about_directory(void);

/* What there is of a path: a file's name, or nothing or a backslash for the directory. False: no such name. */
bool about_path(const struct host *host, const uint8_t *path, size_t length, struct about *about);

/* Attributes of [MS-CIFS], SMB_EXT_FILE_ATTR. */
uint32_t attributes_of(const struct about *about);

/* A time in units of 100 ns from 1601. */
uint64_t file_time(time_t time);

/* A time as SMB_DATE in the low 16 bits and SMB_TIME in the high ones. */
uint32_t date_and_time(time_t time);

/* A string up to its zero byte or the end of the bytes. */
size_t string_length(const uint8_t *string, size_t most);

#endif
