#define _DEFAULT_SOURCE
#include "files.h"
#include "message.h"

#include <dirent.h>
#include <fcntl.h>
#include <stdio.h>
#include <stdlib.h>
#include <string.h>
#include <sys/stat.h>
#include <unistd.h>

#define SAVE_AGAIN 5 /* seconds after which a save that failed is tried again */

/* What is wrong with the directory, with the file that it is wrong with. */
static _Noreturn void refuse_file(const char *name, const char *why)
{
    fprintf(stderr, "gateway: %s: %s\n", name, why);
    exit(2);
}

/* Reads one byte more than a file may have, so that the library is the one to refuse it. */
static size_t read_contents(int directory, struct named_file *file, uint8_t *contents, size_t room)
{
    struct stat about;
    size_t length = 0;
    ssize_t got = 1;
    int from = openat(directory, file->name, O_RDONLY | O_NOFOLLOW);
    if (from < 0 || fstat(from, &about) != 0)
        refuse_file(file->name, "cannot be opened");
    while (got > 0 && length < room) {
        got = read(from, contents + length, room - length);
        length += got > 0 ? (size_t)got : 0;
    }
    if (got < 0)
        refuse_file(file->name, "cannot be read");
    close(from);
    file->mode = about.st_mode & 07777;
    file->written = about.st_mtime;
    return length;
}

static void load_file(struct host *host, size_t number)
{
    uint8_t contents[GATEWAY_FILE_SIZE + 1];
    struct named_file *file = &host->files[number];
    size_t length = read_contents(host->directory, file, contents, sizeof contents);
    uint8_t answer = gateway_load_file(host->tables, (uint32_t)number, contents, length, host->memory, GATEWAY_MEMORY);
    if (answer == GATEWAY_OUT_OF_RANGE)
        refuse_file(file->name, "has more than 4,096 bytes");
    require_done(answer, "gateway_load_file");
    file->noted = host->tables->files[number].changes;
}

/* A name as the catalogue has it, with these bytes in front. False: it has more than 12 bytes. */
static bool make_name(struct gateway_name *made, const char *front, const char *name, uint64_t file)
{
    char whole[2 * GATEWAY_NAME_BYTES];
    int length = snprintf(whole, sizeof whole, "%s%s", front, name);
    if (length > GATEWAY_NAME_BYTES)
        return false;
    *made = (struct gateway_name){.length = (uint64_t)length, .file = file};
    for (int place = 0; place < length; place++)
        made->text[place] = (unsigned char)whole[place];
    return true;
}

/* The names with these bytes in front, as long as the catalogue has room for more. */
static void add_names(struct gateway_catalogue *catalogue, const struct host *host, const char *front)
{
    for (size_t file = 0; file < host->file_count && catalogue->count < GATEWAY_NAMES; file++)
        if (make_name(&catalogue->names[catalogue->count], front, host->files[file].name, file))
            catalogue->count++;
}

/*
 * OPEN_ANDX compares a name as it comes, and most clients put a backslash in front. So a file has both names; where there are
 * more than eight files, or a name has 12 bytes, some are left without the second.
 */
static void set_catalogue(struct host *host)
{
    struct gateway_catalogue catalogue = {.count = 0};
    add_names(&catalogue, host, "");
    add_names(&catalogue, host, "\\");
    if (gateway_set_catalogue(host->tables, &catalogue) != GATEWAY_DONE)
        give_up("two files have one name but for the case of letters");
}

/* Files whose name begins with a dot are none of ours; one of ours that is being saved is such a file too. */
static void add_file(struct host *host, const char *name)
{
    struct stat about;
    if (name[0] == '.' || fstatat(host->directory, name, &about, AT_SYMLINK_NOFOLLOW) != 0 || !S_ISREG(about.st_mode))
        return;
    if (host->file_count == GATEWAY_FILES)
        give_up("the directory has more than 16 files");
    if (strlen(name) > GATEWAY_NAME_BYTES)
        refuse_file(name, "a name has at most 12 bytes");
    snprintf(host->files[host->file_count++].name, GATEWAY_NAME_BYTES + 1, "%s", name);
}

static int by_name(const void *one, const void *other)
{
    return strcmp(((const struct named_file *)one)->name, ((const struct named_file *)other)->name);
}

void load_directory(struct host *host, const char *path)
{
    host->directory = open(path, O_RDONLY | O_DIRECTORY);
    DIR *list = opendir(path);
    if (host->directory < 0 || list == NULL)
        refuse_file(path, "the directory cannot be read");
    for (struct dirent *entry = readdir(list); entry != NULL; entry = readdir(list))
        add_file(host, entry->d_name);
    closedir(list);
    qsort(host->files, host->file_count, sizeof host->files[0], by_name);
    for (size_t number = 0; number < host->file_count; number++)
        load_file(host, number);
    set_catalogue(host);
}

static bool is_named(const struct named_file *file, const uint8_t *name, size_t length)
{
    size_t place = 0;
    if (strlen(file->name) != length)
        return false;
    while (place < length && same_letter(name[place], (uint8_t)file->name[place]))
        place++;
    return place == length;
}

size_t find_file(const struct host *host, const uint8_t *name, size_t length)
{
    size_t front = length > 0 && name[0] == '\\' ? 1 : 0;
    for (size_t file = 0; file < host->file_count; file++)
        if (is_named(&host->files[file], name + front, length - front))
            return file;
    return NO_FILE;
}

static bool is_open(const struct gateway_tables *tables, size_t file)
{
    for (size_t place = 0; place < tables->open_count; place++)
        if (tables->opens[place].file == file)
            return true;
    return false;
}

static bool write_all(int to, const uint8_t *bytes, size_t length)
{
    size_t done = 0;
    while (done < length) {
        ssize_t written = write(to, bytes + done, length - done);
        if (written <= 0)
            return false;
        done += (size_t)written;
    }
    return true;
}

/* Under another name first: whenever the host or the machine stops, the directory has the old contents or the new. */
static bool save_file(struct host *host, size_t number)
{
    const struct named_file *file = &host->files[number];
    char temporary[GATEWAY_NAME_BYTES + 8];
    snprintf(temporary, sizeof temporary, ".%s.new", file->name);
    int to = openat(host->directory, temporary, O_WRONLY | O_CREAT | O_TRUNC | O_NOFOLLOW, 0600);
    if (to < 0)
        return false;
    bool good = write_all(to, host->memory + number * GATEWAY_FILE_SIZE, host->tables->files[number].size)
                && fchmod(to, file->mode) == 0 && fsync(to) == 0;
    good = close(to) == 0 && good;
    good = good && renameat(host->directory, temporary, host->directory, file->name) == 0 && fsync(host->directory) == 0;
    return good;
}

/* A save that fails is said and tried again later; the contents stay in the file memory meanwhile. */
static void save_or_say(struct host *host, size_t number)
{
    struct named_file *file = &host->files[number];
    if (save_file(host, number)) {
        file->unsaved = false;
        fprintf(stderr, "gateway: saved %s, %u bytes\n", file->name, (unsigned)host->tables->files[number].size);
    } else {
        fprintf(stderr, "gateway: %s cannot be saved; it will be tried again\n", file->name);
        host->save_again = time(NULL) + SAVE_AGAIN;
    }
}

/*
 * What was written since the last look. A change number that is at its largest tells no more: after 4,294,967,295 changes
 * the host must be started anew, as docs/HOST.md says.
 */
static void note_changes(struct host *host)
{
    for (size_t number = 0; number < host->file_count; number++) {
        struct named_file *file = &host->files[number];
        if (host->tables->files[number].changes == file->noted)
            continue;
        file->noted = host->tables->files[number].changes;
        file->written = time(NULL);
        file->unsaved = true;
    }
}

void save_files(struct host *host)
{
    note_changes(host);
    if (host->save_again != 0 && time(NULL) < host->save_again)
        return;
    host->save_again = 0;
    for (size_t number = 0; number < host->file_count; number++)
        if (host->files[number].unsaved && !is_open(host->tables, number))
            save_or_say(host, number);
}
