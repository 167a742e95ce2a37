/* The directory's files: loaded at the start, found by name, saved when their last open goes. */
#ifndef FILES_H
#define FILES_H

#include "host.h"

/* No file of that name. */
#define NO_FILE GATEWAY_FILES

/* Loads every file of the directory and names it in the library's catalogue. */
void load_directory(struct host *host, const char *path);

/* The number of the file of a name, ASCII letters in either case, a backslash in front passed over; NO_FILE if there is none. */
size_t find_file(const struct host *host, const uint8_t *name, size_t length);

/* Saves the files that were changed and that nobody has open. */
void save_files(struct host *host);

#endif
