#include "print.h"

#include <inttypes.h>
#include <stdio.h>

static const char *const accesses[] = {"to read", "to write", "to read and write"};
static const char *const sharings[] = {"", "denies others both", "denies others writing", "denies others reading",
                                       "denies others nothing"};

static void print_connections(const struct connection *connections, size_t count)
{
    size_t used = 0;
    for (size_t place = 0; place < count; place++)
        used += connections[place].used;
    printf("connections: %zu\n", used);
    for (size_t place = 0; place < count; place++)
        if (connections[place].used)
            printf("  connection %" PRIu32 " from %s\n", connections[place].number, connections[place].peer);
}

static void print_sessions(const struct gateway_tables *tables)
{
    printf("sessions: %" PRIu64 " of %d\n", tables->session_count, GATEWAY_SESSIONS);
    for (size_t place = 0; place < tables->session_count; place++)
        printf("  UID %" PRIu64 " on connection %" PRIu64 "\n", tables->sessions[place].uid, tables->sessions[place].connection);
}

static void print_trees(const struct gateway_tables *tables)
{
    printf("trees: %" PRIu64 " of %d\n", tables->tree_count, GATEWAY_TREES);
    for (size_t place = 0; place < tables->tree_count; place++)
        printf("  TID %" PRIu64 " of UID %" PRIu64 ", %s\n", tables->trees[place].tid, tables->trees[place].uid,
               tables->trees[place].right == 1 ? "read and write" : "read");
}

static void print_opens(const struct host *host)
{
    const struct gateway_tables *tables = host->tables;
    printf("opens: %" PRIu64 " of %d\n", tables->open_count, GATEWAY_OPENS);
    for (size_t place = 0; place < tables->open_count; place++) {
        const struct gateway_open *open = &tables->opens[place];
        bool current = open->read == 1 && open->seen == tables->files[open->file].changes;
        printf("  FID %" PRIu64 " of UID %" PRIu64 ", TID %" PRIu64 ", process %" PRIu64 ": %s %s, %s, %s\n", open->fid,
               open->uid, open->tid, open->process, host->files[open->file].name, accesses[open->access],
               sharings[open->sharing], open->read == 0 ? "has not read" : current ? "has read all changes" : "has read before a change");
    }
}

/* The last byte of a lock: one of length 0 has none. */
static void print_lock(const struct gateway_lock *lock)
{
    printf("  FID %" PRIu64 " of process %" PRIu64 ": ", lock->fid, lock->process);
    if (lock->length == 0)
        printf("no byte, at %" PRIu64, lock->offset);
    else
        printf("bytes %" PRIu64 " to %" PRIu64, lock->offset, lock->offset + (lock->length - 1));
    printf(", %s\n", lock->shared == 1 ? "shared" : "exclusive");
}

static void print_locks(const struct gateway_tables *tables)
{
    printf("locks: %" PRIu64 " of %d, in order of grant\n", tables->lock_count, GATEWAY_LOCKS);
    for (size_t place = 0; place < tables->lock_count; place++)
        print_lock(&tables->locks[place]);
}

static void print_files(const struct host *host)
{
    printf("files: %zu\n", host->file_count);
    for (size_t file = 0; file < host->file_count; file++)
        printf("  %s: %" PRIu64 " bytes, change number %" PRIu64 "%s\n", host->files[file].name, host->tables->files[file].size,
               host->tables->files[file].changes, host->files[file].unsaved ? ", not yet saved" : "");
}

void print_tables(const struct host *host, const struct connection *connections, size_t count)
{
    print_connections(connections, count);
    print_sessions(host->tables);
    print_trees(host->tables);
    print_opens(host);
    print_locks(host->tables);
    print_files(host);
    fflush(stdout);
}
