/* What the host keeps beside the connections: all memory that it lends to the library, the files' names, and its own trees and opens. */
#ifndef HOST_H
#define HOST_H

#include "gateway.h"

#include <stdbool.h>
#include <time.h>

/* The longest message in either direction; NEGOTIATE tells clients so. */
#define LONGEST_MESSAGE 8192

/* TIDs above 32 are never given out by the library, so the host has them for trees of its own: IPC$. */
#define FIRST_OWN_TID 33
#define OWN_TREES 32

/* A file of the directory. Its number is its place in the list, and its contents stand in the file memory. */
struct named_file {
    char name[GATEWAY_NAME_BYTES + 1];
    unsigned mode;  /* the file's permissions, which a saved file has again */
    time_t written; /* when it was last changed */
    uint64_t noted; /* the library's change number when it was last looked at */
    bool unsaved;   /* it was changed and is not yet saved */
};

/* A tree on IPC$, which has no files and is no business of the library's. */
struct own_tree {
    bool used;
    uint32_t connection;
    uint16_t uid;
};

/* FIDs above 64 likewise: opens of the directory. */
#define FIRST_OWN_FID 65
#define OWN_OPENS 64

/* An open of the directory, through a tree of the library's. */
struct own_open {
    bool used;
    uint32_t connection;
    uint16_t uid, tid;
};

struct connection;

struct host {
    struct gateway_tables *tables; /* this and the next four are lent to the library */
    uint8_t *memory;               /* GATEWAY_MEMORY bytes */
    uint8_t *room;                 /* GATEWAY_ROOM bytes */
    uint8_t *message;              /* LONGEST_MESSAGE bytes: a message that the host puts together for the library */
    uint8_t *framed;               /* GATEWAY_STREAM_ROOM bytes */
    uint8_t *reply;                /* GATEWAY_ROOM bytes: the host's own reply, as it grows */
    int directory;
    size_t file_count;
    struct named_file files[GATEWAY_FILES];
    time_t save_again; /* a file could not be saved: not to be tried before this time; 0 if none */
    struct own_tree own_trees[OWN_TREES];
    struct own_open own_opens[OWN_OPENS];
    struct connection *connections;
    const char *share;
    time_t wait; /* seconds for a client's login, for the rest of a message, and for its replies to be read */
    time_t idle; /* seconds without a message */
    bool show;  /* print each exchange in words */
    bool guard; /* hand messages over from the end of a page that no page follows */
};

/* The host cannot go on: says so and ends it with status 2. */
_Noreturn void give_up(const char *what);

/* For calls that only a fault of this host can have refused: going on would serve wrong files. */
void require_done(uint8_t number, const char *call);

/*
 * Lent memory of so many bytes between two pages that cannot be read or written. It ends at the second, so that words, whose size
 * is a multiple of 8, are aligned.
 */
void *lend(size_t size);

/* Lends all memory and starts with empty tables. */
void prepare_host(struct host *host);

#endif
