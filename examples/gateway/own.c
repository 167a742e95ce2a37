#include "own.h"

struct own_tree *find_own_tree(const struct request *request)
{
    if (request->tid < FIRST_OWN_TID || request->tid >= FIRST_OWN_TID + OWN_TREES)
        return NULL;
    struct own_tree *tree = &request->host->own_trees[request->tid - FIRST_OWN_TID];
    bool same = tree->used && tree->uid == request->uid && tree->connection == request->connection->number;
    return same ? tree : NULL;
}

bool add_own_tree(struct request *request)
{
    for (size_t place = 0; place < OWN_TREES; place++) {
        struct own_tree *tree = &request->host->own_trees[place];
        if (tree->used)
            continue;
        *tree = (struct own_tree){true, request->connection->number, request->uid};
        request->tid = (uint16_t)(FIRST_OWN_TID + place);
        return true;
    }
    return false;
}

struct own_open *find_own_open(const struct request *request, unsigned fid)
{
    if (fid < FIRST_OWN_FID || fid >= FIRST_OWN_FID + OWN_OPENS)
        return NULL;
    struct own_open *open = &request->host->own_opens[fid - FIRST_OWN_FID];
    bool same = open->used && open->uid == request->uid && open->tid == request->tid
                && open->connection == request->connection->number;
    return same ? open : NULL;
}

bool add_own_open(struct request *request)
{
    for (size_t place = 0; place < OWN_OPENS; place++) {
        struct own_open *open = &request->host->own_opens[place];
        if (open->used)
            continue;
        *open = (struct own_open){true, request->connection->number, request->uid, request->tid};
        request->opened = (uint16_t)(FIRST_OWN_FID + place);
        return true;
    }
    return false;
}

static bool has_session(const struct gateway_tables *tables, uint16_t uid, uint32_t connection)
{
    for (size_t place = 0; place < tables->session_count; place++)
        if (tables->sessions[place].uid == uid && tables->sessions[place].connection == connection)
            return true;
    return false;
}

static bool has_tree(const struct gateway_tables *tables, uint16_t uid, uint16_t tid)
{
    for (size_t place = 0; place < tables->tree_count; place++)
        if (tables->trees[place].uid == uid && tables->trees[place].tid == tid)
            return true;
    return false;
}

static void remove_own_trees(struct host *host)
{
    for (size_t place = 0; place < OWN_TREES; place++) {
        struct own_tree *tree = &host->own_trees[place];
        tree->used = tree->used && has_session(host->tables, tree->uid, tree->connection);
    }
}

static void remove_own_opens(struct host *host)
{
    for (size_t place = 0; place < OWN_OPENS; place++) {
        struct own_open *open = &host->own_opens[place];
        open->used = open->used && has_session(host->tables, open->uid, open->connection)
                     && has_tree(host->tables, open->uid, open->tid);
    }
}

void remove_own(struct host *host)
{
    remove_own_trees(host);
    remove_own_opens(host);
}
