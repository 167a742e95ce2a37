/*
 * Numbers of the host's own, above those that the library gives out: trees on IPC$, and opens of the directory. The library does not
 * know them, so what names one must be caught before a message is handed on.
 */
#ifndef OWN_H
#define OWN_H

#include "serve.h"

/* The host's own tree of the request's TID, UID and connection; NULL if there is none. */
struct own_tree *find_own_tree(const struct request *request);

/* Adds one and sets the request's TID. False: there is no room. */
bool add_own_tree(struct request *request);

/* The host's own open of that FID with the request's TID, UID and connection; NULL if there is none. */
struct own_open *find_own_open(const struct request *request, unsigned fid);

/* Adds one and sets the FID that the request opened. False: there is no room. */
bool add_own_open(struct request *request);

/* Those of sessions and trees that are gone go too: the library tells which are left, not which went. */
void remove_own(struct host *host);

#endif
