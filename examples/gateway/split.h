/* Chains that begin with a command of the host's and go on with one of the library's. */
#ifndef SPLIT_H
#define SPLIT_H

#include "serve.h"

/*
 * The block behind one, by its AndX words. False: there is none, or it is no good; a chain that judge_chain found good has
 * only the first reason.
 */
bool next_block(const uint8_t *message, size_t length, const struct block *block, struct block *next);

/* Whether each block from this one on that is the host's, and the first that is not, may stand where it does. */
bool judge_chain(const uint8_t *message, size_t length, const struct block *first);

/* Puts the rest of a chain, from this block on, as a message of the same length to `made`. */
void make_rest(const struct request *request, const struct block *rest, uint8_t *made);

/* Sets the AndX words of a reply's block by what comes behind it: a command, at the end of what there is. */
void link_block(struct reply *reply, size_t block, uint8_t command);

/* Puts the blocks of the library's reply behind those that there are, and its Status into the header. */
void join_reply(struct reply *reply, uint8_t command, const uint8_t *joined, size_t length);

#endif
