/* TRANSACTION and TRANSACTION2: their parts, and what the subcommands give. */
#ifndef TRANSACTION2_H
#define TRANSACTION2_H

#include "query.h"

/* A transaction that is whole in its message. */
struct transaction {
    const uint8_t *setup;
    const uint8_t *parameters;
    size_t parameter_count;
    size_t most_parameters, most_data; /* what the client takes */
};

/* What comes back: parameters and data, each with the room that there is for it. */
struct result {
    struct reply parameters;
    struct reply data;
};

/* 0 with the parts of a transaction with so many words of setup, or the status. */
uint32_t read_transaction(struct request *request, size_t setup_count, struct transaction *asked);

/* Room for what comes back, as much as the client takes; the same for every transaction. */
struct result result_for(const struct transaction *asked);

/* Puts what comes back to the reply. False: it does not fit what the client takes. */
bool put_result(struct reply *reply, const struct result *result);

/* The two that list the directory. */
uint32_t find_first2(struct request *request, const struct transaction *asked, struct result *result);
uint32_t find_next2(struct request *request, const struct transaction *asked, struct result *result);

#endif
