/* The tables in readable form. */
#ifndef PRINT_H
#define PRINT_H

#include "connection.h"

void print_tables(const struct host *host, const struct connection *connections, size_t count);

#endif
