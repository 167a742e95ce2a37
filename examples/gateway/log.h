/* The plant's log, on standard error: a line for each connection that comes and goes, and for each refused lock. */
#ifndef LOG_H
#define LOG_H

#include "connection.h"

void log_connection(const struct connection *connection, const char *what);

/*
 * Who was refused what, and whose lock was in the way (CR 2). Another terminal's numbers are in it: it is for the plant's staff,
 * not for the client.
 */
void log_refused_lock(const struct host *host, const struct connection *connection, const uint8_t *reply, size_t length,
                      const struct gateway_holder *holder);

#endif
