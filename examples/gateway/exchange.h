/* A request and its reply in words, for a person who watches. */
#ifndef EXCHANGE_H
#define EXCHANGE_H

#include "serve.h"

const char *command_name(uint8_t command);

/* Prints both, if the host is to show them. */
void show_exchange(const struct request *request, const uint8_t *reply, size_t length);

#endif
