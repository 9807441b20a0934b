/* The commands, each given its request and returning the exit status. */
#ifndef CARD_COMMANDS_H
#define CARD_COMMANDS_H

#include "card_request.h"

int run_check(const struct request *request);
int run_format(const struct request *request);
int run_get(const struct request *request);
int run_header_get(const struct request *request);
int run_header_put(const struct request *request);
int run_info(const struct request *request);
int run_ls(const struct request *request);
int run_map(const struct request *request);
int run_protect(const struct request *request);
int run_purge(const struct request *request);
int run_put(const struct request *request);
int run_recover(const struct request *request);
int run_repair(const struct request *request);
int run_rm(const struct request *request);

#endif
