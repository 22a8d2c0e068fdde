/* The entries of the plain implementation: as those of smc.h, with one for all commands. */
#ifndef PLAIN_H
#define PLAIN_H

#include "smc.h"

smc_reply plain_command(SMC_TABLES, SMC_COMMAND);
smc_reply plain_import(SMC_TABLES, uint32_t address, uint32_t volume);
smc_reply plain_export(SMC_TABLES, uint32_t address);
smc_reply plain_reset(SMC_TABLES);
smc_replayed plain_replay(SMC_TABLES, const uint8_t *log, size_t log_len, uint32_t expected, uint32_t budget);

#endif
