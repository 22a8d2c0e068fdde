/* Not used since the library is built for x86-64 alone (bin/library). For a core that is compiled for another processor: its smc_replay, renamed smc_replay_into, takes the place of its
 * result as a first argument, as C does on x86-64. */
#include "smc.h"

void smc_replay_into(smc_replayed *told, SMC_TABLES, const uint8_t *log, size_t log_len, uint32_t expected, uint32_t budget);

smc_replayed smc_replay(SMC_TABLES, const uint8_t *log, size_t log_len, uint32_t expected, uint32_t budget)
{
    smc_replayed told;

    smc_replay_into(&told, SMC_LENT, log, log_len, expected, budget);
    return told;
}
