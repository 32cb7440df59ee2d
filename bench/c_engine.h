/* The first yardstick: the run of document 01 with the counters of the engine in the archive and its steps, in C written for speed,
 * without proofs. */
#ifndef C_ENGINE_H
#define C_ENGINE_H

#include "flyrules.h"

/* As fly_run of flyrules.h, of a table in the old layout. */
fly_answer c_run(const uint8_t *table, size_t table_len, uint32_t budget, uint16_t *log, size_t log_len, uint16_t *scratch,
                 size_t scratch_len);

#endif
