/* The second yardstick: a C engine that goes further than the counters of c_engine.h. */
#ifndef C_FLAGS_H
#define C_FLAGS_H

#include "flyrules.h"

/* As fly_run of flyrules.h, of a table in the old layout. */
fly_answer flags_run(const uint8_t *table, size_t table_len, uint32_t budget, uint16_t *log, size_t log_len, uint16_t *scratch,
                     size_t scratch_len);

#endif
