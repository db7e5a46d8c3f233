/* Compiled for targets of 32 and 64 bits, never run: every length that a call takes has 64 bits, and
 * both headers compile. */
#include "sif.h"
#include "sif_read.h"

_Static_assert(sizeof(uint64_t) == 8, "64 bits");
_Static_assert(_Generic(&sif_lower, uint64_t (*)(const uint8_t *, uint64_t, uint8_t *, uint64_t): 1, default: 0), "sif_lower");
_Static_assert(_Generic(&sif_start, uint64_t (*)(const uint8_t *, uint64_t, uint8_t *, uint64_t): 1, default: 0), "sif_start");
_Static_assert(_Generic(&sif_run, uint64_t (*)(const uint8_t *, uint64_t, uint8_t *, uint64_t, uint64_t, uint8_t *, uint64_t): 1,
                        default: 0), "sif_run");
_Static_assert(_Generic(&sif_read_name, uint64_t (*)(const uint8_t *, uint64_t, uint64_t, uint8_t *, uint64_t): 1, default: 0),
               "sif_read_name");
