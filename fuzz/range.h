/* A range of samples, compared with resolving them one by one and with the audit. */
#ifndef RANGE_H
#define RANGE_H

#include "answer.h"
#include "lend.h"

/* Resolves samples `first` to `last` of a bundle. `checked` and `audited` are what puddockle_check_bundle and
   puddockle_audit answered, `lines` what the latter wrote. */
struct answer try_range(const uint8_t *bundle, size_t length, uint64_t first, uint64_t last, enum side side,
                        const struct answer *checked, const struct answer *audited, const uint8_t *lines);

#endif
