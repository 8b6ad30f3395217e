// The single-word bit-parallel algorithm of Cantone, Cristofaro and Faro, for classes of codes and gaps of any sizes.
// A field of hi + 1 bits for each gap, bit d for an end d places ago; a sum carries into the top bit of a field where
// the distances below the top that its gap allows hold an end. The sheet is the first bits of all fields, drawn
// together by one instruction. It takes a reach of 64 at most.
#include "pattern.h"
#include <immintrin.h>

size_t one_word(const struct pattern *p, const uint8_t *codes, size_t n, uint32_t *sheet)
{
    uint64_t window = 0, keep = 0, starts = 0, fits[256] = {0};
    unsigned at = 0;
    for (unsigned j = 0; j < p->slots; j++) {
        starts |= 1ull << at;
        for (unsigned code = 0; code < 256; code++)
            if (p->table[code] >> j & 1)
                fits[code] |= 1ull << at;
        if (j + 1 == p->slots)
            break;
        for (unsigned d = 0; d < p->hi[j]; d++) {
            if (d >= p->lo[j])
                window |= 1ull << (at + d);
            keep |= 1ull << (at + d);
        }
        at += p->hi[j] + 1u;
    }
    uint64_t memory = 0;
    size_t hits = 0;
    for (size_t i = 0; i < n; i++) {
        uint64_t seen = ((memory & window) + window) | memory;
        uint64_t ends = (seen << 1 | 1) & fits[codes[i]];
        memory = (memory & keep) << 1 | ends;
        sheet[i] = (uint32_t)_pext_u64(ends, starts);
        hits += ends >> at & 1;
    }
    return hits;
}
