// One mask of 64 places for each slot, bit d for an end d places ago, over the slots that a code fits.
#include "pattern.h"

static void windows(const struct pattern *p, uint64_t allowed[32])
{
    for (unsigned j = 0; j + 1 < p->slots; j++)
        allowed[j] = (2ull << p->hi[j]) - (1ull << p->lo[j]);
}

// Every mask is shifted at every code.
size_t all_masks(const struct pattern *p, const uint8_t *codes, size_t n, uint32_t *sheet)
{
    uint64_t allowed[32] = {0}, masks[32] = {0};
    const unsigned slots = p->slots;
    windows(p, allowed);
    size_t hits = 0;
    for (size_t i = 0; i < n; i++) {
        uint32_t fits = p->table[codes[i]], word = fits & 1;
        for (uint32_t left = fits & ~1u; left; left &= left - 1) {
            unsigned j = (unsigned)__builtin_ctz(left);
            word |= (uint32_t)((masks[j - 1] & allowed[j - 1]) != 0) << j;
        }
        for (unsigned j = 0; j + 1 < slots; j++)
            masks[j] = masks[j] << 1 | (word >> j & 1);
        sheet[i] = word;
        hits += word >> (slots - 1) & 1;
    }
    return hits;
}

// A mask is shifted only where it is looked at or takes an end, by as many places as have passed since.
size_t touched_masks(const struct pattern *p, const uint8_t *codes, size_t n, uint32_t *sheet)
{
    uint64_t allowed[32] = {0}, masks[32] = {0};
    size_t since[32] = {0};
    const unsigned slots = p->slots;
    windows(p, allowed);
    size_t hits = 0;
    for (size_t i = 0; i < n; i++) {
        uint32_t fits = p->table[codes[i]], word = fits & 1;
        for (uint32_t left = fits & ~1u; left; left &= left - 1) {
            unsigned j = (unsigned)__builtin_ctz(left);
            size_t passed = i - since[j - 1] - 1;
            uint64_t past = passed < 64 ? masks[j - 1] << passed : 0;
            word |= (uint32_t)((past & allowed[j - 1]) != 0) << j;
        }
        for (uint32_t left = word; left; left &= left - 1) {
            unsigned j = (unsigned)__builtin_ctz(left);
            size_t passed = i - since[j];
            masks[j] = (passed < 64 ? masks[j] << passed : 0) | 1;
            since[j] = i;
        }
        sheet[i] = word;
        hits += word >> (slots - 1) & 1;
    }
    return hits;
}

void look_up(const struct pattern *p, const uint8_t *codes, size_t n, uint32_t *sheet)
{
    for (size_t i = 0; i < n; i++)
        sheet[i] = p->table[codes[i]];
}
