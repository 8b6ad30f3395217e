// A signature of event slots as the programs in C take it, and what each answers.
#ifndef PATTERN_H
#define PATTERN_H
#include <stddef.h>
#include <stdint.h>

#ifdef __cplusplus
extern "C" {
#endif

struct pattern {
    unsigned slots;
    uint8_t lo[31], hi[31];
    // bit j of an entry says that the code fits slot j
    uint32_t table[256];
};

// Each writes the mark word of every code into the sheet, and answers the number of hits.
size_t one_word(const struct pattern *p, const uint8_t *codes, size_t n, uint32_t *sheet);
size_t all_masks(const struct pattern *p, const uint8_t *codes, size_t n, uint32_t *sheet);
size_t touched_masks(const struct pattern *p, const uint8_t *codes, size_t n, uint32_t *sheet);

// Writes which slots each code fits, and no more: the bound of whatever looks each reading up in a table.
void look_up(const struct pattern *p, const uint8_t *codes, size_t n, uint32_t *sheet);

// What the proved searches answer: the number and place of a refusal, or 0, 0 and the number of hits.
struct outcome {
    uint32_t refusal;
    size_t place;
    size_t hits;
};

// Slices pass as a pointer and a length: the signature's text, the codes, the sheet.
struct outcome search_word(const uint8_t *, size_t, const uint8_t *, size_t, uint32_t *, size_t);
struct outcome search_mask(const uint8_t *, size_t, const uint8_t *, size_t, uint32_t *, size_t);
struct outcome search_ring(const uint8_t *, size_t, const uint8_t *, size_t, uint32_t *, size_t);

#ifdef __cplusplus
}
#endif
#endif
