/* The recorder's cold log and its strips in plain C, with no proof: the calls of deck.h with the same memory, the same refusals in the
   same order and the same answers. */
#ifndef PLAIN_H
#define PLAIN_H

#include <stddef.h>
#include <stdint.h>

#ifdef __cplusplus
extern "C" {
#endif

typedef struct {
    size_t capacity;
    size_t count;
} PlainSheet;

typedef struct {
    int32_t *readings;
    size_t readings_len;
    uint16_t *shapes;
    size_t shapes_len;
    uint16_t *entries;
    size_t entries_len;
} PlainMemory;

uint32_t plain_open(PlainSheet *sheet, size_t capacity, PlainMemory memory);

uint32_t plain_append(PlainSheet *sheet, PlainMemory memory, int32_t tenths);

uint32_t plain_cut(PlainSheet *sheet, PlainMemory memory, size_t n);

uint32_t plain_coldest(const PlainSheet *sheet, PlainMemory memory, size_t from, size_t to, size_t *place,
                       int32_t *tenths);

uint32_t plain_strip(const PlainSheet *sheet, PlainMemory memory, uint8_t *output, size_t output_len,
                     size_t *length);

uint32_t plain_strip_open(const uint8_t *bytes, size_t bytes_len, size_t *count);

uint32_t plain_strip_coldest(const uint8_t *bytes, size_t bytes_len, size_t from, size_t to, size_t *place);

#ifdef __cplusplus
}
#endif

#endif
