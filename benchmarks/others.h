/* Two structures that answer the same question and keep up with append: a scan, and a segment tree. */
#ifndef OTHERS_H
#define OTHERS_H

#include <stddef.h>
#include <stdint.h>

#ifdef __cplusplus
extern "C" {
#endif

/* What both keep besides the memory that is handed to each call. They refuse as the recorder's calls do. */
typedef struct {
    size_t capacity;
    size_t count;
} OtherSheet;

/* Readings alone, one for each place: a question looks at each of its range. */
uint32_t scan_open(OtherSheet *sheet, size_t capacity, int32_t *readings, size_t readings_len);
uint32_t scan_append(OtherSheet *sheet, int32_t *readings, size_t readings_len, int32_t tenths);
uint32_t scan_coldest(const OtherSheet *sheet, const int32_t *readings, size_t readings_len, size_t from, size_t to, size_t *place, int32_t *tenths);

/* Two keys for each place: the leaf of place p is at capacity + p, and each node has the least key of its children, at twice its index and
   the next. A key is a reading and below it its place, so that the least key is the first coldest. Opening clears all keys. */
uint32_t tree_open(OtherSheet *sheet, size_t capacity, uint64_t *keys, size_t keys_len);
uint32_t tree_append(OtherSheet *sheet, uint64_t *keys, size_t keys_len, int32_t tenths);
uint32_t tree_coldest(const OtherSheet *sheet, const uint64_t *keys, size_t keys_len, size_t from, size_t to, size_t *place, int32_t *tenths);

/* Strips by another design than the recorder's, with the same refusals and answers: by a table over bytes, and to a question's range by
   64-bit words. */
void bytes_fill(void);
uint32_t bytes_strip_open(const uint8_t *bytes, size_t bytes_len, size_t *count);
uint32_t bytes_strip_coldest(const uint8_t *bytes, size_t bytes_len, size_t from, size_t to, size_t *place);

#ifdef __cplusplus
}
#endif

#endif
