#include "others.h"

#include <stdbool.h>
#include <string.h>

static inline bool is_no_sheet(const OtherSheet *sheet)
{
    return sheet->capacity == 0 || sheet->capacity > 32768 || sheet->count > sheet->capacity;
}

/* ---- the scan */

uint32_t scan_open(OtherSheet *sheet, size_t capacity, int32_t *readings, size_t readings_len)
{
    (void)readings;
    if (capacity == 0 || capacity > 32768)
        return 1;
    if (readings_len < capacity)
        return 2;
    sheet->capacity = capacity;
    sheet->count = 0;
    return 0;
}

uint32_t scan_append(OtherSheet *sheet, int32_t *readings, size_t readings_len, int32_t tenths)
{
    if (is_no_sheet(sheet))
        return 64;
    if (readings_len < sheet->capacity)
        return 2;
    if (sheet->count == sheet->capacity)
        return 3;
    readings[sheet->count++] = tenths;
    return 0;
}

uint32_t scan_coldest(const OtherSheet *sheet, const int32_t *readings, size_t readings_len, size_t from, size_t to, size_t *place, int32_t *tenths)
{
    if (is_no_sheet(sheet))
        return 64;
    if (readings_len < sheet->capacity)
        return 2;
    if (from > to)
        return 5;
    if (to >= sheet->count)
        return 6;
    size_t best = from;
    int32_t coldest = readings[from];
    for (size_t p = from + 1; p <= to; p++)
        if (readings[p] < coldest) {
            best = p;
            coldest = readings[p];
        }
    *place = best;
    *tenths = coldest;
    return 0;
}

/* ---- the segment tree */

uint32_t tree_open(OtherSheet *sheet, size_t capacity, uint64_t *keys, size_t keys_len)
{
    if (capacity == 0 || capacity > 32768)
        return 1;
    if (keys_len < 2 * capacity)
        return 2;
    sheet->capacity = capacity;
    sheet->count = 0;
    memset(keys, 0xff, 2 * capacity * sizeof keys[0]);
    return 0;
}

uint32_t tree_append(OtherSheet *sheet, uint64_t *keys, size_t keys_len, int32_t tenths)
{
    if (is_no_sheet(sheet))
        return 64;
    if (keys_len < 2 * sheet->capacity)
        return 2;
    if (sheet->count == sheet->capacity)
        return 3;
    uint64_t key = (uint64_t)((uint32_t)tenths ^ 0x80000000u) << 32 | sheet->count;
    size_t node = sheet->capacity + sheet->count++;
    keys[node] = key;
    /* No node above one that keeps its key changes. */
    for (node /= 2; node > 0 && key < keys[node]; node /= 2)
        keys[node] = key;
    return 0;
}

uint32_t tree_coldest(const OtherSheet *sheet, const uint64_t *keys, size_t keys_len, size_t from, size_t to, size_t *place, int32_t *tenths)
{
    if (is_no_sheet(sheet))
        return 64;
    if (keys_len < 2 * sheet->capacity)
        return 2;
    if (from > to)
        return 5;
    if (to >= sheet->count)
        return 6;
    uint64_t best = UINT64_MAX;
    size_t low = sheet->capacity + from;
    size_t high = sheet->capacity + to + 1;
    for (; low < high; low /= 2, high /= 2) {
        if (low % 2 == 1) {
            best = keys[low] < best ? keys[low] : best;
            low++;
        }
        if (high % 2 == 1) {
            high--;
            best = keys[high] < best ? keys[high] : best;
        }
    }
    size_t found = (size_t)(best & 0xffffffffu);
    if (found < from || found > to)
        return 11;
    *place = found;
    *tenths = (int32_t)((uint32_t)(best >> 32) ^ 0x80000000u);
    return 0;
}

/* ---- strips by bytes */

/* For each byte, with the height 0 before it: how many ones it has, the height behind it, the lowest height at any of its bits, the
   least height just behind one of its ones, and the last such one, counted from the byte's first. */
static int8_t ones_of[256], rise_of[256], low_of[256], least_of[256], last_of[256];

void bytes_fill(void)
{
    for (unsigned byte = 0; byte < 256; byte++) {
        int height = 0, low = 0, ones = 0, least = 127, last = 0;
        for (int shift = 7; shift >= 0; shift--) {
            if (byte >> shift & 1) {
                height++;
                if (height <= least) {
                    least = height;
                    last = ones;
                }
                ones++;
            } else {
                height--;
            }
            low = height < low ? height : low;
        }
        ones_of[byte] = (int8_t)ones;
        rise_of[byte] = (int8_t)height;
        low_of[byte] = (int8_t)low;
        least_of[byte] = (int8_t)least;
        last_of[byte] = (int8_t)last;
    }
}

static uint32_t check_strip(const uint8_t *bytes, size_t bytes_len)
{
    if (bytes_len < 2)
        return 18;
    size_t count = (size_t)bytes[0] << 8 | bytes[1];
    if (count > 32768)
        return 19;
    if (bytes_len != 2 + (count + 3) / 4)
        return 20;
    long height = 0;
    size_t whole = 2 + count / 4;
    for (size_t k = 2; k < whole; k++) {
        if (height + low_of[bytes[k]] < 0)
            return 21;
        height += rise_of[bytes[k]];
    }
    if (count % 4 == 0)
        return height == 0 ? 0 : 21;
    unsigned last = bytes[whole];
    for (size_t k = 0; k < 2 * (count % 4); k++) {
        height += last >> (7 - k) & 1 ? 1 : -1;
        if (height < 0)
            return 21;
    }
    if (height != 0)
        return 21;
    return last & (0xffu >> 2 * (count % 4)) ? 22 : 0;
}

uint32_t bytes_strip_open(const uint8_t *bytes, size_t bytes_len, size_t *count)
{
    uint32_t refusal = check_strip(bytes, bytes_len);
    if (refusal == 0)
        *count = (size_t)bytes[0] << 8 | bytes[1];
    return refusal;
}

uint32_t bytes_strip_coldest(const uint8_t *bytes, size_t bytes_len, size_t from, size_t to, size_t *place)
{
    uint32_t refusal = check_strip(bytes, bytes_len);
    if (refusal != 0)
        return refusal;
    if (from > to)
        return 5;
    if (to >= ((size_t)bytes[0] << 8 | bytes[1]))
        return 6;
    /* To the byte that has the one of `from`; p is the next place. */
    size_t p = 0;
    size_t k = 2;
    for (; k + 8 <= bytes_len; k += 8) {
        uint64_t word;
        memcpy(&word, bytes + k, 8);
        size_t ones = (size_t)__builtin_popcountll(word);
        if (p + ones > from)
            break;
        p += ones;
    }
    for (; p + (size_t)ones_of[bytes[k]] <= from; k++)
        p += (size_t)ones_of[bytes[k]];
    /* Depths are compared within the range alone, so the height here may count as 0. */
    long height = 0;
    long least = 65536;
    size_t best = from;
    for (size_t first = k;; k++) {
        unsigned byte = bytes[k];
        if (k > first && p + (size_t)ones_of[byte] <= to) {
            if (height + least_of[byte] <= least && byte != 0) {
                least = height + least_of[byte];
                best = p + (size_t)last_of[byte];
            }
            p += (size_t)ones_of[byte];
            height += rise_of[byte];
            continue;
        }
        /* The first byte and the last go bit by bit. */
        for (int shift = 7; shift >= 0; shift--) {
            if ((byte >> shift & 1) == 0) {
                height--;
                continue;
            }
            height++;
            if (p >= from && height <= least) {
                least = height;
                best = p;
            }
            if (p++ == to) {
                *place = best;
                return 0;
            }
        }
    }
}
