/* The recorder's design in plain C. A block has eight places; a full block b has entries from 13 * b on. */
#include "plain.h"

#include <stdbool.h>
#include <string.h>

#include "ballot.h"

enum {
    BLOCK = 8,
    LEVELS = 13,
    MOST = 32768,
    NUMBERS = 1430
};

/* The path of a number just after each place arrived, place 0 as the most significant bit. */
static const uint8_t masks[NUMBERS * BLOCK] = {
#include "masks.inc"
};

/* The first coldest place over from..=to of a block with this number. */
static inline size_t seat(size_t number, size_t from, size_t to)
{
    unsigned path = masks[BLOCK * number + to] & (0xffu >> from);
    return (size_t)__builtin_clz(path) - 24;
}

/* ---- the log */

static inline bool is_no_sheet(const PlainSheet *sheet)
{
    return sheet->capacity == 0 || sheet->capacity > MOST || sheet->count > sheet->capacity;
}

static inline bool is_short(size_t capacity, const PlainMemory *memory)
{
    size_t blocks = (capacity + 7) / BLOCK;
    return memory->readings_len < capacity || memory->shapes_len < blocks || memory->entries_len < LEVELS * blocks;
}

/* How high the path stands once the arriving reading has removed the last ones that it is colder than; each removal adds to the number. */
static inline size_t settle(const int32_t *path, size_t height, size_t place, int32_t reading, unsigned *number)
{
    while (height > 0 && reading < path[height - 1]) {
        *number += ballot[7 - place][8 - (place - height)];
        height--;
    }
    return height;
}

/* The number of a block's first readings, and of one more behind them. The path is kept as the readings themselves. */
static inline unsigned number_with(const int32_t *block, size_t places, int32_t last)
{
    int32_t path[BLOCK];
    size_t height = 0;
    unsigned number = 0;
    for (size_t place = 0; place < places; place++) {
        height = settle(path, height, place, block[place], &number);
        path[height++] = block[place];
    }
    settle(path, height, places, last, &number);
    return number;
}

uint32_t plain_open(PlainSheet *sheet, size_t capacity, PlainMemory memory)
{
    if (capacity == 0 || capacity > MOST)
        return 1;
    if (is_short(capacity, &memory))
        return 2;
    sheet->capacity = capacity;
    sheet->count = 0;
    return 0;
}

uint32_t plain_append(PlainSheet *sheet, PlainMemory memory, int32_t tenths)
{
    int32_t *readings = memory.readings;
    uint16_t *shapes = memory.shapes;
    uint16_t *entries = memory.entries;
    if (is_no_sheet(sheet))
        return 64;
    if (is_short(sheet->capacity, &memory))
        return 2;
    size_t count = sheet->count;
    if (count == sheet->capacity)
        return 3;

    size_t block = count / BLOCK;
    unsigned number = number_with(readings + BLOCK * block, count % BLOCK, tenths);

    if (count % BLOCK == BLOCK - 1) {
        /* All entries are read and checked before the first is written. */
        uint16_t row[LEVELS];
        size_t level = 0;
        size_t place = BLOCK * block + seat(number, 0, 7);
        int32_t coldest = place == count ? tenths : readings[place];
        row[0] = (uint16_t)place;
        for (size_t half = 1; 2 * half <= block + 1; half *= 2) {
            size_t left = entries[LEVELS * (block - half) + level];
            if (left < BLOCK * (block + 1 - 2 * half) || left >= BLOCK * (block + 1 - half))
                return 11;
            if (!(coldest < readings[left])) {
                place = left;
                coldest = readings[left];
            }
            row[++level] = (uint16_t)place;
        }
        memcpy(entries + LEVELS * block, row, (level + 1) * sizeof row[0]);
    }

    readings[count] = tenths;
    shapes[block] = (uint16_t)number;
    sheet->count = count + 1;
    return 0;
}

uint32_t plain_cut(PlainSheet *sheet, PlainMemory memory, size_t n)
{
    int32_t *readings = memory.readings;
    uint16_t *shapes = memory.shapes;
    if (is_no_sheet(sheet))
        return 64;
    if (is_short(sheet->capacity, &memory))
        return 2;
    if (n > sheet->count)
        return 4;
    if (n % BLOCK != 0) {
        shapes[n / BLOCK] = (uint16_t)number_with(readings + n / BLOCK * BLOCK, n % BLOCK - 1, readings[n - 1]);
    }
    sheet->count = n;
    return 0;
}

uint32_t plain_coldest(const PlainSheet *sheet, PlainMemory memory, size_t from, size_t to, size_t *place,
                       int32_t *tenths)
{
    int32_t *readings = memory.readings;
    uint16_t *shapes = memory.shapes;
    uint16_t *entries = memory.entries;
    if (is_no_sheet(sheet))
        return 64;
    if (is_short(sheet->capacity, &memory))
        return 2;
    if (from > to)
        return 5;
    if (to >= sheet->count)
        return 6;

    size_t first = from / BLOCK;
    size_t last = to / BLOCK;
    size_t number = shapes[first];
    if (number >= NUMBERS)
        return 11;
    if (first == last) {
        size_t only = BLOCK * first + seat(number, from % BLOCK, to % BLOCK);
        *place = only;
        *tenths = readings[only];
        return 0;
    }

    /* Candidates from left to right: a later one wins only if it is colder. */
    size_t best = BLOCK * first + seat(number, from % BLOCK, 7);
    int32_t coldest = readings[best];
    number = shapes[last];
    if (number >= NUMBERS)
        return 11;
    size_t between = last - first - 1;
    if (between > 0) {
        size_t level = 63 - (size_t)__builtin_clzll(between);
        size_t covered = (size_t)1 << level;
        size_t left = entries[LEVELS * (first + covered) + level];
        if (left < BLOCK * (first + 1) || left >= BLOCK * (first + 1 + covered))
            return 11;
        size_t right = entries[LEVELS * (last - 1) + level];
        if (right < BLOCK * (last - covered) || right >= BLOCK * last)
            return 11;
        if (readings[left] < coldest) {
            best = left;
            coldest = readings[left];
        }
        if (readings[right] < coldest) {
            best = right;
            coldest = readings[right];
        }
    }
    size_t end = BLOCK * last + seat(number, 0, to % BLOCK);
    if (readings[end] < coldest) {
        best = end;
        coldest = readings[end];
    }
    *place = best;
    *tenths = coldest;
    return 0;
}

/* ---- strips */

static inline size_t strip_length(size_t count)
{
    return 2 + (count + 3) / 4;
}

uint32_t plain_strip(const PlainSheet *sheet, PlainMemory memory, uint8_t *output, size_t output_len,
                     size_t *length)
{
    int32_t *readings = memory.readings;
    if (is_no_sheet(sheet))
        return 64;
    if (is_short(sheet->capacity, &memory))
        return 2;
    size_t count = sheet->count;
    if (output_len < strip_length(count))
        return 17;

    output[0] = (uint8_t)(count >> 8);
    output[1] = (uint8_t)count;
    memset(output + 2, 0, strip_length(count) - 2);
    /* Removals are bits that stay zero. */
    uint16_t path[MOST];
    size_t height = 0;
    for (size_t place = 0; place < count; place++) {
        while (height > 0 && readings[place] < readings[path[height - 1]])
            height--;
        size_t at = 2 * place - height;
        output[2 + at / 8] |= (uint8_t)(0x80u >> at % 8);
        path[height++] = (uint16_t)place;
    }
    *length = strip_length(count);
    return 0;
}

static inline bool bit(const uint8_t *bytes, size_t at)
{
    return bytes[at / 8] >> (7 - at % 8) & 1;
}

static inline size_t count_in(const uint8_t *bytes)
{
    return (size_t)bytes[0] << 8 | bytes[1];
}

static inline uint32_t check_strip(const uint8_t *bytes, size_t bytes_len)
{
    if (bytes_len < 2)
        return 18;
    size_t count = count_in(bytes);
    if (count > MOST)
        return 19;
    if (bytes_len != strip_length(count))
        return 20;
    size_t end = 16 + 2 * count;
    size_t height = 0;
    for (size_t at = 16; at < end; at++) {
        if (bit(bytes, at))
            height++;
        else if (height-- == 0)
            return 21;
    }
    if (height != 0)
        return 21;
    for (size_t at = end; at < 8 * bytes_len; at++)
        if (bit(bytes, at))
            return 22;
    return 0;
}

uint32_t plain_strip_open(const uint8_t *bytes, size_t bytes_len, size_t *count)
{
    uint32_t refusal = check_strip(bytes, bytes_len);
    if (refusal == 0)
        *count = count_in(bytes);
    return refusal;
}

/* Goes past the next place's one: its depth is the height there. */
static inline void pass(const uint8_t *bytes, size_t *at, size_t *height)
{
    for (; !bit(bytes, *at); ++*at)
        --*height;
    ++*at;
    ++*height;
}

uint32_t plain_strip_coldest(const uint8_t *bytes, size_t bytes_len, size_t from, size_t to, size_t *place)
{
    uint32_t refusal = check_strip(bytes, bytes_len);
    if (refusal != 0)
        return refusal;
    if (from > to)
        return 5;
    if (to >= count_in(bytes))
        return 6;

    size_t at = 16;
    size_t height = 0;
    for (size_t p = 0; p <= from; p++)
        pass(bytes, &at, &height);
    /* The last place of least depth. */
    size_t best = from;
    size_t least = height;
    for (size_t p = from + 1; p <= to; p++) {
        pass(bytes, &at, &height);
        if (height <= least) {
            least = height;
            best = p;
        }
    }
    *place = best;
    return 0;
}
