/* Readings and questions, the same in every run. */
#ifndef DATA_H
#define DATA_H

#include <stddef.h>
#include <stdint.h>

enum { MOST_READINGS = 32768, DATA_KINDS = 3, RANGE_KINDS = 3 };

static const char *const data_names[DATA_KINDS] = {"random", "drifting", "falling"};
static const char *const range_names[RANGE_KINDS] = {"short", "middle", "wide"};

/* splitmix64 */
static inline uint64_t next_random(uint64_t *state)
{
    uint64_t z = (*state += 0x9e3779b97f4a7c15u);
    z = (z ^ z >> 30) * 0xbf58476d1ce4e5b9u;
    z = (z ^ z >> 27) * 0x94d049bb133111ebu;
    return z ^ z >> 31;
}

/* Random: any tenths up to 5,000 degrees, few ties. Drifting: a stone that warms slowly, by steps of -2 to 2 tenths, with many ties.
   Falling: each reading is colder than all before. */
static inline void fill_readings(int kind, int32_t *readings, size_t n)
{
    uint64_t state = 20240229;
    int32_t level = 2300;
    for (size_t i = 0; i < n; i++) {
        uint64_t x = next_random(&state);
        if (kind == 0)
            readings[i] = (int32_t)(x % 50000);
        else if (kind == 1)
            readings[i] = level += (int32_t)(x % 5) - 2 + (i % 64 == 0);
        else
            readings[i] = 40000 - (int32_t)i;
    }
}

typedef struct {
    uint32_t from, to;
} range;

/* Short: 1 to 16 readings. Middle: 64 to 512. Wide: from half of all to all. */
static inline void fill_ranges(int kind, range *ranges, size_t m, size_t n)
{
    uint64_t state = 18340101;
    for (size_t i = 0; i < m; i++) {
        uint64_t x = next_random(&state);
        size_t width = kind == 0 ? 1 + x % 16 : kind == 1 ? 64 + x % 449 : n / 2 + x % (n / 2 + 1);
        size_t from = next_random(&state) % (n - width + 1);
        ranges[i].from = (uint32_t)from;
        ranges[i].to = (uint32_t)(from + width - 1);
    }
}

#endif
