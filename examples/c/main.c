/* A firing, from the mask table to the last bake, with what each call returns. */
#include <inttypes.h>
#include <stdio.h>

#include "deck.h"

#define CAPACITY 200

/* A log of tenths and the memory that belongs to it. */
typedef struct {
    DeckSheet sheet;
    int32_t readings[CAPACITY];
    uint16_t shapes[DECK_SHAPES(CAPACITY)];
    uint16_t entries[DECK_ENTRIES(CAPACITY)];
} TenthsLog;

/* The three slices of a log, as every call takes them. */
static DeckMemory memory_of(TenthsLog *log)
{
    DeckMemory memory = {log->readings, CAPACITY, log->shapes, DECK_SHAPES(CAPACITY), log->entries, DECK_ENTRIES(CAPACITY)};
    return memory;
}

static TenthsLog cold, hot, played;
static uint8_t masks[DECK_MASK_CELLS];

static void code(const char *what, uint32_t returned)
{
    printf("%s %" PRIu32 "\n", what, returned);
}

static void masks_filled_and_opened(void)
{
    uint16_t number = 0;
    uint8_t end = 0;
    code("fill 11439 bytes", deck_masks_fill(masks, DECK_MASK_CELLS - 1));
    code("fill", deck_masks_fill(masks, DECK_MASK_CELLS));
    printf("cell 1270 7 %02x\n", masks[8 * 1270 + 7]);
    code("open masks", deck_masks_open(masks, DECK_MASK_CELLS, &number, &end));
    masks[8 * 1270 + 7] = 0;
    code("open altered masks", deck_masks_open(masks, DECK_MASK_CELLS, &number, &end));
    printf("wrong cell %u %u\n", (unsigned)number, (unsigned)end);
}

static void cold_and_hot(void)
{
    static const int32_t tenths[] = {2315, 2290, 2302, 2290};
    size_t place = 0;
    int32_t reading = 0;
    code("open 0", deck_cold_open(&cold.sheet, 0, memory_of(&cold)));
    code("open 201", deck_cold_open(&cold.sheet, CAPACITY + 1, memory_of(&cold)));
    code("open cold", deck_cold_open(&cold.sheet, CAPACITY, memory_of(&cold)));
    code("open hot", deck_hot_open(&hot.sheet, CAPACITY, memory_of(&hot)));
    for (size_t i = 0; i < 4; i++) {
        uint32_t in_cold = deck_cold_append(&cold.sheet, memory_of(&cold), tenths[i]);
        uint32_t in_hot = deck_hot_append(&hot.sheet, memory_of(&hot), tenths[i]);
        printf("append %" PRId32 ": %" PRIu32 " %" PRIu32 ", count %zu\n", tenths[i], in_cold, in_hot, cold.sheet.count);
    }
    code("coldest 0 3", deck_cold_coldest(&cold.sheet, memory_of(&cold), 0, 3, &place, &reading));
    printf("place %zu reading %" PRId32 "\n", place, reading);
    code("hottest 0 3", deck_hot_coldest(&hot.sheet, memory_of(&hot), 0, 3, &place, &reading));
    printf("place %zu reading %" PRId32 "\n", place, reading);
    code("coldest 3 0", deck_cold_coldest(&cold.sheet, memory_of(&cold), 3, 0, &place, &reading));
    code("coldest 0 4", deck_cold_coldest(&cold.sheet, memory_of(&cold), 0, 4, &place, &reading));
}

static void show_strip(const char *what, uint32_t returned, const uint8_t *strip, size_t length)
{
    printf("%s %" PRIu32 " ", what, returned);
    for (size_t i = 0; i < length; i++) {
        printf("%02x", strip[i]);
    }
    printf("\n");
}

static void strips(void)
{
    static const uint8_t unbalanced[] = {0x00, 0x01, 0x40};
    uint8_t strip[DECK_STRIP_BYTES(CAPACITY)];
    uint8_t other[DECK_STRIP_BYTES(CAPACITY)];
    size_t length = 0, other_length = 0, count = 0, place = 0;
    code("strip into 2 bytes", deck_cold_strip(&cold.sheet, memory_of(&cold), strip, 2, &length));
    uint32_t of_cold = deck_cold_strip(&cold.sheet, memory_of(&cold), strip, sizeof strip, &length);
    show_strip("strip of cold", of_cold, strip, length);
    uint32_t of_hot = deck_hot_strip(&hot.sheet, memory_of(&hot), other, sizeof other, &other_length);
    show_strip("strip of hot", of_hot, other, other_length);
    code("open strip", deck_strip_open(strip, length, &count));
    printf("count %zu\n", count);
    code("strip coldest 0 3", deck_strip_coldest(strip, length, 0, 3, &place));
    printf("place %zu\n", place);
    code("strip coldest 0 4", deck_strip_coldest(strip, length, 0, 4, &place));
    code("open 000140", deck_strip_open(unbalanced, 3, &count));
    code("replay into 3", deck_replay(strip, length, 3, memory_of(&played), &played.sheet));
    code("replay", deck_replay(strip, length, CAPACITY, memory_of(&played), &played.sheet));
    printf("replayed");
    for (size_t i = 0; i < played.sheet.count; i++) {
        printf(" %" PRId32, played.readings[i]);
    }
    printf("\n");
    code("cut 5", deck_cold_cut(&cold.sheet, memory_of(&cold), 5));
    code("cut 1", deck_cold_cut(&cold.sheet, memory_of(&cold), 1));
    of_cold = deck_cold_strip(&cold.sheet, memory_of(&cold), strip, sizeof strip, &length);
    show_strip("strip of one", of_cold, strip, length);
}

static void probes(void)
{
    DeckSheet sheet;
    DeckProbe readings[8], coldest;
    uint16_t shapes[DECK_SHAPES(8)], entries[DECK_ENTRIES(8)];
    DeckProbeMemory memory = {readings, 8, shapes, DECK_SHAPES(8), entries, DECK_ENTRIES(8)};
    size_t place = 0;
    code("open probes", deck_probe_open(&sheet, 8, memory));
    code("append -15/3", deck_probe_append(&sheet, memory, -15, 3));
    code("append -15/1", deck_probe_append(&sheet, memory, -15, 1));
    code("append -15/8", deck_probe_append(&sheet, memory, -15, 8));
    code("weakest 0 1", deck_probe_coldest(&sheet, memory, 0, 1, &place, &coldest));
    printf("place %zu reading %" PRId32 "/%" PRIu32 "\n", place, coldest.margin, coldest.number);
}

/* Appends n readings, and returns the first refusal, or 0. */
static uint32_t append_all(TenthsLog *log, size_t n, int32_t tenths)
{
    for (size_t i = 0; i < n; i++) {
        uint32_t returned = deck_cold_append(&log->sheet, memory_of(log), tenths);
        if (returned != DECK_DONE) {
            return returned;
        }
    }
    return DECK_DONE;
}

static void bakes(void)
{
    DeckClearance clearance = {0};
    DeckBake bake = {0};
    DeckRecord record = {0};
    size_t place = 0, start = 0;
    int32_t reading = 0;
    code("cut 0", deck_cold_cut(&cold.sheet, memory_of(&cold), 0));
    code("append 16 of 2300", append_all(&cold, 16, 2300));
    code("coldest 3 12", deck_cold_coldest(&cold.sheet, memory_of(&cold), 3, 12, &place, &reading));
    printf("place %zu reading %" PRId32 "\n", place, reading);
    code("clear 17", deck_cold_clear(&cold.sheet, memory_of(&cold), 17, 2300, &clearance));
    code("clear 16 at 2301", deck_cold_clear(&cold.sheet, memory_of(&cold), 16, 2301, &clearance));
    code("load uncleared", deck_load(&cold.sheet, &clearance, &bake));
    code("clear 16 at 2300", deck_cold_clear(&cold.sheet, memory_of(&cold), 16, 2300, &clearance));
    code("append 60 of 2310", append_all(&cold, 60, 2310));
    code("load", deck_load(&cold.sheet, &clearance, &bake));
    code("load again", deck_load(&cold.sheet, &clearance, &bake));
    code("unload", deck_cold_unload(&cold.sheet, memory_of(&cold), &bake, &record));
    code("append 2305", append_all(&cold, 1, 2305));
    code("append 2290", append_all(&cold, 1, 2290));
    code("append 2299", append_all(&cold, 1, 2299));
    code("unload", deck_cold_unload(&cold.sheet, memory_of(&cold), &bake, &record));
    printf("start %zu last %zu coldest %zu\n", record.start, record.last, record.coldest);
    code("unload again", deck_cold_unload(&cold.sheet, memory_of(&cold), &bake, &record));
    code("clear 1 at 2299", deck_cold_clear(&cold.sheet, memory_of(&cold), 1, 2299, &clearance));
    code("load", deck_load(&cold.sheet, &clearance, &bake));
    code("clear 1 at 2299", deck_cold_clear(&cold.sheet, memory_of(&cold), 1, 2299, &clearance));
    code("load over a bake", deck_load(&cold.sheet, &clearance, &bake));
    code("abandon", deck_abandon(&bake, &start));
    printf("start %zu\n", start);
    code("abandon again", deck_abandon(&bake, &start));
    code("append 61 of 2310", append_all(&cold, 61, 2310));
    code("load late", deck_load(&cold.sheet, &clearance, &bake));
    code("cut 78", deck_cold_cut(&cold.sheet, memory_of(&cold), 78));
    code("load cut back", deck_load(&cold.sheet, &clearance, &bake));
}

static void what_a_caller_can_break(void)
{
    size_t place = 0;
    int32_t reading = 0;
    DeckSheet broken = {CAPACITY, CAPACITY + 1};
    code("cut with a broken sheet", deck_cold_cut(&broken, memory_of(&cold), 0));
    cold.shapes[0] = 1430;
    code("coldest with a wrong shape number", deck_cold_coldest(&cold.sheet, memory_of(&cold), 0, 3, &place, &reading));
}

int main(void)
{
    masks_filled_and_opened();
    cold_and_hot();
    strips();
    probes();
    bakes();
    what_a_caller_can_break();
    return 0;
}
