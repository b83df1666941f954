/*
 * deck.h - the recorder of a deck oven, for C.
 *
 * Every call returns 0 when it is done, and otherwise the number of its refusal. A refused call changes nothing:
 * no memory, no sheet, no token and no place for an answer (deck_masks_open alone tells more, with 15). Refusals
 * are checked in the order in which each comment lists them.
 *
 * What every caller owes, and no call can check: pointers are not null (also where the length is 0), aligned for
 * their type, and good for their length; the memory that one call is handed does not overlap; and no other thread
 * uses it during the call. Every element may hold any value.
 *
 * Places count from 0, and a range includes both its ends. The first coldest place of a range is its lowest place
 * such that no reading of the range is colder than the one there.
 *
 * The log's memory belongs to the caller and is handed to each call as one DeckMemory (or DeckProbeMemory): three
 * slices, each a pointer and a length in elements: `readings` (at least the capacity), `shapes` (at least
 * DECK_SHAPES) and `entries` (at least DECK_ENTRIES). Longer slices are allowed. Between calls the caller keeps them
 * as the calls left them. A log whose memory somebody else wrote is still safe to ask; it may answer another place,
 * or 11.
 */
#ifndef DECK_H
#define DECK_H

#include <stddef.h>
#include <stdint.h>

#ifdef __cplusplus
extern "C" {
#endif

/*
 * How many elements the memory of a log needs, by its capacity, and how many bytes the strip of a log has, by its
 * count.
 */
#define DECK_SHAPES(capacity) (((size_t)(capacity) + 7) / 8)
#define DECK_ENTRIES(capacity) (13 * DECK_SHAPES(capacity))
#define DECK_STRIP_BYTES(count) (2 + ((size_t)(count) + 3) / 4)

/* The largest capacity, and how many bytes a mask table has. */
#define DECK_MOST_READINGS 32768
#define DECK_MASK_CELLS 11440

/*
 * What a log keeps besides its memory. deck_*_open and deck_replay fill it; the caller keeps it and changes
 * nothing in it.
 */
typedef struct {
    size_t capacity;
    size_t count;
} DeckSheet;

/* A probe reading: a margin, and which of the probes 0 to 7 read it. */
typedef struct {
    int32_t margin;
    uint32_t number;
} DeckProbe;

/* The memory of a cold or hot log. */
typedef struct {
    int32_t *readings;
    size_t readings_len;
    uint16_t *shapes;
    size_t shapes_len;
    uint16_t *entries;
    size_t entries_len;
} DeckMemory;

/* The memory of a probe log. */
typedef struct {
    DeckProbe *readings;
    size_t readings_len;
    uint16_t *shapes;
    size_t shapes_len;
    uint16_t *entries;
    size_t entries_len;
} DeckProbeMemory;

/*
 * Leave to load one bake: `held` is 1 from the clearing to the load, and `count` is the log's count at the
 * clearing. Start with {0}. It may be let go unused. A copy of it is not told from the original: make none.
 */
typedef struct {
    size_t count;
    uint32_t held;
} DeckClearance;

/*
 * A bake on the stone: `held` is 1 from the load until it is unloaded or abandoned, and `start` is the place of
 * its first reading. Start with {0}. A copy of it is not told from the original: make none.
 */
typedef struct {
    size_t start;
    uint32_t held;
} DeckBake;

/* What is known of a bake that was unloaded: the places of its first, last and first coldest reading. */
typedef struct {
    size_t start;
    size_t last;
    size_t coldest;
} DeckRecord;

/* The refusals. */
enum {
    DECK_DONE = 0,
    DECK_CAPACITY = 1,          /* the capacity is 0 or above 32,768 */
    DECK_SHORT_MEMORY = 2,      /* a slice of the log's memory is too short for the capacity */
    DECK_FULL = 3,              /* the count equals the capacity; at replay, the strip's count is above it */
    DECK_CUT_LENGTH = 4,        /* the length to cut to is above the count */
    DECK_BACKWARDS = 5,         /* the range's first place is above its last */
    DECK_BEYOND = 6,            /* the range's last place is not below the count */
    DECK_WINDOW = 7,            /* the window is 0 or above the count */
    DECK_CUT_BACK = 8,          /* the count is below the one that the clearance or the bake keeps */
    DECK_LATE = 9,              /* more than 60 readings came after the clearing */
    DECK_NOTHING_BAKED = 10,    /* no reading came after the load */
    DECK_INDEX = 11,            /* an index number that was read is wrong: someone else wrote the log's memory */
    DECK_TOO_COLD = 12,         /* a reading of the window is colder than the set one */
    DECK_TABLE_LENGTH = 14,     /* a mask table has 11,440 bytes */
    DECK_TABLE_CELL = 15,       /* a cell of the mask table differs */
    DECK_NO_PROBE = 16,         /* the probe number is above 7 */
    DECK_SHORT_OUTPUT = 17,     /* the output is shorter than the strip */
    DECK_STRIP_FEW_BYTES = 18,  /* a strip has at least two bytes */
    DECK_STRIP_COUNT = 19,      /* the strip's count is above 32,768 */
    DECK_STRIP_LENGTH = 20,     /* the strip has another length than its count needs */
    DECK_STRIP_UNBALANCED = 21, /* the strip's bits are not balanced */
    DECK_STRIP_FILLING = 22,    /* a filling bit of the strip is one */
    DECK_NO_SHEET = 64,         /* no call gives this sheet: capacity 0 or above 32,768, or count above it */
    DECK_NO_CLEARANCE = 65,     /* no clearance is held: none was given, or it was used up */
    DECK_NO_BAKE = 66,          /* no bake is held: none was loaded, or it was unloaded or abandoned */
    DECK_BAKE_HELD = 67         /* the place for the new bake holds one that was neither unloaded nor abandoned */
};

/* ---- Cold: tenths of a degree, the smaller is colder ---- */

/*
 * Opens a new cold log of that capacity: the sheet is filled, with count 0. Nothing else is written, whatever the
 * memory holds.
 * Needs: the memory of a log of that capacity.
 * Refusals: 1 the capacity is 0 or above 32,768; 2 a slice is too short for the capacity.
 */
uint32_t deck_cold_open(DeckSheet *sheet, size_t capacity, DeckMemory memory);

/*
 * Appends `tenths` to the log: the sheet's count is one more.
 * Needs: the log's sheet and memory.
 * Refusals: 64 the sheet is one that no call gives; 2 a slice is too short for the capacity; 3 the log is full; 11
 * an entry that was read is wrong.
 */
uint32_t deck_cold_append(DeckSheet *sheet, DeckMemory memory, int32_t tenths);

/*
 * Cuts the log back to its first `n` readings: the sheet's count is `n`.
 * Needs: the log's sheet and memory.
 * Refusals: 64 the sheet is one that no call gives; 2 a slice is too short for the capacity; 4 `n` is above the
 * count.
 */
uint32_t deck_cold_cut(DeckSheet *sheet, DeckMemory memory, size_t n);

/*
 * Stores the first coldest place of from..to in `place`, and the reading there in `tenths`. A fixed number of
 * steps. The log stays as it is.
 * Needs: the log's sheet and memory.
 * Refusals: 64 the sheet is one that no call gives; 2 a slice is too short for the capacity; 5 `from` is above
 * `to`; 6 `to` is not below the count; 11 an index number that was read is wrong.
 */
uint32_t deck_cold_coldest(const DeckSheet *sheet, DeckMemory memory, size_t from, size_t to, size_t *place,
                           int32_t *tenths);

/*
 * Writes the log's strip to the front of `output`, and stores its length, DECK_STRIP_BYTES of the count, in
 * `length`. The log stays as it is.
 * Needs: the log's sheet and memory, and 65,536 bytes of stack.
 * Refusals: 64 the sheet is one that no call gives; 2 a slice is too short for the capacity; 17 the output is
 * shorter than the strip.
 */
uint32_t deck_cold_strip(const DeckSheet *sheet, DeckMemory memory, uint8_t *output, size_t output_len,
                         size_t *length);

/*
 * Gives a clearance: none of the last `window` readings is colder than the set one. A clearance that the place
 * held before is replaced. The log stays as it is.
 * Needs: the log's sheet and memory.
 * Refusals: 64 the sheet is one that no call gives; 2 a slice is too short for the capacity; 7 the window is 0 or
 * above the count; 11 an index number that was read is wrong; 12 a reading of the window is colder than the set
 * one.
 */
uint32_t deck_cold_clear(const DeckSheet *sheet, DeckMemory memory, size_t window, int32_t set,
                         DeckClearance *clearance);

/*
 * Ends a bake and stores its record: its start, the log's last place and the first coldest place between them. The
 * log stays as it is.
 * Needs: the log's sheet and memory, and a bake of this log that is held.
 * Refusals: 64 the sheet is one that no call gives; 66 no bake is held; 2 a slice is too short for the capacity; 8
 * the count is below the bake's start: the log was cut; 10 no reading came after the load; 11 an index number that
 * was read is wrong. Refused, the bake stays held.
 */
uint32_t deck_cold_unload(const DeckSheet *sheet, DeckMemory memory, DeckBake *bake, DeckRecord *record);

/* ---- Hot: tenths of a degree in the reverse order, so that the first coldest place is the first hottest one ---- */

/*
 * Opens a new hot log of that capacity: the sheet is filled, with count 0. Nothing else is written, whatever the
 * memory holds.
 * Needs: the memory of a log of that capacity.
 * Refusals: 1 the capacity is 0 or above 32,768; 2 a slice is too short for the capacity.
 */
uint32_t deck_hot_open(DeckSheet *sheet, size_t capacity, DeckMemory memory);

/*
 * Appends `tenths` to the log: the sheet's count is one more.
 * Needs: the log's sheet and memory.
 * Refusals: 64 the sheet is one that no call gives; 2 a slice is too short for the capacity; 3 the log is full; 11
 * an entry that was read is wrong.
 */
uint32_t deck_hot_append(DeckSheet *sheet, DeckMemory memory, int32_t tenths);

/*
 * Cuts the log back to its first `n` readings: the sheet's count is `n`.
 * Needs: the log's sheet and memory.
 * Refusals: 64 the sheet is one that no call gives; 2 a slice is too short for the capacity; 4 `n` is above the
 * count.
 */
uint32_t deck_hot_cut(DeckSheet *sheet, DeckMemory memory, size_t n);

/*
 * Stores the first hottest place of from..to in `place`, and the reading there in `tenths`. A fixed number of
 * steps. The log stays as it is.
 * Needs: the log's sheet and memory.
 * Refusals: 64 the sheet is one that no call gives; 2 a slice is too short for the capacity; 5 `from` is above
 * `to`; 6 `to` is not below the count; 11 an index number that was read is wrong.
 */
uint32_t deck_hot_coldest(const DeckSheet *sheet, DeckMemory memory, size_t from, size_t to, size_t *place,
                          int32_t *tenths);

/*
 * Writes the log's strip to the front of `output`, and stores its length, DECK_STRIP_BYTES of the count, in
 * `length`. The log stays as it is.
 * Needs: the log's sheet and memory, and 65,536 bytes of stack.
 * Refusals: 64 the sheet is one that no call gives; 2 a slice is too short for the capacity; 17 the output is
 * shorter than the strip.
 */
uint32_t deck_hot_strip(const DeckSheet *sheet, DeckMemory memory, uint8_t *output, size_t output_len,
                        size_t *length);

/*
 * Gives a clearance: none of the last `window` readings is hotter than the set one. A clearance that the place
 * held before is replaced. The log stays as it is.
 * Needs: the log's sheet and memory.
 * Refusals: 64 the sheet is one that no call gives; 2 a slice is too short for the capacity; 7 the window is 0 or
 * above the count; 11 an index number that was read is wrong; 12 a reading of the window is hotter than the set
 * one.
 */
uint32_t deck_hot_clear(const DeckSheet *sheet, DeckMemory memory, size_t window, int32_t set,
                        DeckClearance *clearance);

/*
 * Ends a bake and stores its record: its start, the log's last place and the first hottest place between them. The
 * log stays as it is.
 * Needs: the log's sheet and memory, and a bake of this log that is held.
 * Refusals: 64 the sheet is one that no call gives; 66 no bake is held; 2 a slice is too short for the capacity; 8
 * the count is below the bake's start: the log was cut; 10 no reading came after the load; 11 an index number that
 * was read is wrong. Refused, the bake stays held.
 */
uint32_t deck_hot_unload(const DeckSheet *sheet, DeckMemory memory, DeckBake *bake, DeckRecord *record);

/* ---- Probe: the smaller margin is colder, and at equal margins the lower probe number ---- */

/*
 * Opens a new probe log of that capacity: the sheet is filled, with count 0. Nothing else is written, whatever the
 * memory holds.
 * Needs: the memory of a log of that capacity.
 * Refusals: 1 the capacity is 0 or above 32,768; 2 a slice is too short for the capacity.
 */
uint32_t deck_probe_open(DeckSheet *sheet, size_t capacity, DeckProbeMemory memory);

/*
 * Appends the reading of `margin` by probe `number` to the log: the sheet's count is one more.
 * Needs: the log's sheet and memory.
 * Refusals: 16 the probe number is above 7; 64 the sheet is one that no call gives; 2 a slice is too short for the
 * capacity; 3 the log is full; 11 an entry that was read is wrong.
 */
uint32_t deck_probe_append(DeckSheet *sheet, DeckProbeMemory memory, int32_t margin, uint32_t number);

/*
 * Cuts the log back to its first `n` readings: the sheet's count is `n`.
 * Needs: the log's sheet and memory.
 * Refusals: 64 the sheet is one that no call gives; 2 a slice is too short for the capacity; 4 `n` is above the
 * count.
 */
uint32_t deck_probe_cut(DeckSheet *sheet, DeckProbeMemory memory, size_t n);

/*
 * Stores the first coldest place of from..to in `place`, and the reading there in `reading`. A fixed number of
 * steps. The log stays as it is.
 * Needs: the log's sheet and memory.
 * Refusals: 64 the sheet is one that no call gives; 2 a slice is too short for the capacity; 5 `from` is above
 * `to`; 6 `to` is not below the count; 11 an index number that was read is wrong.
 */
uint32_t deck_probe_coldest(const DeckSheet *sheet, DeckProbeMemory memory, size_t from, size_t to,
                            size_t *place, DeckProbe *reading);

/*
 * Writes the log's strip to the front of `output`, and stores its length, DECK_STRIP_BYTES of the count, in
 * `length`. The log stays as it is.
 * Needs: the log's sheet and memory, and 65,536 bytes of stack.
 * Refusals: 64 the sheet is one that no call gives; 2 a slice is too short for the capacity; 17 the output is
 * shorter than the strip.
 */
uint32_t deck_probe_strip(const DeckSheet *sheet, DeckProbeMemory memory, uint8_t *output, size_t output_len,
                          size_t *length);

/*
 * Gives a clearance: none of the last `window` readings is colder than the set one. A clearance that the place
 * held before is replaced. The log stays as it is.
 * Needs: the log's sheet and memory.
 * Refusals: 16 the set probe number is above 7; 64 the sheet is one that no call gives; 2 a slice is too short for
 * the capacity; 7 the window is 0 or above the count; 11 an index number that was read is wrong; 12 a reading of
 * the window is colder than the set one.
 */
uint32_t deck_probe_clear(const DeckSheet *sheet, DeckProbeMemory memory, size_t window, int32_t set_margin,
                          uint32_t set_number, DeckClearance *clearance);

/*
 * Ends a bake and stores its record: its start, the log's last place and the first coldest place between them. The
 * log stays as it is.
 * Needs: the log's sheet and memory, and a bake of this log that is held.
 * Refusals: 64 the sheet is one that no call gives; 66 no bake is held; 2 a slice is too short for the capacity; 8
 * the count is below the bake's start: the log was cut; 10 no reading came after the load; 11 an index number that
 * was read is wrong. Refused, the bake stays held.
 */
uint32_t deck_probe_unload(const DeckSheet *sheet, DeckProbeMemory memory, DeckBake *bake,
                           DeckRecord *record);

/* ---- Loading and abandoning, for every kind ---- */

/*
 * Loads the one bake of a clearance, which is used up: the bake's start is the log's count.
 * Needs: a clearance of this log that is held, and a place for the bake that holds none.
 * Refusals: 64 the sheet is one that no call gives; 65 no clearance is held; 67 the place for the bake holds one
 * that was neither unloaded nor abandoned; 8 the count is below the clearance's: the log was cut; 9 more than 60
 * readings came after the clearing. Refused, the clearance stays held.
 */
uint32_t deck_load(const DeckSheet *sheet, DeckClearance *clearance, DeckBake *bake);

/*
 * Ends a bake without a record, and stores its start in `start`.
 * Needs: a bake that is held.
 * Refusals: 66 no bake is held.
 */
uint32_t deck_abandon(DeckBake *bake, size_t *start);

/* ---- Strips ---- */

/*
 * Opens a strip: done exactly when the bytes are one, and its count is stored in `count`. The bits of its readings
 * are the bytes behind the first two.
 * Refusals: 18 fewer than two bytes; 19 count above 32,768; 20 another length than the count needs; 21 the bits
 * are not balanced; 22 a filling bit is one.
 */
uint32_t deck_strip_open(const uint8_t *bytes, size_t bytes_len, size_t *count);

/*
 * Opens a strip and asks it: stores in `place` the first coldest place of from..to in every log that has this
 * strip. The bytes are checked at each question, since the caller may have changed them; both go along the bits.
 * Refusals: 18 to 22 as deck_strip_open; 5 `from` is above `to`; 6 `to` is not below the strip's count.
 */
uint32_t deck_strip_coldest(const uint8_t *bytes, size_t bytes_len, size_t from, size_t to, size_t *place);

/*
 * Replays a strip into a new cold log: 32,768 x depth - place tenths for each place. The log has this strip, and
 * answers as it does. The sheet is filled.
 * Needs: the memory of a cold log of that capacity.
 * Refusals: 18 to 22 as deck_strip_open; 1 the capacity is 0 or above 32,768; 2 a slice is too short for the
 * capacity; 3 the strip's count is above the capacity.
 */
uint32_t deck_replay(const uint8_t *bytes, size_t bytes_len, size_t capacity, DeckMemory memory,
                     DeckSheet *sheet);

/* ---- The mask table ---- */

/*
 * Fills the caller's memory with the mask table: cell 8 * t + j is the path of shape number t after place j, place
 * 0 as the most significant bit. The calls on logs have the same table built in, so that none depends on the
 * caller's.
 * Needs: exactly 11,440 bytes.
 * Refusals: 14 the length is not 11,440.
 */
uint32_t deck_masks_fill(uint8_t *cells, size_t cells_len);

/*
 * Opens the caller's mask table: done exactly when every cell is right.
 * Needs: exactly 11,440 bytes; `number` and `end` are written with 15 alone.
 * Refusals: 14 the length is not 11,440; 15 a cell differs, and the first such cell, by number and then by end, is
 * stored in `number` (0 to 1,429) and `end` (0 to 7).
 */
uint32_t deck_masks_open(const uint8_t *cells, size_t cells_len, uint16_t *number, uint8_t *end);

#ifdef __cplusplus
}
#endif

#endif
