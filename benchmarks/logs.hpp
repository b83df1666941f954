// A cold log of the plain version and one of ours, each with its memory, under the same names.
#pragma once

#include <cstdint>
#include <cstdio>
#include <cstdlib>
#include <string>
#include <vector>

#include "deck.h"
#include "plain.h"

[[noreturn]] inline void fail(const std::string &what)
{
    std::fprintf(stderr, "benchmarks: %s\n", what.c_str());
    std::exit(1);
}

inline void must(uint32_t refusal, const char *what)
{
    if (refusal != 0) fail(std::string(what) + " was refused with " + std::to_string(refusal));
}

struct Memory {
    std::vector<int32_t> readings;
    std::vector<uint16_t> shapes, entries;
    explicit Memory(size_t n) : readings(n), shapes(DECK_SHAPES(n)), entries(DECK_ENTRIES(n)) {}
    // The three slices, each a pointer and a length. A caller makes them once: made anew for each call they cost more than the call.
    template <class Slices> Slices as() { return {readings.data(), readings.size(), shapes.data(), shapes.size(), entries.data(), entries.size()}; }
};

struct Plain {
    static constexpr const char *name = "plain C";
    Memory memory;
    PlainMemory slices;
    PlainSheet sheet;
    explicit Plain(size_t n) : memory(n), slices(memory.as<PlainMemory>()) { clear(); }
    void clear() { must(plain_open(&sheet, memory.readings.size(), slices), "opening"); }
    uint32_t append(int32_t reading) { return plain_append(&sheet, slices, reading); }
    uint32_t cut(size_t n) { return plain_cut(&sheet, slices, n); }
    uint32_t coldest(size_t from, size_t to, size_t *place)
    {
        int32_t reading;
        return plain_coldest(&sheet, slices, from, to, place, &reading);
    }
    uint32_t strip(uint8_t *output, size_t room, size_t *length) { return plain_strip(&sheet, slices, output, room, length); }
    static uint32_t strip_open(const uint8_t *bytes, size_t length, size_t *count) { return plain_strip_open(bytes, length, count); }
    static uint32_t strip_coldest(const uint8_t *bytes, size_t length, size_t from, size_t to, size_t *place)
    {
        return plain_strip_coldest(bytes, length, from, to, place);
    }
};

struct Ours {
    static constexpr const char *name = "ours";
    Memory memory;
    DeckMemory slices;
    DeckSheet sheet;
    explicit Ours(size_t n) : memory(n), slices(memory.as<DeckMemory>()) { clear(); }
    void clear() { must(deck_cold_open(&sheet, memory.readings.size(), slices), "opening"); }
    uint32_t append(int32_t reading) { return deck_cold_append(&sheet, slices, reading); }
    uint32_t cut(size_t n) { return deck_cold_cut(&sheet, slices, n); }
    uint32_t coldest(size_t from, size_t to, size_t *place)
    {
        int32_t reading;
        return deck_cold_coldest(&sheet, slices, from, to, place, &reading);
    }
    uint32_t strip(uint8_t *output, size_t room, size_t *length) { return deck_cold_strip(&sheet, slices, output, room, length); }
    static uint32_t strip_open(const uint8_t *bytes, size_t length, size_t *count) { return deck_strip_open(bytes, length, count); }
    static uint32_t strip_coldest(const uint8_t *bytes, size_t length, size_t from, size_t to, size_t *place)
    {
        return deck_strip_coldest(bytes, length, from, to, place);
    }
};
