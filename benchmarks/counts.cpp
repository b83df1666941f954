// One fixed workload for the instruction counts: `counts ours` or `counts plain`. Behind each phase it calls `phase_end`, where
// callgrind writes down what it has counted since the phase before, and prints the phase's name and its number of operations.
#include <cstdio>
#include <cstring>

#include "data.h"
#include "logs.hpp"

extern "C" __attribute__((noinline)) void phase_end(const char *name, const char *kind, size_t operations)
{
    std::printf("%s, %s\t%zu\n", name, kind, operations);
}

namespace {

constexpr size_t n = MOST_READINGS, questions = 2048, strip_questions = 32;

template <class Log> void append_all(Log &log, int kind)
{
    static int32_t readings[n];
    fill_readings(kind, readings, n);
    log.clear();
    for (int32_t reading : readings) must(log.append(reading), "an append");
}

template <class Log> void work()
{
    static range ranges[questions];
    static uint8_t strip[2 + n / 4];
    size_t place, length;
    Log log(n);
    for (int kind = DATA_KINDS - 1; kind >= 0; kind--) {
        append_all(log, kind);
        phase_end("append", data_names[kind], n);
    }
    // The rest is on the random readings.
    for (int width = 0; width < RANGE_KINDS; width++) {
        fill_ranges(width, ranges, questions, n);
        for (const range &r : ranges) must(log.coldest(r.from, r.to, &place), "a question");
        phase_end("coldest", range_names[width], questions);
    }
    must(log.strip(strip, sizeof strip, &length), "strip writing");
    phase_end("strip writing", "for a reading", n);
    must(Log::strip_open(strip, length, &place), "strip opening");
    phase_end("strip opening", "for a reading", n);
    for (int width = 0; width < RANGE_KINDS; width++) {
        fill_ranges(width, ranges, strip_questions, n);
        for (size_t i = 0; i < strip_questions; i++) must(Log::strip_coldest(strip, length, ranges[i].from, ranges[i].to, &place), "a question to a strip");
        phase_end("strip question", range_names[width], strip_questions);
    }
}

} // namespace

int main(int argc, char **argv)
{
    if (argc == 2 && std::strcmp(argv[1], "ours") == 0) work<Ours>();
    else if (argc == 2 && std::strcmp(argv[1], "plain") == 0) work<Plain>();
    else return 2;
    return 0;
}
