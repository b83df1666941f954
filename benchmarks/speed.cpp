// Times every contender on the same readings and questions, one after the other in each round, and prints nanoseconds and ratios.
#include <algorithm>
#include <cstdio>
#include <cstdlib>
#include <cstring>
#include <ctime>
#include <functional>
#include <map>
#include <string>
#include <vector>

#include "data.h"
#include "logs.hpp"
#include "others.h"
#ifdef WITH_SDSL
#include <sdsl/rmq_support.hpp>
#endif

namespace {

constexpr int rounds = 11;
constexpr double least_seconds = 0.0015;

// ---- the other structures, each with one log of at most n readings

struct Scan {
    static constexpr const char *name = "scan";
    std::vector<int32_t> readings;
    OtherSheet sheet;
    explicit Scan(size_t n) : readings(n) { clear(); }
    void clear() { must(scan_open(&sheet, readings.size(), readings.data(), readings.size()), "opening"); }
    uint32_t append(int32_t reading) { return scan_append(&sheet, readings.data(), readings.size(), reading); }
    uint32_t coldest(size_t from, size_t to, size_t *place)
    {
        int32_t reading;
        return scan_coldest(&sheet, readings.data(), readings.size(), from, to, place, &reading);
    }
};

struct Tree {
    static constexpr const char *name = "segment tree";
    std::vector<uint64_t> keys;
    OtherSheet sheet;
    explicit Tree(size_t n) : keys(2 * n) { clear(); }
    void clear() { must(tree_open(&sheet, keys.size() / 2, keys.data(), keys.size()), "opening"); }
    uint32_t append(int32_t reading) { return tree_append(&sheet, keys.data(), keys.size(), reading); }
    uint32_t coldest(size_t from, size_t to, size_t *place)
    {
        int32_t reading;
        return tree_coldest(&sheet, keys.data(), keys.size(), from, to, place, &reading);
    }
};

#ifdef WITH_SDSL
// These cannot append: they are built of all readings at once.
template <class Structure> struct Succinct {
    Structure structure;
    void build(const std::vector<int32_t> &readings) { structure = Structure(&readings); }
    uint32_t coldest(size_t from, size_t to, size_t *place)
    {
        *place = structure(from, to);
        return 0;
    }
};
#endif

// ---- timing

using Task = std::function<uint64_t(size_t)>; // does the work that many times over and gives a checksum

struct Entrant {
    std::string name;
    Task task;
    double per; // operations in one time over
};

// Time on the processor: what other programs take does not count.
double cpu_seconds()
{
    timespec now;
    clock_gettime(CLOCK_PROCESS_CPUTIME_ID, &now);
    return double(now.tv_sec) + 1e-9 * double(now.tv_nsec);
}

double seconds(const Task &task, size_t times)
{
    static volatile uint64_t sink;
    double start = cpu_seconds();
    sink = task(times);
    (void)sink;
    return cpu_seconds() - start;
}

// Nanoseconds for an operation of each entrant: the median over the rounds.
std::vector<double> race(const std::vector<Entrant> &entrants)
{
    std::vector<size_t> times;
    for (const Entrant &e : entrants) {
        size_t k = 1;
        while (seconds(e.task, k) < least_seconds) k *= 2;
        times.push_back(k);
    }
    std::vector<std::vector<double>> found(entrants.size());
    for (int round = 0; round < rounds; round++)
        for (size_t i = 0; i < entrants.size(); i++)
            found[i].push_back(1e9 * seconds(entrants[i].task, times[i]) / (double(times[i]) * entrants[i].per));
    std::vector<double> medians;
    for (auto &f : found) {
        std::nth_element(f.begin(), f.begin() + rounds / 2, f.end());
        medians.push_back(f[rounds / 2]);
    }
    return medians;
}

std::vector<std::string> columns;

// The lowest and the highest ratio over the kinds of data, by row and column, of the size at hand.
struct Ratios {
    std::vector<std::string> rows;
    std::map<std::pair<std::string, std::string>, std::pair<double, double>> cells;
    void add(const std::string &row, const std::string &column, double ratio)
    {
        if (std::find(rows.begin(), rows.end(), row) == rows.end()) rows.push_back(row);
        auto at = cells.insert({{row, column}, {ratio, ratio}}).first;
        at->second.first = std::min(at->second.first, ratio);
        at->second.second = std::max(at->second.second, ratio);
    }
};
Ratios ratios;

void print_heading(size_t n, const char *data)
{
    std::printf("\n%zu readings, %s: ns, and the ratio to plain C\n\n| |", n, data);
    for (const auto &c : columns) std::printf(" %s |", c.c_str());
    std::printf("\n|---|");
    for (size_t i = 0; i < columns.size(); i++) std::printf("---:|");
    std::printf("\n");
}

std::string shown(double ns)
{
    char text[32];
    if (ns < 100) std::snprintf(text, sizeof text, "%.1f", ns);
    else if (ns < 10000) std::snprintf(text, sizeof text, "%.0f", ns);
    else std::snprintf(text, sizeof text, "%.1f µs", ns / 1000);
    return text;
}

void print_ratios(size_t n)
{
    auto number = [](double ratio) {
        char text[32];
        std::snprintf(text, sizeof text, ratio < 10 ? "%.2f" : "%.0f", ratio);
        return std::string(text);
    };
    std::printf("\n%zu readings: ratios to plain C, the lowest and the highest of the three kinds of data\n\n| |", n);
    for (size_t i = 1; i < columns.size(); i++) std::printf(" %s |", columns[i].c_str());
    std::printf("\n|---|");
    for (size_t i = 1; i < columns.size(); i++) std::printf("---:|");
    for (const auto &row : ratios.rows) {
        std::printf("\n| %s |", row.c_str());
        for (size_t i = 1; i < columns.size(); i++) {
            auto at = ratios.cells.find({row, columns[i]});
            if (at == ratios.cells.end()) std::printf(" |");
            else std::printf(" %s to %s |", number(at->second.first).c_str(), number(at->second.second).c_str());
        }
    }
    std::printf("\n");
    ratios = Ratios();
}

void print_row(const std::string &label, const std::vector<Entrant> &entrants)
{
    std::vector<double> ns = race(entrants);
    double plain = 0;
    for (size_t i = 0; i < entrants.size(); i++)
        if (entrants[i].name == Plain::name) plain = ns[i];
    std::printf("| %s |", label.c_str());
    for (const auto &c : columns) {
        bool there = false;
        for (size_t i = 0; i < entrants.size(); i++)
            if (entrants[i].name == c) {
                there = true;
                if (c == Plain::name) {
                    std::printf(" %s |", shown(ns[i]).c_str());
                    continue;
                }
                std::printf(" %s (%.2f) |", shown(ns[i]).c_str(), ns[i] / plain);
                ratios.add(label, c, ns[i] / plain);
            }
        if (!there) std::printf(" |");
    }
    std::printf("\n");
    std::fflush(stdout);
}

// ---- the work

template <class Log> Entrant appends(Log &log, const std::vector<int32_t> &readings)
{
    return {Log::name,
            [&](size_t times) {
                uint64_t refusals = 0;
                for (size_t t = 0; t < times; t++) {
                    log.clear();
                    for (int32_t reading : readings) refusals += log.append(reading);
                }
                return refusals;
            },
            double(readings.size())};
}

template <class Log> Entrant questions(const char *name, Log &log, const range *ranges, size_t m)
{
    return {name,
            [&log, ranges, m](size_t times) {
                uint64_t sum = 0;
                for (size_t t = 0; t < times; t++)
                    for (size_t i = 0; i < m; i++) {
                        size_t place;
                        sum += log.coldest(ranges[i].from, ranges[i].to, &place);
                        sum += place;
                    }
                return sum;
            },
            double(m)};
}

// One append and one question over the last readings, at most one more than the window, in turn.
template <class Log> Entrant turns(Log &log, const std::vector<int32_t> &readings, size_t window)
{
    return {Log::name,
            [&, window](size_t times) {
                uint64_t sum = 0;
                for (size_t t = 0; t < times; t++) {
                    log.clear();
                    for (size_t i = 0; i < readings.size(); i++) {
                        size_t place;
                        sum += log.append(readings[i]);
                        sum += log.coldest(i < window ? 0 : i - window, i, &place);
                        sum += place;
                    }
                }
                return sum;
            },
            double(readings.size())};
}

template <class Log> void check_answers(const char *name, Log &log, Scan &scan, const range *ranges, size_t m)
{
    for (size_t i = 0; i < m; i++) {
        size_t place, right;
        must(log.coldest(ranges[i].from, ranges[i].to, &place), name);
        must(scan.coldest(ranges[i].from, ranges[i].to, &right), "scan");
        if (place != right) fail(std::string(name) + " answers " + std::to_string(place) + " for " + std::to_string(right));
    }
}

void check_refusal(const char *what, uint32_t got, uint32_t right)
{
    if (got != right) fail(std::string(what) + " is refused with " + std::to_string(got) + ", not " + std::to_string(right));
}

// That the plain version and ours, holding the same n readings, refuse alike and keep the same memory. Both are left as they were.
void check_alike(Plain &plain, Ours &ours, size_t n)
{
    size_t place;
    auto same = [&] {
        if (plain.memory.readings != ours.memory.readings || plain.memory.shapes != ours.memory.shapes || plain.memory.entries != ours.memory.entries)
            fail("plain C and ours leave different memory");
    };
    auto both = [&](const char *what, auto call, uint32_t refusal) {
        check_refusal(what, call(plain), refusal);
        check_refusal(what, call(ours), refusal);
        same();
    };
    both("an append", [](auto &log) { return log.append(1); }, 3);
    both("a cut", [n](auto &log) { return log.cut(n + 1); }, 4);
    both("a question", [&](auto &log) { return log.coldest(1, 0, &place); }, 5);
    both("a question", [&](auto &log) { return log.coldest(0, n, &place); }, 6);

    auto altered = [&](std::vector<uint16_t> Memory::*part, size_t at, uint16_t value, size_t from, size_t to) {
        uint16_t kept = (plain.memory.*part)[at];
        (plain.memory.*part)[at] = (ours.memory.*part)[at] = value;
        both("altered memory", [&](auto &log) { return log.coldest(from, to, &place); }, 11);
        (plain.memory.*part)[at] = (ours.memory.*part)[at] = kept;
    };
    altered(&Memory::shapes, 0, 1430, 0, 3);
    altered(&Memory::shapes, 9, 1430, 0, 79);
    altered(&Memory::entries, 13 * 8 + 3, 7, 0, 79);
    altered(&Memory::entries, 13 * 8 + 3, 72, 0, 79);

    std::vector<int32_t> readings = plain.memory.readings;
    for (size_t kept = n; kept > n - 20; kept--) both("a cut", [=](auto &log) { return log.cut(kept - 1); }, 0);
    for (size_t i = n - 20; i < n; i++) both("an append", [&](auto &log) { return log.append(readings[i]); }, 0);
}

// That all versions accept and refuse alike, on a strip with single bits, bytes or its length changed.
void check_openings(const std::vector<uint8_t> &strip)
{
    auto agree = [](const std::vector<uint8_t> &bytes, uint32_t least, uint32_t most) {
        size_t count;
        uint32_t right = plain_strip_open(bytes.data(), bytes.size(), &count);
        if (right < least || right > most) fail("a changed strip is refused with " + std::to_string(right));
        check_refusal("our strip opening", deck_strip_open(bytes.data(), bytes.size(), &count), right);
        check_refusal("strip opening by bytes", bytes_strip_open(bytes.data(), bytes.size(), &count), right);
    };
    agree(strip, 0, 0);
    for (size_t at : {size_t(16), size_t(17), size_t(100), 4 * strip.size(), 8 * strip.size() - 1}) {
        std::vector<uint8_t> changed = strip;
        changed[at / 8] ^= uint8_t(0x80 >> at % 8);
        agree(changed, 21, 21);
    }
    std::vector<uint8_t> changed = strip;
    changed[0] = 0xff;
    agree(changed, 19, 19);
    changed = strip;
    changed.pop_back();
    agree(changed, 20, 20);
    agree({0}, 18, 18);
    agree({0, 1, 0xa0}, 22, 22);
    agree({0, 5, 0xaa, 0x81}, 22, 22);
    agree({0, 5, 0xaa, 0x80}, 0, 0);
    agree({0, 0}, 0, 0);
}

void one_table(size_t n, int kind)
{
    std::vector<int32_t> readings(n);
    fill_readings(kind, readings.data(), n);

    Plain plain(n);
    Ours ours(n);
    Scan scan(n);
    Tree tree(n);
    for (int32_t reading : readings) {
        must(plain.append(reading), "plain append");
        must(ours.append(reading), "our append");
        must(scan.append(reading), "scan append");
        must(tree.append(reading), "tree append");
    }
    check_alike(plain, ours, n);
#ifdef WITH_SDSL
    Succinct<sdsl::rmq_succinct_sct<>> sct;
    Succinct<sdsl::rmq_succinct_sada<>> sada;
    sct.build(readings);
    sada.build(readings);
#endif

    print_heading(n, data_names[kind]);
    std::vector<Entrant> appending{appends(plain, readings), appends(ours, readings), appends(scan, readings), appends(tree, readings)};
#ifdef WITH_SDSL
    auto built = [&](const char *name, auto &structure) {
        return Entrant{name,
                       [&](size_t times) {
                           for (size_t t = 0; t < times; t++) structure.build(readings);
                           return uint64_t(0);
                       },
                       double(n)};
    };
    appending.push_back(built("sdsl sct", sct));
    appending.push_back(built("sdsl sada", sada));
#endif
    print_row("append", appending);

    constexpr size_t most = 2048;
    for (int width = 0; width < RANGE_KINDS; width++) {
        std::vector<range> ranges(most);
        fill_ranges(width, ranges.data(), most, n);
        check_answers("plain C", plain, scan, ranges.data(), most);
        check_answers("ours", ours, scan, ranges.data(), most);
        check_answers("segment tree", tree, scan, ranges.data(), most);
        // The scan is asked fewer wide questions: one takes it microseconds.
        std::vector<Entrant> asked{questions("plain C", plain, ranges.data(), most), questions("ours", ours, ranges.data(), most),
                                   questions("scan", scan, ranges.data(), width == 2 ? 64 : most),
                                   questions("segment tree", tree, ranges.data(), most)};
#ifdef WITH_SDSL
        check_answers("sdsl sct", sct, scan, ranges.data(), most);
        check_answers("sdsl sada", sada, scan, ranges.data(), most);
        asked.push_back(questions("sdsl sct", sct, ranges.data(), most));
        asked.push_back(questions("sdsl sada", sada, ranges.data(), most));
#endif
        print_row(std::string("coldest, ") + range_names[width], asked);
    }

    print_row("append and coldest in turn", {turns(plain, readings, 600), turns(ours, readings, 600), turns(scan, readings, 600), turns(tree, readings, 600)});

    // The strips.
    std::vector<uint8_t> strip(DECK_STRIP_BYTES(n)), other(strip.size());
    size_t length = 0, other_length = 0;
    must(plain.strip(strip.data(), strip.size(), &length), "plain strip writing");
    must(ours.strip(other.data(), other.size(), &other_length), "our strip writing");
    if (strip != other || length != strip.size() || other_length != length) fail("plain C and ours write different strips");

    auto write = [&](auto &log) {
        return Entrant{std::decay_t<decltype(log)>::name,
                       [&](size_t times) {
                           uint64_t sum = 0;
                           for (size_t t = 0; t < times; t++) {
                               size_t got;
                               sum += log.strip(other.data(), other.size(), &got);
                               sum += got;
                           }
                           return sum;
                       },
                       1.0};
    };
    print_row("strip writing", {write(plain), write(ours)});

    check_openings(strip);
    auto open = [&](const char *name, auto opening) {
        return Entrant{name,
                       [&, opening](size_t times) {
                           uint64_t sum = 0;
                           for (size_t t = 0; t < times; t++) {
                               size_t count;
                               sum += opening(strip.data(), strip.size(), &count);
                               sum += count;
                           }
                           return sum;
                       },
                       1.0};
    };
    print_row("strip opening", {open("plain C", plain_strip_open), open("ours", deck_strip_open), open("by bytes", bytes_strip_open)});

    constexpr size_t few = 64;
    for (int width = 0; width < RANGE_KINDS; width++) {
        std::vector<range> ranges(few);
        fill_ranges(width, ranges.data(), few, n);
        auto ask = [&](const char *name, auto question) {
            for (const range &r : ranges) {
                size_t place, right;
                must(question(strip.data(), strip.size(), r.from, r.to, &place), "a question to a strip");
                must(scan.coldest(r.from, r.to, &right), "scan");
                if (place != right) fail(std::string(name) + ": a strip answers otherwise than its log");
            }
            return Entrant{name,
                           [&, question](size_t times) {
                               uint64_t sum = 0;
                               for (size_t t = 0; t < times; t++)
                                   for (const range &r : ranges) {
                                       size_t place;
                                       sum += question(strip.data(), strip.size(), r.from, r.to, &place);
                                       sum += place;
                                   }
                               return sum;
                           },
                           double(few)};
        };
        print_row(std::string("strip question, ") + range_names[width],
                  {ask("plain C", plain_strip_coldest), ask("ours", deck_strip_coldest), ask("by bytes", bytes_strip_coldest)});
    }
}

} // namespace

int main()
{
    bytes_fill();
    columns = {"plain C", "ours", "scan", "segment tree"};
#ifdef WITH_SDSL
    columns.push_back("sdsl sct");
    columns.push_back("sdsl sada");
#endif
    columns.push_back("by bytes");
    for (size_t n : {size_t(2048), size_t(MOST_READINGS)}) {
        for (int kind = 0; kind < DATA_KINDS; kind++) one_table(n, kind);
        print_ratios(n);
    }
    return 0;
}
