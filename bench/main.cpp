// Times the search of a million event codes: the three proved engines beside programs in C and Hyperscan.
#include "pattern.h"
#include <algorithm>
#include <chrono>
#include <cstdio>
#include <cstdlib>
#include <functional>
#include <hs/hs.h>
#include <limits>
#include <optional>
#include <string>
#include <vector>

namespace {

constexpr std::size_t LENGTH = 1'000'000;
constexpr int ROUNDS = 60;

// Numbers that are the same in every run.
struct Random {
    std::uint64_t state;

    unsigned below(unsigned bound)
    {
        state = state * 6364136223846793005u + 1442695040888963407u;
        return unsigned((state >> 33) % bound);
    }
};

struct Workload {
    std::string name;
    std::vector<std::vector<unsigned>> slots;
    std::vector<std::pair<unsigned, unsigned>> gaps;
    std::vector<std::uint8_t> codes;

    // The sizes of a gap between two brackets.
    std::string sizes(std::size_t gap, char open, char close) const
    {
        std::string out(1, open);
        out.append(std::to_string(gaps[gap].first)).append(",").append(std::to_string(gaps[gap].second));
        return out + close;
    }

    // The signature as the proved reader takes it.
    std::string text() const
    {
        std::string out;
        for (std::size_t j = 0; j < slots.size(); j++) {
            if (j > 0)
                out.append("-x").append(sizes(j - 1, '(', ')')).append("-");
            out += '[';
            for (std::size_t i = 0; i < slots[j].size(); i++)
                out.append(i > 0 ? " " : "").append(std::to_string(slots[j][i]));
            out += ']';
        }
        return out;
    }

    // The same for Hyperscan, where a dot is any byte.
    std::string expression() const
    {
        std::string out;
        char byte[8];
        for (std::size_t j = 0; j < slots.size(); j++) {
            if (j > 0)
                out.append(".").append(sizes(j - 1, '{', '}'));
            out += '[';
            for (unsigned code : slots[j]) {
                std::snprintf(byte, sizeof byte, "\\x%02x", code);
                out += byte;
            }
            out += ']';
        }
        return out;
    }

    pattern compiled() const
    {
        pattern p{};
        p.slots = unsigned(slots.size());
        for (std::size_t j = 0; j < slots.size(); j++)
            for (unsigned code : slots[j])
                p.table[code] |= 1u << j;
        for (std::size_t j = 0; j < gaps.size(); j++) {
            p.lo[j] = std::uint8_t(gaps[j].first);
            p.hi[j] = std::uint8_t(gaps[j].second);
        }
        return p;
    }

    unsigned reach() const
    {
        unsigned all = 1;
        for (auto gap : gaps)
            all += gap.second + 1;
        return all;
    }
};

// Codes below `codes`, and slots of `members` neighbouring ones.
Workload made(std::string name, unsigned slots, unsigned codes, unsigned members, unsigned lo, unsigned hi)
{
    Random random{2026};
    Workload w{name, {}, {}, {}};
    for (unsigned j = 0; j < slots; j++) {
        std::vector<unsigned> slot;
        unsigned first = random.below(codes - members + 1);
        for (unsigned i = 0; i < members; i++)
            slot.push_back(first + i);
        w.slots.push_back(slot);
        if (j > 0)
            w.gaps.push_back({lo, hi});
    }
    for (std::size_t i = 0; i < LENGTH; i++)
        w.codes.push_back(std::uint8_t(random.below(codes)));
    return w;
}

// A way to search: what it is called, whether it writes a sheet, and the search, which answers the hits or a refusal.
struct Way {
    std::string name;
    bool writes;
    std::function<std::optional<std::size_t>(std::uint32_t *)> run;
    double best = std::numeric_limits<double>::infinity();
    std::optional<std::size_t> hits = std::nullopt;
    bool same = true;
};

struct Ends {
    unsigned long long last = 0;
    std::size_t count = 0;
};

int on_end(unsigned, unsigned long long, unsigned long long to, unsigned, void *context)
{
    auto *ends = static_cast<Ends *>(context);
    if (to != ends->last) {
        ends->last = to;
        ends->count++;
    }
    return 0;
}

std::function<std::optional<std::size_t>(std::uint32_t *)> hyperscan(const Workload &w)
{
    hs_database_t *database = nullptr;
    hs_compile_error_t *error = nullptr;
    if (hs_compile(w.expression().c_str(), HS_FLAG_DOTALL, HS_MODE_BLOCK, nullptr, &database, &error) != HS_SUCCESS) {
        std::fprintf(stderr, "Hyperscan refuses %s: %s\n", w.name.c_str(), error->message);
        hs_free_compile_error(error);
        return [](std::uint32_t *) { return std::nullopt; };
    }
    hs_scratch_t *scratch = nullptr;
    if (hs_alloc_scratch(database, &scratch) != HS_SUCCESS)
        std::abort();
    return [&w, database, scratch](std::uint32_t *) -> std::optional<std::size_t> {
        Ends ends;
        auto *codes = reinterpret_cast<const char *>(w.codes.data());
        if (hs_scan(database, codes, unsigned(w.codes.size()), 0, scratch, on_end, &ends) != HS_SUCCESS)
            return std::nullopt;
        return ends.count;
    };
}

using Proved = outcome (*)(const std::uint8_t *, std::size_t, const std::uint8_t *, std::size_t, std::uint32_t *, std::size_t);
using Plain = std::size_t (*)(const pattern *, const std::uint8_t *, std::size_t, std::uint32_t *);

Way proved(std::string name, const Workload &w, Proved search)
{
    std::string text = w.text();
    return {name, true, [&w, text, search](std::uint32_t *sheet) -> std::optional<std::size_t> {
        auto *bytes = reinterpret_cast<const std::uint8_t *>(text.data());
        outcome o = search(bytes, text.size(), w.codes.data(), w.codes.size(), sheet, w.codes.size());
        if (o.refusal != 0)
            return std::nullopt;
        return o.hits;
    }};
}

Way plain(std::string name, const Workload &w, Plain search, unsigned limit)
{
    pattern p = w.compiled();
    bool taken = w.reach() <= limit;
    return {name, true, [&w, p, search, taken](std::uint32_t *sheet) -> std::optional<std::size_t> {
        if (!taken)
            return std::nullopt;
        return search(&p, w.codes.data(), w.codes.size(), sheet);
    }};
}

// Runs every way over the workload, one after another and round after round, and compares hits and sheets.
bool timed(const Workload &w, std::vector<Way> &ways)
{
    std::vector<std::uint32_t> expected(LENGTH), sheet(LENGTH);
    pattern p = w.compiled();
    std::size_t hits = all_masks(&p, w.codes.data(), LENGTH, expected.data());
    std::printf("%s: %s\n  reach %u, %zu hits\n", w.name.c_str(), w.text().c_str(), w.reach(), hits);
    for (int round = 0; round < ROUNDS; round++)
        for (Way &way : ways) {
            sheet.assign(LENGTH, 0);
            auto from = std::chrono::steady_clock::now();
            way.hits = way.run(sheet.data());
            std::chrono::duration<double, std::nano> took = std::chrono::steady_clock::now() - from;
            if (!way.hits)
                continue;
            way.best = std::min(way.best, took.count() / LENGTH);
            way.same = way.same && *way.hits == hits && (!way.writes || sheet == expected);
        }
    return std::all_of(ways.begin(), ways.end(), [](const Way &way) { return way.same; });
}

// The best time of one table look-up a reading.
double looked_up(const Workload &w)
{
    double best = std::numeric_limits<double>::infinity();
    std::vector<std::uint32_t> sheet(LENGTH);
    pattern p = w.compiled();
    for (int round = 0; round < ROUNDS; round++) {
        auto from = std::chrono::steady_clock::now();
        look_up(&p, w.codes.data(), LENGTH, sheet.data());
        std::chrono::duration<double, std::nano> took = std::chrono::steady_clock::now() - from;
        best = std::min(best, took.count() / LENGTH);
    }
    return best;
}

// The best times, and their ratios to the faster of the two that go one mask a slot in C, to the one word in C and to
// Hyperscan.
void print(const std::vector<Way> &ways)
{
    double masks = std::min(ways[1].best, ways[2].best);
    std::printf("  %-42s %10s %10s %10s %10s\n", "", "ns/reading", "C, masks", "C, word", "Hyperscan");
    for (const Way &way : ways)
        if (!way.hits)
            std::printf("  %-42s %10s\n", way.name.c_str(), "refused");
        else
            std::printf("  %-42s %10.2f %10.2f %10.2f %10.3f%s\n", way.name.c_str(), way.best, way.best / masks,
                ways[0].hits ? way.best / ways[0].best : 0.0, way.best / ways[3].best, way.same ? "" : " UNLIKE");
}

}

int main()
{
    std::vector<Workload> workloads;
    workloads.push_back(made("sparse", 3, 256, 2, 0, 9));
    workloads.push_back(made("middle", 8, 24, 3, 0, 7));
    workloads.push_back(made("dense", 8, 8, 4, 1, 8));
    workloads.push_back(made("long", 32, 24, 3, 0, 12));
    bool same = true;
    for (const Workload &w : workloads) {
        std::vector<Way> ways;
        ways.push_back(plain("C, one word (Cantone, Cristofaro, Faro)", w, one_word, 64));
        ways.push_back(plain("C, one mask a slot", w, all_masks, 1985));
        ways.push_back(plain("C, one mask a slot, shifted when touched", w, touched_masks, 1985));
        ways.push_back({"Hyperscan, no sheet", false, hyperscan(w)});
        ways.push_back(proved("proved, word engine", w, search_word));
        ways.push_back(proved("proved, mask engine", w, search_mask));
        ways.push_back(proved("proved, ring engine", w, search_ring));
        same = timed(w, ways) && same;
        print(ways);
        std::printf("  %-42s %10.2f\n", "C, one table look-up a reading, no marks", looked_up(w));
    }
    std::printf(same ? "all hits and sheets are the same\n" : "NOT all hits and sheets are the same\n");
    return same ? 0 : 1;
}
